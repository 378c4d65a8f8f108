//! Every f32 of the root against the machine's square root.

use crate::numbers::canonical;
use std::time::Instant;

pub fn run() -> bool {
    let begun = Instant::now();
    let mut different = 0u64;
    for b in 0..=u32::MAX {
        let x = f32::from_bits(b);
        if canonical(sentivolus::root(x)) != canonical(x.sqrt()) {
            different += 1;
            if different <= 8 { println!("{b:08x}: {:08x}, the machine's {:08x}", canonical(sentivolus::root(x)), canonical(x.sqrt())); }
        }
        if b % (1 << 28) == 0 && b > 0 { println!("{} of 16 parts, {:.0} s", b >> 28, begun.elapsed().as_secs_f64()); }
    }
    println!("roots: {} of 4294967296 bit patterns differ, {:.0} s", different, begun.elapsed().as_secs_f64());
    different == 0
}
