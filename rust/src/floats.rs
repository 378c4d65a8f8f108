//! The float environment that the proofs speak of: rounding to nearest, subnormals kept, nothing trapped.

use std::arch::asm;

/// MXCSR at its default, and its six flags.
const DEFAULT: u32 = 0x1f80;
const FLAGS: u32 = 0x3f;

fn mxcsr() -> u32 {
    let mut value = 0u32;
    // SAFETY: stmxcsr writes the four bytes behind the pointer, which are `value`, and nothing else.
    unsafe { asm!("stmxcsr [{}]", in(reg) &mut value, options(nostack, preserves_flags)) };
    value
}

/// # Safety
/// `value` is the default, or what `mxcsr` gave before the default was put in its place.
unsafe fn put_mxcsr(value: u32) {
    // SAFETY: ldmxcsr reads the four bytes behind the pointer; the register takes them, since it has held them before or they are its default.
    unsafe { asm!("ldmxcsr [{}]", in(reg) &value, options(nostack, readonly, preserves_flags)) };
}

/// Makes one call of the archive with MXCSR at its default, and gives the caller's back.
#[inline]
pub fn ieee<R>(call: impl FnOnce() -> R) -> R {
    let before = mxcsr();
    if before & !FLAGS == DEFAULT {
        return call();
    }
    // SAFETY: the default, and then what was there; `call` is a C function that does not unwind, so the second is always reached.
    unsafe { put_mxcsr(DEFAULT) };
    let answer = call();
    unsafe { put_mxcsr(before) };
    answer
}
