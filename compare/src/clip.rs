//! How far soft_clip strays from v(v² + 27) / (9v² + 27), v the input held to -3 .. 3, over every finite f32 of a range of bit patterns: the largest
//! difference by the input's size, and of all from 1/16 on exactly, with the inputs where it occurs.

use std::cmp::Ordering;
use std::time::Instant;

/// The lower ends of the ranges that are told apart, ascending.
const ENDS: [f64; 7] = [0.0, 0.0625, 0.25, 0.5, 1.0, 2.0, 3.0];

/// From this size on differences are also worked out in whole numbers, which fit 128 bits.
const EXACT_FROM: f32 = 0.0625;

/// So many inputs are told of, at most.
const TOLD: usize = 8;

/// An output further off than this is wrong, and not measured: below `EXACT_FROM`, and from there on.
const FAR: [f64; 2] = [1.0 / (1u64 << 26) as f64, 1.0 / (1u64 << 20) as f64];

/// More than f64's error in `rough`: v² and 9 v² are exact, with 48 and 52 bits, and five roundings follow, of numbers whose quotient is at most 1.
const DOUBT: f64 = 1.0 / (1u64 << 49) as f64;

/// over / under.
#[derive(Clone, Copy)]
struct Fraction { over: u128, under: u128 }

impl Fraction {
    /// The whole part, then as many digits to the base 256 as tell any two of these fractions apart: their denominators are below 2^116.
    fn digits(self) -> [u128; 33] {
        let mut rest = self.over % self.under;
        let mut digits = [self.over / self.under; 33];
        for d in &mut digits[1..] {
            rest <<= 8;
            (*d, rest) = (rest / self.under, rest % self.under);
        }
        digits
    }

    fn compare(self, other: Fraction) -> Ordering { self.digits().cmp(&other.digits()) }

    /// In units of 2^-24, cut after twelve decimals.
    fn text(self) -> String {
        let d = self.digits();
        let units = ((d[0] * 256 + d[1]) * 256 + d[2]) * 256 + d[3];
        let mut rest = (0..3).fold(self.over % self.under, |r, _| (r << 8) % self.under);
        let decimals: String = (0..12).map(|_| { rest *= 10; let d = rest / self.under; rest %= self.under; d.to_string() }).collect();
        format!("{units}.{decimals}")
    }
}

/// The greatest common divisor.
fn divisor(a: u128, b: u128) -> u128 { if b == 0 { a } else { divisor(b, a % b) } }

/// m and k with x = m / 2^k, for a positive normal x below 2^24.
fn whole(x: f32) -> (u128, u32) {
    let b = x.to_bits();
    let (m, k) = ((b & 0x7f_ffff) | 0x80_0000, 150 - (b >> 23));
    let zeros = m.trailing_zeros().min(k);
    (u128::from(m >> zeros), k - zeros)
}

/// |y - v(v² + 27) / (9v² + 27)|, for a v from 1/16 to 3 and a y that is not far from it.
fn exact(v: f32, y: f32) -> Fraction {
    let ((m, k), (n, j)) = (whole(v), whole(y));
    let f = m * (m * m + (27 << (2 * k)));
    let h = (9 * m * m + (27 << (2 * k))) << k;
    Fraction { over: (n * h).abs_diff(f << j), under: h << j }
}

/// The same in f64, off by less than `DOUBT`.
fn rough(v: f32, y: f32) -> f64 {
    let v = f64::from(v);
    (f64::from(y) - v * (v * v + 27.0) / (9.0 * v * v + 27.0)).abs()
}

/// What was found so far.
struct Found {
    inputs: u64,
    wrong: u64,
    /// The largest difference of each range, in f64.
    most: [f64; ENDS.len()],
    /// At most the largest difference from `EXACT_FROM` on.
    bar: f64,
    /// That difference, and the bits of the first inputs that have it.
    largest: Fraction,
    at: Vec<u32>,
}

impl Found {
    /// An input by its bits; nothing where it is not finite.
    fn take(&mut self, bits: u32) {
        let x = f32::from_bits(bits);
        if !x.is_finite() { return; }
        self.inputs += 1;
        let y = sentivolus::soft_clip(x);
        let (v, w) = (x.abs().min(3.0), y.abs());
        let off = rough(v, w);
        if y.is_sign_negative() != x.is_sign_negative() || off.is_nan() || off > FAR[usize::from(v >= EXACT_FROM)] {
            self.wrong += 1;
            if self.wrong <= TOLD as u64 { println!("{bits:08x}: {:08x}", y.to_bits()); }
            return;
        }
        let range = ENDS.partition_point(|&e| e <= f64::from(v)) - 1;
        self.most[range] = self.most[range].max(off);
        if v >= EXACT_FROM && off + DOUBT >= self.bar {
            self.bar = self.bar.max(off - DOUBT);
            self.compare(bits, exact(v, w));
        }
    }

    /// An exact difference against the largest so far.
    fn compare(&mut self, bits: u32, off: Fraction) {
        let order = if self.at.is_empty() { Ordering::Greater } else { off.compare(self.largest) };
        if order == Ordering::Greater {
            self.largest = off;
            self.at.clear();
        }
        if order != Ordering::Less && self.at.len() < TOLD { self.at.push(bits); }
    }

    fn print(&self) {
        for (i, off) in self.most.iter().enumerate().filter(|(_, &off)| off > 0.0) {
            println!("from {} {}: at most {:.4} x 2^-24", ENDS[i], ENDS.get(i + 1).map_or("on".into(), |e| format!("to {e}")), off * f64::from(1 << 24));
        }
        if self.at.is_empty() { return; }
        let at: Vec<String> = self.at.iter().map(|b| format!("{b:08x}")).collect();
        println!("the largest from {EXACT_FROM} on is {} x 2^-24, at {}", self.largest.text(), at.join(" "));
        let common = divisor(self.largest.over, self.largest.under);
        println!("exactly {} / {}", self.largest.over / common, self.largest.under / common);
    }
}

/// The patterns from `first` to `last`; false where an output strays by more than 2^-22 (2^-26 below 1/16) or has not the input's sign, or no input is
/// finite.
pub fn run(first: u32, last: u32) -> bool {
    let begun = Instant::now();
    let mut found = Found { inputs: 0, wrong: 0, most: [0.0; ENDS.len()], bar: 0.0, largest: Fraction { over: 0, under: 1 }, at: vec![] };
    for bits in first..=last { found.take(bits); }
    println!("clip: {} finite inputs, {:.0} s", found.inputs, begun.elapsed().as_secs_f64());
    found.print();
    found.inputs > 0 && found.wrong == 0 && found.largest.compare(Fraction { over: 1, under: 1 << 22 }) != Ordering::Greater
}
