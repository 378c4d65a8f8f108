//! Numbers as answers write them: floats as eight hexadecimal digits of bits, lists with runs `w*n`.

use sentivolus::Refusal;

/// Every NaN as 7fc00000, told on the bits.
pub fn canonical(x: f32) -> u32 {
    let b = x.to_bits();
    if b & 0x7fff_ffff > 0x7f80_0000 { 0x7fc0_0000 } else { b }
}

pub fn answers(values: &[f32]) -> Vec<u32> { values.iter().map(|&x| canonical(x)).collect() }

pub fn runs(words: &[u32]) -> String {
    let mut out = String::new();
    let mut rest = words;
    while let Some(&w) = rest.first() {
        let n = rest.iter().take_while(|&&v| v == w).count();
        out += &format!(" {w:08x}");
        if n > 1 { out += &format!("*{n}"); }
        rest = &rest[n..];
    }
    out
}

/// Two sums over words, mod 2^32, both from 0: s1 += w + 1, then s2 += s1.
pub fn sums(words: &[u32]) -> String {
    let (s1, s2) = words.iter().fold((0u32, 0u32), |(a, b), &w| { let a = a.wrapping_add(w).wrapping_add(1); (a, b.wrapping_add(a)) });
    format!(" {s1:08x} {s2:08x}")
}

/// A refusal's number, 1 to 16.
pub fn number(r: Refusal) -> u32 { r.number() }

/// What is wrong beside an answer, to be said in it.
pub fn said(wrong: &[(bool, &str)]) -> String { wrong.iter().filter(|(is, _)| *is).map(|(_, what)| format!(" and {what}")).collect() }

/// The answer of a refused call, with what is wrong beside it.
pub fn refused(r: Refusal, wrong: &str) -> String { format!("= refused {}{wrong}\n", number(r)) }
