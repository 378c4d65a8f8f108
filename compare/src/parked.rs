//! Parked files: a bank parked and a file restored, as replays do it, and the lines of a scenario file that change a file's bytes.

use crate::numbers::{answers, canonical, said};
use crate::words::{decimal, Words, Wrong};
use sentivolus::{Chord, Refusal, Setup};

const BLOCK: usize = 512;

/// What each byte holds before a bank is parked there, and each number before one is restored there.
const BYTE: u8 = 0xa5;
const NUMBER: f32 = 0.5;

/// A bank as a file gives it. The lists are targets, records and delay.
pub struct Restored {
    pub setup: Setup,
    pub cursor: usize,
    pub lists: [Vec<f32>; 3],
}

/// Parks a bank in `length` bytes. With the file or the refusal comes what is wrong beside it, to be said in the answer.
pub fn park(setup: &Setup, cursor: usize, [targets, records, delay]: [&[f32]; 3], length: usize) -> (Result<Vec<u8>, Refusal>, String) {
    let mut file = vec![BYTE; length];
    let given = sentivolus::park(setup, cursor, targets, records, delay, &mut file);
    let asked = sentivolus::park_len(setup);
    let measured = match given {
        Ok(_) | Err(Refusal::Unparkable) => asked == length,
        Err(Refusal::Store) => asked > 0,
        Err(_) => asked == 0,
    };
    let wrong = said(&[
        (given.is_err() && file.iter().any(|&b| b != BYTE), "the file is changed"),
        (!measured, "park_len answers otherwise"),
    ]);
    (given.map(|_| file), wrong)
}

/// Restores a file on lists of these lengths. The rest as in `park`.
pub fn restore(file: &[u8], lengths: [usize; 3]) -> (Result<Restored, Refusal>, String) {
    let mut lists = lengths.map(|n| vec![NUMBER; n]);
    let [targets, records, delay] = &mut lists;
    let given = sentivolus::restore(file, targets, records, delay);
    let wrong = said(&[
        (given.is_err() && lists.iter().flatten().any(|x| x.to_bits() != NUMBER.to_bits()), "the lists are changed"),
        (!read_alike(sentivolus::parked_setup(file), given), "parked_setup answers otherwise"),
    ]);
    (given.map(|(setup, cursor)| Restored { setup, cursor, lists }), wrong)
}

/// Whether a file's setup was read as a restore read it, which also measures the lists.
fn read_alike(alone: Result<(Setup, usize), Refusal>, restored: Result<(Setup, usize), Refusal>) -> bool {
    let words = |(s, cursor): (Setup, usize)| {
        let t = s.table;
        (setup_text(&s), chord_text(&s.chord), cursor, t.active, t.three_axes, canonical(t.gain), answers(&t.sections))
    };
    match (alone, restored) {
        (Ok(_), Err(refusal)) => refusal == Refusal::Store,
        (alone, restored) => alone.map(words) == restored.map(words),
    }
}

/// Code, rate, reference, voices, channels and clean.
pub fn setup_text(s: &Setup) -> String {
    let (rate, reference, clean) = (canonical(s.rate), canonical(s.reference), u8::from(s.clean));
    format!("{} {rate:08x} {reference:08x} {} {} {clean}", s.code, s.voices, s.channels)
}

/// `chord`, its count and its eight offsets.
pub fn chord_text(c: &Chord) -> String { format!("chord {}{}", c.count, answers(&c.offsets).iter().map(|o| format!(" {o:08x}")).collect::<String>()) }

pub fn words(bytes: &[u8]) -> Vec<u32> { bytes.chunks_exact(4).map(|w| u32::from_le_bytes([w[0], w[1], w[2], w[3]])).collect() }

/// The names of the lines that change a file.
pub const EDITS: [&str; 7] = ["swap", "drop", "twice", "byte", "word", "mend", "cut"];

/// One such line, its name read.
pub fn edit(file: &mut Vec<u8>, name: &str, w: &mut Words) -> Result<(), Wrong> {
    match name {
        "swap" => {
            let (i, j) = (block(file, w)?, block(file, w)?);
            (0..BLOCK).for_each(|k| file.swap(i + k, j + k));
        }
        "drop" => { let i = block(file, w)?; file.drain(i..i + BLOCK); }
        "twice" => { let i = block(file, w)?; file.extend_from_within(i..i + BLOCK); }
        "byte" => { let at = place(file.len(), "byte", w)?; file[at] = w.at_most(255)? as u8; }
        "word" => { let at = block(file, w)? + 4 * w.at_most(127)?; put(file, at, w.bits()?); }
        "mend" => {
            let i = block(file, w)?;
            let sum = words(&file[i..i + BLOCK - 4]).into_iter().fold(0, u32::wrapping_add);
            put(file, i + BLOCK - 4, sum.wrapping_neg());
        }
        _ => file.truncate(w.whole()?),
    }
    w.end()
}

/// Where a block that the line names begins.
fn block(file: &[u8], w: &mut Words) -> Result<usize, Wrong> { place(file.len() / BLOCK, "block", w).map(|i| i * BLOCK) }

fn place(count: usize, what: &str, w: &mut Words) -> Result<usize, Wrong> {
    w.read(&format!("one of the file's {count} {what}s, from 0"), |word| decimal(word).filter(|n| *n < count))
}

fn put(file: &mut [u8], at: usize, word: u32) { file[at..at + 4].copy_from_slice(&word.to_le_bytes()); }
