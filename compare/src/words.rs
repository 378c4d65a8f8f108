//! The words of a line, read one after another, each as its form asks. Words are separated by one blank.

use std::fmt;
use std::str::{Split, SplitTerminator};

/// The most numbers that a list of a file may have.
pub const LONGEST: usize = 1 << 24;

const DIGITS: &str = "eight lower-case hexadecimal digits";

/// A line that cannot be read: what was expected, and what stands there.
#[derive(Debug)]
pub struct Wrong {
    line: usize,
    expected: String,
    found: String,
}

impl fmt::Display for Wrong {
    fn fmt(&self, f: &mut fmt::Formatter<'_>) -> fmt::Result {
        write!(f, "line {}: expected {}, found {}", self.line, self.expected, self.found)
    }
}

/// A file's bytes as text.
pub fn text(bytes: Vec<u8>) -> Result<String, Wrong> {
    String::from_utf8(bytes).map_err(|e| {
        let good = e.utf8_error().valid_up_to();
        let line = 1 + e.as_bytes().iter().take(good).filter(|&&b| b == b'\n').count();
        let found = e.as_bytes().get(good).map_or(String::new(), |b| format!("the byte {b:02x}"));
        Wrong { line, expected: "text in UTF-8".into(), found }
    })
}

/// A file's lines, numbered from 1. A newline alone ends a line.
pub struct Lines<'a> {
    number: usize,
    lines: SplitTerminator<'a, char>,
}

impl<'a> Lines<'a> {
    pub fn of(text: &'a str) -> Self { Lines { number: 0, lines: text.split_terminator('\n') } }

    /// The next line, which has to be there.
    pub fn wanted(&mut self, expected: &str) -> Result<Words<'a>, Wrong> {
        self.next().ok_or_else(|| Wrong { line: self.number + 1, expected: expected.into(), found: "the file's end".into() })
    }
}

impl<'a> Iterator for Lines<'a> {
    type Item = Words<'a>;

    fn next(&mut self) -> Option<Words<'a>> {
        let line = self.lines.next()?;
        self.number += 1;
        Some(Words { number: self.number, line, words: line.split(' ') })
    }
}

/// A line and the words of it that are still to be read.
pub struct Words<'a> {
    number: usize,
    pub line: &'a str,
    words: Split<'a, char>,
}

impl<'a> Words<'a> {
    pub fn wrong(&self, expected: &str, found: &str) -> Wrong { Wrong { line: self.number, expected: expected.into(), found: found.into() } }

    /// The next word, as `reading` takes it.
    pub fn read<T>(&mut self, expected: &str, reading: impl FnOnce(&'a str) -> Option<T>) -> Result<T, Wrong> {
        match self.words.next() {
            None => Err(self.wrong(expected, "the line's end")),
            Some(word) => reading(word).ok_or_else(|| self.wrong(expected, &quoted(word))),
        }
    }

    /// The line's first word, whatever it is.
    pub fn name(&mut self) -> &'a str { self.words.next().unwrap_or("") }

    /// One of the given words.
    pub fn one_of(&mut self, expected: &str, words: &[&str]) -> Result<&'a str, Wrong> {
        self.read(expected, |w| words.contains(&w).then_some(w))
    }

    pub fn bits(&mut self) -> Result<u32, Wrong> { self.read(DIGITS, bits) }

    pub fn float(&mut self) -> Result<f32, Wrong> { self.bits().map(f32::from_bits) }

    pub fn floats<const N: usize>(&mut self) -> Result<[f32; N], Wrong> {
        let mut all = [0.0; N];
        for x in &mut all { *x = self.float()?; }
        Ok(all)
    }

    pub fn whole(&mut self) -> Result<usize, Wrong> { self.read("a whole number below 2^64", decimal) }

    pub fn u32(&mut self) -> Result<u32, Wrong> { self.read("a whole number that fits 32 bits", decimal) }

    pub fn at_most(&mut self, most: usize) -> Result<usize, Wrong> {
        self.read(&format!("a whole number, at most {most}"), |w| decimal(w).filter(|n| *n <= most))
    }

    /// A list's length.
    pub fn length(&mut self) -> Result<usize, Wrong> { self.at_most(LONGEST) }

    pub fn mark(&mut self) -> Result<bool, Wrong> { self.one_of("0 or 1", &["0", "1"]).map(|w| w == "1") }

    /// The numbers up to the line's end, in runs: `w` once, `w*n` n times.
    pub fn list(&mut self) -> Result<Vec<f32>, Wrong> { Ok(self.bits_list()?.into_iter().map(f32::from_bits).collect()) }

    /// The same as bits.
    pub fn bits_list(&mut self) -> Result<Vec<u32>, Wrong> {
        let mut numbers = vec![];
        while let Some(word) = self.words.next() {
            let (digits, times) = word.split_once('*').map_or((word, None), |(w, n)| (w, Some(n)));
            let value = bits(digits).ok_or_else(|| self.wrong(DIGITS, &quoted(word)))?;
            let count = times.map_or(Some(1), decimal).filter(|n| (1..=LONGEST).contains(n));
            let count = count.ok_or_else(|| self.wrong(&format!("a count from 1 to {LONGEST} after the *"), &quoted(word)))?;
            if count > LONGEST - numbers.len() { return Err(self.wrong(&format!("at most {LONGEST} numbers in a list"), "more")); }
            numbers.resize(numbers.len() + count, value);
        }
        Ok(numbers)
    }

    pub fn end(&mut self) -> Result<(), Wrong> {
        match self.words.next() {
            None => Ok(()),
            Some(word) => Err(self.wrong("the line's end", &quoted(word))),
        }
    }

    /// The line's end, or `=` with an answer after it, which is left out.
    pub fn end_or_answer(&mut self) -> Result<(), Wrong> {
        match self.words.next() {
            None | Some("=") => Ok(()),
            Some(word) => Err(self.wrong("= and the answer", &quoted(word))),
        }
    }
}

pub fn bits(word: &str) -> Option<u32> {
    let fits = word.len() == 8 && word.bytes().all(|b| matches!(b, b'0'..=b'9' | b'a'..=b'f'));
    if fits { u32::from_str_radix(word, 16).ok() } else { None }
}

/// A number written with digits alone.
pub fn decimal<T: std::str::FromStr>(word: &str) -> Option<T> {
    if word.bytes().all(|b| b.is_ascii_digit()) { word.parse().ok() } else { None }
}

/// A word as messages show it: its first 40 characters.
pub fn quoted(word: &str) -> String {
    let shown: String = word.chars().take(40).collect();
    format!("{shown:?}{}", if shown.len() < word.len() { ".." } else { "" })
}
