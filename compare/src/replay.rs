//! What a file's replay gives, and where two texts differ first.

use crate::words::{Lines, Words, Wrong};
use std::fmt;

/// The file again with every answer recomputed.
#[derive(Default)]
pub struct Replayed {
    pub text: String,
    pub answers: usize,
    /// Voice-samples of accepted blocks and auditions.
    pub samples: u64,
}

impl Replayed {
    pub fn copy(&mut self, line: &str) {
        self.text += line;
        self.text.push('\n');
    }

    /// The next line, which has to be there with this first word, copied.
    pub fn take<'a>(&mut self, lines: &mut Lines<'a>, expected: &str, name: &str) -> Result<Words<'a>, Wrong> {
        let mut w = lines.wanted(expected)?;
        self.copy(w.line);
        w.one_of(expected, &[name])?;
        Ok(w)
    }

    pub fn answer(&mut self, lines: &str) {
        self.text += lines;
        self.answers += 1;
    }
}

pub type Replay = fn(&str) -> Result<Replayed, Wrong>;

/// The first line at which two texts part, as both have it.
pub struct Difference {
    line: usize,
    theirs: String,
    ours: String,
}

impl fmt::Display for Difference {
    fn fmt(&self, f: &mut fmt::Formatter<'_>) -> fmt::Result {
        write!(f, "line {}\nfile: {}\nours: {}", self.line, self.theirs, self.ours)
    }
}

pub fn difference(theirs: &str, ours: &str) -> Option<Difference> {
    if theirs == ours { return None; }
    let (mut a, mut b) = (theirs.split_terminator('\n'), ours.split_terminator('\n'));
    let mut line = 1;
    loop {
        match (a.next(), b.next()) {
            (None, None) => break,
            (x, y) if x == y => line += 1,
            (x, y) => {
                let at = x.unwrap_or("").split(' ').zip(y.unwrap_or("").split(' ')).take_while(|(v, w)| v == w).count();
                return Some(Difference { line, theirs: shown(x, at), ours: shown(y, at) });
            }
        }
    }
    // every line is the same: one of the last has no newline
    let end = |t: &str| if t.ends_with('\n') { "a newline at the end" } else { "no newline at the end" }.to_string();
    Some(Difference { line: line - 1, theirs: end(theirs), ours: end(ours) })
}

/// A line as it is shown: whole where it is short, else its first word and some around word `at`.
fn shown(line: Option<&str>, at: usize) -> String {
    let Some(line) = line else { return "(no line)".into() };
    if line.len() <= 120 { return line.replace('\r', "\\r"); }
    let word = |w: &str| w.chars().take(40).collect::<String>();
    let from = at.saturating_sub(3).max(1);
    let first = line.split(' ').next().map_or(String::new(), word);
    let around: Vec<String> = line.split(' ').skip(from).take(7).map(word).collect();
    let (before, after) = (if from > 1 { " .." } else { "" }, if line.split(' ').nth(from + 7).is_some() { " .." } else { "" });
    format!("{first}{before} {}{after}", around.join(" "))
}
