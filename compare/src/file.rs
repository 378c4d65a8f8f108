//! Files of cases on parked files: banks parked and files restored, with their answers. What is asked is copied, the answers recomputed.

use crate::numbers::{answers, canonical, refused, runs, sums};
use crate::parked::{self, Restored};
use crate::replay::Replayed;
use crate::words::{quoted, Lines, Words, Wrong};
use sentivolus::{Chord, Setup, Table, FACE};

/// The requests in force in the files that this replays, by the last one's number: a table has two or three axes and two faces, voices and slots have
/// their z, a setup has its chord, and a bank is parked in edition one.
const STAGES: [&str; 1] = ["18"];

/// A list of more runs is answered by its sums.
const MOST_RUNS: usize = 120;

/// The bank that a `park` line parks, the file that a `restore` line restores, and the last file that was answered.
struct Case {
    bank: Restored,
    file: Vec<u8>,
    last: Vec<u8>,
}

impl Case {
    fn new() -> Self {
        let (table, chord) = (Table::default(), Chord::default());
        let setup = Setup { code: 0, rate: 0.0, reference: 0.0, voices: 0, channels: 0, clean: false, table, chord };
        Case { bank: Restored { setup, cursor: 0, lists: [vec![], vec![], vec![]] }, file: vec![], last: vec![] }
    }

    fn park(&mut self, w: &mut Words) -> Result<String, Wrong> {
        w.one_of("edition 1", &["1"])?;
        let length = w.length()?;
        w.end()?;
        let [targets, records, delay] = &self.bank.lists;
        let (given, wrong) = parked::park(&self.bank.setup, self.bank.cursor, [targets, records, delay], length);
        Ok(match given {
            Err(r) => refused(r, &wrong),
            Ok(file) => {
                let words = parked::words(&file);
                self.last = file;
                format!("= ok{wrong}\n{}", listed("f", "h", &words))
            }
        })
    }

    fn restore(&self, w: &mut Words) -> Result<String, Wrong> {
        let lengths = [w.length()?, w.length()?, w.length()?];
        w.end()?;
        let (given, wrong) = parked::restore(&self.file, lengths);
        Ok(match given { Err(r) => refused(r, &wrong), Ok(bank) => format!("= ok{wrong}\n{}", image(&bank)) })
    }
}

/// A list under its letter, or its sums under another.
fn listed(letter: &str, long: &str, words: &[u32]) -> String {
    let text = runs(words);
    if text.matches(' ').count() > MOST_RUNS { format!("{long}{}\n", sums(words)) } else { format!("{letter}{text}\n") }
}

/// A restored bank, as `image` and the five lines after it have it.
fn image(b: &Restored) -> String {
    let (t, c, [targets, records, delay]) = (&b.setup.table, &b.setup.chord, &b.lists);
    let numbers = |letter: &str, list: &[f32]| listed(letter, &format!("{letter}h"), &answers(list));
    let lists = [("n", &t.sections[..]), ("c", &c.offsets), ("t", targets), ("r", records), ("d", delay)].map(|(letter, list)| numbers(letter, list));
    format!("i {} {} {} {:08x} {} {}\n{}", parked::setup_text(&b.setup), b.cursor, t.active, canonical(t.gain), if t.three_axes { 3 } else { 2 }, c.count,
        lists.concat())
}

/// The rest of a line, so many numbers.
fn exactly<const N: usize>(mut w: Words) -> Result<[f32; N], Wrong> {
    let list = w.list()?;
    list.try_into().map_err(|l: Vec<f32>| w.wrong(&format!("{N} numbers"), &l.len().to_string()))
}

/// The rest of an `image` line and the five lines after it.
fn read_image(w: &mut Words, lines: &mut Lines, out: &mut Replayed) -> Result<Restored, Wrong> {
    let mut setup = Setup {
        code: w.u32()?,
        rate: w.float()?,
        reference: w.float()?,
        voices: w.whole()?,
        channels: w.whole()?,
        clean: w.mark()?,
        table: Table::default(),
        chord: Chord::default(),
    };
    let cursor = w.whole()?;
    (setup.table.active, setup.table.gain) = (w.u32()?, w.float()?);
    setup.table.three_axes = w.one_of("2 or 3 axes", &["2", "3"])? == "3";
    setup.chord.count = w.u32()?;
    w.end()?;
    let mut line = |letter: &str| out.take(lines, &format!("the image's line {letter}"), letter);
    setup.table.sections = exactly::<{ 2 * FACE }>(line("n")?)?;
    setup.chord.offsets = exactly(line("c")?)?;
    Ok(Restored { setup, cursor, lists: [line("t")?.list()?, line("r")?.list()?, line("d")?.list()?] })
}

/// Lines of answers, by their first word; those of an image are read with it.
fn is_answer(line: &str) -> bool {
    matches!(line.split(' ').next(), Some("=" | "f" | "h" | "i" | "n" | "nh" | "c" | "t" | "th" | "r" | "rh" | "d" | "dh"))
}

pub fn replay(text: &str) -> Result<Replayed, Wrong> {
    let mut out = Replayed::default();
    let mut case = Case::new();
    let mut lines = Lines::of(text);
    while let Some(mut w) = lines.next() {
        if is_answer(w.line) { continue; }
        out.copy(w.line);
        if w.line.is_empty() || w.line.starts_with('#') { continue; }
        match w.name() {
            "stage" => { w.one_of("stage 18", &STAGES)?; w.end()?; }
            "case" => case = Case::new(),
            "image" => case.bank = read_image(&mut w, &mut lines, &mut out)?,
            "file" => case.file = w.bits_list()?.into_iter().flat_map(u32::to_le_bytes).collect(),
            "bytes" => { case.file.truncate(w.whole()?); w.end()?; }
            "take" => { case.file = case.last.clone(); w.end()?; }
            "park" => out.answer(&case.park(&mut w)?),
            "restore" => out.answer(&case.restore(&mut w)?),
            name => return Err(w.wrong("a line of a case, an answer or a comment", &quoted(name))),
        }
    }
    Ok(out)
}
