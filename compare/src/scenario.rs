//! Scenario files: calls on a bank with their answers. The calls are copied, the answers recomputed.

use crate::numbers::{answers, canonical, refused, runs, said, sums};
use crate::parked;
use crate::replay::Replayed;
use crate::words::{quoted, Lines, Words, Wrong};
use sentivolus::{Chord, Refusal, Scratch, Setup, Table, VoiceParams, FACE, TARGETS};

/// What each of a block's counts holds before, and each number of an audition's scratch.
const BEFORE: u32 = 7;
const SCRATCHED: f32 = 0.25;

/// The most slots of a bank. A setup that asks for more is refused before counts are measured.
const SLOTS: usize = 32;

/// The lent lists, the setup handed to the next call, the cursor, the lengths that `lend`, `counts` and `scratch` lines ask for, and the current parked
/// file.
struct Bank {
    setup: Setup,
    targets: Vec<f32>,
    records: Vec<f32>,
    delay: Vec<f32>,
    cursor: usize,
    lend: Option<[usize; 3]>,
    counts: Option<usize>,
    scratch: Option<[usize; 3]>,
    file: Vec<u8>,
}

/// The lists as a call is lent them: the bank's own, or copies at the lengths of a `lend` line.
struct Lent {
    targets: Vec<f32>,
    records: Vec<f32>,
    delay: Vec<f32>,
    own: bool,
}

/// A block's or an audition's lines: the first, and the lists p, x, y and a.
struct Asked {
    frames: usize,
    steered: bool,
    lists: [Vec<f32>; 4],
}

impl Bank {
    fn new() -> Self {
        let (table, chord) = (Table::default(), Chord::default());
        let setup = Setup { code: 0, rate: 0.0, reference: 0.0, voices: 0, channels: 0, clean: false, table, chord };
        Bank { setup, targets: vec![], records: vec![], delay: vec![], cursor: 0, lend: None, counts: None, scratch: None, file: vec![] }
    }

    fn take_setup(&mut self, w: &mut Words) -> Result<(), Wrong> {
        self.setup = Setup {
            code: w.u32()?,
            rate: w.float()?,
            reference: w.float()?,
            voices: w.whole()?,
            channels: w.whole()?,
            clean: w.mark()?,
            table: self.setup.table,
            chord: self.setup.chord,
        };
        Ok(())
    }

    fn lent(&mut self) -> Lent {
        let own = self.lend.is_none();
        let [t, r, d] = self.lend.take().unwrap_or([self.targets.len(), self.records.len(), self.delay.len()]);
        let part = |list: &mut Vec<f32>, n: usize| {
            if own { std::mem::take(list) } else { list.iter().copied().chain(std::iter::repeat(0.0)).take(n).collect() }
        };
        Lent { targets: part(&mut self.targets, t), records: part(&mut self.records, r), delay: part(&mut self.delay, d), own }
    }

    fn back(&mut self, l: Lent) {
        for (list, lent) in [(&mut self.targets, l.targets), (&mut self.records, l.records), (&mut self.delay, l.delay)] {
            if l.own { *list = lent; } else { list.iter_mut().zip(lent).for_each(|(x, y)| *x = y); }
        }
    }

    fn open(&mut self, w: &mut Words) -> Result<String, Wrong> {
        self.take_setup(w)?;
        let [t, r, d] = lengths(w)?;
        w.end()?;
        (self.targets, self.records, self.delay) = (vec![0.5; t], vec![0.5; r], vec![0.5; d]);
        (self.cursor, self.lend) = (0, None);
        Ok(kept(sentivolus::open(&self.setup, &mut self.targets, &mut self.records, &mut self.delay)))
    }

    fn set(&mut self, w: &mut Words) -> Result<String, Wrong> {
        let (voice, p) = (w.whole()?, VoiceParams::from_array(w.floats()?));
        w.end()?;
        let mut l = self.lent();
        let a = sentivolus::set(&self.setup, self.cursor, &mut l.targets, voice, &p);
        let written: Vec<f32> = l.targets.iter().skip(voice.saturating_mul(TARGETS)).take(TARGETS).copied().collect();
        self.back(l);
        Ok(if a.is_ok() { format!("{}t{}\n", kept(a), runs(&answers(&written))) } else { kept(a) })
    }

    fn start(&mut self, w: &mut Words) -> Result<String, Wrong> {
        let voice = w.whole()?;
        w.end()?;
        let mut l = self.lent();
        let a = sentivolus::start(&self.setup, self.cursor, &l.targets, &mut l.records, &mut l.delay, voice);
        self.back(l);
        Ok(kept(a))
    }

    /// Voices × channels, as far as a bank has so many.
    fn slots(&self) -> usize { self.setup.voices.saturating_mul(self.setup.channels).min(SLOTS) }

    /// The counts that the next block or audition is lent.
    fn counted(&mut self) -> Vec<u32> { vec![BEFORE; self.counts.take().unwrap_or(self.slots())] }

    /// The answer to a block, with sums instead of samples where `digest` asks for them, and how many voice-samples it rendered.
    fn block(&mut self, asked: &Asked, digest: bool) -> (String, u64) {
        let [p, x, y, a] = &asked.lists;
        let (mut audio, mut counts, mut l) = (a.clone(), self.counted(), self.lent());
        let given = sentivolus::block_marked(&self.setup, self.cursor, &l.targets, &mut l.records, &mut l.delay,
            asked.frames, p, asked.steered, x, y, &mut audio, &mut counts);
        self.back(l);
        match given {
            Err(r) => (refused(r, &said(&left(a, &audio, &counts))), 0),
            Ok((cursor, rendered)) => {
                self.cursor = cursor;
                (format!("= ok {cursor} {rendered}\n{}{}", samples(digest, &audio), counts_text(&counts)), (rendered * self.slots()) as u64)
            }
        }
    }

    /// The same of an audition. Without a `scratch` line the scratch is as long as the setup asks, or as the bank's lists where the setup is refused.
    fn audition(&mut self, asked: &Asked) -> (String, u64) {
        let [p, x, y, a] = &asked.lists;
        let own = [self.targets.len(), self.records.len(), self.delay.len()];
        let mut scratch = self.scratch.take().unwrap_or(self.setup.lengths().unwrap_or(own)).map(|n| vec![SCRATCHED; n]);
        let [targets, records, delay] = &mut scratch;
        let (mut audio, mut counts, l) = (a.clone(), self.counted(), self.lent());
        let bits = |l: &Lent| [&l.targets[..], &l.records, &l.delay].concat().iter().map(|x| x.to_bits()).collect::<Vec<u32>>();
        let before = bits(&l);
        let given = sentivolus::audition_marked(&self.setup, self.cursor, &l.targets, &l.records, &l.delay,
            asked.frames, p, asked.steered, x, y, Scratch { targets, records, delay }, &mut audio, &mut counts);
        // lists lent to be read are taken to stay, unless they are seen anew
        let changed = (bits(std::hint::black_box(&l)) != before, "the bank is changed");
        self.back(l);
        match given {
            Err(r) => {
                let scratched = scratch.iter().flatten().any(|x| x.to_bits() != SCRATCHED.to_bits());
                let [heard, counted] = left(a, &audio, &counts);
                (refused(r, &said(&[heard, counted, (scratched, "the scratch is changed"), changed])), 0)
            }
            Ok((cursor, rendered)) => {
                let wrong = said(&[changed]);
                let answer = format!("= ok {cursor} {rendered}{wrong}\n{}{}{}", samples(false, &audio), counts_text(&counts), lists_text(&scratch));
                (answer, (rendered * self.slots()) as u64)
            }
        }
    }

    fn park(&mut self, w: &mut Words) -> Result<String, Wrong> {
        let length = w.length()?;
        w.end()?;
        let l = self.lent();
        let (given, wrong) = parked::park(&self.setup, self.cursor, [&l.targets, &l.records, &l.delay], length);
        self.back(l);
        Ok(match given {
            Err(r) => refused(r, &wrong),
            Ok(file) => {
                self.file = file;
                format!("= ok{wrong}\nh{}\n", sums(&parked::words(&self.file)))
            }
        })
    }

    fn restore(&mut self, w: &mut Words) -> Result<String, Wrong> {
        let lengths = lengths(w)?;
        w.end()?;
        let (given, wrong) = parked::restore(&self.file, lengths);
        Ok(match given {
            Err(r) => refused(r, &wrong),
            Ok(bank) => {
                (self.setup, self.cursor) = (bank.setup, bank.cursor);
                [self.targets, self.records, self.delay] = bank.lists;
                let (t, chord) = (&self.setup.table, parked::chord_text(&self.setup.chord));
                format!("= ok {}{wrong}\ns {} {} {:08x} {chord}\n", self.cursor, parked::setup_text(&self.setup), t.active, canonical(t.gain))
            }
        })
    }

    fn dump(&self, w: &mut Words) -> Result<String, Wrong> {
        w.end()?;
        Ok(lists_text(&[&self.targets, &self.records, &self.delay]))
    }

    fn poke(&mut self, w: &mut Words) -> Result<(), Wrong> {
        let list = match w.one_of("t, r or d", &["t", "r", "d"])? { "t" => &mut self.targets, "r" => &mut self.records, _ => &mut self.delay };
        let (at, numbers) = (w.whole()?, w.list()?);
        let (end, length) = (at.saturating_add(numbers.len()), list.len());
        let part = list.get_mut(at..end).ok_or_else(|| w.wrong(&format!("a list of at least {end} numbers"), &format!("one of {length}")))?;
        part.copy_from_slice(&numbers);
        Ok(())
    }

    fn table(&mut self, w: &mut Words, three_axes: bool) -> Result<(), Wrong> {
        let mut t = Table { active: w.u32()?, gain: w.float()?, three_axes, ..Table::default() };
        let (numbers, most) = (w.list()?, if three_axes { 2 * FACE } else { FACE });
        let part = t.sections[..most].get_mut(..numbers.len()).ok_or_else(|| w.wrong(&format!("at most {most} numbers"), &numbers.len().to_string()))?;
        part.copy_from_slice(&numbers);
        self.setup.table = t;
        Ok(())
    }

    fn chord(&mut self, w: &mut Words) -> Result<(), Wrong> {
        self.setup.chord = Chord { count: w.u32()?, offsets: w.floats()? };
        w.end()
    }
}

fn lengths(w: &mut Words) -> Result<[usize; 3], Wrong> { Ok([w.length()?, w.length()?, w.length()?]) }

fn kept(a: Result<usize, Refusal>) -> String {
    match a { Ok(cursor) => format!("= ok {cursor}\n"), Err(r) => refused(r, "") }
}

fn samples(digest: bool, audio: &[f32]) -> String {
    let words = answers(audio);
    if !digest { return format!("o{}\n", runs(&words)); }
    format!("h{}\n", sums(&words))
}

fn counts_text(counts: &[u32]) -> String { format!("c{}\n", counts.iter().map(|n| format!(" {n}")).collect::<String>()) }

/// Targets, records and delay.
fn lists_text<L: AsRef<[f32]>>(lists: &[L; 3]) -> String {
    ["t", "r", "d"].iter().zip(lists).map(|(letter, list)| format!("{letter}{}\n", runs(&answers(list.as_ref())))).collect()
}

/// What a refusal has to leave of the audio and the counts: whether it did not, and how that is said.
fn left(a: &[f32], audio: &[f32], counts: &[u32]) -> [(bool, &'static str); 2] {
    let heard = audio.iter().zip(a).any(|(v, b)| v.to_bits() != b.to_bits());
    [(heard, "the audio is changed"), (counts.iter().any(|&n| n != BEFORE), "the counts are changed")]
}

/// The rest of a block's or an audition's first line and the four lines of lists after it.
fn read_block(w: &mut Words, lines: &mut Lines, name: &str, out: &mut Replayed) -> Result<Asked, Wrong> {
    let (frames, steered) = (w.whole()?, w.mark()?);
    w.end()?;
    let mut line = |letter: &str| out.take(lines, &format!("the {name}'s line {letter}"), letter)?.list();
    Ok(Asked { frames, steered, lists: [line("p")?, line("x")?, line("y")?, line("a")?] })
}

/// Lines of answers, by their first word.
pub fn is_answer(line: &str) -> bool { matches!(line.split(' ').next(), Some("=" | "o" | "h" | "c" | "s" | "t" | "r" | "d")) }

pub fn replay(text: &str) -> Result<Replayed, Wrong> {
    let mut out = Replayed::default();
    let mut bank = Bank::new();
    let mut lines = Lines::of(text);
    while let Some(mut w) = lines.next() {
        if w.line.is_empty() || is_answer(w.line) { continue; }
        out.copy(w.line);
        if w.line.starts_with('#') { continue; }
        match w.name() {
            "scenario" => bank = Bank::new(),
            name @ ("table" | "table3") => bank.table(&mut w, name == "table3")?,
            "chord" => bank.chord(&mut w)?,
            "poke" => bank.poke(&mut w)?,
            "setup" => { bank.take_setup(&mut w)?; w.end()?; }
            "lend" => { bank.lend = Some(lengths(&mut w)?); w.end()?; }
            "counts" => { bank.counts = Some(w.length()?); w.end()?; }
            "scratch" => { bank.scratch = Some(lengths(&mut w)?); w.end()?; }
            "cursor" => { bank.cursor = w.whole()?; w.end()?; }
            "open" => out.answer(&bank.open(&mut w)?),
            "set" => out.answer(&bank.set(&mut w)?),
            "start" => out.answer(&bank.start(&mut w)?),
            "dump" => out.answer(&bank.dump(&mut w)?),
            "park" => out.answer(&bank.park(&mut w)?),
            "restore" => out.answer(&bank.restore(&mut w)?),
            name if parked::EDITS.contains(&name) => parked::edit(&mut bank.file, name, &mut w)?,
            name @ ("block" | "blockh" | "audition") => {
                let audition = name == "audition";
                let asked = read_block(&mut w, &mut lines, if audition { name } else { "block" }, &mut out)?;
                let (answer, rendered) = if audition { bank.audition(&asked) } else { bank.block(&asked, name == "blockh") };
                out.answer(&answer);
                out.samples += rendered;
            }
            name => return Err(w.wrong("a call, a preparation, an answer or a comment", &quoted(name))),
        }
    }
    Ok(out)
}
