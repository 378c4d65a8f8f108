//! Random scenarios, leaves and parked files at scale: the oracle's program writes them with its answers, the proved library recomputes them.

use crate::oracle::{Oracle, ROWS};
use crate::replay::{difference, Replay};
use crate::words::{decimal, Lines};
use crate::{file, leaf, scenario};
use std::time::{Instant, SystemTime, UNIX_EPOCH};

pub const HELP: &str = "\
usage: compare scale ORACLE [--seed N] [--samples N] [--scenarios N] [--rows N] [--cases N]
random scenarios, leaves and parked files of the oracle's program ORACLE, which is asked for `gen SEED N`, `leafgen SEED N` and `filesgen SEED N`, with
STAGE in its environment, until enough is compared
  --seed N       the first file's seed (from the clock where it is not given); the others follow from it
  --samples N    voice-samples to compare (10000000)
  --scenarios N  scenarios to ask for in a file (396); the last has to end with a dump
  --rows N       rows that a leaves file has (6351)
  --cases N      cases to ask for in a file on parked files (120)
Exit status 1 where an answer differs, or the oracle fails or stops early.";

pub struct Options {
    oracle: Oracle,
    seed: u64,
    samples: u64,
}

impl Options {
    pub fn of(args: &[&str]) -> Result<Options, String> {
        let seed = SystemTime::now().duration_since(UNIX_EPOCH).map_or(1, |d| d.as_nanos() as u64 | 1);
        let mut o = Options { oracle: Oracle { program: String::new(), scenarios: 396, rows: ROWS, cases: 120 }, seed, samples: 10_000_000 };
        let mut args = args.iter().copied();
        while let Some(arg) = args.next() {
            match arg {
                "--seed" => o.seed = number(arg, args.next(), 0)?,
                "--samples" => o.samples = number(arg, args.next(), 1)?,
                "--scenarios" => o.oracle.scenarios = number(arg, args.next(), 1)?,
                "--rows" => o.oracle.rows = number(arg, args.next(), 1)?,
                "--cases" => o.oracle.cases = number(arg, args.next(), 1)?,
                _ if arg.starts_with('-') => return Err(format!("{arg} is no option")),
                _ if !o.oracle.program.is_empty() => return Err(format!("{arg} is one word too many")),
                _ => o.oracle.program = arg.to_owned(),
            }
        }
        if o.oracle.program.is_empty() { Err("the oracle's program is missing".into()) } else { Ok(o) }
    }
}

fn number<T: std::str::FromStr + std::fmt::Display + PartialOrd>(option: &str, word: Option<&str>, least: T) -> Result<T, String> {
    word.and_then(decimal).filter(|n| *n >= least).ok_or_else(|| format!("{option} takes a whole number from {least} to 2^64 - 1"))
}

/// The scenarios of a file, each with its first line.
fn scenarios(text: &str) -> Vec<String> {
    let mut out: Vec<String> = vec![];
    for w in Lines::of(text) {
        if w.line.starts_with("scenario") { out.push(String::new()); }
        if let Some(last) = out.last_mut() { *last += &format!("{}\n", w.line); }
    }
    out
}

/// Whether ours are other answers than these. A text that cannot be read has none.
fn differs(theirs: &str) -> bool { scenario::replay(theirs).is_ok_and(|ours| ours.text != theirs) }

/// The calls of a scenario as units: a block or an audition with its four lists is one. A `counts` line is for the next of them alone and a `scratch` line
/// for the next audition, wherever before it the line stands, and comes to that one's unit.
fn units(text: &str) -> Vec<String> {
    let mut out: Vec<String> = vec![];
    let (mut counts, mut scratch) = (String::new(), String::new());
    for w in Lines::of(text).filter(|w| !scenario::is_answer(w.line)) {
        let line = format!("{}\n", w.line);
        match w.line.split(' ').next() {
            Some("counts") => counts = line,
            Some("scratch") => scratch = line,
            Some("block" | "blockh") => out.push(std::mem::take(&mut counts) + &line),
            Some("audition") => out.push(std::mem::take(&mut counts) + &std::mem::take(&mut scratch) + &line),
            Some("p" | "x" | "y" | "a") => if let Some(unit) = out.last_mut() { *unit += &line; }
            _ => out.push(line),
        }
    }
    out
}

/// Drops calls while the answers, worked out anew by both, differ. Nothing where they do not differ then.
fn shrink(oracle: &Oracle, text: &str) -> Option<String> {
    let differing = |calls: &[String]| oracle.answered(&calls.concat()).filter(|theirs| differs(theirs));
    let mut kept = units(text);
    let mut shrunk = differing(&kept)?;
    let mut width = kept.len() / 2;
    while width > 0 {
        let mut at = 2.min(kept.len());
        while at < kept.len() {
            let mut tried = kept.clone();
            tried.drain(at..(at + width).min(tried.len()));
            match differing(&tried) {
                Some(theirs) => (kept, shrunk) = (tried, theirs),
                None => at += width,
            }
        }
        width /= 2;
    }
    Some(shrunk)
}

/// The first scenario that differs by itself, shrunk, with both's answers.
fn smallest(oracle: &Oracle, theirs: &str) -> Option<String> {
    let small = shrink(oracle, &scenarios(theirs).into_iter().find(|s| differs(s))?)?;
    let ours = scenario::replay(&small).ok()?.text;
    Some(format!("\nThe scenario, shrunk, with the Rust's answers:\n{small}and with ours:\n{ours}"))
}

/// The voice-samples of one file of scenarios.
fn compare_scenarios(oracle: &Oracle, seed: u64) -> Result<u64, String> {
    let theirs = oracle.scenarios(seed)?;
    let ours = scenario::replay(&theirs).map_err(|e| format!("seed {seed}: the scenarios cannot be read: {e}"))?;
    if let Some(d) = difference(&theirs, &ours.text) {
        return Err(format!("seed {seed}: the scenarios differ at {d}{}", smallest(oracle, &theirs).unwrap_or_default()));
    }
    if ours.samples == 0 { return Err(format!("seed {seed}: the scenarios hold no voice-sample")); }
    Ok(ours.samples)
}

/// The answers of one file of leaves or of parked files.
fn compare_answers(what: &str, theirs: &str, replay: Replay) -> Result<usize, String> {
    let ours = replay(theirs).map_err(|e| format!("the {what} cannot be read: {e}"))?;
    match difference(theirs, &ours.text) {
        Some(d) => Err(format!("the {what} differ at {d}")),
        None => Ok(ours.answers),
    }
}

pub fn run(o: &Options) -> Result<(), String> {
    let begun = Instant::now();
    let (mut seed, mut done, mut leaves, mut parked, mut files) = (o.seed, 0u64, 0usize, 0usize, 0u64);
    println!("comparing with {}, first seed {seed}", o.oracle.program);
    while done < o.samples {
        done += compare_scenarios(&o.oracle, seed)?;
        let seeded = |e: String| format!("seed {seed}: {e}");
        leaves += compare_answers("leaves", &o.oracle.leaves(seed)?, leaf::replay).map_err(seeded)?;
        parked += compare_answers("parked files", &o.oracle.parked(seed)?, file::replay).map_err(seeded)?;
        files += 1;
        if files % 5 == 0 || done >= o.samples {
            let seconds = begun.elapsed().as_secs_f64();
            println!("{files} files, {done} voice-samples, {leaves} leaves, {parked} calls on parked files, {seconds:.0} s: 0 differences");
        }
        seed = seed.wrapping_mul(6364136223846793005).wrapping_add(1442695040888963407) | 1;
    }
    Ok(())
}
