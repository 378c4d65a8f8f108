//! The oracle's program, and whether what it writes is whole.

use crate::{leaf, words::Lines};
use std::io::Write;
use std::process::{Command, Stdio};

pub struct Oracle {
    pub program: String,
    /// Scenarios to ask for in a file.
    pub scenarios: usize,
    /// Rows that a leaves file has.
    pub rows: usize,
    /// Cases to ask for in a file on parked files.
    pub cases: usize,
}

/// The requests in force, by the last one's number: the program's STAGE. The files that it writes then are those that this replays.
const STAGE: &str = "18";

/// How many random inputs of a leaf `leafgen` is asked for, and the rows that it then writes at this stage.
const INPUTS: &str = "240";
pub const ROWS: usize = 6351;

impl Oracle {
    /// What the program writes, where it ends well; its own errors go to `errors`.
    fn output(&self, args: &[&str], input: Option<&str>, errors: Stdio) -> Result<String, String> {
        let said = |what: String| format!("{} {}: {what}", self.program, args.join(" "));
        let mut child = Command::new(&self.program).args(args).env("STAGE", STAGE)
            .stdin(if input.is_some() { Stdio::piped() } else { Stdio::null() }).stdout(Stdio::piped()).stderr(errors)
            .spawn().map_err(|e| said(e.to_string()))?;
        if let (Some(text), Some(mut pipe)) = (input, child.stdin.take()) {
            let text = text.to_owned();
            std::thread::spawn(move || { let _ = pipe.write_all(text.as_bytes()); });
        }
        let out = child.wait_with_output().map_err(|e| said(e.to_string()))?;
        if !out.status.success() { return Err(said(out.status.to_string())); }
        String::from_utf8(out.stdout).map_err(|_| said("its output is no UTF-8".into()))
    }

    /// A file of the program's, held to `whole`.
    fn file(&self, args: &[&str], whole: impl Fn(&str) -> Result<(), String>) -> Result<String, String> {
        let text = self.output(args, None, Stdio::inherit())?;
        let ends = if text.ends_with('\n') { Ok(()) } else { Err("the last line has no newline".to_string()) };
        ends.and_then(|()| whole(&text)).map_err(|e| format!("{} {}: the output is not whole: {e}", self.program, args.join(" ")))?;
        Ok(text)
    }

    pub fn scenarios(&self, seed: u64) -> Result<String, String> {
        let n = self.scenarios;
        self.file(&["gen", &seed.to_string(), &n.to_string()], |text| whole_scenarios(text, n))
    }

    pub fn leaves(&self, seed: u64) -> Result<String, String> {
        self.file(&["leafgen", &seed.to_string(), INPUTS], |text| whole_leaves(text, self.rows))
    }

    pub fn parked(&self, seed: u64) -> Result<String, String> {
        let n = self.cases;
        self.file(&["filesgen", &seed.to_string(), &n.to_string()], |text| whole_cases(text, n))
    }

    /// A scenario's calls with the program's answers; nothing where it cannot run them.
    pub fn answered(&self, calls: &str) -> Option<String> { self.output(&["run"], Some(calls), Stdio::null()).ok() }
}

fn first_word(line: &str) -> &str { line.split(' ').next().unwrap_or("") }

/// As many scenarios as were asked for, the last with the dump that ends it. A stop just after a dump or an audition within the last scenario is not seen.
fn whole_scenarios(text: &str, n: usize) -> Result<(), String> {
    let found = Lines::of(text).filter(|w| first_word(w.line) == "scenario").count();
    if found != n { return Err(format!("it has {found} scenarios instead of {n}")); }
    let last = Lines::of(text).last().map_or("", |w| first_word(w.line));
    if last == "d" { Ok(()) } else { Err(format!("it ends with a line {last:?} instead of a dump")) }
}

/// As many cases as were asked for, the last with an answer. A stop within the last case after another answer or an image is not seen.
fn whole_cases(text: &str, n: usize) -> Result<(), String> {
    let found = Lines::of(text).filter(|w| first_word(w.line) == "case").count();
    if found != n { return Err(format!("it has {found} cases instead of {n}")); }
    let last = Lines::of(text).last().map_or("", |w| first_word(w.line));
    if matches!(last, "=" | "f" | "h" | "d" | "dh") { Ok(()) } else { Err(format!("it ends with a line {last:?} instead of an answer")) }
}

/// As many rows as `leafgen` writes whatever the seed, and every leaf among them.
fn whole_leaves(text: &str, n: usize) -> Result<(), String> {
    let rows: Vec<&str> = Lines::of(text).map(|w| w.line).filter(|l| !l.is_empty() && !l.starts_with('#')).collect();
    if rows.len() != n { return Err(format!("it has {} rows instead of {n}", rows.len())); }
    match leaf::names().find(|name| !rows.iter().any(|r| first_word(r) == *name)) {
        None => Ok(()),
        Some(name) => Err(format!("it has no row of {name}")),
    }
}
