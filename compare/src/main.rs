//! Runs of the proved library beside the published Rust. `compare --help` lists the commands.

mod check;
mod clip;
mod file;
mod leaf;
mod numbers;
mod oracle;
mod parked;
mod replay;
mod roots;
mod scale;
mod scenario;
mod words;

use std::ffi::OsString;
use std::io::{Read, Write};
use std::process::ExitCode;

const HELP: &str = "\
usage: compare run | leaf | file | check run FILE | check leaf FILE | check file FILE | scale ORACLE [OPTION..] | roots | clip [FIRST LAST]
  run    a scenario file from standard input, every answer recomputed by the proved library
  leaf   the same for a leaves file
  file   the same for a file of cases on parked files
  check  a file of one of these kinds against its answers recomputed
  scale  random scenarios, leaves and parked files of the oracle's program, from fresh seeds; `compare scale --help` lists the options
  roots  every f32 of the root against the machine's square root
  clip   how far soft_clip strays at most, from 1/16 on exactly: over every f32, or those with bits FIRST to LAST, eight lower-case digits each
Exit status: 0, 1 where an answer differs, 2 where the command line or a line of the file cannot be read.";

/// How a command ends where it does not end well.
pub enum Failure {
    /// An answer differs, or nothing was compared. Exit status 1.
    Differs(String),
    /// The input cannot be read. Exit status 2.
    Malformed(String),
    /// The command line is wrong: what is wrong, and the usage. Exit status 2.
    Usage(String, &'static str),
}

impl From<words::Wrong> for Failure {
    fn from(w: words::Wrong) -> Self { Failure::Malformed(w.to_string()) }
}

fn replay_of(kind: &str) -> Option<replay::Replay> {
    match kind {
        "run" => Some(scenario::replay),
        "leaf" => Some(leaf::replay),
        "file" => Some(file::replay),
        _ => None,
    }
}

/// Standard input replayed.
fn replay_input(replay: replay::Replay) -> Result<String, Failure> {
    let mut bytes = vec![];
    std::io::stdin().read_to_end(&mut bytes).map_err(|e| Failure::Malformed(format!("standard input: {e}")))?;
    Ok(replay(&words::text(bytes)?)?.text)
}

/// How far soft_clip strays over a range of bits.
fn clipped(first: u32, last: u32) -> Result<String, Failure> {
    if clip::run(first, last) { Ok(String::new()) } else { Err(Failure::Differs("soft_clip strays too far or gives another sign, or no input is finite".into())) }
}

/// Runs a command; answers what is left to print.
fn command(args: &[&str]) -> Result<String, Failure> {
    match args {
        ["--help"] => Ok(format!("{HELP}\n")),
        ["scale", "--help"] => Ok(format!("{}\n", scale::HELP)),
        ["scale", rest @ ..] => {
            let options = scale::Options::of(rest).map_err(|e| Failure::Usage(e, scale::HELP))?;
            scale::run(&options).map(|()| String::new()).map_err(Failure::Differs)
        }
        ["check", kind, path] => match replay_of(kind) {
            Some(replay) => check::run(path, replay).map(|line| line + "\n"),
            None => Err(Failure::Usage(format!("{kind} is none of run, leaf and file"), HELP)),
        },
        ["clip"] => clipped(0, u32::MAX),
        ["clip", first, last] => match (words::bits(first), words::bits(last)) {
            (Some(first), Some(last)) => clipped(first, last),
            _ => Err(Failure::Usage(format!("{first} {last} are no bits, eight lower-case hexadecimal digits each"), HELP)),
        },
        ["roots"] => if roots::run() { Ok(String::new()) } else { Err(Failure::Differs("the root differs".into())) },
        [kind] => match replay_of(kind) {
            Some(replay) => replay_input(replay),
            None => Err(Failure::Usage(format!("{kind} is no command"), HELP)),
        },
        _ => Err(Failure::Usage("the command line is none of these".into(), HELP)),
    }
}

fn main() -> ExitCode {
    let args: Vec<String> = std::env::args_os().skip(1).map(|a: OsString| a.to_string_lossy().into_owned()).collect();
    let words: Vec<&str> = args.iter().map(String::as_str).collect();
    let printed = command(&words).and_then(|text| {
        std::io::stdout().write_all(text.as_bytes()).map_err(|e| Failure::Malformed(format!("standard output: {e}")))
    });
    let (message, status) = match printed {
        Ok(()) => return ExitCode::SUCCESS,
        Err(Failure::Differs(what)) => (what, 1),
        Err(Failure::Malformed(what)) => (what, 2),
        Err(Failure::Usage(what, usage)) => (format!("compare: {what}\n{usage}"), 2),
    };
    eprintln!("{message}");
    ExitCode::from(status)
}
