//! A file held against its replay: it passes where every byte is the same and it has an answer at all.

use crate::replay::{difference, Replay};
use crate::words;
use crate::Failure;

/// The line to print where nothing differs.
pub fn run(path: &str, replay: Replay) -> Result<String, Failure> {
    let bytes = std::fs::read(path).map_err(|e| Failure::Malformed(format!("{path}: {e}")))?;
    let theirs = words::text(bytes)?;
    let ours = replay(&theirs)?;
    if let Some(d) = difference(&theirs, &ours.text) { return Err(Failure::Differs(format!("{path}: differs at {d}"))); }
    if ours.answers == 0 { return Err(Failure::Differs(format!("{path}: holds no answer, so nothing is compared"))); }
    Ok(format!("{path}: {} lines, 0 differences", words::Lines::of(&theirs).count()))
}
