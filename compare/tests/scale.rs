//! `compare scale` with stand-ins for the oracle: shell scripts that answer with the repository's own files, whole or spoilt.

mod common;

use common::{compare, stored, written, Ended};
use std::os::unix::fs::PermissionsExt;

fn scenarios() -> String { stored("crates/scenarios/stdin") }
fn leaves() -> String { stored("crates/leaves/stdin") }
fn parked() -> String { stored("compare/tests/parked.txt") }

/// How many scenarios, rows and cases the repository's files have.
fn asked() -> usize { scenarios().lines().filter(|l| l.starts_with("scenario ")).count() }
fn rows() -> usize { leaves().lines().filter(|l| !l.starts_with('#')).count() }
fn cases() -> usize { parked().lines().filter(|l| l.starts_with("case ")).count() }

/// A script that answers `gen`, `leafgen` and `filesgen` with these texts, and then runs `ending`. `run` is what it does with calls to answer. It asks
/// for its STAGE.
fn script_of(test: &str, [scenarios, leaves, parked]: [&str; 3], ending: &str, run: &str) -> String {
    let answers: String = [("gen", scenarios), ("leafgen", leaves), ("filesgen", parked)].iter()
        .map(|(name, text)| format!("{name}) cat '{}'; {ending} ;;\n", written(test, name, text).display())).collect();
    let path = written(test, "oracle", &format!("#!/bin/sh\n[ \"$STAGE\" = 18 ] || exit 3\ncase $1 in\n{answers}run) {run} ;;\nesac\n"));
    std::fs::set_permissions(&path, std::fs::Permissions::from_mode(0o755)).expect("the script is a program");
    path.display().to_string()
}

fn script(test: &str, scenarios: &str, leaves: &str, ending: &str, run: &str) -> String { script_of(test, [scenarios, leaves, &parked()], ending, run) }

/// A comparison of one file of each kind with as many scenarios; as many rows and cases as the repository's have.
fn scale_of(oracle: &str, scenarios: usize) -> Ended {
    let [scenarios, rows, cases] = [scenarios, rows(), cases()].map(|n| n.to_string());
    compare(&["scale", oracle, "--seed", "7", "--samples", "1", "--scenarios", &scenarios, "--rows", &rows, "--cases", &cases], b"")
}

fn scale(oracle: &str) -> Ended { scale_of(oracle, asked()) }

fn fails(e: &Ended, why: &str) {
    assert_eq!(e.status, Some(1), "{}", e.out);
    assert!(e.err.contains(why), "{}", e.err);
    assert!(!e.out.contains("differences"), "{}", e.out);
}

fn fails_with(test: &str, scenarios: &str, leaves: &str, why: &str) {
    fails(&scale(&script(test, scenarios, leaves, "exit 0", "exit 1")), why);
}

/// The text up to where `mark` stands last.
fn before_last<'a>(text: &'a str, mark: &str) -> &'a str { &text[..text.rfind(mark).expect("the mark") + 1] }

/// The text with the first number of the first line that starts so changed.
fn changed(text: &str, start: &str) -> String {
    let at = text.find(start).expect("the line") + start.len();
    let other = if &text[at..at + 1] == "0" { "1" } else { "0" };
    format!("{}{other}{}", &text[..at], &text[at + 1..])
}

#[test]
fn a_whole_oracle_passes() {
    let e = scale(&script("whole", &scenarios(), &leaves(), "exit 0", "exit 1"));
    assert_eq!((e.status, e.err.as_str()), (Some(0), ""));
    let calls = parked().lines().filter(|l| l.starts_with("= ")).count();
    let counted = format!(" voice-samples, {} leaves, {calls} calls on parked files, ", rows());
    assert!(e.out.contains(&counted) && e.out.contains(": 0 differences\n"), "{}", e.out);
}

#[test]
fn no_oracle_fails() {
    fails(&scale("/bin/false"), "exit status: 1");
    fails(&scale("/nowhere/oracle"), "No such file");
}

#[test]
fn a_failing_oracle_fails() {
    let failing = |test: &str, ending: &str| scale(&script(test, &scenarios(), &leaves(), ending, "exit 1"));
    let e = failing("failing", "echo 'the oracle says why' >&2; exit 1");
    fails(&e, "exit status: 1");
    assert!(e.err.contains("the oracle says why\n"), "{}", e.err);
    fails(&failing("killed", "kill -9 $$"), "signal: 9");
}

#[test]
fn a_silent_oracle_fails() { fails_with("silent", "", "", "the last line has no newline") }

#[test]
fn scenarios_cut_short_fail() {
    let whole = scenarios();
    let middle = &whole[..whole[..whole.len() / 2].rfind(' ').expect("a blank")];
    fails_with("cut_in_a_line", middle, &leaves(), "the last line has no newline");
    fails_with("cut_after_a_line", before_last(middle, "\n"), &leaves(), &format!("scenarios instead of {}", asked()));
    fails_with("cut_after_a_call", before_last(&whole, "\n= "), &leaves(), "instead of a dump");
    fails_with("cut_after_a_scenario", before_last(&whole, "\nscenario "), &leaves(), &format!("{} scenarios instead of {}", asked() - 1, asked()));
    fails_with("cut_newline", whole.trim_end(), &leaves(), "the last line has no newline");
}

#[test]
fn leaves_cut_short_fail() {
    let whole = leaves();
    fails_with("leaves_cut_in_a_line", &scenarios(), before_last(&whole, " ="), "the last line has no newline");
    fails_with("leaves_cut_after_a_line", &scenarios(), before_last(&whole, "\nchord_read "), &format!("{} rows instead of {}", rows() - 1, rows()));
    fails_with("leaves_missing", &scenarios(), "", "the last line has no newline");
    let without_tan: String = whole.lines().map(|l| format!("{}\n", if l.starts_with("tan ") { "exp2 00000000 = 3f800000" } else { l })).collect();
    fails_with("leaves_without_tan", &scenarios(), &without_tan, "no row of tan");
}

#[test]
fn parked_files_cut_short_fail() {
    let whole = parked();
    let fails_with = |test: &str, text: &str, why: &str| fails(&scale(&script_of(test, [&scenarios(), &leaves(), text], "exit 0", "exit 1")), why);
    fails_with("parked_cut_in_a_line", whole.trim_end(), "the last line has no newline");
    fails_with("parked_cut_after_a_case", before_last(&whole, "\ncase "), &format!("{} cases instead of {}", cases() - 1, cases()));
    fails_with("parked_cut_after_a_question", before_last(&whole, "\n= "), "instead of an answer");
    fails_with("parked_missing", "", "the last line has no newline");
    fails_with("parked_changed", &changed(&whole, "\n= refused 1"), "the parked files differ at line ");
    fails_with("parked_malformed", &whole.replacen("stage 18", "stage 17", 1), "the parked files cannot be read: line 2: ");
}

#[test]
fn a_changed_answer_fails() {
    fails_with("changed_sample", &changed(&scenarios(), "\no "), &leaves(), "the scenarios differ at line ");
    fails_with("changed_count", &changed(&scenarios(), "\nc "), &leaves(), "the scenarios differ at line ");
    fails_with("changed_over", &scenarios(), &changed(&leaves(), "over 4309e207 3c162fc9 = "), "the leaves differ at line ");
    fails_with("changed_leaf", &scenarios(), &changed(&leaves(), "exp2 3f800000 = "), "the leaves differ at line ");
}

#[test]
fn scenarios_without_a_sample_fail() {
    let oracle = script("no_sample", "scenario a\ndump\nt\nr\nd\n", &leaves(), "exit 0", "exit 1");
    fails(&scale_of(&oracle, 1), "no voice-sample");
}

/// An oracle whose sums are all zero: of the scenario with a block of sums that block alone is left.
#[test]
fn a_difference_is_shrunk() {
    let zeros = "sed 's/^h .*/h 00000000 00000000/'";
    let spoilt: String = scenarios().lines().map(|l| format!("{}\n", if l.starts_with("h ") { "h 00000000 00000000" } else { l })).collect();
    let oracle = script("shrunk", &spoilt, &leaves(), "exit 0", &format!("'{}' run | {zeros}", env!("CARGO_BIN_EXE_compare")));
    let e = scale(&oracle);
    fails(&e, "with the Rust's answers:\nscenario ");
    let small = e.err.split("with the Rust's answers:\n").nth(1).and_then(|t| t.split("and with ours:").next()).expect("the scenario");
    assert_eq!(small.lines().filter(|l| l.starts_with("block")).count(), 1, "{small}");
}

/// A `counts` line goes with its block: dropped with it, kept with it, and nothing that stood between is kept for its sake.
#[test]
fn counts_shrink_with_their_block() {
    let (open, block) = ("open 2 45fa0000 43dc0000 1 1 0 11 32 1024\n", "block 1 0\np 42700000\nx\ny\na 00000000\n");
    let calls = format!("scenario a\n{open}counts 0\nstart 0\n{block}counts 1\ncursor 5\n{block}{block}dump\n");
    for (test, from, to, small) in [
        ("shrunk_count", "c 1", "c 9", format!("{block}= ok 0 1\no 00000000\nc 9\n")),
        ("shrunk_refusal", "= refused 10", "= refused 9", format!("counts 0\n{block}= refused 9\n")),
    ] {
        let spoilt = compare(&["run"], calls.as_bytes()).out.replace(&format!("\n{from}\n"), &format!("\n{to}\n"));
        let answering = format!("'{}' run | sed 's/^{from}$/{to}/'", env!("CARGO_BIN_EXE_compare"));
        let oracle = script(test, &spoilt, &leaves(), "exit 0", &answering);
        fails(&scale_of(&oracle, 1), &format!("with the Rust's answers:\nscenario a\n{open}= ok 0\n{small}and with ours:\n"));
    }
}

/// A `scratch` line goes with its audition, and a `counts` line before it.
#[test]
fn scratches_shrink_with_their_audition() {
    let (open, block) = ("open 2 45fa0000 43dc0000 1 1 0 11 32 1024\n", "block 1 0\np 42700000\nx\ny\na 00000000\n");
    let audition = block.replace("block", "audition");
    let (short, right) = (format!("scratch 10 32 1024\nstart 0\n{block}{audition}"), format!("scratch 11 32 1024\ncursor 5\n{audition}"));
    let calls = format!("scenario a\n{open}{short}counts 2\n{right}{audition}{block}dump\n");
    for (test, from, to, small) in [
        ("shrunk_scratch", "= refused 14", "= refused 13", format!("scratch 10 32 1024\n{audition}= refused 13\n")),
        ("shrunk_audition", "= refused 10", "= refused 9", format!("counts 2\nscratch 11 32 1024\n{audition}= refused 9\n")),
    ] {
        let spoilt = compare(&["run"], calls.as_bytes()).out.replace(&format!("\n{from}\n"), &format!("\n{to}\n"));
        let answering = format!("'{}' run | sed 's/^{from}$/{to}/'", env!("CARGO_BIN_EXE_compare"));
        let oracle = script(test, &spoilt, &leaves(), "exit 0", &answering);
        fails(&scale_of(&oracle, 1), &format!("with the Rust's answers:\nscenario a\n{open}= ok 0\n{small}and with ours:\n"));
    }
}

/// Of a bank that is parked, changed and restored, the lines that the difference needs are left: the file's edits among them.
#[test]
fn parked_banks_shrink() {
    let open = "open 2 45fa0000 43dc0000 1 1 0 11 32 1024\n";
    let block = "block 1 0\np 42700000\nx\ny\na 00000000\n";
    let calls = format!("scenario a\n{open}start 0\npark 6656\n{block}swap 0 3\nword 3 1 0000000d\nmend 3\nrestore 11 32 1024\n{block}dump\n");
    let spoilt = compare(&["run"], calls.as_bytes()).out.replace("\n= refused 5\n", "\n= refused 4\n");
    let answering = format!("'{}' run | sed 's/^= refused 5$/= refused 4/'", env!("CARGO_BIN_EXE_compare"));
    let oracle = script("shrunk_parked", &spoilt, &leaves(), "exit 0", &answering);
    let small = "park 6656\n= ok\nh 00000680 35a9d4a8\nswap 0 3\nword 3 1 0000000d\nmend 3\nrestore 11 32 1024\n= refused 4\n";
    fails(&scale_of(&oracle, 1), &format!("with the Rust's answers:\nscenario a\n{open}= ok 0\n{small}and with ours:\n"));
}

#[test]
fn a_wrong_command_line_is_a_usage_error() {
    for args in [&["scale"][..], &["scale", "/bin/true", "10"], &["scale", "/bin/true", "--seed"], &["scale", "/bin/true", "--seed", "-1"],
        &["scale", "/bin/true", "--samples", "0"], &["scale", "/bin/true", "--samples", "18446744073709551616"], &["scale", "/bin/true", "--other"]] {
        let e = compare(args, b"");
        assert_eq!((e.status, e.out.as_str()), (Some(2), ""), "{args:?}");
        assert!(e.err.contains("usage: compare scale"), "{}", e.err);
    }
    assert_eq!(compare(&["scale", "--help"], b"").status, Some(0));
}
