//! `compare run`, `leaf`, `file` and `check`: files that cannot be read, and answers that differ.

mod common;

use common::{compare, stored, written, Ended};

const OPEN: &str = "open 2 45fa0000 43dc0000 1 1 0 11 32 1024\n";

/// The same bank opened and parked, with its answers.
const PARKED: &str = "open 2 45fa0000 43dc0000 1 1 0 11 32 1024\n= ok 0\npark 6656\n= ok\nh 00000680 35a9d4a8\n";

/// A file restored, and what it answers.
const RESTORE: &str = "restore 11 32 1024\n";
const RESTORED: &str =
    "= ok 0\ns 2 45fa0000 43dc0000 1 1 0 0 3f800000 chord 0 00000000 00000000 00000000 00000000 00000000 00000000 00000000 00000000\n";

/// A frame that is over the pitch ceiling there, and what it answers.
const BLOCK: &str = "block 1 0\np 42700000\nx\ny\na 00000000\n";
const ANSWER: &str = "= ok 0 1\no 00000000\nc 1\n";

/// A comb opened, with its answer; a frame of it auditioned, what that answers, and the scratch afterwards.
const COMB: &str = "open 9 45fa0000 43dc0000 1 1 0 11 32 1024\n= ok 0\n";
const AUDITION: &str = "audition 1 0\np 43480000\nx\ny\na 3f800000\n";
const HEARD: &str = "= ok 1 1\no 3f66e979\nc 2\n";
const COPY: &str = "t 3dcccccd 00000000 3f800000 3eaaaaab 00000000 3f800000*2 00000000*4\n\
    r 3dcccccd 00000000 3f800000 3eaaaaab 00000000 3f800000*2 00000000*23 3f66e979 00000000\nd 3f800000 00000000*1023\n";

/// Lines after a scenario's first line, and what is said about them.
const SCENARIOS: [(&str, &str); 67] = [
    ("nonsense", "line 2: expected a call, a preparation, an answer or a comment, found \"nonsense\""),
    ("a 3f800000", "line 2: expected a call, a preparation, an answer or a comment, found \"a\""),
    (" dump", "line 2: expected a call, a preparation, an answer or a comment, found \"\""),
    ("dump\r", "line 2: expected a call, a preparation, an answer or a comment, found \"dump\\r\""),
    ("dump 1", "line 2: expected the line's end, found \"1\""),
    ("open", "line 2: expected a whole number that fits 32 bits, found the line's end"),
    ("open 4294967298 45fa0000 43dc0000 1 1 0 11 32 1024", "line 2: expected a whole number that fits 32 bits, found \"4294967298\""),
    ("open -1 45fa0000 43dc0000 1 1 0 11 32 1024", "line 2: expected a whole number that fits 32 bits, found \"-1\""),
    ("open 2 45fa000 43dc0000 1 1 0 11 32 1024", "line 2: expected eight lower-case hexadecimal digits, found \"45fa000\""),
    ("open 2 45fa00000 43dc0000 1 1 0 11 32 1024", "line 2: expected eight lower-case hexadecimal digits, found \"45fa00000\""),
    ("open 2 45FA0000 43dc0000 1 1 0 11 32 1024", "line 2: expected eight lower-case hexadecimal digits, found \"45FA0000\""),
    ("open 2 45fa0000 +3dc0000 1 1 0 11 32 1024", "line 2: expected eight lower-case hexadecimal digits, found \"+3dc0000\""),
    ("open 2 45fa0000  43dc0000 1 1 0 11 32 1024", "line 2: expected eight lower-case hexadecimal digits, found \"\""),
    ("open 2 45fa0000 43dc0000 +1 1 0 11 32 1024", "line 2: expected a whole number below 2^64, found \"+1\""),
    ("open 2 45fa0000 43dc0000 1 18446744073709551616 0 11 32 1024", "line 2: expected a whole number below 2^64, found \"18446744073709551616\""),
    ("open 2 45fa0000 43dc0000 1 1 2 11 32 1024", "line 2: expected 0 or 1, found \"2\""),
    ("open 2 45fa0000 43dc0000 1 1 0 11 32 16777217", "line 2: expected a whole number, at most 16777216, found \"16777217\""),
    ("open 2 45fa0000 43dc0000 1 1 0 11 32 1024 0", "line 2: expected the line's end, found \"0\""),
    ("setup 2 45fa0000 43dc0000 1 1", "line 2: expected 0 or 1, found the line's end"),
    ("setup 2 45fa0000 43dc0000 1 1 0 ", "line 2: expected the line's end, found \"\""),
    ("lend 11 18446744073709551615 0", "line 2: expected a whole number, at most 16777216, found \"18446744073709551615\""),
    ("counts", "line 2: expected a whole number, at most 16777216, found the line's end"),
    ("counts -1", "line 2: expected a whole number, at most 16777216, found \"-1\""),
    ("counts 16777217", "line 2: expected a whole number, at most 16777216, found \"16777217\""),
    ("counts 1 1", "line 2: expected the line's end, found \"1\""),
    ("scratch", "line 2: expected a whole number, at most 16777216, found the line's end"),
    ("scratch 11 32", "line 2: expected a whole number, at most 16777216, found the line's end"),
    ("scratch 11 32 16777217", "line 2: expected a whole number, at most 16777216, found \"16777217\""),
    ("scratch 11 32 1024 0", "line 2: expected the line's end, found \"0\""),
    ("cursor 18446744073709551616", "line 2: expected a whole number below 2^64, found \"18446744073709551616\""),
    ("table 4294967296 3f800000", "line 2: expected a whole number that fits 32 bits, found \"4294967296\""),
    ("table 0 3f800000 00000000*161", "line 2: expected at most 160 numbers, found 161"),
    ("table3 0 3f800000 00000000*321", "line 2: expected at most 320 numbers, found 321"),
    ("table8 0 3f800000", "line 2: expected a call, a preparation, an answer or a comment, found \"table8\""),
    ("chord", "line 2: expected a whole number that fits 32 bits, found the line's end"),
    ("chord 4294967296", "line 2: expected a whole number that fits 32 bits, found \"4294967296\""),
    ("chord 2 00000000 3f800000", "line 2: expected eight lower-case hexadecimal digits, found the line's end"),
    ("chord 1 00000000*8", "line 2: expected eight lower-case hexadecimal digits, found \"00000000*8\""),
    ("chord 1 00000000 00000000 00000000 00000000 00000000 00000000 00000000 00000000 0", "line 2: expected the line's end, found \"0\""),
    ("poke x 0 3f800000", "line 2: expected t, r or d, found \"x\""),
    ("poke t 0 3f800000", "line 2: expected a list of at least 1 numbers, found one of 0"),
    ("poke t 18446744073709551615 3f800000*2", "line 2: expected a list of at least 18446744073709551615 numbers, found one of 0"),
    ("poke t 0 3f800000*0", "line 2: expected a count from 1 to 16777216 after the *, found \"3f800000*0\""),
    ("poke t 0 3f800000*16777217", "line 2: expected a count from 1 to 16777216 after the *, found \"3f800000*16777217\""),
    ("poke t 0 00000000*16777216 3f800000", "line 2: expected at most 16777216 numbers in a list, found more"),
    ("poke t 0 3f80000*2", "line 2: expected eight lower-case hexadecimal digits, found \"3f80000*2\""),
    ("set 0 00000000", "line 2: expected eight lower-case hexadecimal digits, found the line's end"),
    ("set 0 00000000 00000000 00000000 00000000 00000000 00000000 00000000 00000000 00000000",
        "line 2: expected eight lower-case hexadecimal digits, found the line's end"),
    ("block 1 0 1", "line 2: expected the line's end, found \"1\""),
    ("block 1 0\np 3f800000\nx", "line 5: expected the block's line y, found the file's end"),
    ("block 1 0\np 3f800000\ny", "line 4: expected the block's line x, found \"y\""),
    ("blockh 1 0\np 3f800000 3f8", "line 3: expected eight lower-case hexadecimal digits, found \"3f8\""),
    ("audition 1", "line 2: expected 0 or 1, found the line's end"),
    ("audition 1 0 1", "line 2: expected the line's end, found \"1\""),
    ("audition 1 0\np 3f800000\nx", "line 5: expected the audition's line y, found the file's end"),
    ("audition 1 0\nt 3f800000", "line 3: expected the audition's line p, found \"t\""),
    ("auditionh 1 0", "line 2: expected a call, a preparation, an answer or a comment, found \"auditionh\""),
    ("park", "line 2: expected a whole number, at most 16777216, found the line's end"),
    ("park 16777217", "line 2: expected a whole number, at most 16777216, found \"16777217\""),
    ("park 6656 2", "line 2: expected the line's end, found \"2\""),
    ("restore 11 32", "line 2: expected a whole number, at most 16777216, found the line's end"),
    ("restore 11 32 1024 1", "line 2: expected the line's end, found \"1\""),
    ("swap 0 0", "line 2: expected one of the file's 0 blocks, from 0, found \"0\""),
    ("byte 0 0", "line 2: expected one of the file's 0 bytes, from 0, found \"0\""),
    ("cut -1", "line 2: expected a whole number below 2^64, found \"-1\""),
    ("cut 0 0", "line 2: expected the line's end, found \"0\""),
    ("take", "line 2: expected a call, a preparation, an answer or a comment, found \"take\""),
];

/// Lines after a bank of one voice is parked, in the fifth line.
const EDITS: [(&str, &str); 9] = [
    ("swap 0 13", "line 6: expected one of the file's 13 blocks, from 0, found \"13\""),
    ("swap 0", "line 6: expected one of the file's 13 blocks, from 0, found the line's end"),
    ("drop -1", "line 6: expected one of the file's 13 blocks, from 0, found \"-1\""),
    ("twice 0 1", "line 6: expected the line's end, found \"1\""),
    ("byte 6656 0", "line 6: expected one of the file's 6656 bytes, from 0, found \"6656\""),
    ("byte 6655 256", "line 6: expected a whole number, at most 255, found \"256\""),
    ("word 12 128 00000000", "line 6: expected a whole number, at most 127, found \"128\""),
    ("word 12 127 0", "line 6: expected eight lower-case hexadecimal digits, found \"0\""),
    ("cut 6655\nmend 12", "line 7: expected one of the file's 12 blocks, from 0, found \"12\""),
];

const LEAVES: [(&str, &str); 17] = [
    ("sinh 3f800000 = 3f800000", "line 2: expected a leaf's name, found \"sinh\""),
    ("exp2 = 3f800000", "line 2: expected eight lower-case hexadecimal digits, found \"=\""),
    ("exp2 3f8 = 3f800000", "line 2: expected eight lower-case hexadecimal digits, found \"3f8\""),
    ("exp2 3f800000 3f800000 = 3f800000", "line 2: expected = and the answer, found \"3f800000\""),
    ("over 3f800000 = 0", "line 2: expected eight lower-case hexadecimal digits, found \"=\""),
    ("max 3f800000", "line 2: expected eight lower-case hexadecimal digits, found the line's end"),
    ("point 8 3f800000 3f800000 =", "line 2: expected a whole number, at most 7, found \"8\""),
    ("point 6 3f800000 3f800000 =", "line 2: expected eight lower-case hexadecimal digits, found \"=\""),
    ("section 0 3f800000 3f800000 =", "line 2: expected eight lower-case hexadecimal digits, found \"=\""),
    ("section 0 3f800000 3f800000 3f800000 00000000 =", "line 2: expected a whole number, at most 7, found \"=\""),
    ("section8 0 3f800000 3f800000 3f800000 00000000 8", "line 2: expected a whole number, at most 7, found \"8\""),
    ("table8 00000000", "line 2: expected a whole number, at most 7, found the line's end"),
    ("read 16777217 1024 0 0 3f800000 =", "line 2: expected a whole number, at most 16777216, found \"16777217\""),
    ("chord_read 1024 1024 0 0 3f000000 =", "line 2: expected a whole number, at most 8, found \"=\""),
    ("chord_read 1024 1024 0 0 3f000000 9 =", "line 2: expected a whole number, at most 8, found \"9\""),
    ("chord_read 1024 1024 0 0 3f000000 2 00000000 = 4", "line 2: expected eight lower-case hexadecimal digits, found \"=\""),
    ("chord_read 1024 1024 0 0 3f000000 1 00000000 3f800000 = 4", "line 2: expected = and the answer, found \"3f800000\""),
];

const IMAGE: &str = "image 9 45fa0000 43dc0000 1 1 0 0 0 3f800000 2 0";
const LISTS: &str = "n 00000000*320\nc 00000000*8\nt 3f000000*10 00000000\nr 00000000*32\nd 00000000*1024\n";

/// Lines of a case on parked files, after its first line.
const CASES: [(&str, &str); 21] = [
    ("nonsense", "line 2: expected a line of a case, an answer or a comment, found \"nonsense\""),
    ("stage 17", "line 2: expected stage 18, found \"17\""),
    ("stage 19", "line 2: expected stage 18, found \"19\""),
    ("image 4294967296", "line 2: expected a whole number that fits 32 bits, found \"4294967296\""),
    ("image 9 45fa0000 43dc0000 1 1 0 0 0 3f800000", "line 2: expected 2 or 3 axes, found the line's end"),
    ("image 9 45fa0000 43dc0000 1 1 0 0 0 3f800000 4 0", "line 2: expected 2 or 3 axes, found \"4\""),
    ("image 9 45fa0000 43dc0000 1 1 0 0 0 3f800000 2", "line 2: expected a whole number that fits 32 bits, found the line's end"),
    ("image 9 45fa0000 43dc0000 1 1 0 0 0 3f800000 2 0 0", "line 2: expected the line's end, found \"0\""),
    ("image 9 45fa0000 43dc0000 1 1 2 0 0 3f800000 2 0", "line 2: expected 0 or 1, found \"2\""),
    (IMAGE, "line 3: expected the image's line n, found the file's end"),
    ("bytes", "line 2: expected a whole number below 2^64, found the line's end"),
    ("bytes 512 0", "line 2: expected the line's end, found \"0\""),
    ("take 1", "line 2: expected the line's end, found \"1\""),
    ("file 3f8", "line 2: expected eight lower-case hexadecimal digits, found \"3f8\""),
    ("file 00000000*16777216 3f800000", "line 2: expected at most 16777216 numbers in a list, found more"),
    ("park 2 6656", "line 2: expected edition 1, found \"2\""),
    ("park 1 16777217", "line 2: expected a whole number, at most 16777216, found \"16777217\""),
    ("park 1 6656 1", "line 2: expected the line's end, found \"1\""),
    ("restore 11 32", "line 2: expected a whole number, at most 16777216, found the line's end"),
    ("restore 11 32 1024 1", "line 2: expected the line's end, found \"1\""),
    ("rewrite 6656", "line 2: expected a line of a case, an answer or a comment, found \"rewrite\""),
];

/// The same after an image's first line.
const IMAGES: [(&str, &str); 5] = [
    ("n 00000000*160", "line 3: expected 320 numbers, found 160"),
    ("t 00000000", "line 3: expected the image's line n, found \"t\""),
    ("n 00000000*320\nc 00000000*7", "line 4: expected 8 numbers, found 7"),
    ("n 00000000*320\nc 00000000*8\nt 0", "line 5: expected eight lower-case hexadecimal digits, found \"0\""),
    ("n 00000000*320\nc 00000000*8\nt\nr\npark 1 0", "line 7: expected the image's line d, found \"park\""),
];

fn malformed(e: &Ended, message: &str) {
    assert_eq!(e.err, format!("{message}\n"));
    assert_eq!((e.status, e.out.as_str()), (Some(2), ""));
}

#[test]
fn malformed_lines_are_named() {
    for (lines, message) in SCENARIOS { malformed(&compare(&["run"], format!("scenario a\n{lines}\n").as_bytes()), message); }
    for (lines, message) in EDITS { malformed(&compare(&["run"], format!("{PARKED}{lines}\n").as_bytes()), message); }
    for (lines, message) in CASES { malformed(&compare(&["file"], format!("case 0\n{lines}\n").as_bytes()), message); }
    for (lines, message) in IMAGES { malformed(&compare(&["file"], format!("case 0\n{IMAGE}\n{lines}\n").as_bytes()), message); }
    for (row, message) in LEAVES { malformed(&compare(&["leaf"], format!("# leaves\n{row}\n").as_bytes()), message); }
    malformed(&compare(&["run"], b"scenario a\n# \xff\n"), "line 2: expected text in UTF-8, found the byte ff");
    malformed(&compare(&["leaf"], b"\n\n\xc3("), "line 3: expected text in UTF-8, found the byte c3");
    malformed(&compare(&["run"], format!("{OPEN}poke d 1023 3f800000*2\n").as_bytes()), "line 2: expected a list of at least 1025 numbers, found one of 1024");
    malformed(&compare(&["run"], "x".repeat(100).as_bytes()),
        &format!("line 1: expected a call, a preparation, an answer or a comment, found \"{}\"..", "x".repeat(40)));
}

/// One byte changed at every place of a file, and the file cut there: it is read or refused.
#[test]
fn no_damage_ends_a_run() {
    let table = "table 1 3f800000 3f000000*20\ntable3 1 3f800000 3f000000*180\npoke r 30 3f800000\n";
    let chord = format!("chord 2{}\n", " 3f800000".repeat(8));
    let file = format!("{OPEN}{table}{chord}lend 10 32 1024\nset 0{}\ncounts 1\n{BLOCK}dump\n", " 3f800000".repeat(10));
    undamaged("run", &file);
    undamaged("run", &format!("{OPEN}lend 11 32 1024\ncounts 1\nscratch 11 32 1024\n{AUDITION}"));
    undamaged("run", &format!("{OPEN}park 6656\nswap 0 12\ntwice 3\ndrop 3\nbyte 6655 7\nword 12 127 00000000\nmend 12\n{RESTORE}cut 512\n"));
    undamaged("file", &format!("stage 18\ncase 0\n{IMAGE}\n{LISTS}park 1 6656\ntake\nbytes 6144\n{RESTORE}file 00000000*128\n"));
}

fn undamaged(kind: &str, file: &str) {
    assert_eq!(compare(&[kind], file.as_bytes()).status, Some(0));
    for at in 0..file.len() {
        for byte in [b' ', b'9', 0xff] {
            let mut damaged = file.as_bytes().to_vec();
            damaged[at] = byte;
            for bytes in [&damaged[..], &damaged[..at]] {
                let e = compare(&[kind], bytes);
                assert!(matches!(e.status, Some(0 | 2)) && e.err.lines().count() <= 1, "{:?}: {}", String::from_utf8_lossy(bytes), e.err);
            }
        }
    }
}

/// A set that is accepted at a lent length writes into the list as far as that goes.
#[test]
fn lent_lists_are_parts() {
    let e = compare(&["run"], format!("{}lend 11 0 0\nset 0{}\ndump\n", OPEN.replace(" 11 32 1024", " 3 0 0"), " 00000000".repeat(10)).as_bytes());
    assert_eq!((e.status, e.err.as_str()), (Some(0), ""));
    assert!(e.out.contains("= refused 6\nlend 11 0 0\n") && e.out.ends_with("\ndump\nt 00000000*2 3f800000\nr\nd\n"), "{}", e.out);
}

/// A `counts` line is for the next block, whatever stands between, and for no other.
#[test]
fn counts_are_lent_to_the_next_block() {
    let refused = "= refused 10\n";
    for (lines, first) in [("", ANSWER), ("counts 1\n", ANSWER), ("counts 0\n", refused), ("counts 2\n", refused), ("counts 16777216\n", refused),
        ("counts 0\ncounts 1\n", ANSWER), ("counts 1\ncounts 0\n", refused), ("counts 0\nlend 11 32 1024\nstart 0\ncursor 0\n", refused),
        (&format!("counts 0\n{OPEN}"), refused), (&format!("counts 0\nscenario b\n{OPEN}"), ANSWER)] {
        let e = compare(&["run"], format!("{OPEN}{lines}{BLOCK}{BLOCK}").as_bytes());
        assert_eq!((e.status, e.err.as_str()), (Some(0), ""), "{lines}");
        assert!(e.out.ends_with(&format!("{BLOCK}{first}{BLOCK}{ANSWER}")), "{lines}{}", e.out);
    }
}

/// A `scratch` line is for the next audition, whatever stands between, and for no other; so is a `counts` line, where no block comes first. The lengths of
/// the scratch are looked at last.
#[test]
fn scratches_are_lent_to_the_next_audition() {
    let refused = |n: u32| format!("= refused {n}\n");
    let accepted = || format!("{HEARD}{COPY}");
    let block = AUDITION.replace("audition", "block");
    for (lines, first) in [("", accepted()), ("scratch 11 32 1024\n", accepted()), ("scratch 10 32 1024\n", refused(14)), ("scratch 12 32 1024\n", refused(14)),
        ("scratch 11 31 1024\n", refused(14)), ("scratch 11 33 1024\n", refused(14)), ("scratch 11 32 1023\n", refused(14)),
        ("scratch 11 32 1025\n", refused(14)), ("scratch 0 0 0\n", refused(14)), ("scratch 11 32 16777216\n", refused(14)),
        ("scratch 0 0 0\nscratch 11 32 1024\n", accepted()), ("scratch 11 32 1024\nscratch 0 0 0\n", refused(14)),
        ("scratch 0 0 0\nlend 11 32 1024\nstart 0\ncursor 0\n", refused(14)), (&format!("scratch 0 0 0\n{block}cursor 0\nstart 0\n"), refused(14)),
        (&format!("scratch 0 0 0\n{COMB}"), refused(14)), (&format!("scratch 0 0 0\nscenario b\n{COMB}"), accepted()),
        ("counts 1\n", accepted()), ("counts 0\n", refused(10)), ("counts 2\nscratch 0 0 0\n", refused(10)), (&format!("counts 0\n{block}"), accepted()),
        ("scratch 0 0 0\nlend 11 32 1023\n", refused(6)), ("scratch 0 0 0\ncounts 0\nlend 10 32 1024\n", refused(6))] {
        let e = compare(&["run"], format!("{COMB}{lines}{AUDITION}{AUDITION}{block}").as_bytes());
        assert_eq!((e.status, e.err.as_str()), (Some(0), ""), "{lines}");
        assert!(e.out.ends_with(&format!("{AUDITION}{first}{AUDITION}{HEARD}{COPY}{block}{HEARD}")), "{lines}{}", e.out);
    }
}

/// The bank's lists and its cursor are after an audition what they were, and the block that is committed then leaves what the scratch held.
#[test]
fn an_audition_leaves_the_bank() {
    let opened = COPY.replace("00000000*23 3f66e979 00000000", "00000000*25").replace("d 3f800000 00000000*1023", "d 00000000*1024");
    let block = AUDITION.replace("audition", "block");
    let text = format!("{COMB}{AUDITION}{HEARD}{COPY}dump\n{opened}{AUDITION}{HEARD}{COPY}{block}{HEARD}dump\n{COPY}");
    let e = compare(&["run"], text.as_bytes());
    assert_eq!((e.status, e.out, e.err.as_str()), (Some(0), text, ""));
}

/// A `chord` line is for the setup from here on, until another or the scenario's end; structures but the chord comb ignore it.
#[test]
fn chords_are_the_setup_s() {
    let chord = |count: u32, second: &str| format!("chord {count} 00000000 {second}{}\n", " 7fc00000".repeat(6));
    let open = COMB.replace("open 9", "open 13").replace("= ok 0\n", "");
    let block = AUDITION.replace("audition", "block");
    for (lines, answer) in [
        (open.clone(), "= refused 16\n"),
        (format!("{}{open}", chord(2, "3f800000")), "= ok 1 1\no 3f66e979\nc 2\n"),
        (format!("{}{open}", chord(1, "7fc00000")), "= ok 1 1\no 3f66e979\nc 1\n"),
        (format!("{}{open}", chord(3, "3f800000")), "= refused 16\n"),
        (format!("{open}{}setup 13 45fa0000 43dc0000 1 1 0\nlend 11 32 1023\n", chord(2, "40000001")), "= refused 16\n"),
        (format!("{open}{}setup 13 45fa0000 43dc0000 1 1 0\nlend 11 32 1023\n", chord(2, "40000000")), "= refused 6\n"),
        (format!("{}scenario b\n{open}", chord(2, "3f800000")), "= refused 16\n"),
        (format!("{}setup 14 45fa0000 43dc0000 1 1 0\n", chord(9, "7fc00000")), "= refused 5\n"),
        (format!("{}{COMB}", chord(9, "7fc00000")), HEARD),
    ] {
        let e = compare(&["run"], format!("{lines}{block}").as_bytes());
        assert_eq!((e.status, e.err.as_str()), (Some(0), ""), "{lines}");
        assert!(e.out.ends_with(&format!("{block}{answer}")), "{lines}{}", e.out);
    }
}

/// Without these lines a setup whose slots have no number of 64 bits is refused as any other.
#[test]
fn counts_of_wrong_setups() {
    for (slots, refusal) in [("18446744073709551615 2", 3), ("9223372036854775808 2", 3), ("2 18446744073709551615", 4), ("0 0", 3)] {
        for call in [BLOCK, AUDITION] {
            let e = compare(&["run"], format!("{OPEN}setup 2 45fa0000 43dc0000 {slots} 0\n{call}").as_bytes());
            assert!(e.status == Some(0) && e.out.ends_with(&format!("\n= refused {refusal}\n")), "{slots}: {}{}", e.out, e.err);
        }
    }
}

/// Lines after a bank was parked, and what a restore then answers.
#[test]
fn files_are_edited() {
    let refused = |n: u32| format!("= refused {n}\n");
    let chord = |count: &str, offset: &str, rest: &str| format!("chord {count}{}\n{rest}", format!(" {offset}").repeat(8));
    for (lines, answer) in [
        ("", RESTORED.to_string()),
        ("swap 0 12\nswap 3 3\nswap 1 5\n", RESTORED.to_string()),
        ("drop 12\n", refused(13)),
        ("drop 0\n", refused(13)),
        ("twice 4\n", refused(13)),
        ("twice 0\ndrop 0\n", RESTORED.to_string()),
        ("byte 0 2\n", refused(12)),
        ("byte 0 1\n", RESTORED.to_string()),
        ("byte 6655 0\n", refused(12)),
        ("byte 6655 0\nmend 12\n", RESTORED.to_string()),
        ("word 0 1 00000009\n", refused(12)),
        ("word 0 1 00000009\nmend 0\n", RESTORED.replace("s 2", "s 9")),
        ("word 0 1 0000000d\nmend 0\n", refused(5)),
        ("word 0 4 00000002\nmend 0\n", refused(13)),
        ("word 0 7 00000005\nword 0 8 00000001\nmend 0\n", RESTORED.replace("ok 0", "ok 4294967301")),
        ("word 0 9 00000003\nmend 0\nword 1 44 ffffffff\nmend 1\n", RESTORED.replace("0 3f800000", "3 7fc00000")),
        ("cut 6655\n", refused(12)),
        ("cut 6144\n", refused(13)),
        ("cut 0\n", refused(13)),
        ("cut 6657\n", RESTORED.to_string()),
        ("setup 2 7fc00000 43dc0000 1 1 0\npark 6656\n= refused 1\n", RESTORED.to_string()),
        ("park 6655\n= refused 6\n", RESTORED.to_string()),
        ("lend 11 32 1023\npark 6656\n= refused 6\n", RESTORED.to_string()),
        ("restore 11 32 1025\n= refused 6\n", RESTORED.to_string()),
        ("table3 0 3f800000\npark 6656\n= refused 15\npark 6655\n= refused 6\n", RESTORED.to_string()),
        ("poke t 10 80000000\npark 6656\n= refused 15\n", RESTORED.to_string()),
        (&chord("3", "7fc00000", "park 6656\n= ok\nh 00000680 35a9d4a8\n"), RESTORED.to_string()),
        (&chord("1", "80000000", "setup 13 45fa0000 43dc0000 1 1 0\npark 6656\n= refused 15\npark 6655\n= refused 6\n"), RESTORED.to_string()),
        (&chord("9", "00000000", "setup 13 45fa0000 43dc0000 1 1 0\npark 6655\n= refused 16\n"), RESTORED.to_string()),
        ("poke r 31 00000001\npark 6656\n= refused 15\n", RESTORED.to_string()),
        ("scenario b\n", refused(13)),
    ] {
        let text = format!("{PARKED}{lines}{RESTORE}{answer}");
        let e = compare(&["run"], text.as_bytes());
        assert_eq!((e.status, e.out, e.err.as_str()), (Some(0), text, ""));
    }
}

/// A restore gives lists, setup, table and cursor back, and leaves a `lend` line to the next call that is lent the bank's lists.
#[test]
fn a_restored_bank_goes_on() {
    let dump = "dump\nt 3dcccccd 00000000 3f800000 3eaaaaab 00000000 3f800000*2 00000000*4\nr 3dcccccd 00000000 3f800000 3eaaaaab 00000000 3f800000*2 \
        00000000*25\nd 00000000*1024\n";
    let lists = "cursor 9\npoke t 0 3f800000*11\npoke r 0 3f800000*32\npoke d 0 3f800000*1024\n";
    let spoilt = format!("setup 5 45fa0000 42c80000 1 1 1\ntable3 8 00000000\nchord 2{}\n{lists}", " 3f800000".repeat(8));
    let again = "park 6656\n= ok\nh 00000680 35a9d4a8\n";
    let text = format!("{PARKED}{spoilt}{RESTORE}{RESTORED}{dump}{again}lend 10 32 1024\n{RESTORE}{RESTORED}start 0\n= refused 6\nstart 0\n= ok 0\n");
    let e = compare(&["run"], text.as_bytes());
    assert_eq!((e.status, e.out, e.err.as_str()), (Some(0), text, ""));
}

fn check(test: &str, kind: &str, text: &str) -> Ended {
    let path = written(test, "file", text).display().to_string();
    let mut e = compare(&["check", kind, &path], b"");
    for text in [&mut e.out, &mut e.err] { *text = text.replace(&path, "FILE"); }
    e
}

#[test]
fn the_repository_s_files_pass() {
    for (kind, path) in [("run", "crates/scenarios/stdin"), ("leaf", "crates/leaves/stdin"), ("file", "compare/tests/parked.txt")] {
        let text = stored(path);
        let replayed = compare(&[kind], text.as_bytes());
        assert!(replayed.status == Some(0) && replayed.out == text && replayed.err.is_empty());
        let e = check(kind, kind, &text);
        assert_eq!((e.status, e.out, e.err), (Some(0), format!("FILE: {} lines, 0 differences\n", text.lines().count()), String::new()));
    }
}

#[test]
fn differences_are_shown() {
    let start = format!("{OPEN}= ok 0\n");
    let targets = "t 3dcccccd 00000000 3f800000 3eaaaaab 00000000 3f800000*2 00000000*4";
    let record = " 3dcccccd 00000000 3f800000 3eaaaaab 00000000 3f800000*2 00000000";
    for (text, message) in [
        (format!("{OPEN}= ok 1\n"), "line 2\nfile: = ok 1\nours: = ok 0"),
        (OPEN.to_string(), "line 2\nfile: (no line)\nours: = ok 0"),
        (format!("{start}= ok 0\n"), "line 3\nfile: = ok 0\nours: (no line)"),
        (format!("{start}start 0\ndump\n"), "line 4\nfile: dump\nours: = ok 0"),
        (start.trim_end().to_string(), "line 2\nfile: no newline at the end\nours: a newline at the end"),
        (format!("{start}block 1 0\np\nx\ny\na\n= refused 9\n"), "line 8\nfile: = refused 9\nours: = refused 10"),
        (format!("{start}{BLOCK}= ok 0 1\no 00000000\nc 0\n"), "line 10\nfile: c 0\nours: c 1"),
        (format!("{start}{BLOCK}= ok 0 1\no 00000000\n"), "line 10\nfile: (no line)\nours: c 1"),
        (format!("{start}counts 2\n{BLOCK}= refused 10\nc 7 7\n"), "line 10\nfile: c 7 7\nours: (no line)"),
        (format!("{COMB}{AUDITION}{}{COPY}", HEARD.replace("ok 1", "ok 0")), "line 8\nfile: = ok 0 1\nours: = ok 1 1"),
        (format!("{COMB}{AUDITION}{HEARD}{}", COPY.replace("d 3f8", "d 3f0")), "line 13\nfile: d 3f000000 00000000*1023\nours: d 3f800000 00000000*1023"),
        (format!("{COMB}{AUDITION}{HEARD}"), &format!("line 11\nfile: (no line)\nours: {targets}")),
        (format!("{COMB}scratch 0 0 0\n{AUDITION}= refused 14\nt\nr\nd\n"), "line 10\nfile: t\nours: (no line)"),
        (format!("{start}dump\n{targets}\nr{record}*24\nd 00000000*1024\n"), &format!("line 5\nfile: r{record}*24\nours: r{record}*25")),
    ] {
        let e = check("differences", "run", &text);
        assert_eq!((e.status, e.out.as_str(), e.err), (Some(1), "", format!("FILE: differs at {message}\n")));
    }
    for (from, to) in [("= refused 12", "= refused 13"), ("nh 3f002201", "nh 3f002200"), ("h 00001600", "h 00001601"), ("t 3dcccccd", "t 3dccccce")] {
        let text = stored("compare/tests/parked.txt");
        let at = text.rfind(&format!("\n{from}")).expect("the answer") + 1;
        let (before, after) = text.split_at(at);
        let e = check("file_difference", "file", &format!("{before}{to}{}", &after[from.len()..]));
        let line = before.lines().count() + 1;
        assert!(e.status == Some(1) && e.err.starts_with(&format!("FILE: differs at line {line}\nfile: {to}")), "{}", e.err);
    }
    let teeth = "chord_read 1024 1024 0 0 3e800000 2 00000000 3dcccccd =";
    for (file, ours) in [("exp2 00000000 = 3f800001", "exp2 00000000 = 3f800000"), ("over 428a0000 3f000000 = 0", "over 428a0000 3f000000 = 1"),
        (&format!("{teeth} 8"), &format!("{teeth} 5 43cb8000 43d074a1"))] {
        let e = check("leaf_difference", "leaf", &format!("{file}\n"));
        assert_eq!((e.status, e.err), (Some(1), format!("FILE: differs at line 1\nfile: {file}\nours: {ours}\n")));
    }
}

/// Of a long line the words around the first that differs are shown.
#[test]
fn long_lines_are_cut() {
    let text = stored("crates/scenarios/stdin");
    let (number, line) = text.lines().enumerate().find(|(_, l)| l.starts_with("o ") && l.split(' ').count() > 60).expect("a long line");
    let words: Vec<&str> = line.split(' ').collect();
    let changed: Vec<&str> = words.iter().enumerate().map(|(i, w)| if i == 30 { "7fffffff" } else { w }).collect();
    let e = check("long_lines", "run", &text.replacen(line, &changed.join(" "), 1));
    let shown = |w: &[&str]| format!("o .. {} ..", w[27..34].join(" "));
    assert_eq!((e.status, e.err), (Some(1), format!("FILE: differs at line {}\nfile: {}\nours: {}\n", number + 1, shown(&changed), shown(&words))));
}

#[test]
fn files_without_an_answer_do_not_pass() {
    for (kind, text) in [("run", ""), ("run", "# nothing\n"), ("run", "scenario a\ncursor 5\n"), ("leaf", ""), ("leaf", "# nothing\n\n"),
        ("file", ""), ("file", "# nothing\nstage 18\n\ncase 0\nfile 00000000\n")] {
        let e = check("no_answer", kind, text);
        assert_eq!((e.status, e.out.as_str(), e.err.as_str()), (Some(1), "", "FILE: holds no answer, so nothing is compared\n"), "{text:?}");
    }
}

#[test]
fn a_malformed_file_is_no_difference() {
    malformed(&check("malformed", "run", "scenario a\nopen 4294967298\n"), "line 2: expected a whole number that fits 32 bits, found \"4294967298\"");
    malformed(&check("malformed", "file", "stage 18\ncase 0\npark 1\n"), "line 3: expected a whole number, at most 16777216, found the line's end");
    assert_eq!(compare(&["check", "run", "/nowhere/file"], b"").status, Some(2));
}

#[test]
fn a_wrong_command_line_is_a_usage_error() {
    for args in [&[][..], &["runs"], &["run", "file"], &["check"], &["check", "run"], &["check", "both", "file"]] {
        let e = compare(args, b"");
        assert!(e.status == Some(2) && e.out.is_empty() && e.err.contains("usage: compare "), "{args:?}: {}", e.err);
    }
    let e = compare(&["--help"], b"");
    assert!(e.status == Some(0) && e.out.starts_with("usage: compare ") && e.err.is_empty());
}
