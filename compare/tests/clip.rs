//! `compare clip`: how far soft_clip strays over a range of bits.

#[allow(dead_code)] // the files are for other tests
mod common;

use common::compare;

/// What it prints, without the line that has the time.
fn told(first: &str, last: &str) -> (Option<i32>, String) {
    let ended = compare(&["clip", first, last], b"");
    (ended.status, ended.out.lines().skip(1).collect::<Vec<_>>().join("\n"))
}

#[test]
fn largest_where_it_is() {
    let figures = "from 2 to 3: at most 3.3615 x 2^-24\nthe largest from 0.0625 on is 3.361540032476 x 2^-24, at ";
    let exactly = "exactly 241547898198949 / 1205549011249998594048";
    assert_eq!(told("40041000", "40042000"), (Some(0), format!("{figures}40041de7\n{exactly}")));
    assert_eq!(told("c0041de7", "c0041de7"), (Some(0), format!("{figures}c0041de7\n{exactly}")));
}

#[test]
fn no_difference_shows_beyond_3_and_near_0() {
    let beyond = "the largest from 0.0625 on is 0.000000000000 x 2^-24, at 40400000 40400001 40400002\nexactly 0 / 1";
    assert_eq!(told("40400000", "40400002"), (Some(0), beyond.into()));
    assert_eq!(told("80000000", "80000010"), (Some(0), String::new()));
}

#[test]
fn no_finite_input() {
    let ended = compare(&["clip", "7f800000", "7fc00000"], b"");
    assert_eq!((ended.status, ended.err.as_str()), (Some(1), "soft_clip strays too far or gives another sign, or no input is finite\n"));
}

#[test]
fn no_bits() {
    for args in [["clip", "40041", "40042"], ["clip", "40041000", "4004200G"], ["clip", "0x400000", "40042000"]] {
        let ended = compare(&args, b"");
        assert_eq!(ended.status, Some(2), "{args:?}");
        assert!(ended.err.starts_with(&format!("compare: {} {} are no bits", args[1], args[2])), "{}", ended.err);
    }
}
