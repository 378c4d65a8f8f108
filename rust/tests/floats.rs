//! The same bits in every float environment, and the caller's comes back.
use sentivolus::*;
use std::arch::asm;

fn mxcsr() -> u32 {
    let mut value = 0u32;
    // SAFETY: writes `value` alone.
    unsafe { asm!("stmxcsr [{}]", in(reg) &mut value) };
    value
}

/// # Safety
/// No float arithmetic of Rust's runs until the default is back.
unsafe fn put_mxcsr(value: u32) {
    asm!("ldmxcsr [{}]", in(reg) &value);
}

const DEFAULT: u32 = 0x1f80;
/// FTZ and DAZ; rounding down, up and to zero; every exception trapped; all of it.
const MODES: [u32; 6] = [0x9fc0, 0x3f80, 0x5f80, 0x7f80, 0x0000, 0xe040];

fn bells(three_axes: bool) -> Design {
    let mut d = Design { three_axes, ..Design::default() };
    for i in 0..if three_axes { 64 } else { 32 } {
        d.put(i / 8, i % 8, Point { kind: PointKind::Bell(3.0), frequency: 90.0 * (1 + i / 8 + i % 8) as f32, q: 2.0 });
    }
    d
}

/// Noise, loud for voice 0 and about the smallest normal number for voice 1.
fn noise(n: usize) -> Vec<f32> {
    let mut x = 1u32;
    (0..n).map(|i| {
        x = x.wrapping_mul(1664525).wrapping_add(1013904223);
        let loud = (x as i32) as f32 * 2f32.powi(-32);
        if i % 2 == 0 { loud } else { loud * 2f32.powi(-124) }
    }).collect()
}

/// A sitting whose every call is made in the float environment of `mode`: the bits of all that it leaves. With three axes, or a chord, the bank is not
/// parked.
fn sitting(code: u32, three_axes: bool, mode: u32) -> Vec<u32> {
    let design = bells(three_axes);
    let p = VoiceParams::from_array([0.7, 0.4, 0.3, 0.35, 1.7, 0.9, 1.0, 0.0, 0.0, if three_axes { 0.3 } else { 0.0 }]);
    let pitch: Vec<f32> = (0..512).map(|i| 60.0 + 3.0 * (i % 31) as f32).collect();
    let (mut audio, mut heard) = (noise(1024), noise(1024));
    let b = Block { frames: 256, pitch: &pitch, steering: None };
    let (mut bank, mut scratch, mut counts) = (None, None, vec![]);
    // SAFETY: between the two only calls of the wrapper are made, which put the default back for themselves.
    unsafe { put_mxcsr(mode) };
    let chord = if code == 13 { Chord::new(&[0.0, 0.001, 1.75]) } else { Chord::default() };
    let setup = Setup { code, table: table(&design), chord, ..Setup::new(Structure::PoleZero, 48000.0, 2, 2) };
    let answer = Bank::open(setup).and_then(|mut opened| {
        opened.set(1, &p)?;
        opened.start(1)?;
        let mut copy = opened.clone();
        opened.audition(b, &mut copy, &mut heard)?;
        scratch = Some(copy);
        opened.block(b, &mut audio)?;
        counts = opened.counts().to_vec();
        bank = Some(if three_axes || code == 13 { opened } else { Bank::restore(&opened.park()?)? });
        Ok(())
    });
    let left = mxcsr();
    unsafe { put_mxcsr(DEFAULT) };
    assert_eq!((answer, left & !0x3f), (Ok(()), mode & !0x3f));
    let (bank, scratch) = (bank.unwrap(), scratch.unwrap());
    let lists = [&audio[..], bank.targets(), bank.records(), bank.delay(), &bank.setup().table.sections,
        &heard, scratch.targets(), scratch.records(), scratch.delay()];
    lists.concat().iter().map(|x| x.to_bits()).chain(counts).chain(scratch.counts().to_vec()).chain([bank.cursor() as u32]).collect()
}

#[test]
fn the_same_bits_in_every_float_environment() {
    for (code, three_axes) in (1..=13).map(|code| (code, false)).chain([(8, true)]) {
        let usual = sitting(code, three_axes, DEFAULT);
        for mode in MODES {
            assert!(sitting(code, three_axes, mode) == usual, "code {code}, three axes {three_axes}, MXCSR {mode:04x}");
        }
    }
}

#[test]
fn leaves_too() {
    let smallest = f32::from_bits(1);
    let (ring, chord) = (noise(1024), Chord::new(&[0.0, 0.001, 1.75]));
    for mode in MODES {
        // SAFETY: as above.
        unsafe { put_mxcsr(mode) };
        let (a, b, c, d) = (root(smallest), exp2(0.3), soft_clip(0.7), chord_read(&ring, 1024, 3, 0, 0.013, &chord));
        unsafe { put_mxcsr(DEFAULT) };
        assert_eq!([a, b, c].map(f32::to_bits), [root(smallest), exp2(0.3), soft_clip(0.7)].map(f32::to_bits), "MXCSR {mode:04x}");
        assert_eq!(d, chord_read(&ring, 1024, 3, 0, 0.013, &chord), "MXCSR {mode:04x}");
    }
}

/// Parking and restoring move signalling NaNs, subnormals and zeros in every float environment alike.
#[test]
fn parking_too() {
    let s = Setup::new(Structure::Comb2, 8000.0, 1, 1);
    let [t, r, d] = s.lengths().unwrap();
    let [mut nans, mut small, zeros] = [(t, 0x7f80_0001), (r, 1), (d, 0x8000_0000)].map(|(n, bits)| vec![f32::from_bits(bits); n]);
    (nans[TARGET_Z], small[RECORD_Z]) = (0.0, 0.0); // else it would not be parked
    let (mut usual, mut file) = (vec![0; park_len(&s)], vec![0; park_len(&s)]);
    park(&s, 5, &nans, &small, &zeros, &mut usual).unwrap();
    for mode in MODES {
        let [mut t, mut r, mut d] = [t, r, d].map(|n| vec![0.5; n]);
        // SAFETY: as above.
        unsafe { put_mxcsr(mode) };
        let parked = park(&s, 5, &nans, &small, &zeros, &mut file);
        let restored = restore(&file, &mut t, &mut r, &mut d);
        unsafe { put_mxcsr(DEFAULT) };
        assert_eq!((parked, restored), (Ok(5), Ok((s, 5))), "MXCSR {mode:04x}");
        assert!(file == usual && t[..TARGET_Z].iter().all(|x| x.is_nan()) && t[TARGET_Z].to_bits() == 0, "MXCSR {mode:04x}");
        assert!(r[..RECORD_Z].iter().all(|x| x.to_bits() == 1) && r[RECORD_Z].to_bits() == 0, "MXCSR {mode:04x}");
        assert!(d.iter().all(|x| x.to_bits() == 0x8000_0000), "MXCSR {mode:04x}");
    }
}
