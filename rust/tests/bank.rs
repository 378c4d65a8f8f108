//! What the declarations cannot say: that each argument arrives where it is meant to.
use sentivolus::*;

fn setup() -> Setup {
    Setup::new(Structure::DjSweep, 48000.0, 1, 1)
}

/// A major chord, for the chord comb; the other structures ignore it.
fn major() -> Chord {
    Chord::new(&[0.0, 4.0 / 12.0, 7.0 / 12.0])
}

fn lists(s: &Setup) -> (Vec<f32>, Vec<f32>, Vec<f32>) {
    let [t, r, d] = s.lengths().unwrap();
    (vec![0.5; t], vec![0.5; r], vec![0.5; d])
}

#[test]
fn impulse_of_document_01() {
    let s = setup();
    let (mut t, mut r, mut d) = lists(&s);
    assert_eq!(open(&s, &mut t, &mut r, &mut d), Ok(0));
    let mut audio = [1.0, 0.0, 0.0];
    let b = Block { frames: 3, pitch: &[69.0; 3], steering: None };
    let mut counts = [7];
    assert_eq!(block(&s, 7, &t, &mut r, &mut d, b, &mut audio, &mut counts), Ok((7, 3)));
    assert_eq!((audio.map(f32::to_bits), counts), ([0x3f80_0000, 0, 0], [0]));
}

#[test]
fn each_refusal_of_the_setup() {
    let good = setup();
    let huge = usize::MAX;
    let cases = [
        (Refusal::Rate, Setup { rate: f32::NAN, ..good }),
        (Refusal::Rate, Setup { rate: 7999.9995, ..good }),
        (Refusal::Rate, Setup { rate: 384_000.03, ..good }),
        (Refusal::Tuning, Setup { reference: 0.99999994, ..good }),
        (Refusal::Tuning, Setup { reference: f32::INFINITY, ..good }),
        (Refusal::Polyphony, Setup { voices: 0, ..good }),
        (Refusal::Polyphony, Setup { voices: 17, ..good }),
        (Refusal::Polyphony, Setup { voices: huge, ..good }),
        (Refusal::Layout, Setup { channels: 0, ..good }),
        (Refusal::Layout, Setup { channels: huge, ..good }),
        (Refusal::Structure, Setup { code: 0, ..good }),
        (Refusal::Structure, Setup { code: 14, ..good }),
        (Refusal::Structure, Setup { code: u32::MAX, ..good }),
        (Refusal::Chord, Setup { code: 13, ..good }),
        (Refusal::Chord, Setup { code: 13, chord: Chord { count: 9, ..major() }, ..good }),
    ];
    for (refusal, s) in cases {
        let (mut t, mut r, mut d) = lists(&good);
        assert_eq!(open(&s, &mut t, &mut r, &mut d), Err(refusal));
        assert!(t.iter().chain(&r).chain(&d).all(|&x| x == 0.5));
        assert_eq!((s.refusal(), s.lengths(), s.slots()), (Some(refusal), Err(refusal), Err(refusal)));
        assert_eq!(Bank::open(s).err(), Some(refusal));
    }
}

#[test]
fn each_refusal_of_the_calls() {
    let s = setup();
    let (mut t, mut r, mut d) = lists(&s);
    open(&s, &mut t, &mut r, &mut d).unwrap();
    let p = VoiceParams::default();
    assert_eq!(set(&s, 9, &mut t[..TARGETS - 1], 0, &p), Err(Refusal::Store));
    assert_eq!(set(&s, 9, &mut t, usize::MAX, &p), Err(Refusal::Voice));
    assert_eq!(set(&s, 9, &mut t, 0, &VoiceParams { mix: f32::NAN, ..p }), Err(Refusal::Knob));
    assert_eq!(set(&s, 9, &mut t, 0, &p), Ok(9));
    assert_eq!(start(&s, 9, &t, &mut r[..RECORD - 1], &mut d, 0), Err(Refusal::Store));
    assert_eq!(start(&s, 9, &t, &mut r, &mut d, 1), Err(Refusal::Voice));
    assert_eq!(start(&s, 9, &t, &mut r, &mut d, 0), Ok(9));
    let (mut audio, mut counts) = ([0.25; 2], [7; 2]);
    for (refusal, frames, pitch, steered, x, y, slots) in [
        (Refusal::Frames, 0, 2, false, 0, 0, 1),
        (Refusal::Frames, 4097, 2, false, 0, 0, 0),
        (Refusal::Frames, usize::MAX, 2, false, 0, 0, 1),
        (Refusal::Buffer, 2, 1, false, 0, 0, 1),
        (Refusal::Buffer, 2, 2, true, 1, 2, 1),
        (Refusal::Buffer, 2, 2, true, 2, 1, 1),
        (Refusal::Buffer, 2, 2, false, 2, 2, 1),
        (Refusal::Buffer, 1, 1, false, 0, 0, 1),
        (Refusal::Buffer, 2, 2, false, 0, 0, 0),
        (Refusal::Buffer, 2, 2, false, 0, 0, 2),
    ] {
        let l = [200.0f32; 2];
        let a = block_marked(&s, 9, &t, &mut r, &mut d, frames, &l[..pitch], steered, &l[..x], &l[..y], &mut audio, &mut counts[..slots]);
        assert_eq!(a, Err(refusal));
        assert_eq!((audio, counts), ([0.25; 2], [7; 2]));
    }
}

#[test]
fn combs_move_the_cursor_and_their_rings() {
    for structure in [Structure::Comb2, Structure::ChordComb] {
        let s = Setup { chord: major(), ..Setup::new(structure, 48000.0, 1, 2) };
        let (mut t, mut r, mut d) = lists(&s);
        open(&s, &mut t, &mut r, &mut d).unwrap();
        let mut audio = [1.0, -1.0];
        let b = Block { frames: 1, pitch: &[69.0], steering: Some((&[0.0], &[0.0])) };
        assert_eq!(block(&s, usize::MAX, &t, &mut r, &mut d, b, &mut audio, &mut [7; 2]), Ok((0, 1)));
        let ring = ring_len(48000.0);
        let written: Vec<usize> = d.iter().enumerate().filter(|(_, &v)| v != 0.0).map(|(i, _)| i).collect();
        assert_eq!(written, [ring - 1, 2 * ring - 1]);
    }
}

#[test]
fn section_refuses_a_ninth_point() {
    let d = Design::default();
    assert!(section(&d, 7, 0.0, 0.0, 0.0).is_ok());
    assert_eq!(section(&d, 8, 0.0, 0.0, 0.0), Err(Refusal::Point));
    assert_eq!(table(&d).active, 0);
}

#[test]
fn refusals_have_numbers_and_words() {
    for n in 1..=16 {
        assert_eq!(Refusal::from_number(n).unwrap().number(), n);
    }
    assert_eq!((Refusal::from_number(0), Refusal::from_number(17)), (None, None));
    let error: Box<dyn std::error::Error> = Box::new(Refusal::Polyphony);
    assert_eq!((error.to_string(), Refusal::Knob.word()), ("refused 3, polyphony: voices not 1 to 16".into(), "knob"));
    assert_eq!([Refusal::Damaged, Refusal::Blocks, Refusal::Scratch, Refusal::Unparkable, Refusal::Chord].map(Refusal::word),
        ["damaged", "blocks", "scratch", "unparkable", "chord"]);
}

#[test]
fn defaults_are_the_archives() {
    assert_eq!(VoiceParams::default(), VoiceParams::from_array([0.1, 0.0, 0.0, 0.0, 0.0, 1.0, 1.0, 0.0, 0.0, 0.0]));
    let bank = Bank::open(setup()).unwrap();
    assert_eq!(bank.targets(), targets_of(&VoiceParams::default()));
    assert_eq!(version(), 1000);
}

#[test]
fn a_bank_does_what_the_free_calls_do() {
    let s = Setup::new(Structure::Comb2, 44100.0, 3, 2);
    let p = VoiceParams { resonance: 0.7, character: 0.4, morph_y: 0.2, ..VoiceParams::default() };
    let (mut t, mut r, mut d) = lists(&s);
    let mut bank = Bank::open(s).unwrap();
    open(&s, &mut t, &mut r, &mut d).unwrap();
    bank.set(2, &p).unwrap();
    set(&s, 0, &mut t, 2, &p).unwrap();
    bank.start(2).unwrap();
    start(&s, 0, &t, &mut r, &mut d, 2).unwrap();
    let (mut ours, mut theirs, mut counts) = ([0.25; 30], [0.25; 30], [7; 6]);
    let pitch: Vec<f32> = (0..15).map(|i| 60.0 + 10.0 * i as f32).collect();
    let b = Block { frames: 5, pitch: &pitch, steering: None };
    assert_eq!(bank.counts(), [0; 6]);
    assert_eq!(bank.block(b, &mut ours), Ok(5));
    assert_eq!(block(&s, 0, &t, &mut r, &mut d, b, &mut theirs, &mut counts), Ok((5, 5)));
    assert_eq!(bank.block(Block { frames: 6, ..b }, &mut ours), Err(Refusal::Buffer));
    assert_eq!((ours, bank.targets(), bank.records(), bank.delay(), bank.cursor()), (theirs, &t[..], &r[..], &d[..], 5));
    assert_eq!((bank.counts(), counts), (&[4, 4, 6, 4, 4, 6][..], [4, 4, 6, 4, 4, 6]));
}

/// The ceiling is near pitch 98: voice 0 is over it in three frames of five, voice 1 on the right alone, but for the highest of PoleZero's sections.
#[test]
fn counts_of_every_structure() {
    let mut design = Design::default();
    for i in 0..8 {
        design.put(0, i, Point { kind: PointKind::LowPass, frequency: 90.0 * (i + 1) as f32, q: 1.0 });
    }
    let pitch = [200.0, 110.0, 20.0, 110.0, 200.0, 110.0, 20.0, 110.0, 200.0, 110.0];
    for code in 1..=13 {
        let each = match code { 8 => 8, 9 => 2, 13 => 3, _ => 1 };
        let s = Setup { code, reference: 4400.0, table: table(&design), chord: major(), ..Setup::new(Structure::K35, 48000.0, 2, 2) };
        let mut bank = Bank::open(s).unwrap();
        bank.set(1, &VoiceParams { stereo_offset: 20.0, ..VoiceParams::default() }).unwrap();
        bank.start(1).unwrap();
        for _ in 0..2 {
            bank.block(Block { frames: 5, pitch: &pitch, steering: None }, &mut [0.5; 20]).unwrap();
            assert_eq!(bank.counts(), [3 * each, if code == 8 { 5 } else { 0 }, 3 * each, 5 * each], "code {code}");
        }
    }
}

#[test]
fn over_is_above_the_cap() {
    let cap = ratio_of(1000.0, 1.0);
    assert_eq!([137.0, 138.0, f32::NAN, f32::INFINITY, f32::NEG_INFINITY].map(|p| over(p, 440.0 / 48000.0)), [false, true, false, true, false]);
    assert_eq!([cap, f32::from_bits(cap.to_bits() + 1), f32::NAN, f32::INFINITY].map(|r| over(69.0, r)), [false, true, false, true]);
}

#[test]
fn zeros_in_order() {
    let bits = |zeros: [f32; 4]| zeros.map(f32::to_bits);
    let pairs = [(0.0, 0.0), (0.0, -0.0), (-0.0, 0.0), (-0.0, -0.0)];
    assert_eq!(bits(pairs.map(|(a, b)| max(a, b))), bits([0.0, 0.0, 0.0, -0.0]));
    assert_eq!(bits(pairs.map(|(a, b)| min(a, b))), bits([0.0, -0.0, -0.0, -0.0]));
    assert_eq!(bits([max(f32::NAN, -0.0), max(-0.0, f32::NAN), min(f32::NAN, 0.0), min(0.0, f32::NAN)]), bits([-0.0, -0.0, 0.0, 0.0]));
    let t = targets_of(&VoiceParams { resonance: -0.0, level: -0.0, ..VoiceParams::default() });
    assert_eq!([t[0].to_bits(), t[6].to_bits()], [(-0.0f32).to_bits(), 0]);
}

#[test]
fn the_clip_is_as_near_as_it_says() {
    for x in (0..=u32::MAX).step_by(4093).map(f32::from_bits).filter(|x| x.is_finite()) {
        let v = f64::from(x.clamp(-3.0, 3.0));
        let off = f64::from(soft_clip(x)) - v * (v * v + 27.0) / (9.0 * v * v + 27.0);
        assert!(off.abs() < 3.37 / f64::from(1 << 24), "{:08x}", x.to_bits());
        assert_eq!(soft_clip(x).is_sign_negative(), x.is_sign_negative(), "{:08x}", x.to_bits());
    }
}

/// Each slot's peak by its bits, of two voices in stereo.
fn peaks(bank: &Bank) -> [u32; 4] {
    [(0, 0), (0, 1), (1, 0), (1, 1)].map(|(channel, voice)| bank.peak(channel, voice).unwrap().to_bits())
}

/// Noise from -0.5 to 0.5.
fn noise(n: usize) -> Vec<f32> {
    (0..n).map(|i| (i * 7919 % 1009) as f32 / 1009.0 - 0.5).collect()
}

/// The peaks are of the samples handed back, go on over blocks and sets, and a start clears those of its voice alone.
#[test]
fn peaks_of_every_structure() {
    for code in 1..=13 {
        let mut bank = Bank::open(Setup { code, chord: major(), ..Setup::new(Structure::K35, 48000.0, 2, 2) }).unwrap();
        let mut greatest = [0.0f32; 4];
        for frames in [5, 1, 64] {
            let level = 8.0 / frames as f32;
            bank.set(1, &VoiceParams { resonance: 0.6, drive: 0.5, mix: 0.75, level, ..VoiceParams::default() }).unwrap();
            assert_eq!(peaks(&bank), greatest.map(f32::to_bits), "code {code}, a set");
            let mut audio = noise(4 * frames);
            bank.block(Block { frames, pitch: &vec![60.0; 2 * frames], steering: None }, &mut audio).unwrap();
            audio.iter().enumerate().for_each(|(i, x)| greatest[i % 4] = greatest[i % 4].max(x.abs()));
            assert_eq!(peaks(&bank), greatest.map(f32::to_bits), "code {code}, {frames} frames");
        }
        assert!(greatest.iter().all(|p| *p > 0.0), "code {code}");
        bank.start(1).unwrap();
        assert_eq!(peaks(&bank), [greatest[0], 0.0, greatest[2], 0.0].map(f32::to_bits), "code {code}, a start");
        assert_eq!([bank.peak(2, 0), bank.peak(0, 2), bank.peak(usize::MAX, 0), bank.peak(0, usize::MAX)], [None; 4]);
    }
}

/// The peak is of the sample after level: a NaN leaves it, an infinite one of either sign makes it infinite. A forged peak goes by the same rule. At level
/// 0 a negative input gives a sample of -0.
#[test]
fn peaks_from_any_before() {
    let s = Setup::new(Structure::PoleZero, 48000.0, 1, 1); // passes its input
    let (mut t, mut r, mut d) = lists(&s);
    open(&s, &mut t, &mut r, &mut d).unwrap();
    let (nan, inf, signalling) = (f32::NAN, f32::INFINITY, f32::from_bits(0xff80_0001));
    for (before, level, input, after) in [(0.0, 2.0, 0.25, 0.5), (0.0, 2.0, -0.25, 0.5), (0.5, 2.0, 0.125, 0.5), (0.5, 2.0, nan, 0.5), (0.5, 2.0, 3e38, inf),
        (0.5, 2.0, -3e38, inf), (inf, 2.0, nan, inf), (inf, 2.0, 1.0, inf), (7.0, 2.0, 0.25, 7.0), (nan, 2.0, 0.25, 0.5), (signalling, 2.0, 0.25, 0.5),
        (nan, 2.0, nan, nan), (nan, 0.0, -1.0, 0.0), (-0.0, 2.0, 0.0, 0.0), (-0.0, 2.0, nan, -0.0), (-0.0, 0.0, -1.0, 0.0), (-7.0, 2.0, -0.25, 0.5),
        (-7.0, 0.0, -1.0, 0.0), (-inf, 2.0, 0.25, 0.5)] {
        set(&s, 0, &mut t, 0, &VoiceParams { level, ..VoiceParams::default() }).unwrap();
        start(&s, 0, &t, &mut r, &mut d, 0).unwrap();
        r[PEAK] = before;
        block(&s, 0, &t, &mut r, &mut d, Block { frames: 1, pitch: &[69.0], steering: None }, &mut [input], &mut [0]).unwrap();
        assert!(r[PEAK].to_bits() == after.to_bits() || r[PEAK].is_nan() && after.is_nan(), "{before}, {input} at level {level}: {}", r[PEAK]);
    }
}

/// With no filtered sound in the mix the sample is the input at its level.
#[test]
fn a_peak_is_after_the_mix() {
    for code in 1..=13 {
        let mut bank = Bank::open(Setup { code, chord: major(), ..setup() }).unwrap();
        bank.set(0, &VoiceParams { mix: 0.0, level: 0.25, ..VoiceParams::default() }).unwrap();
        bank.start(0).unwrap();
        bank.block(Block { frames: 4, pitch: &[69.0; 4], steering: None }, &mut [0.5, -1.0, 0.75, 0.0]).unwrap();
        assert_eq!(bank.peak(0, 0).map(f32::to_bits), Some(0.25f32.to_bits()), "code {code}");
    }
}

/// A voice's peaks alone are those in company, wherever its frames are cut into blocks.
#[test]
fn a_lone_voice_has_its_peaks_in_company() {
    let s = Setup::new(Structure::Comb2, 8000.0, 2, 2);
    let p = VoiceParams { resonance: 0.9, character: 0.3, stereo_offset: 5.0, ..VoiceParams::default() };
    let (mut company, mut alone) = (Bank::open(s).unwrap(), Bank::open(Setup { voices: 1, ..s }).unwrap());
    for (bank, voice) in [(&mut company, 1), (&mut alone, 0)] {
        bank.set(voice, &p).unwrap();
        bank.start(voice).unwrap();
    }
    let audio = noise(4 * 200);
    let mut own: Vec<f32> = audio.iter().skip(1).step_by(2).copied().collect();
    company.block(Block { frames: 200, pitch: &[80.0; 400], steering: None }, &mut audio.clone()).unwrap();
    for (frames, part) in [(70, 0..140), (1, 140..142), (129, 142..400)] {
        alone.block(Block { frames, pitch: &vec![80.0; frames], steering: None }, &mut own[part]).unwrap();
    }
    let bits = |p: Option<f32>| p.unwrap().to_bits();
    assert_eq!([0, 1].map(|c| bits(alone.peak(c, 0))), [0, 1].map(|c| bits(company.peak(c, 1))));
    assert_ne!(bits(alone.peak(0, 0)), bits(alone.peak(1, 0)));
}

/// The bits of all that a bank has.
fn image(bank: &Bank) -> (Setup, Vec<u32>, usize, Vec<u32>) {
    let lists = [bank.targets(), bank.records(), bank.delay()].concat();
    (*bank.setup(), lists.iter().map(|x| x.to_bits()).collect(), bank.cursor(), bank.counts().to_vec())
}

/// A bank of two voices in stereo that has rendered a block, with a table of four sections, the reference such that a pitch of 80 is over the ceiling.
fn played(code: u32) -> Bank {
    let mut design = Design::default();
    for i in 0..16 {
        design.put(i / 4, i % 4, Point { kind: PointKind::Bell(6.0), frequency: 110.0 * (1 + i % 4 + i / 4) as f32, q: 2.0 });
    }
    let table = Table { gain: 0.75, ..table(&design) };
    let s = Setup { code, reference: 9000.0, clean: code > 6, table, chord: major(), ..Setup::new(Structure::K35, 8000.0, 2, 2) };
    let mut bank = Bank::open(s).unwrap();
    bank.set(1, &VoiceParams { resonance: 0.6, drive: 0.5, character: 0.3, stereo_offset: 3.0, mix: 0.75, ..VoiceParams::default() }).unwrap();
    bank.block(Block { frames: 50, pitch: &[40.0; 100], steering: None }, &mut noise(200)).unwrap();
    bank
}

/// An audition is the block on a copy: the bank stays, the scratch is the bank that the block leaves, whatever it was, and goes on as that.
#[test]
fn auditions_of_every_structure() {
    let pitch: Vec<f32> = (0..128).map(|i| 20.0 + (i % 67) as f32).collect();
    let (x, y): (Vec<f32>, Vec<f32>) = (0..128).map(|i| (0.125 * (i % 7) as f32, 0.25 * (i % 3) as f32)).unzip();
    for code in 1..=13 {
        for steering in [None, Some((&x[..], &y[..]))] {
            let mut bank = played(code);
            let before = image(&bank);
            let b = Block { frames: 64, pitch: &pitch, steering };
            let mut scratch = Bank::open(Setup { code: 14 - code, chord: Chord::new(&[0.0]), ..Setup::new(Structure::K35, 8000.0, 2, 2) }).unwrap();
            let (mut heard, mut audio) = (noise(256), noise(256));
            assert_eq!(bank.audition(b, &mut scratch, &mut heard), Ok(64), "code {code}");
            assert!(image(&bank) == before, "code {code}: the bank stays");
            assert_eq!(bank.block(b, &mut audio), Ok(64));
            assert!(heard == audio && heard != noise(256), "code {code}: the audio");
            assert!(image(&scratch) == image(&bank), "code {code}: the scratch");
            assert!(bank.counts()[0] > 0, "code {code}: something is counted");
            assert_eq!(bank.cursor(), if matches!(code, 9 | 13) { 114 } else { 0 });
            // the block is committed by taking the scratch
            let mut other = Bank::open(*bank.setup()).unwrap();
            scratch.audition(b, &mut other, &mut heard).unwrap();
            std::mem::swap(&mut scratch, &mut other);
            bank.block(b, &mut audio).unwrap();
            assert!(heard == audio && image(&scratch) == image(&bank), "code {code}: the next block");
        }
    }
}

/// The free call answers the copy's cursor, which wraps where the structure has a ring; numbers of any bits come to the scratch.
#[test]
fn an_audition_on_lent_lists() {
    for (structure, next) in [(Structure::Comb2, 0), (Structure::ChordComb, 0), (Structure::K35, usize::MAX)] {
        let s = Setup { chord: major(), ..Setup::new(structure, 48000.0, 1, 2) };
        let (mut t, mut r, mut d) = lists(&s);
        open(&s, &mut t, &mut r, &mut d).unwrap();
        (t[3], r[12], d[5], d[6]) = (f32::NAN, f32::from_bits(1), -0.0, f32::INFINITY);
        let (mut t2, mut r2, mut d2) = lists(&s);
        let b = Block { frames: 1, pitch: &[69.0], steering: Some((&[0.0], &[0.0])) };
        let (mut heard, mut counts) = ([1.0, -1.0], [7; 2]);
        let scratch = Scratch { targets: &mut t2, records: &mut r2, delay: &mut d2 };
        assert_eq!(audition(&s, usize::MAX, &t, &r, &d, b, scratch, &mut heard, &mut counts), Ok((next, 1)));
        let (mut audio, mut committed) = ([1.0, -1.0], [7; 2]);
        assert_eq!(block(&s, usize::MAX, &t, &mut r, &mut d, b, &mut audio, &mut committed), Ok((next, 1)));
        let bits = |list: &[f32]| list.iter().map(|x| if x.is_nan() { 0x7fc0_0000 } else { x.to_bits() }).collect::<Vec<u32>>();
        assert_eq!((bits(&heard), counts), (bits(&audio), committed));
        assert!(bits(&t2) == bits(&t) && bits(&r2) == bits(&r) && bits(&d2) == bits(&d));
    }
}

/// Every refusal of a block comes before that of the scratch, and none changes audio, counts or scratch.
#[test]
fn each_refusal_of_an_audition() {
    let good = setup();
    let (mut t, mut r, mut d) = lists(&good);
    open(&good, &mut t, &mut r, &mut d).unwrap();
    let refused = |refusal: Refusal, s: Setup, records: usize, frames: usize, [pitch, x, y, slots]: [usize; 4], steered: bool, wrong: [usize; 3]| {
        let (l, mut audio, mut counts) = ([200.0f32; 2], [0.25; 2], [7; 2]);
        let [mut t2, mut r2, mut d2] = wrong.map(|n| vec![0.125; n]);
        let scratch = Scratch { targets: &mut t2, records: &mut r2, delay: &mut d2 };
        let a = audition_marked(&s, 9, &t, &r[..records], &d, frames, &l[..pitch], steered, &l[..x], &l[..y], scratch, &mut audio, &mut counts[..slots]);
        assert_eq!(a, Err(refusal));
        assert!((audio, counts) == ([0.25; 2], [7; 2]) && t2.iter().chain(&r2).chain(&d2).all(|&x| x == 0.125), "{refusal}");
    };
    let [nt, nr, nd] = good.lengths().unwrap();
    for lengths in [[nt - 1, nr, nd], [nt + 1, nr, nd], [0, nr, nd], [nt, nr - 1, nd], [nt, nr + 1, nd], [nt, 0, nd], [nt, nr, nd - 1], [nt, nr, nd + 1],
        [nt, nr, 0], [0; 3]] {
        refused(Refusal::Rate, Setup { rate: f32::NAN, code: 14, ..good }, RECORD, 2, [2, 0, 0, 1], false, lengths);
        refused(Refusal::Tuning, Setup { reference: 0.0, ..good }, RECORD, 2, [2, 0, 0, 1], false, lengths);
        refused(Refusal::Polyphony, Setup { voices: usize::MAX, ..good }, RECORD, 2, [2, 0, 0, 1], false, lengths);
        refused(Refusal::Layout, Setup { channels: 3, ..good }, RECORD, 2, [2, 0, 0, 1], false, lengths);
        refused(Refusal::Structure, Setup { code: 0, ..good }, RECORD - 1, 2, [2, 0, 0, 1], false, lengths);
        refused(Refusal::Chord, Setup { code: 13, ..good }, RECORD - 1, 2, [2, 0, 0, 1], false, lengths);
        refused(Refusal::Store, good, RECORD - 1, 4097, [2, 0, 0, 1], false, lengths);
        refused(Refusal::Frames, good, RECORD, 0, [2, 0, 0, 1], false, lengths);
        refused(Refusal::Frames, good, RECORD, usize::MAX, [1, 0, 0, 0], false, lengths);
        refused(Refusal::Buffer, good, RECORD, 2, [1, 0, 0, 1], false, lengths);
        refused(Refusal::Buffer, good, RECORD, 2, [2, 1, 2, 1], true, lengths);
        refused(Refusal::Buffer, good, RECORD, 2, [2, 2, 1, 1], true, lengths);
        refused(Refusal::Buffer, good, RECORD, 2, [2, 2, 2, 1], false, lengths);
        refused(Refusal::Buffer, good, RECORD, 1, [1, 0, 0, 1], false, lengths);
        refused(Refusal::Buffer, good, RECORD, 2, [2, 0, 0, 0], false, lengths);
        refused(Refusal::Buffer, good, RECORD, 2, [2, 0, 0, 2], false, lengths);
        refused(Refusal::Scratch, good, RECORD, 2, [2, 0, 0, 1], false, lengths);
        refused(Refusal::Scratch, good, RECORD, 2, [2, 2, 2, 1], true, lengths);
    }
    refused(Refusal::Buffer, good, RECORD, 2, [2, 0, 0, 2], false, [nt, nr, nd]);
}

/// A scratch with lists of another length stays as it was: of more or fewer slots, whose counts are not measured, or of another rate.
#[test]
fn a_scratch_of_another_length() {
    let bank = played(9);
    let b = Block { frames: 1, pitch: &[60.0; 2], steering: None };
    for s in [Setup { voices: 1, ..*bank.setup() }, Setup { voices: 4, channels: 1, ..*bank.setup() }, Setup { voices: 16, ..*bank.setup() },
        Setup { channels: 1, ..*bank.setup() }, Setup { rate: 48000.0, ..*bank.setup() }] {
        let mut scratch = Bank::open(s).unwrap();
        let (before, mut audio) = (image(&scratch), [0.5; 4]);
        assert_eq!(bank.audition(b, &mut scratch, &mut audio), Err(Refusal::Scratch));
        assert_eq!(bank.audition(Block { frames: 2, ..b }, &mut scratch, &mut audio), Err(Refusal::Buffer));
        assert!(image(&scratch) == before && audio == [0.5; 4]);
    }
}

#[test]
fn each_setting_arrives() {
    let p = VoiceParams::from_array([0.25, 0.5, 0.0, 0.125, 3.0, 0.75, 2.0, 0.375, 1.0, 0.625]);
    let t = targets_of(&p);
    assert_eq!([t[0], t[1], t[4], t[5], t[6], t[7], t[8], t[9], t[TARGET_Z]], [0.25, 0.5, 3.0, 0.75, 2.0, 0.125, 0.375, 1.0, 0.625]);
    let mut bank = Bank::open(Setup::new(Structure::PoleZero, 8000.0, 2, 1)).unwrap();
    bank.set(1, &p).unwrap();
    assert_eq!(bank.targets()[TARGETS..], t);
}
