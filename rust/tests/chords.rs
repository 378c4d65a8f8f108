//! The chord comb: its reading, its sound beside Comb2's, what of a chord is ignored, what is refused, and that it is not parked.
use sentivolus::*;

fn bits(numbers: &[f32]) -> Vec<u32> {
    numbers.iter().map(|x| if x.is_nan() { 0x7fc0_0000 } else { x.to_bits() }).collect()
}

/// Noise from -0.5 to 0.5.
fn noise(n: usize) -> Vec<f32> {
    (0..n).map(|i| (i * 7919 % 1009) as f32 / 1009.0 - 0.5).collect()
}

/// The first teeth near together, then over two octaves.
fn chords() -> Vec<Chord> {
    let near: Vec<f32> = (0..8).map(|i| 0.001 * i as f32).collect();
    let far: Vec<f32> = (0..8).map(|i| 2.0 * i as f32 / 7.0).collect();
    (1..=8).flat_map(|n| [Chord::new(&near[..n]), Chord::new(&far[..n])]).collect()
}

/// How many cells of a ring the teeth need: for each, from one step nearer than the whole part of its held delay to two farther.
fn needed(len: usize, ratio: f32, chord: &Chord) -> usize {
    let steps = chord.offsets[..chord.count as usize].iter().flat_map(|offset| {
        let delay = 1.0 / (ratio * exp2(*offset));
        let whole = if delay.is_nan() { 2 } else { delay.clamp(2.0, (len - 3) as f32) as usize };
        whole - 1..=whole + 2
    });
    steps.collect::<std::collections::BTreeSet<usize>>().len()
}

#[test]
fn each_tooth_is_a_single_read() {
    let cells: Vec<f32> = (0..4096).map(|i| (37 * i % 1009) as f32).collect();
    for (len, cursor, slot) in [(1024, 5, 3), (2048, usize::MAX, 1), (4096, 4095, 0)] {
        for ratio in [0.49, 0.3, 0.01, 0.0015, 1e-9, 0.0, -0.0, -1.0, 1.0, f32::INFINITY, f32::NAN] {
            for chord in chords() {
                let (size, taps) = chord_read(&cells, len, cursor, slot, ratio, &chord);
                for (j, (tap, offset)) in taps.iter().zip(chord.offsets).enumerate() {
                    let single = read(&cells, len, cursor, slot, 1.0 / (ratio * exp2(offset)));
                    let wanted = if j < chord.count as usize { single } else { 0.0 };
                    assert_eq!(bits(&[*tap]), bits(&[wanted]), "{len}, {ratio}, {chord:?}, tooth {j}");
                }
                assert_eq!(size, needed(len, ratio, &chord), "{len}, {ratio}, {chord:?}");
            }
        }
    }
}

/// Nothing is refused: offsets may hold any bits, a count above 8 reads 8, one of 0 none; a view that reads 0 gives 0.
#[test]
fn a_reading_of_any_numbers() {
    let cells = noise(1024);
    let any = Chord { count: 8, offsets: [f32::NAN, f32::INFINITY, f32::NEG_INFINITY, -1.0, 3.0, 100.0, -0.0, f32::from_bits(1)] };
    let (size, taps) = chord_read(&cells, 1024, 7, 0, 0.01, &any);
    assert_eq!((size, bits(&taps)), (needed(1024, 0.01, &any), bits(&any.offsets.map(|o| read(&cells, 1024, 7, 0, 1.0 / (0.01 * exp2(o)))))));
    for count in [9, 256, u32::MAX] {
        assert_eq!(chord_read(&cells, 1024, 7, 0, 0.01, &Chord { count, ..any }), (size, taps));
    }
    assert_eq!(chord_read(&cells, 1024, 7, 0, 0.01, &Chord { count: 0, ..any }), (0, [0.0; 8]));
    for (len, slot) in [(1024, 1), (1024, usize::MAX), (2048, 0), (1000, 0), (512, 0), (0, 0), (usize::MAX, 0)] {
        assert_eq!(chord_read(&cells, len, 5, slot, 0.01, &any), (0, [0.0; 8]), "length {len}, slot {slot}");
    }
    assert_eq!(chord_read(&[], 1024, 5, 0, 0.01, &any), (0, [0.0; 8]));
}

/// A bank of two voices in stereo, at a character and started, after three blocks: its audio, its lists, cursor and counts. The reference is such that
/// some pitches are over the ceiling.
fn played(code: u32, chord: Chord, character: f32) -> (Vec<u32>, Vec<u32>, usize, Vec<u32>) {
    let mut bank = Bank::open(Setup { code, chord, reference: 9000.0, ..Setup::new(Structure::Comb2, 8000.0, 2, 2) }).unwrap();
    for voice in 0..2 {
        bank.set(voice, &VoiceParams { resonance: 0.8, drive: 0.3, character, stereo_offset: 3.0, mix: 0.75, ..VoiceParams::default() }).unwrap();
        bank.start(voice).unwrap();
    }
    let (mut heard, mut counted) = (vec![], vec![]);
    for frames in [1, 300, 77] {
        let pitch: Vec<f32> = (0..2 * frames).map(|i| 20.0 + (i % 67) as f32).collect();
        let mut audio = noise(4 * frames);
        bank.block(Block { frames, pitch: &pitch, steering: None }, &mut audio).unwrap();
        heard.extend(bits(&audio));
        counted.extend(bank.counts());
    }
    (heard, bits(&[bank.targets(), bank.records(), bank.delay()].concat()), bank.cursor(), counted)
}

#[test]
fn comb2_is_a_chord() {
    for i in 0..=16 {
        let character = i as f32 / 16.0;
        let comb2 = played(9, Chord::default(), character);
        assert!(played(13, Chord::new(&[0.0, 2.0 * character]), character) == comb2, "character {character}");
        assert!(comb2.3.iter().all(|n| n % 2 == 0) && comb2.3.iter().any(|n| *n > 0));
    }
}

/// A frame from its parts: the taps in list order, times 1 / count, then Comb2's clipped feedback.
#[test]
fn a_frame_by_hand() {
    for chord in chords() {
        let mut bank = Bank::open(Setup { chord, ..Setup::new(Structure::ChordComb, 8000.0, 1, 1) }).unwrap();
        bank.set(0, &VoiceParams { resonance: 0.8, saturation: 0.4, ..VoiceParams::default() }).unwrap();
        bank.start(0).unwrap();
        bank.block(Block { frames: 300, pitch: &[80.0; 300], steering: None }, &mut noise(300)).unwrap();
        for (i, input) in noise(20).into_iter().enumerate() {
            let pitch = 60.0 + 2.0 * i as f32;
            let (_, taps) = chord_read(bank.delay(), 1024, bank.cursor(), 0, ratio_of(pitch, 440.0 / 8000.0), &chord);
            let sum = taps[1..chord.count as usize].iter().fold(taps[0], |sum, tap| sum + tap);
            let (mean, inv_knee, feedback) = (sum * (1.0 / chord.count as f32), bank.targets()[3], 0.8 * 0.98);
            let sample = (feedback * (soft_clip(mean * inv_knee) * (1.0 / inv_knee)) + input) * (1.0 - feedback);
            let mut audio = [input];
            bank.block(Block { frames: 1, pitch: &[pitch], steering: None }, &mut audio).unwrap();
            assert_eq!(audio[0].to_bits(), sample.to_bits(), "{chord:?}, frame {i}");
        }
    }
}

/// Each tooth is heard and judged, the taps are summed in list order, and character does nothing.
#[test]
fn teeth_are_heard() {
    let comb2 = played(9, Chord::default(), 0.0);
    for chord in chords() {
        let n = chord.count as usize;
        let plain = played(13, chord, 0.0);
        assert!(played(13, chord, 1.0).0 == plain.0, "{chord:?}: character");
        assert_eq!(plain.3, comb2.3.iter().map(|over| over / 2 * chord.count).collect::<Vec<u32>>(), "{chord:?}: counts");
        assert_eq!(plain.2, comb2.2, "{chord:?}: the cursor");
        let mut moved = chord;
        moved.offsets[n - 1] = 1.9;
        assert!(played(13, moved, 0.0).0 != plain.0, "{chord:?}: the last tooth");
    }
    let (major, turned) = (Chord::new(&[0.0, 4.0 / 12.0, 7.0 / 12.0]), Chord::new(&[7.0 / 12.0, 4.0 / 12.0, 0.0]));
    assert!(played(13, major, 0.0).0 != played(13, turned, 0.0).0, "the order of the sum");
}

/// Offsets past the last tooth, and all of the chord in any other structure, whatever they hold.
#[test]
fn ignored_numbers_are_not_heard() {
    let mut spoilt = Chord::new(&[0.0, 0.5]);
    spoilt.offsets[2..].copy_from_slice(&[f32::NAN, -1.0, 3.0, f32::INFINITY, f32::NEG_INFINITY, 1.0]);
    assert!(played(13, spoilt, 0.5) == played(13, Chord::new(&[0.0, 0.5]), 0.5));
    let wrong = Chord { count: u32::MAX, offsets: [f32::NAN; 8] };
    for code in 1..=12 {
        assert!(played(code, wrong, 0.5) == played(code, Chord::default(), 0.5), "code {code}");
    }
}

/// A voice alone and in company, wherever its frames are cut into blocks.
#[test]
fn a_lone_voice_is_as_in_company() {
    for chord in chords() {
        let s = Setup { chord, reference: 9000.0, ..Setup::new(Structure::ChordComb, 8000.0, 3, 2) };
        let p = VoiceParams { resonance: 0.9, drive: 0.4, stereo_offset: 5.0, ..VoiceParams::default() };
        let (mut company, mut alone) = (Bank::open(s).unwrap(), Bank::open(Setup { voices: 1, ..s }).unwrap());
        for (bank, voice) in [(&mut company, 1), (&mut alone, 0)] {
            bank.set(voice, &p).unwrap();
            bank.start(voice).unwrap();
        }
        let (pitch, mut audio): (Vec<f32>, Vec<f32>) = ((0..3 * 200).map(|i| 20.0 + (i % 71) as f32).collect(), noise(6 * 200));
        let own = |list: &[f32]| list.iter().skip(1).step_by(3).copied().collect::<Vec<f32>>();
        let (mut heard, own_pitch, mut counts) = (own(&audio), own(&pitch), [0; 2]);
        company.block(Block { frames: 200, pitch: &pitch, steering: None }, &mut audio).unwrap();
        for (from, to) in [(0, 70), (70, 71), (71, 200)] {
            alone.block(Block { frames: to - from, pitch: &own_pitch[from..to], steering: None }, &mut heard[2 * from..2 * to]).unwrap();
            counts.iter_mut().zip(alone.counts()).for_each(|(sum, n)| *sum += n);
        }
        assert_eq!(bits(&heard), bits(&own(&audio)), "{chord:?}");
        assert_eq!((counts, alone.cursor()), ([company.counts()[1], company.counts()[4]], company.cursor()), "{chord:?}");
        for channel in 0..2 {
            let slot = 3 * channel + 1;
            assert_eq!(bits(&alone.records()[RECORD * channel..][..RECORD]), bits(&company.records()[RECORD * slot..][..RECORD]), "{chord:?}");
            assert_eq!(bits(&alone.delay()[1024 * channel..][..1024]), bits(&company.delay()[1024 * slot..][..1024]), "{chord:?}");
        }
    }
}

/// Every call with such a chord: `Chord`, after `Structure` and before `Store`, and nothing changes; other structures do not look at it.
fn refused(chord: Chord) {
    let s = Setup { chord, ..Setup::new(Structure::ChordComb, 8000.0, 1, 1) };
    let [t, r, d] = Setup { code: 9, ..s }.lengths().unwrap();
    for less in [0, 1] {
        let (mut t, mut r, mut d, mut file) = (vec![0.5; t - less], vec![0.5; r], vec![0.5; d], vec![0xa5; 6656]);
        let (mut audio, mut counts) = ([0.25; 2], [7; 2]);
        let b = Block { frames: 4097, pitch: &[69.0; 2], steering: None };
        assert_eq!(open(&s, &mut t, &mut r, &mut d), Err(Refusal::Chord));
        assert_eq!(set(&s, 9, &mut t, 1, &VoiceParams::default()), Err(Refusal::Chord));
        assert_eq!(start(&s, 9, &t, &mut r, &mut d, 1), Err(Refusal::Chord));
        assert_eq!(block(&s, 9, &t, &mut r, &mut d, b, &mut audio, &mut counts), Err(Refusal::Chord));
        let (mut t2, mut r2, mut d2) = (vec![0.5; 1], vec![], vec![]);
        let scratch = Scratch { targets: &mut t2, records: &mut r2, delay: &mut d2 };
        assert_eq!(audition(&s, 9, &t, &r, &d, b, scratch, &mut audio, &mut counts), Err(Refusal::Chord));
        assert_eq!(park(&s, 9, &t, &r, &d, &mut file), Err(Refusal::Chord));
        assert!(t.iter().chain(&r).chain(&d).chain(&t2).all(|x| *x == 0.5) && file.iter().all(|b| *b == 0xa5) && (audio, counts) == ([0.25; 2], [7; 2]));
        assert_eq!(open(&Setup { code: 14, ..s }, &mut t, &mut r, &mut d), Err(Refusal::Structure));
        assert_eq!(open(&Setup { rate: 0.0, ..s }, &mut t, &mut r, &mut d), Err(Refusal::Rate));
    }
    assert_eq!((park_len(&s), s.lengths(), s.refusal(), Bank::open(s).err()), (0, Err(Refusal::Chord), Some(Refusal::Chord), Some(Refusal::Chord)));
    assert_eq!(Setup { code: 9, ..s }.refusal(), None);
}

#[test]
fn each_refusal_of_a_chord() {
    let full = Chord::new(&[0.25; 8]);
    [0, 9, 256, u32::MAX].into_iter().for_each(|count| refused(Chord { count, ..full }));
    refused(Chord::new(&[0.0; 9]));
    for count in 1..=8 {
        for at in 0..8 {
            let with = |offset| {
                let mut chord = Chord { count, ..full };
                chord.offsets[at] = offset;
                chord
            };
            let accepted = |chord| Setup { chord, ..Setup::new(Structure::ChordComb, 8000.0, 1, 1) }.refusal().is_none();
            for wrong in [f32::NAN, -f32::from_bits(1), -1.0, f32::NEG_INFINITY, 2.000_000_2, 3.0, f32::INFINITY, f32::from_bits(0xff80_0001)] {
                if at < count as usize { refused(with(wrong)) } else { assert!(accepted(with(wrong)), "{wrong} at {at} of {count}") }
            }
            for right in [0.0, -0.0, f32::from_bits(1), 1.0, 1.999_999_9, 2.0] {
                assert!(accepted(with(right)), "{right} at {at} of {count}");
            }
        }
    }
}

/// After `Store`; and nothing is written. The same lists are parked with another structure.
#[test]
fn a_chord_comb_is_not_parked() {
    let bank = Bank::open(Setup { chord: Chord::new(&[0.0, 0.5]), ..Setup::new(Structure::ChordComb, 8000.0, 2, 1) }).unwrap();
    assert_eq!(bank.park(), Err(Refusal::Unparkable));
    let (s, t, r, d) = (*bank.setup(), bank.targets(), bank.records(), bank.delay());
    let mut file = vec![0xa5; park_len(&s)];
    assert_eq!(file.len(), park_len(&Setup { code: 9, ..s }));
    assert_eq!(park(&s, 0, t, r, d, &mut file), Err(Refusal::Unparkable));
    assert_eq!(park(&s, 0, t, r, &d[1..], &mut file), Err(Refusal::Store));
    let shorter = file.len() - 1;
    assert_eq!(park(&s, 0, t, r, d, &mut file[..shorter]), Err(Refusal::Store));
    assert!(file.iter().all(|b| *b == 0xa5));
    assert_eq!(park(&Setup { code: 9, ..s }, 0, t, r, d, &mut file), Ok(0));
}

/// A chord that is ignored is not parked and comes back as none; a file with the chord comb's code is refused.
#[test]
fn an_ignored_chord_is_not_parked() {
    for code in 1..=12 {
        let plain = Setup { code, ..Setup::new(Structure::K35, 8000.0, 1, 2) };
        let file = Bank::open(plain).unwrap().park().unwrap();
        let spoilt = Chord { count: 3, offsets: [f32::NAN; 8] };
        assert!(Bank::open(Setup { chord: spoilt, ..plain }).unwrap().park() == Ok(file.clone()), "code {code}");
        assert_eq!((*Bank::restore(&file).unwrap().setup(), parked_setup(&file).unwrap().0), (plain, plain), "code {code}");
        let mut other = file.clone();
        let by = (13 - code) as u8; // the block's last word makes up for it
        other[4] += by;
        let sum = u32::from_le_bytes(other[508..512].try_into().unwrap()).wrapping_sub(by.into());
        other[508..512].copy_from_slice(&sum.to_le_bytes());
        assert_eq!(Bank::restore(&other).err(), Some(Refusal::Structure), "code {code}");
    }
}
