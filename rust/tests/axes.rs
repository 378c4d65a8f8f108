//! The third axis of the pole-zero pad: designs of eight states, the setting z, and what cannot be parked.
use sentivolus::*;

/// Bells of all eight states, those at z = 1 others than those at z = 0.
fn cube() -> Design {
    let mut d = Design { three_axes: true, ..Design::default() };
    for i in 0..64 {
        d.put(i / 8, i % 8, Point { kind: PointKind::Bell(3.0 + (i / 32) as f32), frequency: 90.0 * (1 + i / 8 + i % 8) as f32, q: 1.0 + (i % 8) as f32 });
    }
    d
}

/// Of a design of eight states those at z = 0, or those at z = 1, as a design of four.
fn face(d: &Design, face: usize) -> Design {
    let mut four = Design { gain_db: d.gain_db, ..Design::default() };
    four.kinds[..32].copy_from_slice(&d.kinds[32 * face..][..32]);
    four.numbers[..128].copy_from_slice(&d.numbers[128 * face..][..128]);
    four
}

fn bits(numbers: &[f32]) -> Vec<u32> {
    numbers.iter().map(|x| if x.is_nan() { 0x7fc0_0000 } else { x.to_bits() }).collect()
}

#[test]
fn a_table_of_eight_states() {
    let d = cube();
    let [t, near, far] = [table(&d), table(&face(&d, 0)), table(&face(&d, 1))];
    assert_eq!((t.active, t.three_axes, t.gain, near.three_axes), (8, true, 1.0, false));
    assert!(t.sections[..FACE] == near.sections[..FACE] && t.sections[FACE..] == far.sections[..FACE] && near.sections != far.sections);
    assert_eq!(bits(&near.sections[FACE..]), [0; FACE]);
    assert!(table(&Design { three_axes: false, ..d }) == near, "of two axes the states at z = 1 are ignored");
}

#[test]
fn a_point_of_one_face_is_kept_in_both() {
    let notch = Point { kind: PointKind::Notch, frequency: 300.0, q: 2.0 };
    let mut d = Design { three_axes: true, ..Design::default() };
    assert_eq!(table(&d).active, 0);
    d.put(7, 2, notch);
    assert_eq!((table(&d).active, table(&Design { three_axes: false, ..d }).active), (1, 0));
    assert_eq!(table(&d).sections[8], 1.0); // the weight of a bypass
}

#[test]
#[should_panic(expected = "with three axes 8 states")]
fn a_fifth_state_asks_for_three_axes() {
    Design::default().put(4, 0, Point { kind: PointKind::Notch, frequency: 300.0, q: 2.0 });
}

#[test]
fn a_section_between_the_faces() {
    let d = cube();
    for (given, z) in [(-1.0, 0.0), (-0.0, -0.0), (0.0, 0.0), (0.25, 0.25), (1.0, 1.0), (2.0, 1.0), (f32::INFINITY, 1.0), (f32::NAN, f32::NAN)] {
        let at = section(&d, 3, 0.25, 0.75, given).unwrap();
        let near = section(&face(&d, 0), 3, 0.25, 0.75, given).unwrap();
        let far = section(&face(&d, 1), 3, 0.25, 0.75, f32::NAN).unwrap();
        let between: Vec<f32> = near.iter().zip(far).map(|(a, b)| a + z * (b - a)).collect();
        assert_eq!(bits(&at), bits(&between), "z {given}");
        assert!(near.iter().chain(&far).all(|x| x.is_finite()), "with two axes z is ignored");
    }
    assert_eq!(section(&d, 8, 0.0, 0.0, 0.0), Err(Refusal::Point));
}

/// A bank of one voice in stereo at z, started. A chord comb has one tooth.
fn at_z(code: u32, table: Table, morph_z: f32) -> Bank {
    let mut bank = Bank::open(Setup { code, table, chord: Chord::new(&[0.0]), ..Setup::new(Structure::K35, 48000.0, 1, 2) }).unwrap();
    bank.set(0, &VoiceParams { resonance: 0.6, morph_x: 0.25, morph_y: 0.5, morph_z, ..VoiceParams::default() }).unwrap();
    bank.start(0).unwrap();
    bank
}

/// The voice's z: its target, and its smoothed one on both channels.
fn zs(bank: &Bank) -> Vec<u32> {
    bits(&[bank.targets()[TARGET_Z], bank.records()[RECORD_Z], bank.records()[RECORD + RECORD_Z]])
}

fn play(bank: &mut Bank, frames: usize) -> Vec<f32> {
    let mut audio: Vec<f32> = (0..2 * frames).map(|i| (i * 7919 % 1009) as f32 / 1009.0 - 0.5).collect();
    bank.block(Block { frames, pitch: &vec![69.0; frames], steering: None }, &mut audio).unwrap();
    audio
}

/// z is held to 0 .. 1 and NaN acts as 0; a start copies it; a block glides there.
#[test]
fn z_of_every_structure() {
    for code in 1..=13 {
        for (given, z) in [(f32::NAN, 0.0), (-1.0, 0.0), (-0.0, -0.0), (0.5, 0.5), (2.0, 1.0), (f32::INFINITY, 1.0)] {
            assert_eq!(zs(&at_z(code, Table::default(), given)), bits(&[z; 3]), "code {code}, z {given}");
        }
        let mut bank = at_z(code, Table::default(), 0.0);
        bank.set(0, &VoiceParams { morph_z: 1.0, ..VoiceParams::default() }).unwrap();
        assert_eq!(zs(&bank), bits(&[1.0, 0.0, 0.0]), "code {code}: set writes the target alone");
        play(&mut bank, 100);
        let z = bank.records()[RECORD_Z];
        assert!(z > 0.5 && z < 1.0 && zs(&bank) == bits(&[1.0, z, z]), "code {code}: {z}");
    }
}

/// With three axes z is heard, at 0 the near face alone; with two neither z nor the far face is.
#[test]
fn z_is_heard_with_three_axes() {
    let d = cube();
    let (three, two) = (table(&d), table(&face(&d, 0)));
    let mut spoilt = two;
    spoilt.sections[FACE..].fill(f32::NAN);
    let heard = |table, z| {
        let mut bank = at_z(8, table, z);
        (play(&mut bank, 300), bank.counts().to_vec())
    };
    let near = heard(two, 0.0);
    assert!(heard(spoilt, 0.75) == near);
    assert!(heard(three, 0.0) == near);
    assert!(heard(three, 0.75).0 != near.0);
}

/// A voice alone and in company, whose other voice has another z.
#[test]
fn z_is_a_voice_s_own() {
    let s = Setup { table: table(&cube()), ..Setup::new(Structure::PoleZero, 48000.0, 2, 1) };
    let (mut company, mut alone) = (Bank::open(s).unwrap(), Bank::open(Setup { voices: 1, ..s }).unwrap());
    let at = |morph_z| VoiceParams { morph_z, ..VoiceParams::default() };
    company.set(0, &at(0.9)).unwrap();
    company.set(1, &at(0.3)).unwrap();
    alone.set(0, &at(0.3)).unwrap();
    let own: Vec<f32> = (0..64).map(|i| (i * 7919 % 1009) as f32 / 1009.0 - 0.5).collect();
    let (mut audio, mut both) = (own.clone(), own.iter().flat_map(|x| [-x, *x]).collect::<Vec<f32>>());
    alone.block(Block { frames: 64, pitch: &[69.0; 64], steering: None }, &mut audio).unwrap();
    company.block(Block { frames: 64, pitch: &[69.0; 128], steering: None }, &mut both).unwrap();
    assert_eq!(bits(&audio), bits(&both.into_iter().skip(1).step_by(2).collect::<Vec<f32>>()));
    assert_eq!(bits(alone.records()), bits(&company.records()[RECORD..]));
}

/// What a file has no words for: a table of three axes, whatever the code; a z number that is not +0, of any voice or slot; and (`chords.rs`) a chord comb.
/// After `Store`; and nothing is written.
#[test]
fn what_is_not_parked() {
    for code in 1..=12 {
        let good = Setup { code, ..Setup::new(Structure::K35, 8000.0, 2, 2) };
        let three = Setup { table: Table { three_axes: true, ..good.table }, ..good };
        let [t, r, d] = good.lengths().unwrap().map(|n| vec![0.0f32; n]);
        let with = |list: &[f32], at: usize, z: f32| {
            let mut list = list.to_vec();
            list[at] = z;
            list
        };
        let mut cases = vec![(three, t.clone(), r.clone())];
        for z in [0.5, -0.0, f32::NAN, f32::from_bits(1)] {
            cases.extend([0, 1].map(|voice| (good, with(&t, TARGETS * voice + TARGET_Z, z), r.clone())));
            cases.extend([0, 3].map(|slot| (good, t.clone(), with(&r, RECORD * slot + RECORD_Z, z))));
        }
        for (s, t, r) in cases {
            let mut file = vec![0xa5; park_len(&s)];
            assert_eq!(park(&s, 0, &t, &r, &d, &mut file), Err(Refusal::Unparkable), "code {code}");
            assert_eq!(park(&s, 0, &t, &r, &d[1..], &mut file), Err(Refusal::Store), "code {code}");
            let shorter = file.len() - 1;
            assert_eq!(park(&s, 0, &t, &r, &d, &mut file[..shorter]), Err(Refusal::Store), "code {code}");
            assert!(file.iter().all(|b| *b == 0xa5), "code {code}");
            assert_eq!(park(&Setup { code: 0, ..s }, 0, &t, &r, &d, &mut file), Err(Refusal::Structure));
        }
        let mut file = vec![0xa5; park_len(&good)];
        assert_eq!(park(&good, 0, &t, &r, &d, &mut file), Ok(0), "code {code}");
    }
}

/// A voice whose z was not 0 is parked once it is set to 0 and started; its glide does not come to 0.
#[test]
fn the_way_back_to_a_file() {
    let mut bank = at_z(1, Table::default(), 0.5);
    assert_eq!(bank.park(), Err(Refusal::Unparkable));
    bank.set(0, &VoiceParams::default()).unwrap();
    for _ in 0..5 {
        play(&mut bank, 4096);
    }
    assert_eq!(bank.park(), Err(Refusal::Unparkable));
    bank.start(0).unwrap();
    assert_eq!(Bank::restore(&bank.park().unwrap()).unwrap().targets(), bank.targets());
}

/// The far face of a table with two axes is not parked and comes back as 0.
#[test]
fn a_far_face_is_not_parked() {
    let plain = table(&face(&cube(), 0));
    let mut spoilt = plain;
    spoilt.sections[FACE..].fill(f32::NAN);
    let file = at_z(8, spoilt, 0.0).park().unwrap();
    assert!(at_z(8, plain, 0.0).park() == Ok(file.clone()));
    let restored = Bank::restore(&file).unwrap();
    assert!(restored.setup().table == plain && parked_setup(&file).unwrap().0.table == plain);
    assert_eq!(bits(&restored.setup().table.sections[FACE..]), [0; FACE]);
    assert_eq!(zs(&restored), [0; 3]);
}
