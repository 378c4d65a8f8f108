//! A bank parked and restored: the file's bytes, what the reader takes, and what it refuses.
use sentivolus::*;

const BLOCK: usize = 512;

/// A bank on lent lists, every number another one but z's and the far face, which are 0.
#[derive(Clone)]
struct Lent {
    setup: Setup,
    cursor: usize,
    targets: Vec<f32>,
    records: Vec<f32>,
    delay: Vec<f32>,
}

fn lent(voices: usize, channels: usize) -> Lent {
    let numbers = |from: f32, n: usize| (0..n).map(|i| from + i as f32).collect::<Vec<f32>>();
    let mut table = Table { active: 0x8765_4321, gain: -1.5, ..Table::default() };
    table.sections[..FACE].copy_from_slice(&numbers(0.5, FACE));
    let setup = Setup { clean: true, reference: 432.0, table, ..Setup::new(Structure::Comb2, 8000.0, voices, channels) };
    let [t, r, d] = setup.lengths().unwrap();
    let mut bank = Lent { setup, cursor: 0x0123_4567_89ab_cdef, targets: numbers(1e3, t), records: numbers(-1e4, r), delay: numbers(1e5, d) };
    bank.targets.iter_mut().skip(TARGET_Z).step_by(TARGETS).for_each(|z| *z = 0.0);
    bank.records.iter_mut().skip(RECORD_Z).step_by(RECORD).for_each(|z| *z = 0.0);
    bank
}

impl Lent {
    /// The same bank with lists that hold a number of no bank's.
    fn blank(&self) -> Lent {
        let fill = |list: &Vec<f32>| vec![0.125; list.len()];
        Lent { targets: fill(&self.targets), records: fill(&self.records), delay: fill(&self.delay), ..self.clone() }
    }

    fn park(&self, file: &mut [u8]) -> Result<usize, Refusal> {
        park(&self.setup, self.cursor, &self.targets, &self.records, &self.delay, file)
    }

    fn parked(&self) -> Vec<u8> {
        let mut file = vec![0xa5; park_len(&self.setup)];
        assert_eq!(self.park(&mut file), Ok(self.cursor));
        file
    }

    fn bits(&self) -> Vec<u32> {
        [&self.targets[..], &self.records, &self.delay, &self.setup.table.sections].concat().iter().map(|x| x.to_bits()).collect()
    }

    /// What a restore answers on these lists, which a refusal leaves.
    fn restore(&mut self, file: &[u8]) -> Result<(Setup, usize), Refusal> {
        let before = self.bits();
        let answer = restore(file, &mut self.targets, &mut self.records, &mut self.delay);
        match answer {
            Ok((setup, cursor)) => (self.setup, self.cursor) = (setup, cursor),
            Err(_) => assert!(self.bits() == before, "a refusal changed a list"),
        }
        answer
    }

    /// A restore and a reading of the setup alone are refused alike.
    fn refuses(&self, file: &[u8], refusal: Refusal, what: &str) {
        assert_eq!(self.blank().restore(file), Err(refusal), "{what}");
        assert_eq!(parked_setup(file), Err(refusal), "{what}");
        assert_eq!(Bank::restore(file).err(), Some(refusal), "{what}");
    }

    /// A file gives this bank, on lists that hold anything.
    fn is_in(&self, file: &[u8]) {
        let mut restored = self.blank();
        assert_eq!(restored.restore(file), Ok((self.setup, self.cursor)));
        assert!(restored.bits() == self.bits());
        assert_eq!(parked_setup(file), Ok((self.setup, self.cursor)));
    }
}

fn block(file: &mut [u8], i: usize) -> &mut [u8] {
    &mut file[BLOCK * i..][..BLOCK]
}

fn word(block: &[u8], k: usize) -> u32 {
    u32::from_le_bytes(block[4 * k..][..4].try_into().unwrap())
}

/// Puts word `k` of a block, 0 its head, and makes the sum right.
fn put(block: &mut [u8], k: usize, value: u32) {
    block[4 * k..][..4].copy_from_slice(&value.to_le_bytes());
    let sum = (0..127).fold(0u32, |sum, k| sum.wrapping_add(word(block, k)));
    block[508..].copy_from_slice(&sum.wrapping_neg().to_le_bytes());
}

/// A block as document 02 has it.
fn written(kind: u8, who: usize, part: usize, words: &[u32]) -> Vec<u8> {
    let mut out = vec![0; BLOCK];
    for (k, w) in words.iter().enumerate() {
        put(&mut out, k + 1, *w);
    }
    put(&mut out, 0, u32::from_le_bytes([kind, who as u8, part as u8, (part >> 8) as u8]));
    out
}

#[test]
fn the_blocks_of_document_02() {
    let bank = lent(2, 2);
    let bits = |list: &[f32]| list.iter().map(|x| x.to_bits()).collect::<Vec<u32>>();
    let mut setup = vec![9, 2, 2, 1, 0x45fa_0000, 0x43d8_0000, 0x89ab_cdef, 0x0123_4567, 0x8765_4321];
    setup.extend(bits(&bank.setup.table.sections[..FACE]));
    setup.push((-1.5f32).to_bits());
    let mut file = [written(1, 0, 0, &setup[..126]), written(1, 0, 1, &setup[126..])].concat();
    bank.targets.chunks(TARGETS).enumerate().for_each(|(voice, t)| file.extend(written(2, voice, 0, &bits(&t[..TARGET_Z]))));
    bank.records.chunks(RECORD).enumerate().for_each(|(slot, r)| file.extend(written(3, slot, 0, &bits(&r[..RECORD_Z]))));
    for (slot, ring) in bank.delay.chunks(1024).enumerate() {
        ring.chunks(126).enumerate().for_each(|(part, cells)| file.extend(written(4, slot, part, &bits(cells))));
    }
    assert!(bank.parked() == file);
    bank.is_in(&file);
}

/// The same, told by bytes.
#[test]
fn little_endian() {
    let file = lent(2, 2).parked();
    assert_eq!(file[..40], [1, 0, 0, 0, 9, 0, 0, 0, 2, 0, 0, 0, 2, 0, 0, 0, 1, 0, 0, 0, // head, code, voices, channels, clean
        0x00, 0x00, 0xfa, 0x45, 0x00, 0x00, 0xd8, 0x43, // rate, reference
        0xef, 0xcd, 0xab, 0x89, 0x67, 0x45, 0x23, 0x01, 0x21, 0x43, 0x65, 0x87]); // cursor, active
    let heads: Vec<[u8; 4]> = file.chunks(BLOCK).map(|b| b[..4].try_into().unwrap()).collect();
    assert_eq!(heads[..10], [[1, 0, 0, 0], [1, 0, 1, 0], [2, 0, 0, 0], [2, 1, 0, 0], [3, 0, 0, 0], [3, 1, 0, 0], [3, 2, 0, 0], [3, 3, 0, 0],
        [4, 0, 0, 0], [4, 0, 1, 0]]);
    assert_eq!((heads.len(), heads[8 + 9], heads[8 + 35]), (44, [4, 1, 0, 0], [4, 3, 8, 0]));
}

#[test]
fn lengths_of_files() {
    let setup = |rate, voices, channels| Setup::new(Structure::K35, rate, voices, channels);
    let blocks = |rate, voices, channels| park_len(&setup(rate, voices, channels)) / BLOCK;
    assert_eq!([blocks(8000.0, 1, 1), blocks(48000.0, 16, 2), blocks(384_000.0, 16, 2)], [13, 2162, 16722]);
    let wrong = [setup(f32::NAN, 1, 1), setup(8000.0, usize::MAX, 1), Setup { code: 14, ..setup(8000.0, 1, 1) }, Setup { code: 13, ..setup(8000.0, 1, 1) }];
    assert_eq!(wrong.map(|s| park_len(&s)), [0; 4]);
    let bank = Bank::open(setup(384_000.0, 1, 2)).unwrap();
    assert_eq!(bank.park().unwrap().len(), BLOCK * (2 + 1 + 2 + 2 * 521));
}

#[test]
fn any_order() {
    let bank = lent(2, 2);
    let file = bank.parked();
    let blocks: Vec<&[u8]> = file.chunks(BLOCK).collect();
    let n = blocks.len();
    bank.is_in(&blocks.iter().rev().copied().collect::<Vec<_>>().concat());
    for step in [3, 5, 7, 43] {
        bank.is_in(&(0..n).map(|i| blocks[(step * i + 11) % n]).collect::<Vec<_>>().concat());
    }
}

#[test]
fn unused_words_are_ignored() {
    let bank = lent(1, 1);
    for (i, used) in [(1, 44), (2, TARGET_Z), (3, RECORD_Z), (12, 1024 - 8 * 126)] {
        let mut file = bank.parked();
        assert!((used..126).all(|k| word(block(&mut file, i), k + 1) == 0));
        for k in [used, 125] {
            put(block(&mut file, i), k + 1, 0xffff_ffff);
        }
        bank.is_in(&file);
    }
}

/// Both zeros, infinities and subnormals go as they are; every NaN goes as one, and any NaN of a file is a NaN.
#[test]
fn numbers_of_every_kind() {
    let kept = [0, 0x8000_0000, 1, 0x8000_0001, 0x007f_ffff, 0x7f80_0000, 0xff80_0000, 0x7f7f_ffff];
    let nans = [0x7fc0_0000, 0xffc0_0000, 0x7f80_0001, 0xffff_ffff, 0x7fc0_1234];
    for (bits, parked) in kept.map(|b| (b, b)).into_iter().chain(nans.map(|b| (b, 0x7fc0_0000))) {
        let mut bank = lent(1, 1);
        let x = f32::from_bits(bits);
        (bank.targets[9], bank.records[PEAK], bank.delay[1023], bank.setup.table.sections[116], bank.setup.table.gain) = (x, x, x, x, x);
        let mut file = bank.parked();
        let places = [(0, 126), (1, 44), (2, 10), (3, 1 + PEAK), (12, 1024 - 8 * 126)];
        assert_eq!(places.map(|(i, k)| word(block(&mut file, i), k)), [parked; 5]);
        places.iter().for_each(|(i, k)| put(block(&mut file, *i), *k, bits));
        let mut restored = bank.blank();
        let (setup, _) = restored.restore(&file).unwrap();
        for y in [restored.targets[9], restored.records[PEAK], restored.delay[1023], setup.table.sections[116], setup.table.gain] {
            assert!(if x.is_nan() { y.is_nan() } else { y.to_bits() == bits }, "{bits:08x}");
        }
    }
}

#[test]
fn damage() {
    let bank = lent(1, 1);
    let file = bank.parked();
    for at in 0..file.len() {
        let mut changed = file.clone();
        changed[at] ^= 1 << (at % 8);
        assert_eq!(bank.blank().restore(&changed), Err(Refusal::Damaged), "byte {at}");
        assert_eq!(parked_setup(&changed), Err(Refusal::Damaged), "byte {at}");
    }
    for n in 0..file.len() {
        let refusal = if n % BLOCK == 0 { Refusal::Blocks } else { Refusal::Damaged };
        assert_eq!(bank.blank().restore(&file[..n]), Err(refusal), "{n} bytes");
    }
    bank.refuses(&[&file[..], &[0]].concat(), Refusal::Damaged, "one byte more");
}

#[test]
fn blocks_missing_doubled_and_unknown() {
    let bank = lent(1, 2);
    let file = bank.parked();
    let blocks: Vec<Vec<u8>> = file.chunks(BLOCK).map(<[u8]>::to_vec).collect();
    for (i, one) in blocks.iter().enumerate() {
        let mut rest = blocks.clone();
        rest.remove(i);
        bank.refuses(&rest.concat(), Refusal::Blocks, &format!("without block {i}"));
        let mut other = one.clone();
        put(&mut other, 1, word(one, 1) ^ 1);
        for copy in [one, &other] {
            bank.refuses(&[&file[..], copy].concat(), Refusal::Blocks, &format!("block {i} twice"));
        }
        rest.push(blocks[(i + 1) % blocks.len()].clone());
        bank.refuses(&rest.concat(), Refusal::Blocks, &format!("another instead of block {i}"));
    }
    for head in [[0, 0, 0, 0], [1, 1, 0, 0], [1, 0, 2, 0], [1, 0, 0, 1], [2, 1, 0, 0], [2, 0, 1, 0], [3, 2, 0, 0], [3, 0, 0, 1], [4, 2, 0, 0], [4, 0, 9, 0],
        [4, 0, 0, 1], [5, 0, 0, 0], [11, 0, 0, 0], [255; 4]] {
        let more = written(head[0], head[1].into(), usize::from(head[2]) + 256 * usize::from(head[3]), &[]);
        bank.refuses(&[&more[..], &file].concat(), Refusal::Blocks, &format!("{head:?}"));
        let mut instead = file.clone();
        block(&mut instead, 8).copy_from_slice(&more);
        bank.refuses(&instead, Refusal::Blocks, &format!("{head:?} instead of a ring's part"));
    }
}

/// Each fault comes before those above it.
#[test]
fn the_order_of_the_reader_s_checks() {
    let bank = lent(1, 1);
    let mut file = bank.parked();
    let mut short = bank.blank();
    short.delay.pop();
    assert_eq!(short.restore(&file), Err(Refusal::Store));
    assert_eq!(parked_setup(&file), Ok((bank.setup, bank.cursor)));
    put(block(&mut file, 12), 0, u32::from_le_bytes([4, 0, 9, 0]));
    bank.refuses(&file, Refusal::Blocks, "an unknown part");
    for (refusal, k, value) in [(Refusal::Structure, 1, 13), (Refusal::Layout, 3, 3), (Refusal::Polyphony, 2, 0x0100_0001),
        (Refusal::Tuning, 6, 0x7fc0_0000), (Refusal::Rate, 5, 0x45f9_ffff), (Refusal::Blocks, 4, 2)] {
        put(block(&mut file, 0), k, value);
        short.refuses(&file, refusal, &format!("word {k}"));
    }
    file[600] ^= 1;
    short.refuses(&file, Refusal::Damaged, "a wrong sum");
    put(block(&mut file, 1), 0, 0x0001_0001);
    short.refuses(&file, Refusal::Blocks, "the sum made right");
    put(block(&mut file, 0), 4, 1);
    put(block(&mut file, 1), 0, 0x0001_0101);
    short.refuses(&file, Refusal::Blocks, "kind 1 without part 1, before the rate");
}

#[test]
fn lists_of_wrong_lengths() {
    let bank = lent(2, 1);
    let (file, len) = (bank.parked(), park_len(&bank.setup));
    let lists: [fn(&mut Lent) -> &mut Vec<f32>; 3] = [|b| &mut b.targets, |b| &mut b.records, |b| &mut b.delay];
    for (i, list) in lists.into_iter().enumerate() {
        for n in [-1, 1] {
            let mut other = bank.clone();
            let right = list(&mut other).len();
            list(&mut other).resize(right.wrapping_add_signed(n), 0.0);
            assert_eq!(other.blank().restore(&file), Err(Refusal::Store), "list {i}");
            let mut bytes = vec![0xa5; len];
            assert_eq!((other.park(&mut bytes), bytes.iter().all(|b| *b == 0xa5)), (Err(Refusal::Store), true), "list {i}");
        }
    }
    for n in [0, len - BLOCK, len - 1, len + 1, len + BLOCK] {
        let mut bytes = vec![0xa5; n];
        assert_eq!((bank.park(&mut bytes), bytes.iter().all(|b| *b == 0xa5)), (Err(Refusal::Store), true), "{n} bytes");
    }
}

#[test]
fn parking_a_refused_setup() {
    let good = lent(1, 1);
    let setup = Setup { code: 14, ..good.setup };
    let mut bank = Lent { setup, targets: vec![], ..good };
    let mut file = [0xa5; 1024];
    let mut refuses = |setup: Setup, refusal| {
        bank.setup = setup;
        assert_eq!((bank.park(&mut file), file, park_len(&setup)), (Err(refusal), [0xa5; 1024], 0));
    };
    refuses(Setup { code: 13, ..setup }, Refusal::Chord);
    refuses(setup, Refusal::Structure);
    let setup = Setup { channels: 3, ..setup };
    refuses(setup, Refusal::Layout);
    let setup = Setup { voices: usize::MAX, ..setup };
    refuses(setup, Refusal::Polyphony);
    let setup = Setup { reference: 0.0, ..setup };
    refuses(setup, Refusal::Tuning);
    refuses(Setup { rate: f32::INFINITY, ..setup }, Refusal::Rate);
}

/// Two voices in stereo that have sounded for a while.
fn sounding(code: u32) -> Bank {
    let mut design = Design::default();
    for i in 0..32 {
        design.put(i / 8, i % 8, Point { kind: PointKind::Bell(3.0), frequency: 90.0 * (1 + i / 8 + i % 8) as f32, q: 2.0 });
    }
    let mut bank = Bank::open(Setup { code, table: table(&design), ..Setup::new(Structure::K35, 8000.0, 2, 2) }).unwrap();
    bank.set(0, &VoiceParams { resonance: 0.8, drive: 0.3, stereo_offset: 3.0, morph_x: 0.6, ..VoiceParams::default() }).unwrap();
    bank.start(0).unwrap();
    bank.set(1, &VoiceParams { resonance: 0.5, saturation: 0.7, character: 0.4, ..VoiceParams::default() }).unwrap();
    play(&mut bank, 300);
    bank
}

/// A block of a sweep and noise, and the bits of what comes out of it.
fn play(bank: &mut Bank, frames: usize) -> Vec<u32> {
    let pitch: Vec<f32> = (0..2 * frames).map(|i| 60.0 + 0.125 * i as f32).collect();
    let mut audio: Vec<f32> = (0..4 * frames).map(|i| (i * 7919 % 1009) as f32 / 1009.0 - 0.5).collect();
    let half = vec![0.25; 2 * frames];
    bank.block(Block { frames, pitch: &pitch, steering: Some((&half, &pitch)) }, &mut audio).unwrap();
    audio.iter().map(|x| x.to_bits()).collect()
}

fn bits(bank: &Bank) -> Vec<u32> {
    [bank.targets(), bank.records(), bank.delay()].concat().iter().map(|x| x.to_bits()).collect()
}

/// A file parked before a record had its peak holds 0 there: the bank comes back with every peak 0, all else as it was.
#[test]
fn files_parked_earlier() {
    let bank = sounding(4);
    let mut file = bank.park().unwrap();
    (4..8).for_each(|i| put(block(&mut file, i), 1 + PEAK, 0));
    let restored = Bank::restore(&file).unwrap();
    for (slot, (channel, voice)) in [(0, 0), (0, 1), (1, 0), (1, 1)].into_iter().enumerate() {
        assert_eq!(restored.peak(channel, voice).map(f32::to_bits), Some(0));
        assert!(bank.peak(channel, voice) > Some(0.0));
        assert!(restored.records()[RECORD * slot..][..PEAK] == bank.records()[RECORD * slot..][..PEAK], "slot {slot}");
    }
    assert!(restored.targets() == bank.targets() && restored.delay() == bank.delay() && restored.cursor() == bank.cursor());
}

/// After a restore a bank plays on as it would have, to the bit.
#[test]
fn the_same_sound() {
    for code in 1..=12 {
        let mut bank = sounding(code);
        let file = bank.park().unwrap();
        let mut restored = Bank::restore(&file).unwrap();
        assert_eq!((restored.setup(), restored.cursor(), restored.counts()), (bank.setup(), bank.cursor(), &[0; 4][..]), "code {code}");
        assert!(bits(&restored) == bits(&bank) && restored.park() == Ok(file), "code {code}");
        assert!(play(&mut restored, 500) == play(&mut bank, 500), "code {code}");
        assert_eq!((restored.counts(), restored.cursor()), (bank.counts(), bank.cursor()), "code {code}");
        assert!(bits(&restored) == bits(&bank), "code {code}");
    }
}
