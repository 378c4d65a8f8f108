//! ns a voice-sample (voice x channel x frame) of the proved library and of the Rust's scalar lane, in one run, best of several; how fast banks are
//! parked and restored; what an audition costs beside its block; what the third axis costs; and chord combs beside Comb2.
//! Built inside the assembled oracle, so that the Rust's private `extended::dispatch` is in reach.
use super::*;
use std::time::Instant;

unsafe extern "C" {
    fn sentivolus_block(code: u32, rate: f32, reference: f32, voices: usize, channels: usize, clean: bool,
        active: u32, three_axes: bool, sections: *const f32, gain: f32, count: u32, offsets: *const f32, cursor: *mut usize,
        targets: *const f32, targets_len: usize, records: *mut f32, records_len: usize, delay: *mut f32, delay_len: usize,
        frames: usize, pitch: *const f32, pitch_len: usize, steered: bool, x: *const f32, x_len: usize, y: *const f32, y_len: usize,
        audio: *mut f32, audio_len: usize, counts: *mut u32, counts_len: usize, rendered: *mut usize) -> u32;
    fn sentivolus_audition(code: u32, rate: f32, reference: f32, voices: usize, channels: usize, clean: bool,
        active: u32, three_axes: bool, sections: *const f32, gain: f32, count: u32, offsets: *const f32, cursor: usize,
        targets: *const f32, targets_len: usize, records: *const f32, records_len: usize, delay: *const f32, delay_len: usize, scratch_cursor: *mut usize,
        scratch_targets: *mut f32, scratch_targets_len: usize, scratch_records: *mut f32, scratch_records_len: usize,
        scratch_delay: *mut f32, scratch_delay_len: usize, frames: usize, pitch: *const f32, pitch_len: usize,
        steered: bool, x: *const f32, x_len: usize, y: *const f32, y_len: usize, audio: *mut f32, audio_len: usize,
        counts: *mut u32, counts_len: usize, rendered: *mut usize) -> u32;
    fn sentivolus_open(code: u32, rate: f32, reference: f32, voices: usize, channels: usize, clean: bool, active: u32, three_axes: bool,
        sections: *const f32, gain: f32, count: u32, offsets: *const f32, targets: *mut f32, targets_len: usize, records: *mut f32, records_len: usize,
        delay: *mut f32, delay_len: usize) -> u32;
    fn sentivolus_start(code: u32, rate: f32, reference: f32, voices: usize, channels: usize, clean: bool, active: u32, three_axes: bool,
        sections: *const f32, gain: f32, count: u32, offsets: *const f32, targets: *const f32, targets_len: usize, records: *mut f32, records_len: usize,
        delay: *mut f32, delay_len: usize, voice: usize) -> u32;
    fn sentivolus_park_len(code: u32, rate: f32, reference: f32, voices: usize, channels: usize, clean: bool, active: u32, three_axes: bool,
        sections: *const f32, gain: f32, count: u32, offsets: *const f32) -> usize;
    fn sentivolus_park(code: u32, rate: f32, reference: f32, voices: usize, channels: usize, clean: bool, active: u32, three_axes: bool,
        sections: *const f32, gain: f32, count: u32, offsets: *const f32, cursor: usize, targets: *const f32, targets_len: usize,
        records: *const f32, records_len: usize, delay: *const f32, delay_len: usize, file: *mut u8, file_len: usize) -> u32;
    fn sentivolus_restore(file: *const u8, file_len: usize, targets: *mut f32, targets_len: usize, records: *mut f32, records_len: usize,
        delay: *mut f32, delay_len: usize, code: *mut u32, rate: *mut f32, reference: *mut f32, voices: *mut usize, channels: *mut usize,
        clean: *mut bool, active: *mut u32, three_axes: *mut bool, sections: *mut f32, gain: *mut f32,
        count: *mut u32, offsets: *mut f32, cursor: *mut usize) -> u32;
    fn sentivolus_root(x: f32) -> f32;
    fn sentivolus_saturation_gain(x: f32, inv_a: f32) -> f32;
    fn sentivolus_soft_clip(x: f32) -> f32;
    fn sentivolus_gain(pitch: f32, reference: f32) -> f32;
    fn sentivolus_read(buf: *const f32, buf_len: usize, len: usize, cursor: usize, slot: usize, delay: f32) -> f32;
}

// Of an earlier archive, whose names bench.sh put `before_` before.
#[cfg(before)]
unsafe extern "C" {
    fn before_sentivolus_version() -> u32;
    fn before_sentivolus_root();
    fn before_sentivolus_block();
}

/// ns a call of a leaf, the calls independent of each other.
fn leaf(call: &dyn Fn(f32) -> f32, low: f32, high: f32) -> f64 {
    let mut r = generate::Rng::new(9);
    let inputs: Vec<f32> = (0..1024).map(|_| r.range(low, high)).collect();
    let mut best = f64::MAX;
    for _ in 0..200 {
        let begun = Instant::now();
        let mut sum = 0.0;
        for x in &inputs { sum += call(*x); }
        std::hint::black_box(sum);
        best = best.min(begun.elapsed().as_nanos() as f64 / inputs.len() as f64);
    }
    best
}

/// Where a voice-sample's time goes, by ablation: a PoleZero without sections has the smoothing, steering, lag, drive, mix and level
/// alone; a moving pitch adds what follows from the pitch; the leaves are timed by themselves.
fn parts(millis: u128) {
    let ring = vec![0.25f32; 8192];
    let gain = leaf(&|x| unsafe { sentivolus_gain(x, 440.0 / 48000.0) }, 50.0, 90.0);
    let saturation = leaf(&|x| unsafe { sentivolus_saturation_gain(x, 0.5) }, -3.0, 3.0);
    let clip = leaf(&|x| unsafe { sentivolus_soft_clip(x) }, -3.0, 3.0);
    let read = leaf(&|x| unsafe { sentivolus_read(ring.as_ptr(), 8192, 8192, 77, 0, x) }, 10.0, 400.0);
    println!("Leaves, ns a call: gain (exp2 and tan) {gain:.1}, saturation_gain (root) {saturation:.1}, soft_clip {clip:.1}, read {read:.1}\n");
    let mut bare = case(8, 48000.0, 16, 2, 64, false);
    bare.take_tables([Table::of(&PoleZeroDesign::default()); 2]);
    let base = measure(&bare, millis).0;
    println!("| code | held | of it: smoothing, steering, lag, drive, mix | roots | ring | rest of the kernel | moving pitch adds |");
    println!("|---|---|---|---|---|---|---|");
    for code in 1..=12u32 {
        let held = measure(&case(code, 48000.0, 16, 2, 64, false), millis).0;
        let moving = measure(&case(code, 48000.0, 16, 2, 64, true), millis).0;
        let roots = saturation * [1.0, 0.0, 0.0, 5.0, 1.0, 1.0, 5.0, 0.0, 0.0, 1.0, 1.0, 2.0][code as usize - 1];
        let ring = if code == 9 { 2.0 * read } else { 0.0 };
        let (kind, rest) = (KINDS[code as usize - 1], held - base - roots - ring);
        println!("| {code} {kind:?} | {held:.1} | {base:.1} | {roots:.1} | {ring:.1} | {rest:.1} | {:.1} |", moving - held);
    }
    println!();
}

const ROOTS: [&str; 3] = ["in a dependent chain (with a product and a sum)", "of 1 to 4, calls independent", "of 4 to 1,000, calls independent"];

/// ns a root, in the order of `ROOTS`. The independent calls write their answers to an array.
fn time_roots(root: impl Fn(f32) -> f32) -> [f64; 3] {
    let n = 100_000;
    let ns = |begun: Instant| begun.elapsed().as_nanos() as f64 / n as f64;
    let independent = |low: f32, high: f32| {
        let mut r = generate::Rng::new(9);
        let inputs: Vec<f32> = (0..n).map(|_| r.range(low, high)).collect();
        let mut answers = inputs.clone();
        let begun = Instant::now();
        for (y, x) in answers.iter_mut().zip(&inputs) { *y = root(*x); }
        std::hint::black_box(&mut answers);
        let time = ns(begun);
        assert!(inputs.iter().zip(&answers).all(|(x, y)| x.sqrt() == *y));
        time
    };
    let begun = Instant::now();
    let mut y = std::hint::black_box(1.25f32);
    for _ in 0..n { y = root(y * 1.75 + 0.375); }
    std::hint::black_box(y);
    [ns(begun), independent(1.0, 4.0), independent(4.0, 1000.0)]
}

fn time_ours() -> [f64; 3] { time_roots(|x| unsafe { sentivolus_root(x) }) }

/// The same of an earlier archive. Up to version 400 its root took a table: entry j the whole root of 64 j.
#[cfg(before)]
fn time_before() -> [f64; 3] {
    let name = before_sentivolus_root as *const ();
    unsafe {
        if before_sentivolus_version() <= 400 {
            let openings: [u8; 1024] = std::array::from_fn(|j| (64 * j).isqrt() as u8);
            let root = std::mem::transmute::<_, unsafe extern "C" fn(f32, *const [u8; 1024]) -> f32>(name);
            time_roots(|x| root(x, &openings))
        } else {
            let root = std::mem::transmute::<_, unsafe extern "C" fn(f32) -> f32>(name);
            time_roots(|x| root(x))
        }
    }
}

/// The machine's root, called as ours is: one at a time.
fn time_machine() -> [f64; 3] {
    #[inline(never)]
    fn root(x: f32) -> f32 { x.sqrt() }
    time_roots(root)
}

/// Best of several runs of each, taking turns.
fn measure_roots<const N: usize>(times: [fn() -> [f64; 3]; N]) -> [[f64; 3]; N] {
    let mut best = [[f64::MAX; 3]; N];
    for _ in 0..200 {
        for (time, best) in times.iter().zip(&mut best) {
            for (best, ns) in best.iter_mut().zip(time()) { *best = best.min(ns); }
        }
    }
    best
}

fn roots() {
    let [ours, machine] = measure_roots([time_ours, time_machine]);
    println!();
    for ((what, a), b) in ROOTS.iter().zip(ours).zip(machine) {
        println!("Root {what}: {a:.1} ns, the machine's {b:.1} ns ({:.1} times)", a / b);
    }
}

/// A bank and what its blocks are given. The sections are both faces of its table; the Rust takes the near one, as does a table of two axes. Where x
/// and y move they are steered anew in each frame; where z moves its target changes before each block, so that it glides.
struct Case { engine: Engine, sections: Vec<f32>, frames: usize, pitch: Vec<f32>, steering: Option<[Vec<f32>; 2]>, z_moves: bool, audio: Vec<f32> }

impl Case {
    /// Takes the tables of the near and the far face.
    fn take_tables(&mut self, [near, far]: [Table; 2]) {
        self.sections = [near, far].iter().flat_map(|t| t.sections.iter().flatten().flatten().copied()).collect();
        self.engine.table = near;
    }

    /// A block of the Rust's.
    fn rust(&self, bank: &mut FilterBank, audio: &mut [f32]) {
        let xy = self.steering.as_ref().map(|[x, y]| (&x[..], &y[..]));
        extended::dispatch(bank, None, &self.pitch, xy, audio, self.frames);
    }
}

/// Eight bells, at z = 0 or at z = 1.
fn bells(face: usize) -> Table {
    let mut d = PoleZeroDesign::default();
    for st in 0..4 { for p in 0..8 { d.states[st].points[p] = Point::bell(60.0 * (p + 1 + st + 4 * face) as f32 * 3.0, 1.0 + p as f32, 3.0); } }
    Table::of(&d)
}

fn case(code: u32, rate: f32, voices: usize, channels: usize, frames: usize, moving: bool) -> Case {
    case_at(code, rate, voices, channels, frames, moving, 0.7, 2.0)
}

/// The same with another resonance and stereo offset.
#[allow(clippy::too_many_arguments)]
fn case_at(code: u32, rate: f32, voices: usize, channels: usize, frames: usize, moving: bool, resonance: f32, offset: f32) -> Case {
    let s = Setup { code, rate: rate.to_bits(), reference: 440f32.to_bits(), voices: voices as u64, channels: channels as u64, clean: false };
    let mut e = Engine::new();
    let mut r = generate::Rng::new(5);
    e.open(s, s.needs());
    for k in 0..voices as u64 { e.set(k, &[resonance, 0.4, 0.3, 0.35, offset, 0.9, 1.0, 0.3, 0.6].map(f32::to_bits)); e.start(k); }
    let held: Vec<f32> = (0..voices).map(|_| r.range(50.0, 90.0)).collect();
    let pitch = (0..frames * voices).map(|i| if moving { r.range(50.0, 90.0) } else { held[i % voices] }).collect();
    let audio = (0..frames * voices * channels).map(|_| r.range(-0.5, 0.5)).collect();
    let mut c = Case { sections: vec![0.0; 320], engine: e, frames, pitch, steering: None, z_moves: false, audio };
    if code == 8 { c.take_tables([bells(0), bells(1)]); }
    c
}

/// Numbers a voice in targets and a slot in records.
#[derive(Clone, Copy)]
struct Widths { targets: usize, records: usize }

/// In the Rust's; and in the proved library, where targets have z, and records the peak and z.
const RUST: Widths = Widths { targets: 10, records: 30 };
const OURS: Widths = Widths { targets: 11, records: 32 };

/// The engine with so many numbers a voice and a slot: those that it has not are 0.
fn at_widths(e: &Engine, w: Widths) -> Engine {
    let rows = |list: &[f32], rows: usize, width: usize| -> Vec<f32> {
        list.chunks(list.len() / rows).flat_map(|row| row.iter().copied().chain(std::iter::repeat(0.0)).take(width)).collect()
    };
    let (t, r) = (rows(&e.t, e.setup.voices as usize, w.targets), rows(&e.r, counts_of(e).len(), w.records));
    Engine { t, r, ..e.clone() }
}

/// The count and the offsets of a chord.
type Chord = (u32, [f32; 8]);

/// What the Rust has not: whether a table has three axes; the chord of a chord comb, in Comb2's place.
#[derive(Clone, Copy)]
struct Form { three_axes: bool, chord: Option<Chord> }

const PLAIN: Form = Form { three_axes: false, chord: None };

impl Form {
    /// The structure's code, and the chord.
    fn of(&self, code: u32) -> (u32, Chord) { self.chord.map_or((code, (0, [0.0; 8])), |chord| (13, chord)) }
}

/// x and y as a block takes them.
fn steering_of(c: &Case) -> [&[f32]; 2] { c.steering.as_ref().map_or([&[], &[]], |[x, y]| [x, y]) }

/// A block of the proved library's.
fn block(e: &mut Engine, c: &Case, form: Form, audio: &mut [f32], counts: &mut [u32]) {
    let (s, [x, y]) = (e.setup, steering_of(c));
    let (code, (count, offsets)) = form.of(s.code);
    let mut done = 0usize;
    let refused = unsafe {
        sentivolus_block(code, f(s.rate), f(s.reference), s.voices as usize, s.channels as usize, false,
            e.table.active as u32, form.three_axes, c.sections.as_ptr(), e.table.gain, count, offsets.as_ptr(), &mut e.cursor, e.t.as_ptr(), e.t.len(),
            e.r.as_mut_ptr(), e.r.len(), e.d.as_mut_ptr(), e.d.len(), c.frames, c.pitch.as_ptr(), c.pitch.len(),
            c.steering.is_some(), x.as_ptr(), x.len(), y.as_ptr(), y.len(), audio.as_mut_ptr(), audio.len(),
            counts.as_mut_ptr(), counts.len(), &mut done)
    };
    assert_eq!((refused, done), (0, c.frames));
}

/// The same of an earlier archive. Up to version 200 it took no counts, up to 800 it had two axes alone, up to 900 no chord.
#[cfg(before)]
fn block_before(e: &mut Engine, c: &Case, form: Form, audio: &mut [f32], counts: &mut [u32]) {
    macro_rules! block_type { ([$($three:ty)?] [$($chord:ty),*] $($counts:ty),*) => { unsafe extern "C" fn(u32, f32, f32, usize, usize, bool, u32,
        $($three,)? *const f32, f32, $($chord,)* *mut usize, *const f32, usize, *mut f32, usize, *mut f32, usize, usize, *const f32, usize,
        bool, *const f32, usize, *const f32, usize, *mut f32, usize, $($counts,)* *mut usize) -> u32 } }
    let (s, [x, y]) = (e.setup, steering_of(c));
    let (code, (count, offsets)) = form.of(s.code);
    let mut done = 0usize;
    let name = before_sentivolus_block as *const ();
    macro_rules! refused { ($block:ty, [$($three:expr)?] [$($chord:expr),*] $($counts:expr),*) => {
        std::mem::transmute::<_, $block>(name)(code, f(s.rate), f(s.reference), s.voices as usize, s.channels as usize, false,
            e.table.active as u32, $($three,)? c.sections.as_ptr(), e.table.gain, $($chord,)* &mut e.cursor, e.t.as_ptr(), e.t.len(),
            e.r.as_mut_ptr(), e.r.len(), e.d.as_mut_ptr(), e.d.len(), c.frames, c.pitch.as_ptr(), c.pitch.len(),
            c.steering.is_some(), x.as_ptr(), x.len(), y.as_ptr(), y.len(), audio.as_mut_ptr(), audio.len(), $($counts,)* &mut done)
    } }
    let refused = unsafe {
        match before_sentivolus_version() {
            ..=200 => refused!(block_type!([] []), [] []),
            ..=800 => refused!(block_type!([] [] *mut u32, usize), [] [] counts.as_mut_ptr(), counts.len()),
            ..=900 => refused!(block_type!([bool] [] *mut u32, usize), [form.three_axes] [] counts.as_mut_ptr(), counts.len()),
            _ => refused!(block_type!([bool] [u32, *const f32] *mut u32, usize), [form.three_axes] [count, offsets.as_ptr()] counts.as_mut_ptr(), counts.len()),
        }
    };
    assert_eq!((refused, done), (0, c.frames));
}

#[cfg(before)]
fn widths_before() -> Widths {
    match unsafe { before_sentivolus_version() } { ..=600 => RUST, ..=800 => Widths { records: 31, ..RUST }, _ => OURS }
}

fn counts_of(e: &Engine) -> Vec<u32> { vec![0; (e.setup.voices * e.setup.channels) as usize] }

/// A block of an archive: engine, case, form, audio, counts. With it the archive's widths, and the form that is timed.
#[derive(Clone, Copy)]
struct Timed { block: fn(&mut Engine, &Case, Form, &mut [f32], &mut [u32]), widths: Widths, form: Form }

const TWO_AXES: Timed = Timed { block, widths: OURS, form: PLAIN };
const THREE_AXES: Timed = Timed { form: Form { three_axes: true, ..PLAIN }, ..TWO_AXES };

impl Timed {
    /// A block, z's targets changed where it moves.
    fn run(&self, e: &mut Engine, c: &Case, audio: &mut [f32], counts: &mut [u32]) {
        if c.z_moves { e.t.chunks_mut(self.widths.targets).filter_map(|t| t.get_mut(10)).for_each(|z| *z = 1.0 - *z); }
        (self.block)(e, c, self.form, audio, counts);
    }
}

/// Best of several runs of each block and of the Rust, all taking turns. With `anew` each run starts a block after the case's state, which is put
/// back outside of the time taken; the block sets the peaks, which the case has not.
fn measure_each<const N: usize>(c: &Case, millis: u128, anew: bool, blocks: [Timed; N]) -> ([f64; N], f64) {
    let per = c.audio.len();
    let reps = (16_000 / per).max(1);
    let mut counts = counts_of(&c.engine);
    let mut ours = blocks.map(|b| at_widths(&c.engine, b.widths));
    let mut bank = c.engine.clone().bank();
    let mut audio = c.audio.clone();
    let (mut best, mut rust) = ([f64::MAX; N], f64::MAX);
    let begun = Instant::now();
    while begun.elapsed().as_millis() < millis {
        if anew {
            (ours, bank) = (blocks.map(|b| at_widths(&c.engine, b.widths)), c.engine.clone().bank());
            audio.copy_from_slice(&c.audio);
            c.rust(&mut bank, &mut audio);
            for (timed, engine) in blocks.iter().zip(&mut ours) { audio.copy_from_slice(&c.audio); timed.run(engine, c, &mut audio, &mut counts); }
        }
        let t = Instant::now();
        for _ in 0..reps { audio.copy_from_slice(&c.audio); c.rust(&mut bank, &mut audio); }
        rust = rust.min(t.elapsed().as_nanos() as f64 / (reps * per) as f64);
        for ((timed, engine), best) in blocks.iter().zip(&mut ours).zip(&mut best) {
            let t = Instant::now();
            for _ in 0..reps { audio.copy_from_slice(&c.audio); timed.run(engine, c, &mut audio, &mut counts); }
            *best = best.min(t.elapsed().as_nanos() as f64 / (reps * per) as f64);
        }
    }
    assert!(audio.iter().all(|x| x.is_finite()));
    (best, rust)
}

fn measure_from(c: &Case, millis: u128, anew: bool) -> (f64, f64) {
    let ([ours], rust) = measure_each(c, millis, anew, [TWO_AXES]);
    (ours, rust)
}

fn measure(c: &Case, millis: u128) -> (f64, f64) { measure_from(c, millis, false) }

/// The case after a second of its noise and five of zeros, and zeros to come. By then a block's cost stands still in every code, and is the same
/// after ten: a tail does not reach zero but goes on in subnormal states.
fn decayed(mut c: Case) -> Case {
    let mut counts = counts_of(&c.engine);
    let second = f(c.engine.setup.rate) as usize / c.frames;
    let mut audio = c.audio.clone();
    let mut ours = at_widths(&c.engine, OURS);
    for k in 0..6 * second {
        if k < second { audio.copy_from_slice(&c.audio); } else { audio.fill(0.0); }
        TWO_AXES.run(&mut ours, &c, &mut audio, &mut counts);
    }
    c.engine = at_widths(&ours, RUST);
    c.audio.fill(0.0);
    c
}

fn silence(millis: u128) {
    println!("Silence, 16 voices stereo, 64 frames a block, held pitch: ours, Rust (ratio)\n");
    println!("| code | sounding | decayed tail | silence from a start | tail over sounding: ours, Rust |");
    println!("|---|---|---|---|---|");
    for code in 1..=12u32 {
        let started = || case(code, 48000.0, 16, 2, 64, false);
        let sounding = measure(&started(), millis);
        let tail = measure_from(&decayed(started()), millis, true);
        let mut silent = started();
        silent.audio.fill(0.0);
        let silent = measure_from(&silent, millis, true);
        let cells: String = [sounding, tail, silent].iter().map(|(a, b)| format!(" {a:.1}, {b:.1} ({:.2}) |", a / b)).collect();
        println!("| {code} {:?} |{cells} {:.1}, {:.1} |", KINDS[code as usize - 1], tail.0 / sounding.0, tail.1 / sounding.1);
    }
}

/// The case, of resonance 0.1, after a second of noise and then zeros, until a block leaves every record as it was: the seconds of zeros, where
/// that comes within six.
fn settled(code: u32, frames: usize) -> (Case, Option<f64>) {
    let mut c = case_at(code, 48000.0, 16, 2, frames, false, 0.1, 2.0);
    let mut counts = counts_of(&c.engine);
    let second = f(c.engine.setup.rate) as usize / frames;
    let mut audio = c.audio.clone();
    let mut ours = at_widths(&c.engine, OURS);
    let mut still = None;
    for k in 0..7 * second {
        if k < second { audio.copy_from_slice(&c.audio); } else { audio.fill(0.0); }
        let before: Vec<u32> = ours.r.iter().map(|x| x.to_bits()).collect();
        TWO_AXES.run(&mut ours, &c, &mut audio, &mut counts);
        if k >= second && ours.r.iter().map(|x| x.to_bits()).eq(before) {
            still = Some((k - second) as f64 / second as f64);
            break;
        }
    }
    c.engine = at_widths(&ours, RUST);
    c.audio.fill(0.0);
    (c, still)
}

/// Tails at resonance 0.1 where they no longer change, by each of the blocks and the Rust.
fn tails_of<const N: usize>(millis: u128, what: &str, blocks: [Timed; N]) {
    println!("Tails at resonance 0.1, 16 voices stereo, held pitch, zeros until no record changes: {what} (ours over the Rust)\n");
    println!("| code | no record changes after | 64 frames | 4,096 frames |");
    println!("|---|---|---|---|");
    for code in 1..=12u32 {
        let mut row = String::new();
        let mut after = None;
        for frames in [4096, 64] {
            let (c, still) = settled(code, frames);
            let (times, rust) = measure_each(&c, millis, true, blocks);
            let each: String = times.iter().map(|t| format!("{t:.1}, ")).collect();
            row = format!(" {each}{rust:.1} ({:.3}) |{row}", times[N - 1] / rust);
            after = still;
        }
        println!("| {code} {:?} | {} |{row}", KINDS[code as usize - 1], after.map_or("not within 6 s".into(), |s| format!("{s:.2} s")));
    }
}

/// Voices without a stereo offset, whose channels have one pitch, which moves; by each of the blocks and the Rust.
fn centred_of<const N: usize>(millis: u128, what: &str, blocks: [Timed; N]) {
    println!("No stereo offset, moving pitch, 16 voices stereo: {what} (ours over the Rust)\n");
    println!("| code | 64 frames | 4,096 frames |");
    println!("|---|---|---|");
    for code in 1..=12u32 {
        let mut row = String::new();
        for frames in [64, 4096] {
            let c = case_at(code, 48000.0, 16, 2, frames, true, 0.7, 0.0);
            let (times, rust) = measure_each(&c, millis, false, blocks);
            let each: String = times.iter().map(|t| format!("{t:.1}, ")).collect();
            row += &format!(" {each}{rust:.1} ({:.2}) |", times[N - 1] / rust);
        }
        println!("| {code} {:?} |{row}", KINDS[code as usize - 1]);
    }
}

#[cfg(not(before))]
fn tails(millis: u128) { tails_of(millis, "ours, Rust", [TWO_AXES]); }

#[cfg(not(before))]
fn centred(millis: u128) { centred_of(millis, "ours, Rust", [TWO_AXES]); }

#[cfg(before)]
fn earlier() -> Timed { Timed { block: block_before, widths: widths_before(), form: PLAIN } }

#[cfg(before)]
fn tails(millis: u128) { tails_of(millis, "before, after, Rust", [earlier(), TWO_AXES]); }

#[cfg(before)]
fn centred(millis: u128) { centred_of(millis, "before, after, Rust", [earlier(), TWO_AXES]); }

/// Microseconds of open, 16 voices stereo, and of start, at a rate.
fn opening(rate: f32) -> (f64, f64) {
    let mut e = at_widths(&case(9, rate, 16, 2, 1, false).engine, OURS);
    let (sections, offsets) = ([0f32; 320], [0f32; 8]);
    let mut best = (f64::MAX, f64::MAX);
    for _ in 0..20 {
        let t = Instant::now();
        let refused = unsafe {
            sentivolus_open(9, rate, 440.0, 16, 2, false, 0, false, sections.as_ptr(), 1.0, 0, offsets.as_ptr(), e.t.as_mut_ptr(), e.t.len(),
                e.r.as_mut_ptr(), e.r.len(), e.d.as_mut_ptr(), e.d.len())
        };
        best.0 = best.0.min(t.elapsed().as_nanos() as f64 / 1000.0);
        let t = Instant::now();
        let started = unsafe {
            sentivolus_start(9, rate, 440.0, 16, 2, false, 0, false, sections.as_ptr(), 1.0, 0, offsets.as_ptr(), e.t.as_ptr(), e.t.len(),
                e.r.as_mut_ptr(), e.r.len(), e.d.as_mut_ptr(), e.d.len(), 3)
        };
        best.1 = best.1.min(t.elapsed().as_nanos() as f64 / 1000.0);
        assert_eq!((refused, started), (0, 0));
    }
    best
}

/// The bytes that a bank is parked in.
fn park_len(e: &Engine, sections: &[f32]) -> usize {
    let (s, offsets) = (e.setup, [0f32; 8]);
    unsafe {
        sentivolus_park_len(s.code, f(s.rate), f(s.reference), s.voices as usize, s.channels as usize, s.clean, e.table.active as u32, false,
            sections.as_ptr(), e.table.gain, 0, offsets.as_ptr())
    }
}

fn park(e: &Engine, sections: &[f32], file: &mut [u8]) {
    let (s, offsets) = (e.setup, [0f32; 8]);
    let refused = unsafe {
        sentivolus_park(s.code, f(s.rate), f(s.reference), s.voices as usize, s.channels as usize, s.clean, e.table.active as u32, false,
            sections.as_ptr(), e.table.gain, 0, offsets.as_ptr(), e.cursor, e.t.as_ptr(), e.t.len(), e.r.as_ptr(), e.r.len(), e.d.as_ptr(), e.d.len(),
            file.as_mut_ptr(), file.len())
    };
    assert_eq!(refused, 0);
}

/// Restores the lists and the cursor; the setup that comes with them is left.
fn restore(e: &mut Engine, file: &[u8]) {
    let (mut code, mut rate, mut reference, mut voices, mut channels, mut clean) = (0, 0.0, 0.0, 0, 0, false);
    let (mut active, mut three_axes, mut sections, mut gain, mut count, mut offsets) = (0, false, [0f32; 320], 0.0, 0, [0f32; 8]);
    let refused = unsafe {
        sentivolus_restore(file.as_ptr(), file.len(), e.t.as_mut_ptr(), e.t.len(), e.r.as_mut_ptr(), e.r.len(), e.d.as_mut_ptr(), e.d.len(),
            &mut code, &mut rate, &mut reference, &mut voices, &mut channels, &mut clean, &mut active, &mut three_axes, sections.as_mut_ptr(),
            &mut gain, &mut count, offsets.as_mut_ptr(), &mut e.cursor)
    };
    assert_eq!(refused, 0);
}

/// ns of a park, of a restore, and of a restore whose blocks stand from the last to the first, taking turns; and the file's blocks.
fn measure_parking(rate: f32, voices: usize, channels: usize, millis: u128) -> ([f64; 3], usize) {
    let Case { engine, sections, .. } = case(9, rate, voices, channels, 1, false);
    let mut e = at_widths(&engine, OURS);
    let mut r = generate::Rng::new(6);
    e.d.iter_mut().for_each(|x| *x = r.range(-0.5, 0.5));
    let mut file = vec![0; park_len(&e, &sections)];
    park(&e, &sections, &mut file);
    let reversed: Vec<u8> = file.rchunks_exact(512).flatten().copied().collect();
    let mut other = e.clone();
    let mut best = [f64::MAX; 3];
    let begun = Instant::now();
    while begun.elapsed().as_millis() < millis {
        let mut time = |i: usize, call: &mut dyn FnMut()| {
            let t = Instant::now();
            call();
            best[i] = best[i].min(t.elapsed().as_nanos() as f64);
        };
        time(0, &mut || park(&e, &sections, &mut file));
        other.d.fill(0.0);
        time(1, &mut || restore(&mut other, &file));
        assert!(other.d == e.d);
        other.d.fill(0.0);
        time(2, &mut || restore(&mut other, &reversed));
        assert!(other.d == e.d);
    }
    (best, file.len() / 512)
}

fn parking(millis: u128) {
    println!("Parking, code 9 (Comb2), full rings: MB/s of the file (ns a block)\n");
    println!("| voices x channels, rate | blocks | park | restore | restore, the last block first |");
    println!("|---|---|---|---|---|");
    for (v, n, rate) in [(1, 1, 8000.0), (1, 1, 48000.0), (4, 2, 48000.0), (16, 2, 48000.0), (16, 2, 96000.0), (16, 2, 192000.0), (16, 2, 384000.0)] {
        let (ns, blocks) = measure_parking(rate, v, n, millis);
        let cells: String = ns.iter().map(|t| t / blocks as f64).map(|t| format!(" {:.0} ({t:.0}) |", 512e3 / t)).collect();
        println!("| {v}x{n}, {rate} | {blocks} |{cells}");
    }
}

/// A block of the proved library's, on a copy in the lists of `scratch`.
fn audition(e: &Engine, scratch: &mut Engine, c: &Case, audio: &mut [f32], counts: &mut [u32]) {
    let (s, [x, y], offsets) = (e.setup, steering_of(c), [0f32; 8]);
    let mut done = 0usize;
    let refused = unsafe {
        sentivolus_audition(s.code, f(s.rate), f(s.reference), s.voices as usize, s.channels as usize, false,
            e.table.active as u32, false, c.sections.as_ptr(), e.table.gain, 0, offsets.as_ptr(), e.cursor,
            e.t.as_ptr(), e.t.len(), e.r.as_ptr(), e.r.len(), e.d.as_ptr(), e.d.len(),
            &mut scratch.cursor, scratch.t.as_mut_ptr(), scratch.t.len(), scratch.r.as_mut_ptr(), scratch.r.len(),
            scratch.d.as_mut_ptr(), scratch.d.len(), c.frames, c.pitch.as_ptr(), c.pitch.len(),
            c.steering.is_some(), x.as_ptr(), x.len(), y.as_ptr(), y.len(),
            audio.as_mut_ptr(), audio.len(), counts.as_mut_ptr(), counts.len(), &mut done)
    };
    assert_eq!((refused, done), (0, c.frames));
}

fn middle(mut times: Vec<f64>) -> f64 {
    times.sort_by(f64::total_cmp);
    times[times.len() / 2]
}

/// Middle microseconds of a block, of its audition and of a plain copy of the three lists, taking turns: the copy and the audition to the same scratch,
/// then the block, which moves the bank on.
fn measure_audition(c: &Case, millis: u128) -> [f64; 3] {
    let mut bank = at_widths(&c.engine, OURS);
    let mut scratch = bank.clone();
    let (mut audio, mut heard) = (c.audio.clone(), c.audio.clone());
    let (mut counts, mut heard_counts) = (counts_of(&bank), counts_of(&bank));
    let mut times = [vec![], vec![], vec![]];
    let begun = Instant::now();
    while times[0].is_empty() || begun.elapsed().as_millis() < millis {
        let mut time = |i: usize, call: &mut dyn FnMut()| {
            let t = Instant::now();
            call();
            times[i].push(t.elapsed().as_nanos() as f64 / 1000.0);
        };
        audio.copy_from_slice(&c.audio);
        heard.copy_from_slice(&c.audio);
        time(2, &mut || {
            for (to, from) in [(&mut scratch.t, &bank.t), (&mut scratch.r, &bank.r), (&mut scratch.d, &bank.d)] { to.copy_from_slice(from); }
            std::hint::black_box(&mut scratch);
        });
        time(1, &mut || audition(&bank, &mut scratch, c, &mut heard, &mut heard_counts));
        time(0, &mut || block(&mut bank, c, PLAIN, &mut audio, &mut counts));
        assert!(heard == audio && heard_counts == counts && scratch.cursor == bank.cursor);
        assert!(scratch.t == bank.t && scratch.r == bank.r && scratch.d == bank.d);
    }
    times.map(middle)
}

fn auditions(millis: u128) {
    let of = |code: u32| case(code, 48000.0, 16, 2, 64, false);
    let lists = at_widths(&of(1).engine, OURS);
    let bytes = 4 * (lists.t.len() + lists.r.len() + lists.d.len());
    println!("Auditions, 16 voices stereo, 64 frames, held pitch, rate 48000: us, middle of the runs. The lists to copy have {bytes} bytes\n");
    println!("| code | block | audition | audition - block (share of the audition) | a plain copy of the lists |");
    println!("|---|---|---|---|---|");
    for code in 1..=12u32 {
        let [block, audition, copy] = measure_audition(&of(code), millis);
        let (more, kind) = (audition - block, KINDS[code as usize - 1]);
        println!("| {code} {kind:?} | {block:.1} | {audition:.1} | {more:.1} ({:.2}) | {copy:.1} |", more / audition);
    }
}

fn grid(millis: u128) {
    println!("| code | pitch | voices x channels / frames: ours, Rust (ratio) | | | |");
    println!("|---|---|---|---|---|---|");
    println!("| | | 1x1/64 | 1x1/4096 | 16x2/64 | 16x2/4096 |");
    for code in 1..=12u32 {
        for moving in [false, true] {
            let mut row = format!("| {code} {:?} | {}", KINDS[code as usize - 1], if moving { "moving" } else { "held" });
            for (v, n) in [(1, 1), (16, 2)] {
                for frames in [64, 4096] {
                    let (a, b) = measure(&case(code, 48000.0, v, n, frames, moving), millis);
                    row += &format!(" | {a:.1}, {b:.1} ({:.2})", a / b);
                }
            }
            println!("{row} |");
        }
    }
}

/// An earlier archive, this one and the Rust, taking turns.
#[cfg(before)]
fn before(millis: u128) {
    let each = |c: &Case| measure_each(c, millis, false, [earlier(), TWO_AXES]);
    println!("| code | pitch | voices x channels / frames: before, after, Rust (after over before) | | | |");
    println!("|---|---|---|---|---|---|");
    println!("| | | 1x1/64 | 1x1/4096 | 16x2/64 | 16x2/4096 |");
    for code in 1..=12u32 {
        for moving in [false, true] {
            let mut row = format!("| {code} {:?} | {}", KINDS[code as usize - 1], if moving { "moving" } else { "held" });
            for (v, n) in [(1, 1), (16, 2)] {
                for frames in [64, 4096] {
                    let ([a, b], rust) = each(&case(code, 48000.0, v, n, frames, moving));
                    row += &format!(" | {a:.1}, {b:.1}, {rust:.1} ({:.3})", b / a);
                }
            }
            println!("{row} |");
        }
    }
    println!();
    for code in [2, 9] {
        let ([a, b], rust) = each(&case(code, 48000.0, 1, 1, 1, false));
        println!("A block of one frame, 1x1, {:?}: before {a:.1} ns, after {b:.1} ns, Rust {rust:.1} ns", KINDS[code as usize - 1]);
    }
    let [before, after, machine] = measure_roots([time_before, time_ours, time_machine]);
    println!();
    for (i, what) in ROOTS.iter().enumerate() {
        let (a, b, c) = (before[i], after[i], machine[i]);
        println!("Root {what}: before {a:.1} ns, after {b:.1} ns, the machine's {c:.1} ns (after over before {:.3})", b / a);
    }
}

/// PoleZero with two axes and with three, and the Rust, which has two, taking turns.
fn axes(millis: u128) {
    println!("PoleZero, eight sections, 64 frames a block: ns a voice-sample with two axes, with three (three over two); the Rust, with two\n");
    println!("| what moves | 1x1 | 16x2 |");
    println!("|---|---|---|");
    for (what, pitch, xy, z_moves) in [("nothing", false, false, false), ("z", false, false, true), ("x and y", false, true, false),
        ("x, y and z", false, true, true), ("pitch", true, false, false)] {
        let mut row = format!("| {what}");
        for (v, n) in [(1, 1), (16, 2)] {
            let mut r = generate::Rng::new(7);
            let mut c = Case { z_moves, ..case(8, 48000.0, v, n, 64, pitch) };
            if xy { c.steering = Some([(); 2].map(|()| (0..64 * v).map(|_| r.range(-0.3, 0.4)).collect())); }
            let ([two, three], rust) = measure_each(&c, millis, false, [TWO_AXES, THREE_AXES]);
            row += &format!(" | {two:.1}, {three:.1} ({:.2}); {rust:.1}", three / two);
        }
        println!("{row} |");
    }
}

/// So many teeth: near together, and spread over two octaves.
fn near_teeth(count: u32) -> Chord { (count, std::array::from_fn(|i| 0.001 * i as f32)) }
fn far_teeth(count: u32) -> Chord { (count, std::array::from_fn(|i| (2.0 * i as f32 / (count - 1).max(1) as f32).min(2.0))) }

/// Chord combs and Comb2, taking turns, and the Rust's Comb2 in the first row.
fn chords(millis: u128) {
    let cases: Vec<Case> = [(1, 1, false), (1, 1, true), (16, 2, false), (16, 2, true)].map(|(v, n, moving)| case(9, 48000.0, v, n, 64, moving)).into();
    println!("Chord combs, 64 frames a block, rate 48000: ns a voice-sample (over Comb2's of the same run)\n");
    println!("| structure | 1x1, held pitch | 1x1, moving | 16x2, held | 16x2, moving |");
    println!("|---|---|---|---|---|");
    let row = |what: &str, cell: &dyn Fn(&Case) -> String| println!("| {what} |{}", cases.iter().map(|c| format!(" {} |", cell(c))).collect::<String>());
    row("9 Comb2: ours, the Rust's", &|c| { let (ours, rust) = measure(c, millis); format!("{ours:.1}, {rust:.1}") });
    let teeth = [1, 2, 4, 8].map(|n| [("near", near_teeth(n)), ("far", far_teeth(n))]);
    for (what, chord) in teeth.into_iter().flatten().filter(|(what, chord)| chord.0 > 1 || *what == "near") {
        let timed = Timed { form: Form { chord: Some(chord), ..PLAIN }, ..TWO_AXES };
        let name = if chord.0 == 1 { "13, one tooth".into() } else { format!("13, {} teeth, {what}", chord.0) };
        row(&name, &|c| { let ([comb2, chord], _) = measure_each(c, millis, false, [TWO_AXES, timed]); format!("{chord:.1} ({:.2})", chord / comb2) });
    }
}

fn growth(millis: u128) {
    println!("\nGrowth, ours, code 9 (Comb2), held pitch, ns a voice-sample:");
    for (what, v, n, frames, rate) in [("1 voice mono, 64 frames", 1, 1, 64, 48000.0), ("4 voices", 4, 1, 64, 48000.0),
        ("16 voices stereo", 16, 2, 64, 48000.0), ("1 frame", 1, 1, 1, 48000.0), ("16 frames", 1, 1, 16, 48000.0),
        ("4,096 frames", 1, 1, 4096, 48000.0), ("rate 8,000", 1, 1, 64, 8000.0), ("rate 384,000", 1, 1, 64, 384000.0)] {
        println!("- {what}: {:.1}", measure(&case(9, rate, v, n, frames, false), millis).0);
    }
    for rate in [8000.0, 48000.0, 384000.0] {
        let (open, start) = opening(rate);
        println!("- rate {rate}: open (16 voices stereo) {open:.1} us, start of a voice {start:.1} us");
    }
}

/// Every table, or the one that is named.
pub fn main() {
    let millis = std::env::var("MILLIS").ok().and_then(|m| m.parse().ok()).unwrap_or(300);
    match std::env::args().nth(2).as_deref() {
        Some("silence") => return silence(millis),
        Some("tails") => return tails(millis),
        Some("centred") => return centred(millis),
        Some("park") => return parking(millis),
        Some("audition") => return auditions(millis),
        Some("axes") => return axes(millis),
        Some("chord") => return chords(millis),
        _ => (),
    }
    #[cfg(before)]
    return before(millis);
    #[cfg(not(before))]
    every(millis);
}

#[cfg(not(before))]
fn every(millis: u128) {
    parts(millis);
    grid(millis);
    roots();
    growth(millis);
    println!();
    silence(millis);
    println!();
    tails(millis);
    println!();
    centred(millis);
    println!();
    parking(millis);
    println!();
    auditions(millis);
    println!();
    axes(millis);
    println!();
    chords(millis);
}
