//! Pole-zero designs: what [`Structure::PoleZero`](crate::Structure::PoleZero) runs.

use crate::floats::ieee;
use crate::refusal::answer;
use crate::{ffi, Refusal};

/// The numbers of one of a table's two faces.
pub const FACE: usize = 160;

/// A pole-zero design in the form that the filter runs.
#[derive(Clone, Copy, Debug, PartialEq)]
pub struct Table {
    /// Sections that run, 0 to 8; a larger number acts as 8.
    pub active: u32,
    /// Whether the axes are x, y and z; otherwise they are x and y, and the face at z = 1 is ignored.
    pub three_axes: bool,
    /// The face at z = 0 and then the face at z = 1, [`FACE`] numbers each: by section, then octaves, damping, high, band, low, then the terms c, x, y, xy
    /// of each. With three axes a section's number is A + z × (B - A), where A and B are those of the two faces at x and y.
    pub sections: [f32; 2 * FACE],
    /// Linear, after the sections.
    pub gain: f32,
}

impl Default for Table {
    /// Two axes, no active section, gain 1: the filter passes its input.
    fn default() -> Self {
        Table { active: 0, three_axes: false, sections: [0.0; 2 * FACE], gain: 1.0 }
    }
}

/// What a point does.
#[derive(Clone, Copy, Debug, PartialEq)]
pub enum PointKind {
    /// A resonant high-pass.
    HighPass,
    /// A resonant low-pass.
    LowPass,
    /// Nothing.
    Bypass,
    /// An all-pass.
    AllPass,
    /// A band-pass, unity at its peak.
    BandPass,
    /// A notch.
    Notch,
    /// A bell with its gain in dB, held to -18 .. 18; NaN acts as 0.
    Bell(f32),
    /// Poles at the point's frequency and Q, zeros at this frequency and Q.
    Free(f32, f32),
}

/// One point of a design: a second-order section.
#[derive(Clone, Copy, Debug, PartialEq)]
pub struct Point {
    /// What it does.
    pub kind: PointKind,
    /// Hertz at cutoff pitch 68.4 and reference 440, held to 8 .. 22,050; NaN acts as 1,000.
    pub frequency: f32,
    /// Held to 0.1 .. 40; NaN acts as 0.7071.
    pub q: f32,
}

/// A design as flat numbers: four states at x, y = 0, 0; 1, 0; 0, 1; 1, 1, of eight points each, state by state. With three axes these are at z = 0, and
/// four more, in the same order, at z = 1.
///
/// ```
/// use sentivolus::{table, Design, Point, PointKind};
/// let bell = |gain_db| Point { kind: PointKind::Bell(gain_db), frequency: 300.0, q: 2.0 };
/// let mut d = Design { three_axes: true, ..Design::default() };
/// for state in 0..4 {
///     d.put(state, 0, bell(6.0));
///     d.put(4 + state, 0, bell(-6.0)); // where z is 1
/// }
/// assert!(table(&d).three_axes);
/// ```
#[derive(Clone, Copy, Debug, PartialEq)]
pub struct Design {
    /// Each point's kind: 0 high-pass, 1 low-pass, 2 bypass, 3 all-pass, 4 band-pass, 5 notch, 6 bell, 7 free; any other is a bypass.
    pub kinds: [u32; 64],
    /// Each point's frequency, Q, a and b: a is a bell's gain in dB, or the frequency of a free point's zero, and b that zero's Q.
    pub numbers: [f32; 256],
    /// Whether it has eight states; otherwise four, and the points of the others are ignored.
    pub three_axes: bool,
    /// The overall gain in dB, held to -24 .. 24; NaN acts as 0.
    pub gain_db: f32,
}

impl Default for Design {
    /// Two axes, every point a bypass at 1,000 Hz, gain 0 dB.
    fn default() -> Self {
        let mut d = Design { kinds: [0; 64], numbers: [0.0; 256], three_axes: false, gain_db: 0.0 };
        let bypass = Point { kind: PointKind::Bypass, frequency: 1000.0, q: std::f32::consts::FRAC_1_SQRT_2 };
        for at in 0..64 {
            d.put_at(at, bypass);
        }
        d
    }
}

impl Design {
    /// Puts a point in its place. Panics unless `state` is below 4, or 8 with three axes, and `point` below 8.
    pub fn put(&mut self, state: usize, point: usize, p: Point) {
        let states = if self.three_axes { 8 } else { 4 };
        assert!(state < states && point < 8, "a design has 4 states of 8 points, with three axes 8 states");
        self.put_at(8 * state + point, p);
    }

    fn put_at(&mut self, at: usize, p: Point) {
        let (kind, a, b) = match p.kind {
            PointKind::HighPass => (0, 0.0, 0.0),
            PointKind::LowPass => (1, 0.0, 0.0),
            PointKind::Bypass => (2, 0.0, 0.0),
            PointKind::AllPass => (3, 0.0, 0.0),
            PointKind::BandPass => (4, 0.0, 0.0),
            PointKind::Notch => (5, 0.0, 0.0),
            PointKind::Bell(gain_db) => (6, gain_db, 0.0),
            PointKind::Free(zero_frequency, zero_q) => (7, zero_frequency, zero_q),
        };
        self.kinds[at] = kind;
        self.numbers[4 * at..4 * at + 4].copy_from_slice(&[p.frequency, p.q, a, b]);
    }
}

/// The table of a design, with as many axes. Points that are a bypass in all of its states, four or eight, are left out.
///
/// ```
/// use sentivolus::{table, Design, Point, PointKind};
/// let mut d = Design::default();
/// d.put(0, 0, Point { kind: PointKind::Bell(6.0), frequency: 300.0, q: 2.0 });
/// assert_eq!(table(&d).active, 1);
/// ```
pub fn table(d: &Design) -> Table {
    let mut t = Table { three_axes: d.three_axes, ..Table::default() };
    // SAFETY: each array has the length that its type says; `t` is written alone.
    t.active = ieee(|| unsafe { ffi::sentivolus_table(&d.kinds, &d.numbers, d.three_axes, d.gain_db, &mut t.sections, &mut t.gain) });
    t
}

/// Octaves, damping, high, band and low of a design's point at `x`, `y` and `z`, each held to 0 .. 1 (NaN gives NaN). With two axes `z` is ignored.
pub fn section(d: &Design, point: usize, x: f32, y: f32, z: f32) -> Result<[f32; 5], Refusal> {
    let mut out = [0.0; 5];
    // SAFETY: each array has the length that its type says; `out` is written alone.
    answer(ieee(|| unsafe { ffi::sentivolus_section(&d.kinds, &d.numbers, d.three_axes, d.gain_db, point, x, y, z, &mut out) })).map(|()| out)
}

/// Octaves, damping, high, band and low of one point, given as in [`Design`].
pub fn point(kind: u32, frequency: f32, q: f32, a: f32, b: f32) -> [f32; 5] {
    let mut out = [0.0; 5];
    // SAFETY: `out` has the five numbers that are written.
    ieee(|| unsafe { ffi::sentivolus_point(kind, frequency, q, a, b, &mut out) });
    out
}
