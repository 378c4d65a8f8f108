//! The float functions that the filters are made of, as the archive has them: for comparison by running, and for displays.

use crate::ffi;
use crate::floats::ieee;
use crate::{Chord, VoiceParams, TARGETS};

/// The greater: of a NaN and a number the number; -0 is below +0, whichever comes first.
pub fn max(a: f32, b: f32) -> f32 {
    // SAFETY: numbers alone.
    ieee(|| unsafe { ffi::sentivolus_max(a, b) })
}

/// The lesser: of a NaN and a number the number; -0 is below +0, whichever comes first.
pub fn min(a: f32, b: f32) -> f32 {
    // SAFETY: numbers alone.
    ieee(|| unsafe { ffi::sentivolus_min(a, b) })
}

/// lane.rs's exp2, of an exponent held to -12 .. 12.
pub fn exp2(v: f32) -> f32 {
    // SAFETY: numbers alone.
    ieee(|| unsafe { ffi::sentivolus_exp2(v) })
}

/// lane.rs's tan, for 0 .. 0.49 pi.
pub fn tan(w: f32) -> f32 {
    // SAFETY: numbers alone.
    ieee(|| unsafe { ffi::sentivolus_tan(w) })
}

/// lane.rs's soft clipper: x (x² + 27) / (9 x² + 27), of x held to -3 .. 3. The error is at most 2^-22 for every finite x, which is proved;
/// measured over every f32 it is at most 3.37 × 2^-24. A NaN gives -1.
pub fn soft_clip(x: f32) -> f32 {
    // SAFETY: numbers alone.
    ieee(|| unsafe { ffi::sentivolus_soft_clip(x) })
}

/// The f32 nearest the square root; NaN below 0.
pub fn root(x: f32) -> f32 {
    // SAFETY: numbers alone.
    ieee(|| unsafe { ffi::sentivolus_root(x) })
}

/// The logarithm to base 2 of a number from 1/64 to below 64, in steps of 2^-20; 0 elsewhere.
pub fn log2(q: f32) -> f32 {
    // SAFETY: numbers alone.
    ieee(|| unsafe { ffi::sentivolus_log2(q) })
}

/// The resonance saturator's gain of a level, with one over the knee.
pub fn saturation_gain(x: f32, inv_a: f32) -> f32 {
    // SAFETY: numbers alone.
    ieee(|| unsafe { ffi::sentivolus_saturation_gain(x, inv_a) })
}

/// extended.rs's asymmetric shaper.
pub fn asym(x: f32) -> f32 {
    // SAFETY: numbers alone.
    ieee(|| unsafe { ffi::sentivolus_asym(x) })
}

/// The cubic between `p0` and `p1` at `t`, with the neighbours on either side.
pub fn hermite(newer: f32, p0: f32, p1: f32, older: f32, t: f32) -> f32 {
    // SAFETY: numbers alone.
    ieee(|| unsafe { ffi::sentivolus_hermite(newer, p0, p1, older, t) })
}

/// A slot's ring at a rate: 1,024 to 65,536 cells, a power of two; 0 for a refused rate.
pub fn ring_len(rate: f32) -> usize {
    // SAFETY: numbers alone.
    ieee(|| unsafe { ffi::sentivolus_ring_len(rate) })
}

/// The cutoff of a pitch in cycles a sample, capped just below 1/2. `reference_over_rate` is the setup's reference / rate.
pub fn ratio_of(pitch: f32, reference_over_rate: f32) -> f32 {
    // SAFETY: numbers alone.
    ieee(|| unsafe { ffi::sentivolus_ratio_of(pitch, reference_over_rate) })
}

/// Whether [`ratio_of`]'s ratio was greater than its cap before it was capped; an equal one is not, nor is a NaN.
pub fn over(pitch: f32, reference_over_rate: f32) -> bool {
    // SAFETY: numbers alone.
    ieee(|| unsafe { ffi::sentivolus_over(pitch, reference_over_rate) })
}

/// The integrator's gain, tan of pi times [`ratio_of`].
pub fn gain(pitch: f32, reference_over_rate: f32) -> f32 {
    // SAFETY: numbers alone.
    ieee(|| unsafe { ffi::sentivolus_gain(pitch, reference_over_rate) })
}

/// A read of a slot's ring, `delay` samples back from the cursor, held to 2 .. len - 3; 0 where `len` is no ring's or the slot ends past `buf`.
pub fn read(buf: &[f32], len: usize, cursor: usize, slot: usize, delay: f32) -> f32 {
    // SAFETY: `buf` and its length are of one slice.
    ieee(|| unsafe { ffi::sentivolus_read(buf.as_ptr(), buf.len(), len, cursor, slot, delay) })
}

/// The teeth of a chord read together, each cell that they need once: the size of the set of those cells, and the taps. Tap i is what [`read`] gives at
/// delay 1 / (ratio × exp2(offset i)), those past the last tooth are 0; `ratio` is in cycles a sample and taken as it is. Where [`read`] gives 0 for want
/// of a ring, size and taps are 0. Nothing is refused: a count above 8 reads 8, one of 0 none.
///
/// ```
/// use sentivolus::{chord_read, exp2, read, Chord};
/// let ring: Vec<f32> = (0..1024).map(|i| i as f32).collect();
/// let (size, taps) = chord_read(&ring, 1024, 0, 0, 0.01, &Chord::new(&[0.0, 0.01, 1.0]));
/// assert_eq!(taps[2], read(&ring, 1024, 0, 0, 1.0 / (0.01 * exp2(1.0))));
/// assert_eq!(size, 9); // of the four cells of each the first two teeth share three
/// ```
pub fn chord_read(buf: &[f32], len: usize, cursor: usize, slot: usize, ratio: f32, chord: &Chord) -> (usize, [f32; 8]) {
    let mut taps = [0.0; 8];
    // SAFETY: `buf` and its length are of one slice; `taps` has the eight numbers that are written.
    let size = ieee(|| unsafe {
        ffi::sentivolus_chord_read(buf.as_ptr(), buf.len(), len, cursor, slot, ratio, chord.count, &chord.offsets, &mut taps)
    });
    (size, taps)
}

/// One state-variable stage with gain `g` and damping `k`: band, low, and the states `ic1` and `ic2` after it.
pub fn svf(ic1: f32, ic2: f32, x: f32, g: f32, k: f32) -> [f32; 4] {
    let mut out = [0.0; 4];
    // SAFETY: `out` has the four numbers that are written.
    ieee(|| unsafe { ffi::sentivolus_svf(ic1, ic2, x, g, k, &mut out) });
    out
}

/// The targets of a voice's settings.
pub fn targets_of(p: &VoiceParams) -> [f32; TARGETS] {
    let mut out = [0.0; TARGETS];
    // SAFETY: `out` has the numbers that are written.
    ieee(|| unsafe {
        ffi::sentivolus_targets_of(p.resonance, p.drive, p.saturation, p.character, p.stereo_offset, p.mix, p.level, p.morph_x, p.morph_y, p.morph_z,
            &mut out)
    });
    out
}
