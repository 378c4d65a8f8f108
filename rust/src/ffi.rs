//! The exported functions, in the order of `crates/sentivolus/src`.
//!
//! Nothing checks these declarations against the archive; the tests show that each argument arrives where it is meant to.
#![allow(clippy::too_many_arguments)]

extern "C" {
    pub fn sentivolus_version() -> u32;
    pub fn sentivolus_defaults(out: *mut [f32; 10]);
    pub fn sentivolus_open(code: u32, rate: f32, reference: f32, voices: usize, channels: usize, clean: bool,
        active: u32, three_axes: bool, sections: *const [f32; 320], gain: f32, count: u32, offsets: *const [f32; 8],
        targets: *mut f32, targets_len: usize, records: *mut f32, records_len: usize, delay: *mut f32, delay_len: usize) -> u32;
    pub fn sentivolus_set(code: u32, rate: f32, reference: f32, voices: usize, channels: usize, clean: bool,
        active: u32, three_axes: bool, sections: *const [f32; 320], gain: f32, count: u32, offsets: *const [f32; 8],
        targets: *mut f32, targets_len: usize, voice: usize,
        resonance: f32, drive: f32, saturation: f32, character: f32, stereo_offset: f32, mix: f32, level: f32,
        morph_x: f32, morph_y: f32, morph_z: f32) -> u32;
    pub fn sentivolus_start(code: u32, rate: f32, reference: f32, voices: usize, channels: usize, clean: bool,
        active: u32, three_axes: bool, sections: *const [f32; 320], gain: f32, count: u32, offsets: *const [f32; 8],
        targets: *const f32, targets_len: usize,
        records: *mut f32, records_len: usize, delay: *mut f32, delay_len: usize, voice: usize) -> u32;
    pub fn sentivolus_block(code: u32, rate: f32, reference: f32, voices: usize, channels: usize, clean: bool,
        active: u32, three_axes: bool, sections: *const [f32; 320], gain: f32, count: u32, offsets: *const [f32; 8],
        cursor: *mut usize, targets: *const f32, targets_len: usize,
        records: *mut f32, records_len: usize, delay: *mut f32, delay_len: usize, frames: usize, pitch: *const f32, pitch_len: usize,
        steered: bool, x: *const f32, x_len: usize, y: *const f32, y_len: usize, audio: *mut f32, audio_len: usize,
        counts: *mut u32, counts_len: usize, rendered: *mut usize) -> u32;
    pub fn sentivolus_audition(code: u32, rate: f32, reference: f32, voices: usize, channels: usize, clean: bool,
        active: u32, three_axes: bool, sections: *const [f32; 320], gain: f32, count: u32, offsets: *const [f32; 8],
        cursor: usize, targets: *const f32, targets_len: usize,
        records: *const f32, records_len: usize, delay: *const f32, delay_len: usize, scratch_cursor: *mut usize,
        scratch_targets: *mut f32, scratch_targets_len: usize, scratch_records: *mut f32, scratch_records_len: usize,
        scratch_delay: *mut f32, scratch_delay_len: usize, frames: usize, pitch: *const f32, pitch_len: usize,
        steered: bool, x: *const f32, x_len: usize, y: *const f32, y_len: usize, audio: *mut f32, audio_len: usize,
        counts: *mut u32, counts_len: usize, rendered: *mut usize) -> u32;
    pub fn sentivolus_park_len(code: u32, rate: f32, reference: f32, voices: usize, channels: usize, clean: bool,
        active: u32, three_axes: bool, sections: *const [f32; 320], gain: f32, count: u32, offsets: *const [f32; 8]) -> usize;
    pub fn sentivolus_park(code: u32, rate: f32, reference: f32, voices: usize, channels: usize, clean: bool,
        active: u32, three_axes: bool, sections: *const [f32; 320], gain: f32, count: u32, offsets: *const [f32; 8],
        cursor: usize, targets: *const f32, targets_len: usize,
        records: *const f32, records_len: usize, delay: *const f32, delay_len: usize, file: *mut u8, file_len: usize) -> u32;
    pub fn sentivolus_parked_setup(file: *const u8, file_len: usize, code: *mut u32, rate: *mut f32, reference: *mut f32,
        voices: *mut usize, channels: *mut usize, clean: *mut bool, active: *mut u32, three_axes: *mut bool, sections: *mut [f32; 320],
        gain: *mut f32, count: *mut u32, offsets: *mut [f32; 8], cursor: *mut usize) -> u32;
    pub fn sentivolus_restore(file: *const u8, file_len: usize, targets: *mut f32, targets_len: usize, records: *mut f32, records_len: usize,
        delay: *mut f32, delay_len: usize, code: *mut u32, rate: *mut f32, reference: *mut f32, voices: *mut usize, channels: *mut usize,
        clean: *mut bool, active: *mut u32, three_axes: *mut bool, sections: *mut [f32; 320], gain: *mut f32,
        count: *mut u32, offsets: *mut [f32; 8], cursor: *mut usize) -> u32;
    pub fn sentivolus_point(kind: u32, frequency: f32, q: f32, a: f32, b: f32, out: *mut [f32; 5]);
    pub fn sentivolus_table(kinds: *const [u32; 64], numbers: *const [f32; 256], three_axes: bool, gain_db: f32,
        sections: *mut [f32; 320], gain: *mut f32) -> u32;
    pub fn sentivolus_section(kinds: *const [u32; 64], numbers: *const [f32; 256], three_axes: bool, gain_db: f32, point: usize,
        x: f32, y: f32, z: f32, out: *mut [f32; 5]) -> u32;
    pub fn sentivolus_max(a: f32, b: f32) -> f32;
    pub fn sentivolus_min(a: f32, b: f32) -> f32;
    pub fn sentivolus_exp2(v: f32) -> f32;
    pub fn sentivolus_tan(w: f32) -> f32;
    pub fn sentivolus_soft_clip(x: f32) -> f32;
    pub fn sentivolus_root(x: f32) -> f32;
    pub fn sentivolus_log2(q: f32) -> f32;
    pub fn sentivolus_saturation_gain(x: f32, inv_a: f32) -> f32;
    pub fn sentivolus_asym(x: f32) -> f32;
    pub fn sentivolus_hermite(newer: f32, p0: f32, p1: f32, older: f32, t: f32) -> f32;
    pub fn sentivolus_ring_len(rate: f32) -> usize;
    pub fn sentivolus_read(buf: *const f32, buf_len: usize, len: usize, cursor: usize, slot: usize, delay: f32) -> f32;
    pub fn sentivolus_chord_read(buf: *const f32, buf_len: usize, len: usize, cursor: usize, slot: usize, ratio: f32,
        count: u32, offsets: *const [f32; 8], taps: *mut [f32; 8]) -> usize;
    pub fn sentivolus_ratio_of(pitch: f32, reference_over_rate: f32) -> f32;
    pub fn sentivolus_over(pitch: f32, reference_over_rate: f32) -> bool;
    pub fn sentivolus_gain(pitch: f32, reference_over_rate: f32) -> f32;
    pub fn sentivolus_svf(ic1: f32, ic2: f32, x: f32, g: f32, k: f32, out: *mut [f32; 4]);
    pub fn sentivolus_targets_of(resonance: f32, drive: f32, saturation: f32, character: f32, stereo_offset: f32, mix: f32,
        level: f32, morph_x: f32, morph_y: f32, morph_z: f32, out: *mut [f32; 11]);
}
