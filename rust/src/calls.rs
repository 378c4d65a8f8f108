//! The bank's calls on lent lists.
//!
//! Layouts, with slot = channel × voices + voice: targets [`TARGETS`] a voice (resonance, drive, drive gain, inverse knee, offset, mix, level,
//! character, x, y, z); records [`RECORD`] a slot (ten smoothed numbers in that order, twenty states, the peak, the smoothed z); delay [`ring_len`] a
//! slot; pitch, x and y by frame, then voice; audio by frame, then channel, then voice; counts one a slot.

use crate::floats::ieee;
use crate::refusal::answer;
use crate::{ffi, ring_len, Chord, Refusal, Table};

/// Numbers a voice in targets.
pub const TARGETS: usize = 11;

/// Where a voice's targets have z, the last of them.
pub const TARGET_Z: usize = 10;

/// Numbers a slot in records: ten smoothed, twenty states, the peak, the smoothed z.
pub const RECORD: usize = 32;

/// Where a slot's record has its peak: after each frame [`max`](crate::max) of the peak and |sample|, of the sample handed back, after mix and level.
/// [`start`] clears it to +0, [`set`] leaves it.
pub const PEAK: usize = 30;

/// Where a slot's record has its smoothed z.
pub const RECORD_Z: usize = 31;

/// The structures that a bank's filters can have.
#[derive(Clone, Copy, Debug, PartialEq, Eq, Hash)]
#[non_exhaustive]
pub enum Structure {
    /// A shaped state-variable stage; character goes from low-pass by notch to high-pass.
    BuzzMorph = 1,
    /// Low-pass below the middle of the cutoff's range, flat at it, high-pass above.
    DjSweep = 2,
    /// All-pass stages in series; character sets how many, 1 to 8.
    Diffuser = 3,
    /// A ladder of saturating stages; character slows the cutoff.
    TransistorLadder = 4,
    /// Coupled stages after an asymmetric shaper; character slows the cutoff.
    DiodeLadder = 5,
    /// Coupled stages without the shaper; character slows the cutoff.
    CleanLadder = 6,
    /// The transistor ladder, overdriven by character.
    DrivenLadder = 7,
    /// Up to eight drawn sections, blended by x, y and, with three axes, z; character slows cutoff, x and y.
    PoleZero = 8,
    /// A feedback comb with two taps, the second up to two octaves above by character.
    Comb2 = 9,
    /// A four-pole ladder; character goes from low-pass by notch to high-pass.
    ExpanderMultimode = 10,
    /// The four-pole ladder's band-pass.
    ExpanderBandPass = 11,
    /// Sallen-Key with a saturating feedback; character goes from low-pass to high-pass.
    K35 = 12,
    /// A feedback comb with up to eight taps, the teeth of the setup's [`Chord`]; character does nothing.
    ChordComb = 13,
}

/// What a bank is opened with; every later call is handed it again.
#[derive(Clone, Copy, Debug, PartialEq)]
pub struct Setup {
    /// A [`Structure`]'s number, 1 to 13.
    pub code: u32,
    /// Samples a second, 8,000 to 384,000.
    pub rate: f32,
    /// Hertz of pitch 69, 1 to 20,000.
    pub reference: f32,
    /// 1 to 16.
    pub voices: usize,
    /// 1, or 2: left and right.
    pub channels: usize,
    /// Clean drive: the clipper's input 24 dB lower and its output 24 dB higher.
    pub clean: bool,
    /// Read by [`Structure::PoleZero`] alone.
    pub table: Table,
    /// Read by [`Structure::ChordComb`] alone.
    pub chord: Chord,
}

impl Setup {
    /// A setup with reference 440, no clean drive, a pole-zero table of two axes that passes its input, and no chord: a [`Structure::ChordComb`] wants one
    /// before it is opened.
    pub fn new(structure: Structure, rate: f32, voices: usize, channels: usize) -> Self {
        let (table, chord) = (Table::default(), Chord::default());
        Setup { code: structure as u32, rate, reference: 440.0, voices, channels, clean: false, table, chord }
    }

    /// The refusal that every call meets with this setup, one of the first five or [`Refusal::Chord`], if it meets one.
    pub fn refusal(&self) -> Option<Refusal> {
        // Of empty lists `Store` is the answer once the setup is right.
        open(self, &mut [], &mut [], &mut []).err().filter(|r| *r != Refusal::Store)
    }

    /// Voices × channels: the length of a block's counts.
    pub fn slots(&self) -> Result<usize, Refusal> {
        match self.refusal() {
            Some(refusal) => Err(refusal),
            None => Ok(self.voices * self.channels),
        }
    }

    /// The lengths of targets, records and delay that this setup asks for.
    pub fn lengths(&self) -> Result<[usize; 3], Refusal> {
        self.slots().map(|slots| [TARGETS * self.voices, RECORD * slots, ring_len(self.rate) * slots])
    }
}

/// One voice's settings. A bank glides to new ones over a few milliseconds. NaN is refused in the first four and in `mix`.
#[derive(Clone, Copy, Debug, PartialEq)]
pub struct VoiceParams {
    /// Held to 0 .. 1.
    pub resonance: f32,
    /// Held to 0 .. 1: gain of 0 to 24 dB into a soft clipper before the filter.
    pub drive: f32,
    /// Of the resonance path, held to 0 .. 1.
    pub saturation: f32,
    /// Held to 0 .. 1; what it does is the structure's.
    pub character: f32,
    /// Semitones: the right channel's cutoff rises by it, the left's falls. NaN or infinite acts as 0.
    pub stereo_offset: f32,
    /// Held to 0 .. 1: 0 the input, 1 the filtered.
    pub mix: f32,
    /// Linear gain after the mix, held to 0 and above. NaN or infinite acts as 0.
    pub level: f32,
    /// Of [`Structure::PoleZero`], held to 0 .. 1; NaN acts as 0.
    pub morph_x: f32,
    /// As `morph_x`.
    pub morph_y: f32,
    /// As `morph_x`, of a table with three axes; it is not steered, and character does not slow it.
    pub morph_z: f32,
}

impl Default for VoiceParams {
    /// The archive's defaults: resonance 0.1, mix and level 1, all else 0.
    fn default() -> Self {
        let mut numbers = [0.0; 10];
        // SAFETY: `numbers` has the ten numbers that are written.
        ieee(|| unsafe { ffi::sentivolus_defaults(&mut numbers) });
        VoiceParams::from_array(numbers)
    }
}

impl VoiceParams {
    /// The settings in the order of the fields.
    pub fn from_array(p: [f32; 10]) -> Self {
        let [resonance, drive, saturation, character, stereo_offset, mix, level, morph_x, morph_y, morph_z] = p;
        VoiceParams { resonance, drive, saturation, character, stereo_offset, mix, level, morph_x, morph_y, morph_z }
    }
}

/// A block's input beside its audio.
#[derive(Clone, Copy, Debug)]
pub struct Block<'a> {
    /// 1 to 4,096.
    pub frames: usize,
    /// The cutoff in semitones, 69 being the reference: frames × voices numbers.
    pub pitch: &'a [f32],
    /// x and y, added to the smoothed `morph_x` and `morph_y` and the sums held to 0 .. 1: as many numbers as pitch.
    pub steering: Option<(&'a [f32], &'a [f32])>,
}

/// The lists that an audition is made in, each as long as the bank's and whatever it holds.
#[derive(Debug)]
pub struct Scratch<'a> {
    /// The copy's targets: the bank's.
    pub targets: &'a mut [f32],
    /// The copy's records.
    pub records: &'a mut [f32],
    /// The copy's rings.
    pub delay: &'a mut [f32],
}

/// The archive's version: 10,000 × major + 100 × minor + patch.
pub fn version() -> u32 {
    // SAFETY: takes nothing.
    unsafe { ffi::sentivolus_version() }
}

/// One call of the archive, the setup's numbers first.
macro_rules! call {
    ($name:ident, $s:expr $(, $rest:expr)*) => {
        ieee(|| unsafe {
            ffi::$name($s.code, $s.rate, $s.reference, $s.voices, $s.channels, $s.clean,
                $s.table.active, $s.table.three_axes, &$s.table.sections, $s.table.gain, $s.chord.count, &$s.chord.offsets $(, $rest)*)
        })
    };
}
pub(crate) use call;

/// Opens a bank on the lent lists, every voice at the defaults and started; answers the cursor, 0.
pub fn open(s: &Setup, targets: &mut [f32], records: &mut [f32], delay: &mut [f32]) -> Result<usize, Refusal> {
    // SAFETY: each pointer and length are of one slice, and no two of them overlap.
    answer(call!(sentivolus_open, s, targets.as_mut_ptr(), targets.len(), records.as_mut_ptr(), records.len(), delay.as_mut_ptr(), delay.len()))
        .map(|()| 0)
}

/// Writes one voice's targets; answers the cursor. Of the lists it measures targets alone.
pub fn set(s: &Setup, cursor: usize, targets: &mut [f32], voice: usize, p: &VoiceParams) -> Result<usize, Refusal> {
    // SAFETY: pointer and length are of one slice.
    answer(call!(sentivolus_set, s, targets.as_mut_ptr(), targets.len(), voice,
        p.resonance, p.drive, p.saturation, p.character, p.stereo_offset, p.mix, p.level, p.morph_x, p.morph_y, p.morph_z))
        .map(|()| cursor)
}

/// Starts one voice: copies its targets to its smoothed numbers and zeroes its states, peaks and rings; answers the cursor.
pub fn start(s: &Setup, cursor: usize, targets: &[f32], records: &mut [f32], delay: &mut [f32], voice: usize) -> Result<usize, Refusal> {
    // SAFETY: each pointer and length are of one slice, and those that are written overlap no other.
    answer(call!(sentivolus_start, s, targets.as_ptr(), targets.len(), records.as_mut_ptr(), records.len(), delay.as_mut_ptr(), delay.len(), voice))
        .map(|()| cursor)
}

/// Filters a block of audio in place; answers the new cursor and the frames rendered.
///
/// To `counts`, one number a slot, it writes how often in this block a cutoff was over the pitch ceiling, the cap of [`ratio_of`](crate::ratio_of), before
/// it was held there; an equal one is not over, nor is a NaN. A frame counts 0 or 1; with [`Structure::Comb2`] 0 or 2, its two reads; with
/// [`Structure::ChordComb`] 0 or the number of its teeth; with [`Structure::PoleZero`] each running section that was over, 0 to 8. With
/// [`Structure::DjSweep`] the cutoff is the one that the sweep comes to, not the pitch handed in.
#[allow(clippy::too_many_arguments)]
pub fn block(s: &Setup, cursor: usize, targets: &[f32], records: &mut [f32], delay: &mut [f32], b: Block<'_>,
    audio: &mut [f32], counts: &mut [u32]) -> Result<(usize, usize), Refusal> {
    let (x, y) = b.steering.unwrap_or((&[], &[]));
    block_marked(s, cursor, targets, records, delay, b.frames, b.pitch, b.steering.is_some(), x, y, audio, counts)
}

/// [`block`] with the steering as a mark and two lists, which a wrong call may hold at odds.
#[allow(clippy::too_many_arguments)]
pub fn block_marked(s: &Setup, cursor: usize, targets: &[f32], records: &mut [f32], delay: &mut [f32], frames: usize,
    pitch: &[f32], steered: bool, x: &[f32], y: &[f32], audio: &mut [f32], counts: &mut [u32]) -> Result<(usize, usize), Refusal> {
    let (mut next, mut rendered) = (cursor, 0usize);
    // SAFETY: each pointer and length are of one slice, and those that are written, with `next` and `rendered`, overlap no other.
    answer(call!(sentivolus_block, s, &mut next, targets.as_ptr(), targets.len(), records.as_mut_ptr(), records.len(), delay.as_mut_ptr(), delay.len(),
        frames, pitch.as_ptr(), pitch.len(), steered, x.as_ptr(), x.len(), y.as_ptr(), y.len(), audio.as_mut_ptr(), audio.len(),
        counts.as_mut_ptr(), counts.len(), &mut rendered))
        .map(|()| (next, rendered))
}

/// Auditions a block: [`block`] on a copy of the bank, made in the scratch. Audio, counts and answer are the block's, the cursor that is answered is the
/// copy's, and the scratch holds the copy as the block leaves it. The bank's lists stay, and its cursor is the caller's to keep. After all checks of a
/// block a scratch list of a wrong length is [`Refusal::Scratch`].
///
/// ```
/// use sentivolus::{audition, block, open, Block, Scratch, Setup, Structure};
/// # fn main() -> Result<(), sentivolus::Refusal> {
/// let setup = Setup::new(Structure::Comb2, 48000.0, 1, 1);
/// let [mut targets, mut records, mut delay] = setup.lengths()?.map(|n| vec![0.0; n]);
/// let [mut t, mut r, mut d] = setup.lengths()?.map(|n| vec![0.0; n]);
/// let cursor = open(&setup, &mut targets, &mut records, &mut delay)?;
/// let b = Block { frames: 2, pitch: &[57.0; 2], steering: None };
/// let (mut heard, mut audio, mut counts) = ([0.5, 0.25], [0.5, 0.25], [0]);
/// let scratch = Scratch { targets: &mut t, records: &mut r, delay: &mut d };
/// let answer = audition(&setup, cursor, &targets, &records, &delay, b, scratch, &mut heard, &mut counts)?;
/// // the same as committed
/// assert_eq!(block(&setup, cursor, &targets, &mut records, &mut delay, b, &mut audio, &mut counts)?, answer);
/// assert_eq!((heard, t, r, d), (audio, targets, records, delay));
/// # Ok(())
/// # }
/// ```
#[allow(clippy::too_many_arguments)]
pub fn audition(s: &Setup, cursor: usize, targets: &[f32], records: &[f32], delay: &[f32], b: Block<'_>, scratch: Scratch<'_>,
    audio: &mut [f32], counts: &mut [u32]) -> Result<(usize, usize), Refusal> {
    let (x, y) = b.steering.unwrap_or((&[], &[]));
    audition_marked(s, cursor, targets, records, delay, b.frames, b.pitch, b.steering.is_some(), x, y, scratch, audio, counts)
}

/// [`audition`] with the steering as [`block_marked`] takes it.
#[allow(clippy::too_many_arguments)]
pub fn audition_marked(s: &Setup, cursor: usize, targets: &[f32], records: &[f32], delay: &[f32], frames: usize, pitch: &[f32], steered: bool,
    x: &[f32], y: &[f32], scratch: Scratch<'_>, audio: &mut [f32], counts: &mut [u32]) -> Result<(usize, usize), Refusal> {
    let (mut next, mut rendered) = (cursor, 0usize);
    let Scratch { targets: t, records: r, delay: d } = scratch;
    // SAFETY: each pointer and length are of one slice, and those that are written, with `next` and `rendered`, overlap no other.
    answer(call!(sentivolus_audition, s, cursor, targets.as_ptr(), targets.len(), records.as_ptr(), records.len(), delay.as_ptr(), delay.len(),
        &mut next, t.as_mut_ptr(), t.len(), r.as_mut_ptr(), r.len(), d.as_mut_ptr(), d.len(), frames, pitch.as_ptr(), pitch.len(), steered,
        x.as_ptr(), x.len(), y.as_ptr(), y.len(), audio.as_mut_ptr(), audio.len(), counts.as_mut_ptr(), counts.len(), &mut rendered))
        .map(|()| (next, rendered))
}
