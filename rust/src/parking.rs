//! Parking: a bank as the bytes of a file, and back.
//!
//! A file is made of blocks of 512 bytes, little-endian: byte 0 the kind, byte 1 the voice or slot, bytes 2 and 3 the part, then 126 words, then a
//! word that makes the sum of all 128 words zero. Kind 1, two parts: code, voices, channels, clean, rate, reference, cursor (low word, high word),
//! active, the table's face at z = 0, gain. Kind 2: a voice's targets without z. Kind 3: a slot's record without z; files of versions before 0.7.0 hold
//! 0 where the peak stands. Kind 4: a slot's ring, 126 cells a part. A chord comb, and a bank that needs a third axis, are [`Refusal::Unparkable`].

use crate::calls::call;
use crate::floats::ieee;
use crate::refusal::answer;
use crate::{ffi, Chord, Refusal, Setup, Table};

/// One call of the archive that reads a file; the places of a setup's numbers and of the cursor come last.
macro_rules! read_file {
    ($name:ident $(, $first:expr)*) => {{
        let (table, chord) = (Table::default(), Chord::default());
        let mut s = Setup { code: 0, rate: 0.0, reference: 0.0, voices: 0, channels: 0, clean: false, table, chord };
        let mut cursor = 0usize;
        answer(ieee(|| unsafe {
            ffi::$name($($first,)* &mut s.code, &mut s.rate, &mut s.reference, &mut s.voices, &mut s.channels, &mut s.clean,
                &mut s.table.active, &mut s.table.three_axes, &mut s.table.sections, &mut s.table.gain,
                &mut s.chord.count, &mut s.chord.offsets, &mut cursor)
        })).map(|()| (s, cursor))
    }};
}

/// The bytes that a bank of this setup is parked in, whatever its structure, table and chord; 0 for a setup that is refused.
pub fn park_len(s: &Setup) -> usize {
    // SAFETY: numbers, and the sections, which are read alone.
    call!(sentivolus_park_len, s)
}

/// Parks a bank: writes it to `file`, exactly [`park_len`] bytes, and leaves it as it is; answers the cursor.
///
/// Blocks stand by kind, then by voice or slot, then by part. Every NaN is written as 7fc00000, unused words as zero. After all other checks it meets
/// [`Refusal::Unparkable`]: a chord comb always, and a voice whose `morph_z` was not +0 until it is set to +0 and started, since a glide alone does not
/// come to 0.
pub fn park(s: &Setup, cursor: usize, targets: &[f32], records: &[f32], delay: &[f32], file: &mut [u8]) -> Result<usize, Refusal> {
    // SAFETY: each pointer and length are of one slice, and the one that is written overlaps no other.
    answer(call!(sentivolus_park, s, cursor, targets.as_ptr(), targets.len(), records.as_ptr(), records.len(), delay.as_ptr(), delay.len(),
        file.as_mut_ptr(), file.len()))
        .map(|()| cursor)
}

/// The setup and the cursor of a parked file, so that lists can be lent to [`restore`]. Refuses what `restore` does, but [`Refusal::Store`].
pub fn parked_setup(file: &[u8]) -> Result<(Setup, usize), Refusal> {
    // SAFETY: `file` and its length are of one slice; the rest are places of their own, and of each mark the archive makes false or true.
    read_file!(sentivolus_parked_setup, file.as_ptr(), file.len())
}

/// Restores a parked bank on the lent lists, whatever they hold; answers its setup and its cursor. The file's blocks may stand in any order. The table has
/// two axes, its face at z = 1 is 0, the chord is that of no teeth, and every z number +0.
///
/// Checks run in this order: [`Refusal::Damaged`]; [`Refusal::Blocks`] for the blocks of kind 1 and their word for clean; the setup's refusals, a chord
/// comb's code being [`Refusal::Structure`]; [`Refusal::Blocks`] for all other blocks; [`Refusal::Store`].
///
/// ```
/// use sentivolus::{open, park, park_len, parked_setup, restore, Setup, Structure};
/// # fn main() -> Result<(), sentivolus::Refusal> {
/// let setup = Setup::new(Structure::Comb2, 48000.0, 2, 1);
/// let [mut targets, mut records, mut delay] = setup.lengths()?.map(|n| vec![0.0; n]);
/// let cursor = open(&setup, &mut targets, &mut records, &mut delay)?;
/// let mut file = vec![0; park_len(&setup)];
/// park(&setup, cursor, &targets, &records, &delay, &mut file)?;
///
/// // another day
/// let (setup, _) = parked_setup(&file)?;
/// let [mut targets, mut records, mut delay] = setup.lengths()?.map(|n| vec![0.0; n]);
/// assert_eq!(restore(&file, &mut targets, &mut records, &mut delay)?, (setup, cursor));
/// # Ok(())
/// # }
/// ```
pub fn restore(file: &[u8], targets: &mut [f32], records: &mut [f32], delay: &mut [f32]) -> Result<(Setup, usize), Refusal> {
    // SAFETY: each pointer and length are of one slice, and those that are written overlap no other; the rest as in `parked_setup`.
    read_file!(sentivolus_restore, file.as_ptr(), file.len(), targets.as_mut_ptr(), targets.len(), records.as_mut_ptr(), records.len(),
        delay.as_mut_ptr(), delay.len())
}
