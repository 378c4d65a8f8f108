//! The refusals of documents 01 and 02.

use std::fmt;

/// Why a call was refused; it changed nothing. Checks run in this order, but for [`Refusal::Chord`], which stands between [`Refusal::Structure`] and
/// [`Refusal::Store`]; each call makes those whose values it takes. Those of a parked file run in the order that [`restore`](crate::restore) says.
#[derive(Clone, Copy, Debug, PartialEq, Eq, Hash)]
#[non_exhaustive]
pub enum Refusal {
    /// The rate is NaN, below 8,000 or above 384,000.
    Rate = 1,
    /// The reference is NaN, below 1 or above 20,000.
    Tuning = 2,
    /// The voices are not 1 to 16.
    Polyphony = 3,
    /// The channels are not 1 or 2.
    Layout = 4,
    /// The code is not 1 to 13.
    Structure = 5,
    /// Targets, records, delay or the file to be written are not exactly as long as the setup asks.
    Store = 6,
    /// The voice number is not below voices.
    Voice = 7,
    /// Resonance, drive, saturation, character or mix is NaN.
    Knob = 8,
    /// The frames are 0 or above 4,096.
    Frames = 9,
    /// Pitch, x, y or audio is not exactly as long as the frames ask, or counts as the slots ask.
    Buffer = 10,
    /// The point number is above 7.
    Point = 11,
    /// The parked file's length is no multiple of 512, or a block's sum is wrong.
    Damaged = 12,
    /// A block of the parked file is missing, doubled or unknown, or its word for clean is above 1.
    Blocks = 13,
    /// Targets, records or delay of an audition's scratch are not exactly as long as the setup asks.
    Scratch = 14,
    /// A parked file has no words for the bank: it is a chord comb, its table has three axes, or the bits of a z number, of targets or records, are not
    /// all zero.
    Unparkable = 15,
    /// Of a chord comb the count is not 1 to 8, or the offset of one of its teeth is NaN, below 0 or above 2.
    Chord = 16,
}

/// Each refusal with its word and its condition.
const ALL: [(Refusal, &str, &str); 16] = [
    (Refusal::Rate, "rate", "rate NaN, below 8,000 or above 384,000"),
    (Refusal::Tuning, "tuning", "reference NaN, below 1 or above 20,000"),
    (Refusal::Polyphony, "polyphony", "voices not 1 to 16"),
    (Refusal::Layout, "layout", "channels not 1 or 2"),
    (Refusal::Structure, "structure", "code not 1 to 13"),
    (Refusal::Store, "store", "targets, records, delay or the file to be written of a wrong length"),
    (Refusal::Voice, "voice", "voice number not below voices"),
    (Refusal::Knob, "knob", "NaN resonance, drive, saturation, character or mix"),
    (Refusal::Frames, "frames", "frames 0 or above 4,096"),
    (Refusal::Buffer, "buffer", "pitch, x, y, audio or counts of a wrong length"),
    (Refusal::Point, "point", "point number above 7"),
    (Refusal::Damaged, "damaged", "file's length no multiple of 512, or a block's sum wrong"),
    (Refusal::Blocks, "blocks", "block missing, doubled or unknown, or clean above 1"),
    (Refusal::Scratch, "scratch", "targets, records or delay of a scratch of a wrong length"),
    (Refusal::Unparkable, "unparkable", "chord comb, three-axis table, or a z number whose bits are not all zero"),
    (Refusal::Chord, "chord", "chord comb's count not 1 to 8, or an offset NaN, below 0 or above 2"),
];

impl Refusal {
    /// The refusal of a number, 1 to 16.
    pub fn from_number(number: u32) -> Option<Refusal> {
        ALL.iter().map(|row| row.0).find(|r| r.number() == number)
    }

    /// Its number in documents 01 and 02.
    pub fn number(self) -> u32 {
        self as u32
    }

    /// The trade's word for it.
    pub fn word(self) -> &'static str {
        ALL[self as usize - 1].1
    }
}

impl fmt::Display for Refusal {
    fn fmt(&self, f: &mut fmt::Formatter<'_>) -> fmt::Result {
        let (_, word, condition) = ALL[*self as usize - 1];
        write!(f, "refused {}, {word}: {condition}", self.number())
    }
}

impl std::error::Error for Refusal {}

/// The archive's answer: 0, or a refusal's number.
pub(crate) fn answer(number: u32) -> Result<(), Refusal> {
    match Refusal::from_number(number) {
        Some(refusal) => Err(refusal),
        None => {
            assert_eq!(number, 0, "the archive answers a refusal that this wrapper does not know: they are of different versions");
            Ok(())
        }
    }
}
