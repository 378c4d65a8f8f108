//! Chords: what [`Structure::ChordComb`](crate::Structure::ChordComb) runs.

/// The teeth of a chord comb. Tooth i is a tap at delay 1 / (cutoff × exp2(offset i)) samples, the cutoff in cycles a sample; the taps are summed in this
/// order and multiplied by 1 / count. All else is [`Structure::Comb2`](crate::Structure::Comb2)'s, which is the chord of offsets 0 and twice its character.
///
/// ```
/// use sentivolus::{Bank, Block, Chord, Refusal, Setup, Structure};
/// # fn main() -> Result<(), Refusal> {
/// let major = Chord::new(&[0.0, 4.0 / 12.0, 7.0 / 12.0]); // a root, its third and its fifth
/// let setup = Setup { chord: major, ..Setup::new(Structure::ChordComb, 48000.0, 1, 1) };
/// let mut bank = Bank::open(setup)?;
/// let mut audio = [0.5; 64];
/// bank.block(Block { frames: 64, pitch: &[57.0; 64], steering: None }, &mut audio)?;
/// assert_eq!(bank.cursor(), 64);
///
/// // without teeth, or with one beyond two octaves, it is refused
/// for chord in [Chord::default(), Chord::new(&[0.0, 2.5])] {
///     assert_eq!(Setup { chord, ..setup }.refusal(), Some(Refusal::Chord));
/// }
/// # Ok(())
/// # }
/// ```
#[derive(Clone, Copy, Debug, Default, PartialEq)]
pub struct Chord {
    /// How many teeth it has, 1 to 8.
    pub count: u32,
    /// Octaves above the cutoff, 0 to 2; those past the last tooth are ignored.
    pub offsets: [f32; 8],
}

impl Chord {
    /// The chord of these offsets. More than eight make a count that is refused.
    pub fn new(offsets: &[f32]) -> Self {
        let mut chord = Chord { count: u32::try_from(offsets.len()).unwrap_or(u32::MAX), ..Chord::default() };
        chord.offsets.iter_mut().zip(offsets).for_each(|(to, from)| *to = *from);
        chord
    }
}
