//! A bank that owns its lists.

use crate::{calls, parking, Block, Refusal, Scratch, Setup, VoiceParams, PEAK, RECORD};

/// The most slots of a bank.
const SLOTS: usize = 32;

/// A bank of voices with its setup, its lists and its cursor. Only [`Bank::open`], [`Bank::clone`], [`Bank::park`] and [`Bank::restore`] allocate.
///
/// ```
/// use sentivolus::{Bank, Block, Refusal, Setup, Structure, VoiceParams};
/// # fn main() -> Result<(), Refusal> {
/// let mut bank = Bank::open(Setup::new(Structure::Comb2, 48000.0, 2, 1))?;
/// bank.set(1, &VoiceParams { resonance: 0.8, ..VoiceParams::default() })?;
/// bank.start(1)?;
/// let mut audio = [0.5; 128]; // 64 frames of two voices
/// assert_eq!(bank.block(Block { frames: 64, pitch: &[57.0; 128], steering: None }, &mut audio)?, 64);
/// assert_eq!(bank.counts(), [0, 0]); // no voice was over the pitch ceiling
/// assert_eq!(bank.start(2), Err(Refusal::Voice));
/// # Ok(())
/// # }
/// ```
#[derive(Clone, Debug)]
pub struct Bank {
    setup: Setup,
    targets: Vec<f32>,
    records: Vec<f32>,
    delay: Vec<f32>,
    cursor: usize,
    counts: Vec<u32>,
}

impl Bank {
    /// Opens a bank, every voice at the defaults and started.
    pub fn open(setup: Setup) -> Result<Bank, Refusal> {
        let mut bank = Bank::zeros(setup)?;
        bank.cursor = calls::open(&bank.setup, &mut bank.targets, &mut bank.records, &mut bank.delay)?;
        Ok(bank)
    }

    /// Sets one voice: its filter glides there.
    pub fn set(&mut self, voice: usize, p: &VoiceParams) -> Result<(), Refusal> {
        calls::set(&self.setup, self.cursor, &mut self.targets, voice, p).map(|_| ())
    }

    /// Starts one voice: its settings without a glide, its states and rings silent, its peaks 0.
    pub fn start(&mut self, voice: usize) -> Result<(), Refusal> {
        calls::start(&self.setup, self.cursor, &self.targets, &mut self.records, &mut self.delay, voice).map(|_| ())
    }

    /// Filters a block of audio in place, frames × channels × voices samples, and counts ([`Bank::counts`]); answers the frames rendered.
    pub fn block(&mut self, b: Block<'_>, audio: &mut [f32]) -> Result<usize, Refusal> {
        let Bank { setup, targets, records, delay, cursor, counts } = self;
        let (next, rendered) = calls::block(setup, *cursor, targets, records, delay, b, audio, counts)?;
        *cursor = next;
        Ok(rendered)
    }

    /// Auditions a block: audio becomes what [`Bank::block`] would make of it, and the bank stays as it is. `scratch`, another bank such as a clone, becomes
    /// the bank that the block would leave, with its setup, cursor and counts: to go on with it is to have committed the block. It may hold anything, but
    /// lists of another length are [`Refusal::Scratch`], after all checks of a block. Answers the frames rendered.
    ///
    /// ```
    /// use sentivolus::{Bank, Block, Refusal, Setup, Structure};
    /// # fn main() -> Result<(), Refusal> {
    /// let mut bank = Bank::open(Setup::new(Structure::Comb2, 48000.0, 1, 1))?;
    /// let mut scratch = bank.clone();
    /// let mut low = [0.5; 64];
    /// bank.audition(Block { frames: 64, pitch: &[45.0; 64], steering: None }, &mut scratch, &mut low)?;
    /// let mut high = [0.5; 64];
    /// bank.audition(Block { frames: 64, pitch: &[81.0; 64], steering: None }, &mut scratch, &mut high)?;
    /// assert_eq!((bank.cursor(), scratch.cursor()), (0, 64));
    /// std::mem::swap(&mut bank, &mut scratch); // the second is committed
    /// assert_eq!(bank.cursor(), 64);
    /// # Ok(())
    /// # }
    /// ```
    pub fn audition(&self, b: Block<'_>, scratch: &mut Bank, audio: &mut [f32]) -> Result<usize, Refusal> {
        // Counts of another length would be a `Buffer`, before `Scratch`: those of the scratch are written once it is known to be as long.
        let mut counts = [0; SLOTS];
        let counts = &mut counts[..self.counts.len()];
        let lists = Scratch { targets: &mut scratch.targets, records: &mut scratch.records, delay: &mut scratch.delay };
        let (next, rendered) = calls::audition(&self.setup, self.cursor, &self.targets, &self.records, &self.delay, b, lists, audio, counts)?;
        (scratch.setup, scratch.cursor) = (self.setup, next);
        scratch.counts.copy_from_slice(counts);
        Ok(rendered)
    }

    /// The bank as the bytes of a file; it stays as it is. [`park`](crate::park) writes them to a lent list. The one refusal that it meets is
    /// [`Refusal::Unparkable`].
    ///
    /// ```
    /// use sentivolus::{Bank, Block, Refusal, Setup, Structure};
    /// # fn main() -> Result<(), Refusal> {
    /// let mut bank = Bank::open(Setup::new(Structure::Comb2, 48000.0, 1, 1))?;
    /// let b = Block { frames: 64, pitch: &[57.0; 64], steering: None };
    /// bank.block(b, &mut [0.5; 64])?;
    /// let file = bank.park()?;
    /// let mut restored = Bank::restore(&file)?;
    /// let (mut here, mut there) = ([0.25; 64], [0.25; 64]);
    /// bank.block(b, &mut here)?;
    /// restored.block(b, &mut there)?;
    /// assert_eq!(here, there);
    /// assert_eq!(Bank::restore(&file[1..]).err(), Some(Refusal::Damaged));
    /// # Ok(())
    /// # }
    /// ```
    pub fn park(&self) -> Result<Vec<u8>, Refusal> {
        let mut file = vec![0; parking::park_len(&self.setup)];
        parking::park(&self.setup, self.cursor, &self.targets, &self.records, &self.delay, &mut file)?;
        Ok(file)
    }

    /// The bank that a file was parked from, its counts all 0. Refuses what [`parked_setup`](crate::parked_setup) does.
    pub fn restore(file: &[u8]) -> Result<Bank, Refusal> {
        let mut bank = Bank::zeros(parking::parked_setup(file)?.0)?;
        (bank.setup, bank.cursor) = parking::restore(file, &mut bank.targets, &mut bank.records, &mut bank.delay)?;
        Ok(bank)
    }

    /// Lists of zeros, as long as the setup asks.
    fn zeros(setup: Setup) -> Result<Bank, Refusal> {
        let [targets, records, delay] = setup.lengths()?.map(|n| vec![0.0; n]);
        let counts = vec![0; setup.slots()?];
        Ok(Bank { setup, targets, records, delay, cursor: 0, counts })
    }

    /// What it was opened with.
    pub fn setup(&self) -> &Setup {
        &self.setup
    }

    /// The numbers that its voices glide to, [`TARGETS`](crate::TARGETS) a voice.
    pub fn targets(&self) -> &[f32] {
        &self.targets
    }

    /// Its smoothed numbers, states and peaks, [`RECORD`] a slot.
    pub fn records(&self) -> &[f32] {
        &self.records
    }

    /// A slot's peak: the greatest |sample| that blocks have handed back for this voice on this channel since the voice was started, 0 before the
    /// first. A NaN sample leaves it, an infinite one makes it infinite. None for a slot that the bank has not.
    ///
    /// ```
    /// use sentivolus::{Bank, Block, Setup, Structure};
    /// # fn main() -> Result<(), sentivolus::Refusal> {
    /// let mut bank = Bank::open(Setup::new(Structure::DjSweep, 48000.0, 1, 1))?;
    /// bank.block(Block { frames: 3, pitch: &[69.0; 3], steering: None }, &mut [0.25, -0.75, 0.5])?;
    /// assert_eq!((bank.peak(0, 0), bank.peak(0, 1)), (Some(0.75), None));
    /// bank.start(0)?;
    /// assert_eq!(bank.peak(0, 0), Some(0.0));
    /// # Ok(())
    /// # }
    /// ```
    pub fn peak(&self, channel: usize, voice: usize) -> Option<f32> {
        let Setup { voices, channels, .. } = self.setup;
        (channel < channels && voice < voices).then(|| self.records[RECORD * (channel * voices + voice) + PEAK])
    }

    /// Its rings, slot by slot.
    pub fn delay(&self) -> &[f32] {
        &self.delay
    }

    /// Where its rings are written next.
    pub fn cursor(&self) -> usize {
        self.cursor
    }

    /// How often each slot, channel × voices + voice, was over the pitch ceiling in the last accepted block, as [`block`](crate::block) counts; all 0
    /// before the first and after [`Bank::restore`]. The counts of an audition are the scratch's.
    ///
    /// ```
    /// use sentivolus::{Bank, Block, Setup, Structure, VoiceParams};
    /// # fn main() -> Result<(), sentivolus::Refusal> {
    /// let mut bank = Bank::open(Setup::new(Structure::K35, 48000.0, 2, 2))?;
    /// bank.set(1, &VoiceParams { stereo_offset: 12.0, ..VoiceParams::default() })?;
    /// bank.start(1)?;
    /// // three frames: voice 0 is over the ceiling in the first, voice 1 never on the left and always on the right
    /// let pitch = [150.0, 135.0, 69.0, 135.0, 69.0, 135.0];
    /// bank.block(Block { frames: 3, pitch: &pitch, steering: None }, &mut [0.0; 12])?;
    /// let channels: Vec<&[u32]> = bank.counts().chunks(bank.setup().voices).collect();
    /// assert_eq!(channels, [[1, 0], [1, 3]]);
    /// # Ok(())
    /// # }
    /// ```
    pub fn counts(&self) -> &[u32] {
        &self.counts
    }
}
