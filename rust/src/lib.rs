//! Safe calls into the proved voice filter bank (x86-64 Linux).
//!
//! [`Bank`] owns its lists; [`open`], [`set`], [`start`] and [`block`] work on lists that the caller lends. [`audition`] renders a block on a copy,
//! before it is committed. [`park`] writes a bank to the bytes of a file and [`restore`] reads it back. All answer a [`Refusal`] where the arguments are
//! wrong, which changes nothing. Every call that computes runs with MXCSR at its default, rounding to nearest with subnormals, whatever the thread has
//! set, and gives the thread's back: the bits are the same where an audio host flushes subnormals. Nothing is kept between calls, so any thread may make
//! them; the free calls allocate nothing.
//!
//! All NaNs count as one value: the sign and payload of a NaN in an answer are free.
//!
//! ```
//! use sentivolus::{Bank, Block, Setup, Structure};
//! # fn main() -> Result<(), sentivolus::Refusal> {
//! let mut bank = Bank::open(Setup::new(Structure::DjSweep, 48000.0, 1, 1))?;
//! let mut audio = [1.0, 0.0, 0.0];
//! bank.block(Block { frames: 3, pitch: &[69.0; 3], steering: None }, &mut audio)?;
//! assert_eq!(audio, [1.0, 0.0, 0.0]);
//! # Ok(())
//! # }
//! ```
#![deny(missing_docs)]

#[cfg(not(target_arch = "x86_64"))]
compile_error!("the archive is for x86-64");

mod bank;
mod calls;
mod chord;
mod design;
mod ffi;
mod floats;
mod leaves;
mod parking;
mod refusal;

pub use bank::Bank;
pub use calls::{audition, audition_marked, block, block_marked, open, set, start, version};
pub use calls::{Block, Scratch, Setup, Structure, VoiceParams, PEAK, RECORD, RECORD_Z, TARGETS, TARGET_Z};
pub use chord::Chord;
pub use design::{point, section, table, Design, Point, PointKind, Table, FACE};
pub use leaves::{asym, chord_read, exp2, gain, hermite, log2, max, min, over, ratio_of, read, ring_len};
pub use leaves::{root, saturation_gain, soft_clip, svf, tan, targets_of};
pub use parking::{park, park_len, parked_setup, restore};
pub use refusal::Refusal;
