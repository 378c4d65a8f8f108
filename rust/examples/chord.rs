//! Opens a bank of four voices in stereo, renders a second of a chord through a sweeping transistor ladder, and prints what it did: the same
//! as `c/example.c`, to the bit. Half-way the bank is parked and goes on as restored, which changes no bit of the sound. At the end a block is
//! auditioned, which leaves the bank.

use sentivolus::{version, Bank, Block, Refusal, Setup, Structure, VoiceParams};

const RATE: usize = 48000;
const VOICES: usize = 4;
const CHANNELS: usize = 2;
const BLOCK: usize = 480;
const BLOCKS: usize = RATE / BLOCK;
/// A minor seventh: the notes in hertz.
const NOTES: [f32; VOICES] = [220.0, 261.626, 329.628, 391.995];

/// The sawtooth of each voice on both channels, and a cutoff that rises two octaves a second from 24 semitones above the reference.
fn feed(block: usize, phase: &mut [f32; VOICES], pitch: &mut [f32], audio: &mut [f32]) {
    for f in 0..BLOCK {
        for v in 0..VOICES {
            pitch[f * VOICES + v] = 93.0 + 24.0 * (block * BLOCK + f) as f32 / RATE as f32;
            for c in 0..CHANNELS {
                audio[(f * CHANNELS + c) * VOICES + v] = 0.5 * phase[v] - 0.25;
            }
            phase[v] += NOTES[v] / RATE as f32;
            if phase[v] >= 1.0 {
                phase[v] -= 1.0;
            }
        }
    }
}

/// FNV-1a over the bits.
fn checksum(mix: &[f32]) -> u32 {
    mix.iter().flat_map(|x| x.to_bits().to_le_bytes()).fold(2166136261, |sum, b| (sum ^ u32::from(b)).wrapping_mul(16777619))
}

fn peak(mix: &[f32], channel: usize) -> f32 {
    mix.iter().skip(channel).step_by(CHANNELS).fold(0.0, |most, x| f32::max(most, x.abs()))
}

/// How often a channel's voices were over the pitch ceiling in the last block.
fn over(bank: &Bank, channel: usize) -> u32 {
    bank.counts()[channel * VOICES..][..VOICES].iter().sum()
}

fn main() -> Result<(), Refusal> {
    let mut bank = Bank::open(Setup::new(Structure::TransistorLadder, RATE as f32, VOICES, CHANNELS))?;
    println!("sentivolus {}: {VOICES} voices, {CHANNELS} channels at {RATE} Hz", version());
    println!("lists: {} targets, {} records, {} delay cells", bank.targets().len(), bank.records().len(), bank.delay().len());
    let params = VoiceParams { resonance: 0.6, drive: 0.3, stereo_offset: 2.0, level: 0.4, ..VoiceParams::default() };
    for v in 0..VOICES {
        bank.set(v, &params)?;
        bank.start(v)?;
    }
    let (mut phase, mut mix, mut swept) = ([0.0; VOICES], vec![], 0);
    let (mut pitch, mut audio) = (vec![0.0; BLOCK * VOICES], vec![0.0; BLOCK * CHANNELS * VOICES]);
    for block in 0..BLOCKS {
        if block == BLOCKS / 2 {
            let file = bank.park()?;
            bank = Bank::restore(&file)?;
            println!("parked after {block} blocks in a file of {} bytes, restored in new lists", file.len());
        }
        feed(block, &mut phase, &mut pitch, &mut audio);
        bank.block(Block { frames: BLOCK, pitch: &pitch, steering: None }, &mut audio)?;
        mix.extend(audio.chunks(VOICES).map(|voices| voices.iter().fold(0.0, |sum, x| sum + x)));
        swept += over(&bank, 0) + over(&bank, 1);
    }
    let (left, right, sum) = (peak(&mix, 0), peak(&mix, 1), checksum(&mix));
    println!("rendered {BLOCKS} blocks of {BLOCK} frames: peaks {left:.4} left, {right:.4} right, checksum {sum:08x}");
    let peaks = |channel| (0..VOICES).filter_map(|v| bank.peak(channel, v)).map(|p| format!(" {p:.4}")).collect::<String>();
    println!("peaks of the voices since they started: left{}, right{}", peaks(0), peaks(1));
    // The sweep ends at pitch 117 and the ceiling is near 137.9. At pitch 138 the offset of 2 puts the right channel over it, the left one below: heard on
    // a copy of the bank, before such a block is committed.
    pitch.fill(138.0);
    let mut scratch = bank.clone();
    bank.audition(Block { frames: BLOCK, pitch: &pitch, steering: None }, &mut scratch, &mut audio)?;
    let (left, right) = (over(&scratch, 0), over(&scratch, 1));
    println!("over the pitch ceiling: {swept} times in the sweep; auditioned at pitch 138, {left} times left, {right} right");
    let refused = bank.block(Block { frames: 4097, pitch: &pitch, steering: None }, &mut audio);
    println!("a block of 4097 frames is refused: {}", refused.map_or_else(Refusal::word, |_| "no"));
    Ok(())
}
