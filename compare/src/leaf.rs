//! Leaves files: `name inputs = answer`. The inputs are copied, the answers recomputed.

use crate::numbers::{answers, canonical, number, runs};
use crate::replay::Replayed;
use crate::words::{Lines, Words, Wrong};
use sentivolus::{Chord, Design, VoiceParams, FACE};

/// Reads a leaf's inputs and gives its answer.
type Leaf = fn(&mut Words) -> Result<String, Wrong>;

const LEAVES: [(&str, Leaf); 23] = [
    ("max", |w| w.floats().map(|[a, b]| text(&[sentivolus::max(a, b)]))),
    ("min", |w| w.floats().map(|[a, b]| text(&[sentivolus::min(a, b)]))),
    ("exp2", |w| w.float().map(|a| text(&[sentivolus::exp2(a)]))),
    ("tan", |w| w.float().map(|a| text(&[sentivolus::tan(a)]))),
    ("soft_clip", |w| w.float().map(|a| text(&[sentivolus::soft_clip(a)]))),
    ("sqrt", |w| w.float().map(|a| text(&[sentivolus::root(a)]))),
    ("log2", |w| w.float().map(|a| text(&[sentivolus::log2(a)]))),
    ("asym", |w| w.float().map(|a| text(&[sentivolus::asym(a)]))),
    ("saturation_gain", |w| w.floats().map(|[a, b]| text(&[sentivolus::saturation_gain(a, b)]))),
    ("hermite", |w| w.floats().map(|[a, b, c, d, e]| text(&[sentivolus::hermite(a, b, c, d, e)]))),
    ("ring_len", |w| w.float().map(|a| format!(" {}", sentivolus::ring_len(a)))),
    ("ratio_of", |w| w.floats().map(|[a, b]| text(&[sentivolus::ratio_of(a, b)]))),
    ("over", |w| w.floats().map(|[a, b]| format!(" {}", u8::from(sentivolus::over(a, b))))),
    ("gain", |w| w.floats().map(|[a, b]| text(&[sentivolus::gain(a, b)]))),
    ("svf", |w| w.floats().map(|[a, b, c, d, e]| text(&sentivolus::svf(a, b, c, d, e)))),
    ("targets_of", |w| w.floats().map(|p| text(&sentivolus::targets_of(&VoiceParams::from_array(p))))),
    ("point", |w| point(w).map(|(kind, [frequency, q, a, b])| text(&sentivolus::point(kind, frequency, q, a, b)))),
    ("table", |w| design(w, false).map(|d| table(&d))),
    ("table8", |w| design(w, true).map(|d| table(&d))),
    ("section", |w| section(w, false)),
    ("section8", |w| section(w, true)),
    ("read", read),
    ("chord_read", chord_read),
];

pub fn names() -> impl Iterator<Item = &'static str> { LEAVES.iter().map(|(name, _)| *name) }

fn text(values: &[f32]) -> String { answers(values).iter().map(|b| format!(" {b:08x}")).collect() }

/// A point's kind, frequency, Q, and the one or two numbers of a Bell or a Free.
fn point(w: &mut Words) -> Result<(u32, [f32; 4]), Wrong> {
    let kind = w.at_most(7)? as u32;
    let [frequency, q] = w.floats()?;
    let a = if kind >= 6 { w.float()? } else { 0.0 };
    let b = if kind == 7 { w.float()? } else { 0.0 };
    Ok((kind, [frequency, q, a, b]))
}

/// A gain, and the points of four states or, with three axes, of eight.
fn design(w: &mut Words, three_axes: bool) -> Result<Design, Wrong> {
    let mut d = Design { three_axes, gain_db: w.float()?, ..Design::default() };
    let points = if three_axes { 64 } else { 32 };
    for (kind, numbers) in d.kinds.iter_mut().zip(d.numbers.chunks_exact_mut(4)).take(points) {
        let (k, n) = point(w)?;
        *kind = k;
        numbers.copy_from_slice(&n);
    }
    Ok(d)
}

fn table(d: &Design) -> String {
    let t = sentivolus::table(d);
    let sections = if t.three_axes { &t.sections[..] } else { &t.sections[..FACE] };
    format!(" {} {:08x}{}", t.active, canonical(t.gain), runs(&answers(sections)))
}

fn section(w: &mut Words, three_axes: bool) -> Result<String, Wrong> {
    let (point, [x, y, z]) = (w.whole()?, w.floats()?);
    Ok(match sentivolus::section(&design(w, three_axes)?, point, x, y, z) {
        Ok(v) => text(&v),
        Err(r) => format!(" refused {}", number(r)),
    })
}

/// Cell i of the list that is read holds 37 i mod 1009.
fn cells(w: &mut Words) -> Result<Vec<f32>, Wrong> { Ok((0..w.length()?).map(|i| (37 * i % 1009) as f32).collect()) }

fn read(w: &mut Words) -> Result<String, Wrong> {
    let (cells, len, cursor, slot, delay) = (cells(w)?, w.whole()?, w.whole()?, w.whole()?, w.float()?);
    Ok(text(&[sentivolus::read(&cells, len, cursor, slot, delay)]))
}

/// The size of the set of cells, and as many taps as there are offsets.
fn chord_read(w: &mut Words) -> Result<String, Wrong> {
    let (cells, len, cursor, slot, ratio) = (cells(w)?, w.whole()?, w.whole()?, w.whole()?, w.float()?);
    let teeth = w.at_most(8)?;
    let mut chord = Chord { count: teeth as u32, ..Chord::default() };
    for offset in &mut chord.offsets[..teeth] { *offset = w.float()?; }
    let (size, taps) = sentivolus::chord_read(&cells, len, cursor, slot, ratio, &chord);
    Ok(format!(" {size}{}", text(&taps[..teeth])))
}

fn row(w: &mut Words) -> Result<String, Wrong> {
    let leaf = w.read("a leaf's name", |name| LEAVES.iter().find(|(n, _)| *n == name))?.1;
    let answer = leaf(w)?;
    w.end_or_answer()?;
    Ok(format!(" ={answer}\n"))
}

pub fn replay(text: &str) -> Result<Replayed, Wrong> {
    let mut out = Replayed::default();
    for mut w in Lines::of(text) {
        if w.line.is_empty() || w.line.starts_with('#') {
            out.copy(w.line);
            continue;
        }
        let answer = row(&mut w)?;
        out.text += w.line.split(" =").next().unwrap_or("");
        out.answer(&answer);
    }
    Ok(out)
}
