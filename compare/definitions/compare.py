#!/usr/bin/env python3
"""Compares the definitions of crates/*/specs with the published Rust, operation by operation. Ends with `N equal, M different`."""
import argparse
import functools
import os
import sys

sys.dont_write_bytecode = True
sys.setrecursionlimit(20000)

from antt import Definitions
from rust import Rust, Type
from trees import Tree, literal

ROOT = os.path.join(os.path.dirname(os.path.abspath(__file__)), "..", "..")
RUST = os.path.join(ROOT, "..", "shared", "docs", "src", "crates", "dsp", "src", "filter")
SHOWN = 20  # differences printed at most
VOICES = 2  # of the blocks compared

# ---- what document 02 adds, in Rust

PEAK = "a.max_(abs(b))"      # a slot's peak (C-15): of the peak before, a, and the sample handed back, b
GLIDE = "(a - b).fma(c, b)"  # z (C-17) on its way, as x and y: of its target a, z before b, and alpha c
BETWEEN = "a + c * (b - a)"  # a number of a section with three axes: of the two faces' numbers a and b, and z c
TOOTH = "1.0 / (a * exp2(b))"  # a tooth's delay (C-18): of the ratio a and the tooth's offset b
MEAN = "a * (1.0 / b)"       # what the teeth give: of the sum a of their taps in list order, and how many they are b

# ---- the table of names: after a renaming, this part alone changes

# a definition, and the same in Rust of its arguments a, b, c, .. in order; a record's fields in the definition's order
LEAVES = (
    ("lane.Lane.exp2_of", "exp2(a)"),
    ("lane.Lane.pow10_of", "10f32.powf(a / b)"),
    ("lane.Lane.exp_of", "a.exp()"),
    ("lane.Lane.tan_of", "tan(a)"),
    ("lane.Lane.soft_clip", "soft_clip(a)"),
    ("lane.Lane.saturation_gain", "saturation_gain(a, b)"),
    ("lines.Lines.max_delay_seconds", "MAX_DELAY_SECONDS"),
    ("lines.Lines.min_delay", "MIN_DELAY"),
    ("lines.Lines.hermite_of", "hermite(a, b, c, d, e)"),
    ("points.Points.default_point", "Point::default()"),
    ("points.Points.between", BETWEEN),
    ("filter.Filter.ratio_of", "ratio_of(a, b)"),
    ("filter.Filter.gain_of", "gain(a, b)"),
    ("filter.Filter.svf_of", "let (band, low) = svf(&mut a, &mut b, c, d, e); [a, b, band, low]"),
    ("filter.Filter.svf_k", "svf_k(a, b, c)"),
    ("filter.Filter.saturated_k", "saturated_k(a, b, c, d)"),
    ("filter.Voice.default_params", "(VoiceParams::default(), 0.0)"),
    ("extended.Extended.unit_or0", "unit(a)"),
    ("extended.Extended.abs_of", "abs(a)"),
    ("extended.Extended.asym_slope", "ASYM_SLOPE"),
    ("extended.Extended.asym_of", "asym(a)"),
    ("sweeps.Sweeps.neutral_pitch", "NEUTRAL_PITCH"),
    ("sweeps.Sweeps.dj_k", "dj_k(a)"),
    ("sweeps.Sweeps.diffuser_k", "diffuser_k(a)"),
)

# the definitions that the functions below ask for
TARGETS = "filter.Voice.voice_targets"
SMOOTH = "extended.Extended.smooth_mark"
LINES = "extended.Extended.lines_mark"
KERNEL = "kernels.Kernels.kernel_of"
CONSTANTS = "run.Run.constants_of"
SIGN = "run.Run.sign_of"
TICK = "run.Run.tick_with"
LAGGED = (18, 19)  # a slot's states with x and y after the lag
LIMIT = "filter.Filter.ratio_limit"
COUNT = "kernels.Kernels.over_count"
BLEND = "poles.Poles.blend_of"
POINT_SECTION = "points.Points.section_of"
VALUES = "points.Points.values"
DEFAULT_STATE = "points.Points.default_state"
TABLE = "pole_zero.PoleZero.table_of"
DESIGN_SECTION = "pole_zero.PoleZero.section_values"

# parameters of KERNEL and TICK that are called otherwise here, and the fields of what they give: sample, states or record, ring
PARAMETERS = {"p": "settings", "k": "constants", "st": "steering", "rec": "numbers"}
KERNEL_FIELDS = ("out", "state", "ring")
TICK_FIELDS = ("out", "rec", "ring")
TICK_COUNT = "over"

# fields of CONSTANTS, and the variables of Run::go that they are
CONSTANT_FIELDS = (("alpha", "alpha"), ("clip_in", "clip_in"), ("clip_out", "clip_out"), ("smooth_samples", "smooth_samples"),
                   ("ref_over_rate", "reference_ratio"))


def by_name(name):
    """An operation known by its name alone."""
    return lambda *parts: Tree(name, *parts)


class Marks(tuple):
    """A count, as the conditions that are counted."""

    def __add__(self, other):
        return Marks((*self, *other))

    def __radd__(self, none):
        assert none == 0
        return self

    def __rmul__(self, times):
        return Marks(times * tuple(self))


# definitions compared by name alone: the Rust's side of each is a method of f32 or of Lines, in rust.py
OPAQUE = {
    "lane.Lane.max_of": by_name("max"), "lane.Lane.min_of": by_name("min"), "lane.Lane.clamp_of": by_name("clamp"),
    "sqrt.Root.root_of": by_name("root"), "log2.Log2.log_of": by_name("log2"),
    "lines.Lines.ring_read": by_name("ring_read"), "lines.Lines.ring_write": by_name("ring_write"),
    "filter.Filter.once": lambda over: Marks((over,)),
}

# the structure codes
CODES = {
    1: Type("BuzzMorph"), 2: Type("DjSweep"), 3: Type("Diffuser"), 4: Type("TransistorLadder", DRIVEN=False),
    5: Type("DiodeLadder", CLEAN=False), 6: Type("DiodeLadder", CLEAN=True), 7: Type("TransistorLadder", DRIVEN=True),
    8: Type("PoleZero"), 9: Type("Comb2"), 10: Type("Expander", BAND=False), 11: Type("Expander", BAND=True), 12: Type("K35"),
}
CHORD = 13  # the chord comb (C-18), which has no Rust behind it
TEXTS = {**CODES, CHORD: CODES[9]}  # what each kernel is held against: the chord comb's against Comb2's, with its teeth for the two taps
TEETH = 3  # of the blocks compared
SKIPPED = (range(8), (), (1, 4, 6), (0, 3, 7), (7,), range(7))  # of each design compared, the points that are bypassed in a face's states
FACE = 160  # numbers of a table's face
KINDS = ("HighPass", "LowPass", "Bypass", "AllPass", "BandPass", "Notch", "Bell", "Free")

# ---- what is given to both sides

VOICE = ("resonance", "drive", "saturation", "character", "stereo_offset", "mix", "level", "morph_x", "morph_y", "morph_z")
FORMS = (Tree("nan"), Tree("inf", "sign"), Tree("fin", "sign", "digits", "exponent"))  # every float is one of these


def floats(name, count):
    """So many unknown floats."""
    return [Tree("%s%d" % (name, i)) for i in range(count)]


def record(names):
    """A record of unknown floats."""
    return {name: Tree(name) for name in names}


def table(active, three):
    """A design's table, for the definitions and for the Rust, which has the near face alone."""
    numbers = floats("t", 2 * FACE)
    nested = [[numbers[20 * s + 4 * v:20 * s + 4 * v + 4] for v in range(5)] for s in range(8)]
    common = {"active": active, "gain": Tree("gain")}
    return {"sections": numbers, "three": three, **common}, {"": "Table", "sections": nested, **common}


def chord(count):
    """A chord of so many teeth."""
    return {"count": count, "offsets": floats("offset", 8)}


def point(kind, mark):
    """A point of a kind, for the definitions (where the kind carries its numbers) and for the Rust."""
    names = ("frequency", "q", "gain_db", "zero_frequency", "zero_q")
    f, q, gain, zero_f, zero_q = [Tree(name + mark) for name in names]
    carried = {"Bell": (gain,), "Free": (zero_f, zero_q)}.get(kind, ())
    rust = {"": "Point", "kind": Tree(kind), **dict(zip(names, (f, q, gain, zero_f, zero_q)))}
    return {"kind": Tree(kind, *carried), "frequency": f, "q": q}, rust


def design(number, three):
    """A design of mixed kinds for the definitions, and its two faces as designs of the Rust's."""
    def kind(state, place):
        skipped = SKIPPED[(number + state // 4) % len(SKIPPED)]
        return "Bypass" if place in skipped else KINDS[(3 * place + 5 * state + number) % 8]
    pairs = [[point(kind(s, p), "_%d_%d" % (s, p)) for p in range(8)] for s in range(8)]
    gain = Tree("design_gain_db")
    definition = {"states": [{"points": [d for d, _ in state]} for state in pairs], "three": three, "gain_db": gain}
    states = [{"": "State", "points": [r for _, r in state]} for state in pairs]
    return definition, [{"": "PoleZeroDesign", "states": face, "gain_db": gain} for face in (states[:4], states[4:])]


def voice_targets(voice):
    """A voice's eleven targets."""
    return floats("target%d_" % voice, 11)


def slot(i):
    """What a slot has before a frame: its input; its ten smoothed numbers, twenty states, peak and z; its ring."""
    return {"input": Tree("in%d" % i), "numbers": floats("number%d_" % i, 32), "ring": Tree("ring%d" % i)}


def rust_bank(clean, channels, slots, rust_table):
    """The Rust's bank with these slots. It has no peaks and no z."""
    rows = [list(row) for row in zip(*[each["numbers"] for each in slots])]
    targets = [list(row) for row in zip(*[voice_targets(voice) for voice in range(VOICES)])]
    return {"": "FilterBank", "voices": VOICES, "channels": channels, "stride": VOICES, "clean": clean, "rate": Tree("rate"),
            "reference": Tree("reference"), "targets": targets[:8], "morph_targets": targets[8:10], "smoothed": rows[:8],
            "morph_smoothed": rows[8:10], "state": rows[10:30], "delay": [each["ring"] for each in slots],
            "ring": Tree("len"), "cursor": Tree("cursor"), "pole_zero": rust_table}


def flat(value):
    """A value's numbers in order: a record's fields, a list's items."""
    if isinstance(value, dict):
        return [number for name, part in value.items() if name for number in flat(part)]
    if isinstance(value, (list, tuple)):
        return [number for part in value for number in flat(part)]
    return [value]


def parts_of(value):
    """Every tree within a value, each once."""
    seen, todo = set(), flat(value)
    while todo:
        tree = todo.pop()
        if isinstance(tree, Tree) and tree not in seen:
            seen.add(tree)
            todo.extend(flat(tree.parts))
    return seen


def replaced(value, others):
    """A value with trees exchanged for others, wherever they stand in it; `others` keeps what was worked out."""
    if isinstance(value, list):
        return [replaced(part, others) for part in value]
    if isinstance(value, Tree) and value not in others:
        parts = [replaced(part, others) if isinstance(part, Tree) else part for part in value.parts]
        others[value] = Tree(value.name, *parts)
    return others.get(value, value)


def parting(a, b):
    """The first place where two trees differ."""
    while isinstance(a, Tree) and isinstance(b, Tree) and a.name == b.name and len(a.parts) == len(b.parts):
        unequal = [(x, y) for x, y in zip(a.parts, b.parts) if x != y]
        if not isinstance(unequal[0][0], Tree):
            break
        a, b = unequal[0]
    return a, b


def shown(value):
    """A value as text, a tree to a depth of four."""
    return value.shown(4) if isinstance(value, Tree) else str(value)


class Different(Exception):
    """A first difference."""


class Comparison:
    """Runs the comparisons and counts; with `first`, stops silently at the first difference."""

    def __init__(self, rust, definitions, first=False):
        self.rust, self.definitions, self.first, self.equal, self.different = rust, definitions, first, 0, 0

    def run(self):
        """Everything."""
        for part in (self.leaves, self.targets, self.marks, self.kernels, self.blocks, self.points, self.tables):
            part()
        return self

    def same(self, what, definition, rust):
        """Counts the numbers of two values that are equal, and reports those that are not. Of a record, the definition's fields count."""
        if isinstance(definition, dict) and isinstance(rust, dict):
            rust = [rust[name] for name in definition]
        ours, theirs = flat(definition), flat(rust)
        if len(ours) != len(theirs):
            ours, theirs, what = [len(ours)], [len(theirs)], what + ", how many numbers"
        for i, (a, b) in enumerate(zip(ours, theirs)):
            self.equal += a == b
            if a != b:
                self.report("%s, number %d" % (what, i), a, b)

    def report(self, what, a, b):
        """Prints a difference: both trees, and both at the place where they part."""
        if self.first:
            raise Different
        self.different += 1
        if self.different > SHOWN:
            return
        print("different: %s\n  definition %s\n  rust       %s" % (what, shown(a), shown(b)))
        if parting(a, b) != (a, b):
            print("  there      %s\n             %s" % tuple(shown(tree) for tree in parting(a, b)))

    def leaves(self):
        """The table's definitions, at unknown floats or at a voice's settings."""
        for name, text in LEAVES:
            value = self.definitions.value(name)
            arity = getattr(value, "arity", 0)
            given = [record(VOICE)] if "(&a)" in text else [Tree(letter) for letter in "abcdefgh"[:arity]]
            self.same(name, value(*given) if arity else value, self.rust.evaluate(text, dict(zip("abcdefgh", given))))

    def targets(self):
        """targets_of, with the offset and the level in each form that a float has, and morph_targets_of; z is treated as x is."""
        for form in FORMS:
            voice = {**record(VOICE), "stereo_offset": form, "level": form}
            z, _ = self.rust.call("morph_targets_of", {**voice, "morph_x": voice["morph_z"]})
            theirs = [self.rust.call("targets_of", voice), self.rust.call("morph_targets_of", voice), z]
            self.same(TARGETS + " at " + form.name, self.definitions.value(TARGETS)(voice), theirs)

    def marks(self):
        """SMOOTH and LINES of each code; the chord comb's are Comb2's."""
        for code, kind in TEXTS.items():
            self.same("SMOOTH of %d" % code, self.definitions.value(SMOOTH)(code), self.rust.evaluate("T::SMOOTH", {"T": kind}))
            self.same("LINES of %d" % code, self.definitions.value(LINES)(code), self.rust.evaluate("T::LINES", {"T": kind}))

    def kernels(self):
        """Each code's kernel, PoleZero's at several numbers of active sections and both numbers of axes, the chord comb's at every number of teeth; a
        code that is none leaves everything."""
        for code in CODES:
            for active in (0, 1, 2, 3, 4, 5, 6, 7, 8, 9, 100) if code == 8 else (3,):
                for three in self.axes(code):
                    self.kernel(code, active, three, TEETH)
        for count in range(1, 9):
            self.kernel(CHORD, 3, False, count)
        for code in (0, 14):
            given, _, _ = self.kernel_given(code, 3, False, TEETH)
            self.same("code %d" % code, self.kernel_value(given), [given["x"], given["state"], given["ring"]])

    def axes(self, code):
        """Whether there are three axes: PoleZero's may be two or three."""
        return (False, True) if code == 8 else (False,)

    def at_z(self, left, numbers, x, y, z):
        """What the Rust leaves, with each two-axis number of a section, at x and y, exchanged for the one between the faces at z."""
        blend = self.definitions.value(BLEND)
        pairs = [(blend(numbers, i, x, y), blend(numbers, FACE + i, x, y)) for i in range(0, FACE, 4)]
        return replaced(left, {a: self.rust.evaluate(BETWEEN, {"a": a, "b": b, "c": z}) for a, b in pairs})

    def with_teeth(self, left, teeth):
        """What Comb2's text leaves, with the mean of its two taps exchanged for that of a chord's teeth."""
        def is_mean(tree):
            whole = tree.parts[0] if tree.name == "mul" else tree
            return isinstance(whole, Tree) and whole.name == "add" and all(isinstance(p, Tree) and p.name == "ring_read" for p in whole.parts)
        mean, = [tree for tree in parts_of(left) if tree.name == "mul" and is_mean(tree)]
        length, cursor, delay, ring = mean.parts[0].parts[0].parts  # of the first tap, whose delay is 1 / ratio
        offsets = teeth["offsets"][:teeth["count"]]
        delays = [self.rust.evaluate(TOOTH, {"a": delay.parts[1], "b": offset}) for offset in offsets]
        taps = [Tree("ring_read", length, cursor, back, ring) for back in delays]
        total = functools.reduce(lambda a, b: self.rust.evaluate("a + b", {"a": a, "b": b}), taps)
        return replaced(left, {mean: self.rust.evaluate(MEAN, {"a": total, "b": literal(len(taps))})})

    def kernel_given(self, code, active, three, count):
        """A kernel's arguments by name, the Rust's settings and its lines."""
        ours, theirs = table(active, three)
        settings = record(("resonance", "inv_knee", "character", "x", "y", "z", "ref_over_rate", "reference_ratio"))
        given = {"code": code, "table": ours, **ours, "len": Tree("len"), "cursor": Tree("cursor"), "pitch": Tree("pitch"),
                 "settings": {**settings, "chord": chord(count)}, "state": floats("s", 20), "ring": Tree("ring"), "x": Tree("in")}
        lines = {"": "Lines", "buf": [Tree("ring")], "len": Tree("len"), "cursor": Tree("cursor"), "slot": 0}
        return given, {**settings, "inv_rate": Tree("inv_rate"), "pole_zero": theirs}, lines

    def kernel_value(self, given):
        """The definition's sample, states and ring."""
        value = self.definitions.call(KERNEL, given, PARAMETERS)
        return [value[field] for field in KERNEL_FIELDS]

    def kernel(self, code, active, three, count):
        """One kernel: its sample, its twenty states, its ring."""
        given, settings, lines = self.kernel_given(code, active, three, count)
        ours = self.kernel_value(given)
        theirs = {"T": TEXTS[code], "lines": lines, "state": list(given["state"]), "x": given["x"], "pitch": given["pitch"], "p": settings}
        out = self.rust.evaluate("T::tick(&mut lines, &mut state, x, pitch, &p)", theirs)
        left = [out, theirs["state"], lines["buf"][0]]
        if three:
            left = self.at_z(left, given["sections"], settings["x"], settings["y"], self.rust.evaluate("unit(a)", {"a": settings["z"]}))
        if code == CHORD:
            left = self.with_teeth(left, given["settings"]["chord"])
        what = "kernel %d at %d active, three axes %s, %d teeth" % (code, active, three, count)
        self.same(what, ours, left)
        self.judged(what, {8: min(active, 8), 9: 2, CHORD: count}.get(code, 1), self.definitions.call(COUNT, given, PARAMETERS), left)

    def judged(self, what, times, count, left):
        """Document 02, C-11 and C-18: the ratios judged are those that the Rust caps: once a section, by Comb2 twice, by the chord comb once a tooth,
        else once."""
        marks, limit = count or (), self.definitions.value(LIMIT)
        self.same("how many ratios are judged by " + what, len(marks), times)
        ours = {mark.parts[1] if mark.name == "lt" and mark.parts[0] is limit else mark for mark in marks}
        theirs = {tree.parts[0] for tree in parts_of(left) if tree.name == "min" and tree.parts[1] is limit}
        self.same("the ratios judged by " + what, sorted(ours, key=id), sorted(theirs, key=id))

    def blocks(self):
        """A block of one frame, of every code, clean or not, steered or not, mono and stereo."""
        for code in TEXTS:
            for clean in (False, True):
                for steered in (False, True):
                    for channels in (1, 2):
                        for three in self.axes(code):
                            self.block(code, clean, steered, channels, three)

    def block(self, code, clean, steered, channels, three):
        """Run::go whole, on two voices, against the definitions of the block's constants and of each slot's tick."""
        ours, theirs = table(5, three)
        slots = [slot(i) for i in range(channels * VOICES)]
        bank = rust_bank(clean, channels, slots, theirs)
        offsets = [floats("sx", VOICES), floats("sy", VOICES)]
        run = {"": "Run", "bank": bank, "pitch": floats("pitch", VOICES), "xy": offsets if steered else None,
               "audio": [each["input"] for each in slots], "frames": 1}
        variables = {}
        self.rust.items["Run", "go"].run(Type("Run", T=TEXTS[code]), (run,), variables)
        constants = self.definitions.value(CONSTANTS)(Tree("rate"), Tree("reference"), clean, chord(TEETH))
        for field, variable in CONSTANT_FIELDS:
            self.same("the block's " + field, constants[field], variables[variable])
        for i, each in enumerate(slots):
            channel, voice = divmod(i, VOICES)
            steering = Tree("some", (offsets[0][voice], offsets[1][voice])) if steered else Tree("none")
            given = {**each, "code": code, "constants": constants, "table": ours, **ours, "len": Tree("len"), "cursor": Tree("cursor"),
                     "targets": voice_targets(voice), "pitch": run["pitch"][voice], "steering": steering,
                     "sign": self.definitions.value(SIGN)(channels, channel)}
            tick = self.definitions.call(TICK, given, PARAMETERS)
            kept = [row[i] for part in ("smoothed", "morph_smoothed", "state") for row in bank[part]]
            what = "%d, clean %s, steered %s, three axes %s, channel %d of %d, voice %d" % (code, clean, steered, three, channel, channels, voice)
            z = self.rust.evaluate(GLIDE, {"a": given["targets"][10], "b": each["numbers"][31], "c": variables["alpha"]})
            left = [run["audio"][i], kept, bank["delay"][i]]
            if three:
                x, y = [bank["state"][place][i] for place in LAGGED]
                left = self.at_z(left, ours["sections"], x, y, self.rust.evaluate("unit(a)", {"a": z}))
            if code == CHORD:
                left = self.with_teeth(left, chord(TEETH))
            left[1] = left[1] + [self.rust.evaluate(PEAK, {"a": each["numbers"][30], "b": left[0]}), z]
            self.same("tick of " + what, [tick[field] for field in TICK_FIELDS], left)
            self.judged("the tick of " + what, {8: ours["active"], 9: 2, CHORD: TEETH}.get(code, 1), tick[TICK_COUNT], left)

    def points(self):
        """A point's section, of each kind; the default state's frequencies and Qs."""
        for kind in KINDS:
            ours, theirs = point(kind, "")
            section, rust_section = self.definitions.value(POINT_SECTION)(ours), self.rust.evaluate("a.section()", {"a": theirs})
            self.same("section of " + kind, section, rust_section)
            self.same("values of " + kind, self.definitions.value(VALUES)(section), self.rust.evaluate("a.values()", {"a": rust_section}))
        ours, theirs = self.definitions.value(DEFAULT_STATE), self.rust.evaluate("State::default()", {})
        for field in ("kind", "frequency", "q"):
            self.same("default state, " + field, [p[field] for p in ours["points"]], [p[field] for p in theirs["points"]])

    def tables(self):
        """The table of some designs, and `section` of each of their points, with two axes and with three."""
        for number in range(len(SKIPPED)):
            for three in (False, True):
                what = "design %d, three axes %s, " % (number, three)
                ours, faces = design(number, three)
                made = self.made(faces) if three else {**self.rust.evaluate("Table::of(&design)", {"design": faces[0]}), "three": False}
                table_of, numbers = self.definitions.value(TABLE)(ours), flat(made["sections"])
                self.same(what + "table's sections", table_of["sections"], numbers + [literal(0)] * (2 * FACE - len(numbers)))
                for field in ("active", "three", "gain"):
                    self.same(what + "table's " + field, table_of[field], made[field])
                for place in range(8):
                    value = self.definitions.value(DESIGN_SECTION)(ours, place, Tree("x"), Tree("y"), Tree("z"))
                    self.same(what + "section %d" % place, value, self.section(faces, place, three))

    def made(self, faces):
        """The table of eight states: of each face the Rust's terms of every point that is no bypass in both."""
        def of(text, face, place):
            return self.rust.evaluate(text, {"design": face, "point": place})
        kept = [place for place in range(8) if not all(of("design.is_bypassed(point)", face, place) for face in faces)]
        numbers = [[term for place in kept for term in zip(*of("design.bilinear(point)", face, place))] for face in faces]
        padded = [[flat(face), [literal(0)] * (FACE - len(flat(face)))] for face in numbers]
        return {"sections": padded, "active": len(kept), "three": True, "gain": self.rust.evaluate("design.gain()", {"design": faces[0]})}

    def section(self, faces, place, three):
        """`section` of the Rust's: of the near face, or between both at a z that is clamped as its x."""
        given = {"point": place, "x": Tree("x"), "y": Tree("y")}
        near, far = [self.rust.evaluate("design.section(point, x, y).values()", {"design": face, **given}) for face in faces]
        z = self.rust.evaluate("z.clamp(0.0, 1.0)", {"z": Tree("z")})
        return [self.rust.evaluate(BETWEEN, {"a": a, "b": b, "c": z}) for a, b in zip(near, far)] if three else near


def main():
    """The command."""
    parser = argparse.ArgumentParser(description=__doc__)
    parser.add_argument("rust", nargs="?", default=RUST, help="folder of the published Rust: lane.rs and its neighbours")
    parser.add_argument("crates", nargs="?", default=os.path.join(ROOT, "crates"), help="folder of the crates with the definitions")
    parser.add_argument("--unreached", action="store_true", help="also list the definitions of the files read that no comparison uses")
    options = parser.parse_args()
    definitions = Definitions(options.crates, OPAQUE)
    result = Comparison(Rust(options.rust), definitions).run()
    if options.unreached:
        print("\n".join("unreached: " + name for name in definitions.unreached()))
    print("%d equal, %d different" % (result.equal, result.different))
    return 1 if result.different or not result.equal else 0


if __name__ == "__main__":
    sys.exit(main())
