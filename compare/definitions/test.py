#!/usr/bin/env python3
"""test.py [FOLDER-OF-THE-RUST]: plants slips into a copy of the definitions, one at a time, and sees each reported as different."""
import os
import re
import shutil
import sys
import tempfile

sys.dont_write_bytecode = True

from antt import Definitions
from compare import OPAQUE, ROOT, RUST, Comparison, Different
from rust import Rust

# what slips, the file, a pattern of its text, what is put in its place
SLIPS = (
    ("a product's operands swapped", "sweeps/specs/Sweeps.antt", r"c\.k2 ⊗ s\.band", "s.band ⊗ c.k2"),
    ("another association", "filter/specs/Filter.antt", r"band ⊕ band ⊖ ic1", "band ⊕ (band ⊖ ic1)"),
    ("another literal", "ladders/specs/Ladders.antt", r"decimal 8617769 1000000", "decimal 8617796 1000000"),
    ("another state's place", "expanders/specs/Expanders.antt", r"state ‼ 7", "state ‼ 6"),
    ("a hold dropped", "extended/specs/Extended.antt", r"min_of \(max_of x zero\) one", "max_of x zero"),
    ("another code smoothed", "extended/specs/Extended.antt", r"leb code 6", "leb code 7"),
    ("an infinite level kept", "filter/specs/Voice.antt", r"level_of \(inf s\) = zero", "level_of (inf s) = inf s"),
    ("the voice's pitch judged in DjSweep", "sweeps/specs/Sweeps.antt", r"over_of \(dj_pitch .*\) p", "over_of pitch p"),
    ("one of Comb2's reads judged", "kernels/specs/Kernels.antt", r"once \(comb_over pitch p\) \+ ", ""),
    ("the pitch before the lag judged", "run/specs/Run.antt", r"over_count code table \(record \{ 0 = after", "over_count code table (record { 0 = at"),
    ("the peak of the sound before mix and level", "run/specs/Run.antt", r"peak_of \(rec ‼ PEAK\) out", "peak_of (rec ‼ PEAK) t.out"),
    ("two settings' places swapped", "filter/specs/Voice.antt", r"LEVEL = 6", "LEVEL = 5"),
    ("the faces' difference the other way round", "points/specs/Points.antt", r"b ⊖ a", "a ⊖ b"),
    ("the near face for the far one", "poles/specs/Poles.antt", r"far_face \+ at", "at"),
    ("z as it glides, not held", "poles/specs/Poles.antt", r"unit_or0 d\.z", "d.z"),
    ("character for z", "extended/specs/Extended.antt", r"z = params ‼ MORPH_Z", "z = params ‼ CHARACTER"),
    ("a NaN z kept", "filter/specs/Voice.antt", r"morph_of p\.morph_z", "unit_or_nan p.morph_z"),
    ("a bypass of the near face alone skipped", "pole_zero/specs/PoleZero.antt", r"&& \(not d\.three .*\)", ""),
    ("a far face of two axes", "pole_zero/specs/PoleZero.antt", r"cond design\.three (\(patch .*\)) s", r"\1"),
    ("the first tooth's offset for every tooth", "teeth/specs/Teeth.antt", r"c\.offsets ‼ j", "c.offsets ‼ 0"),
    ("the first tap summed twice", "teeth/specs/Teeth.antt", r"taps ‼ suc j", "taps ‼ j"),
    ("the teeth's sum divided by their number", "teeth/specs/Teeth.antt", r"⊗ \(one ⊘ whole n\)", "⊘ whole n"),
    ("the chord comb judged once a tick", "combs/specs/Combs.antt", r"teeth_of p\.chord \* once", "once"),
    ("LINES for Comb2 alone", "extended/specs/Extended.antt", r"eqb code 9 \|\| eqb code 13", "eqb code 9"),
)


def differs(rust, crates):
    """Whether the comparison finds a difference."""
    try:
        Comparison(rust, Definitions(crates, OPAQUE), first=True).run()
    except Different:
        return True
    return False


def copy_definitions(crates, folder):
    """Copies the crates' definitions."""
    for crate in os.listdir(crates):
        specs = os.path.join(crates, crate, "specs")
        if os.path.isdir(specs):
            shutil.copytree(specs, os.path.join(folder, crate, "specs"))


def planted(path, pattern, replacement):
    """Whether a slip could be planted in a file."""
    with open(path, encoding="utf-8") as file:
        text, count = re.subn(pattern, replacement, file.read(), count=1)
    with open(path, "w", encoding="utf-8") as file:
        file.write(text)
    return count == 1


def missed(rust, crates, folder):
    """The slips that are not reported, or whose text does not occur."""
    out = []
    for i, (what, file, pattern, replacement) in enumerate(SLIPS):
        copy = os.path.join(folder, str(i))
        copy_definitions(crates, copy)
        if not planted(os.path.join(copy, file), pattern, replacement):
            out.append("%s: its text does not occur in %s" % (what, file))
        elif not differs(rust, copy):
            out.append("%s: not reported" % what)
    return out


def main():
    """The command."""
    rust = Rust(sys.argv[1] if len(sys.argv) > 1 else RUST)
    with tempfile.TemporaryDirectory() as folder:
        out = missed(rust, os.path.join(ROOT, "crates"), folder)
    for line in out:
        print(line)
    print("%d slips reported, %d missed" % (len(SLIPS) - len(out), len(out)))
    return 1 if out else 0


if __name__ == "__main__":
    sys.exit(main())
