#!/usr/bin/env python3
"""Counts the lines of definitions in the files to believe: no blank, comment, use, mod or open lines, and no lemmas."""
import os
import re
import sys
import textwrap

sys.dont_write_bytecode = True

from antt import chunks
from compare import ROOT

# the files to believe, below crates, in the order of the README
FILES = {
    "below the bank": """
        lane/specs/Floats.antt parts/specs/Parts.antt lane/specs/Lane.antt sqrt/specs/Root.antt log2/specs/Log2.antt lines/specs/Lines.antt
        points/specs/Points.antt pole_zero/specs/PoleZero.antt filter/specs/Filter.antt filter/specs/Voice.antt
        extended/specs/Extended.antt stages/specs/Stages.antt sweeps/specs/Sweeps.antt ladders/specs/Ladders.antt
        expanders/specs/Expanders.antt poles/specs/Poles.antt teeth/specs/Teeth.antt combs/specs/Combs.antt kernels/specs/Kernels.antt
        peak/specs/Peak.antt run/specs/Run.antt
        """,
    "the bank": """
        voices/specs/Calls.antt voices/specs/Feed.antt setups/specs/Setup.antt slots/specs/Engine.antt checks/specs/Setup.antt
        checks/specs/Checks.antt bank/specs/Bank.antt auditions/specs/Audition.antt bank/specs/Demand3.antt
        """,
    "a parked file": """
        file_words/specs/Words.antt blocks/specs/Blocks.antt places/specs/Places.antt rows/specs/Rows.antt files/specs/File.antt
        setups/specs/Parked.antt parking/specs/Parking.antt
        """,
    "what C links": "sentivolus/specs/Design.antt sentivolus/specs/Calls.antt",
}

PASSED = re.compile(r"(pub\s+)?(use|mod|open)\s")
DEFINITION = re.compile(r"(pub\s+)?(abbrev|unfoldable|record|data|infix[lr]?)\s")
LEMMA = re.compile(r"(pub\s+)?\S+\s*:(\s|$)")


def definition_lines(text):
    """The lines of a file's definitions: a definition begins with a word of its own, a lemma with its type; clauses follow
    either. In a module, what stands in it counts."""
    count, inside = 0, False
    for chunk in chunks(text):
        if PASSED.match(chunk):
            continue
        if chunk.startswith("module "):
            count += definition_lines(textwrap.dedent(chunk.partition("where\n")[2]))
            continue
        inside = bool(DEFINITION.match(chunk)) or inside and not LEMMA.match(chunk)
        count += inside * sum(1 for line in chunk.split("\n") if line.strip())
    return count


def main():
    """The command."""
    crates = sys.argv[1] if len(sys.argv) > 1 else os.path.join(ROOT, "crates")
    for group, names in FILES.items():
        total = 0
        for name in names.split():
            with open(os.path.join(crates, name), encoding="utf-8") as file:
                count = definition_lines(file.read())
            total += count
            print("%5d  %s" % (count, name))
        print("%5d  in all: %s" % (total, group))


if __name__ == "__main__":
    main()
