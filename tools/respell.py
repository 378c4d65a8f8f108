#!/usr/bin/env python3
"""respell.py [FOLDER]: brings this repository's own names to today's spelling, after the toolchain's port.py has run once over it.

Definitions and lemmas are in snake case; a lemma whose name would fall together with a definition's ends in _lem. respell.txt beside this
file has the table, a name and its new spelling on a line. In .antt files every word that is such a name is respelled, in .rt files the
definitions' names, in documents and comments what stands in backticks. The files specs/Contracts.antt become specs/Promises.antt, since
Rattle makes a module specs.contracts. Functions of src/, exported names, strings, inputs and outputs keep theirs."""
import glob
import os
import re
import sys

WORD = r"(?<![\w'·-])[^\W\d][\w'-]*"
here = os.path.dirname(os.path.realpath(__file__))
root = sys.argv[1] if len(sys.argv) > 1 else os.path.dirname(here)
with open(os.path.join(here, "respell.txt"), encoding="utf-8") as table:
    NAMES = dict(line.split() for line in table if line.strip() and not line.startswith("#"))
BARE = {old[1:]: new for old, new in NAMES.items() if old[0] == "="}
CAMEL = {old: new for old, new in NAMES.items() if "-" not in old}


def words(text, names):
    return re.sub(WORD, lambda m: names.get(m.group(0), m.group(0)), text)


def quoted(text, names):
    """Only what stands in backticks."""
    return re.sub(r"`[^`\n]*`", lambda m: words(m.group(0), names), text)


def parts(text, mark):
    """Each line as its code and its comment."""
    for line in text.split("\n"):
        at = line.find(mark)
        yield (line, "") if at < 0 else (line[:at], line[at:])


def antt(text):
    text = text.replace(".specs.Contracts", ".specs.Promises")
    text = re.sub(r"(?<!\.)" + WORD, lambda m: BARE.get(m.group(0), m.group(0)), text)
    return "\n".join(words(code, NAMES) + words(quoted(comment, NAMES), CAMEL) for code, comment in parts(text, "--"))


def rt(text):
    text = text.replace(".specs.Contracts", ".specs.Promises")
    strings = r'"(?:[^"\\\n]|\\.)*"'
    out = []
    for code, comment in parts(text, "//"):
        pieces = re.split("(" + strings + ")", code)
        code = "".join(p if i % 2 else words(p, CAMEL) for i, p in enumerate(pieces))
        out.append(code + words(quoted(comment, NAMES), CAMEL))
    return "\n".join(out)


def edit(text):
    if re.search(r"^file: .*\.antt", text, re.M):
        text = text.replace("specs/Contracts.antt", "specs/Promises.antt")
        return "\n".join(line if line.startswith("file:") else words(line, NAMES) for line in text.split("\n"))
    return "\n".join(words(line, CAMEL) for line in text.split("\n"))


def document(text):
    return quoted(text.replace("specs/Contracts.antt", "specs/Promises.antt"), NAMES)


def turn(pattern, how):
    for path in sorted(glob.glob(os.path.join(root, pattern), recursive=True)):
        if f"{os.sep}out{os.sep}" in path:
            continue
        with open(path, encoding="utf-8") as f:
            text = f.read()
        new = how(text)
        if new != text:
            with open(path, "w", encoding="utf-8") as f:
                f.write(new)


for lib in glob.glob(os.path.join(root, "crates/*/specs/Contracts.antt")):
    os.rename(lib, lib.replace("Contracts.antt", "Promises.antt"))
    node = os.path.join(os.path.dirname(lib), "Lib.antt")
    with open(node, encoding="utf-8") as f:
        text = f.read()
    with open(node, "w", encoding="utf-8") as f:
        f.write(re.sub(r"(?m)^pub mod Contracts$", "pub mod Promises", text))
turn("crates/**/*.antt", antt)
turn("crates/**/*.rt", rt)
turn("crates/*/must-fail/*.edit", edit)
for place in ("README.md", "docs/*.md", "compare/**/*.md"):
    turn(place, document)
