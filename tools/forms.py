#!/usr/bin/env python3
# The places of older forms in crates/*/src, point by point of docs/DESIGN-PASS.md: forms.py [POINT] lists them, a line each, and counts them.
# By their text alone, so a place that it lists need not be a fault, and the page's rows say what became of each.
import collections, glob, re, sys

KEYS = "as|break|continue|else|false|fn|for|if|impl|in|let|loop|match|mut|pub|return|self|true|while|extern"
BASIC = "f32|f64|u8|u16|u32|u64|usize|bool"
LINES = {path: open(path, encoding="utf-8").read().split("\n") for path in sorted(glob.glob("crates/*/src/*.rt"))}


# Each function: its file, line, name, parameters and body, without comments and contract.
def functions():
    for path, lines in LINES.items():
        text = "\n".join(re.sub(r"(^|\s)//.*", "", it) for it in lines)
        for it in re.finditer(r"\bfn (\w+)(?:<[^(]*?>)?\(", text):
            depth, end = 1, it.end()
            while depth:
                depth += {"(": 1, ")": -1}.get(text[end], 0)
                end += 1
            params = [p.strip() for p in re.split(r",(?![^<\[(]*[>\])])", text[it.end() : end - 1]) if p.strip()]
            begin = re.compile(r"^\s*\{$|\) (?:-> [^{;]*)?\{$", re.M).search(text, end - 1)
            if not begin:
                continue
            depth, stop = 1, begin.end()
            while depth:
                depth += {"{": 1, "}": -1}.get(text[stop], 0)
                stop += 1
            yield path, text.count("\n", 0, it.start()) + 1, it.group(1), params, text[begin.end() : stop - 1]


def grep(pattern, skip=None):
    for path, lines in LINES.items():
        for n, line in enumerate(lines, 1):
            code = re.sub(r"(^|\s)//.*", "", line)
            if re.search(pattern, code) and not (skip and re.search(skip, code)):
                yield f"{path}:{n}: {line.strip()}"


def shown(f, why=""):
    return f"{f[0]}:{f[1]}: {f[2]}{why}"


# 1: enums other than a kind's own; flags beside a value; refusals by number; kinds by number
def enums():
    return grep(r"^\s*(pub )?enum ")


def flags():
    return grep(r"^\s+(pub )?(ok|said|told): bool")


def refusals():
    return grep(r"[rR]efuse[d]?(_file)?\(\d+\)|^\s*\w+::\w+ => 11")


def kinds():
    return grep(r"match (code|kind|name|word|head % 256|words::name_at)\b|\b(code|word|name) (==|!=|<) \d+|match words::name_at")


# 2: functions of ten tokens or more that differ in names, numbers and types alone
def twins():
    found = collections.defaultdict(list)
    for f in functions():
        tokens = re.findall(r"[A-Za-z_]\w*|\d[\w.]*|\S", f[4])
        shape = " ".join(it if re.fullmatch(KEYS, it) else "T" if re.fullmatch(BASIC, it) else "N" if it[0].isdigit() else "I" if it[0].isalpha() or it[0] == "_" else it for it in tokens)
        if len(tokens) >= 10:
            found[shape].append(f)
    return [shown(fs[0], "".join(f" ~ {it[0].split('/')[1]}::{it[2]}" for it in fs[1:])) for fs in found.values() if len(fs) > 1]


# 3: loops that are no `for`
def loops():
    return grep(r"^\s*(while|loop)\b")


# 4: casts and comparisons as functions, std's arithmetic as functions, fields named twice, bools by `return true` or `return false`
def by_hand():
    casts = [shown(f) for f in functions() if re.fullmatch(r"\s*(\w+ as \w+|\w+ == \w+|if \w+ \{ \w+ \} else \{ \w+ \}|if \w+ \{ \w+ \+ 1 \} else \{ \w+ \})\s*", f[4])]
    return casts + list(grep(r"std::num::(wrapping|truncating)_")) + list(grep(r"^\s+(\w+): \1,$")) + list(grep(r"^\s*return (true|false);"))


# 5: functions of more than seven parameters that C does not call
def many():
    return [shown(f, f" ({len(f[3])})") for f in functions() if len(f[3]) > 7 and not f[2].startswith("sentivolus_")]


# 6: parameters and fields that are two arrays side by side for one thing, or an array with numbers of other kinds in it
def arrays():
    return grep(r"^\s+(pub )?\w+: (&(mut )?)?\[(\[f32; \d+\]|usize|f32|u32|bool); (2|9|10|44|65)\]")


# 7: a flag or a number that picks the step to run
def switches():
    return grep(r"\b(floats|own|heard|digest|three): bool,?\)?$|match (code|name|word)\b")


# 8: answers written for goals
def answers():
    for path in sorted(glob.glob("crates/*/proofs/**/Answers.antt", recursive=True)):
        for n, line in enumerate(open(path, encoding="utf-8"), 1):
            if re.match(r"pub \S+ : goal\.", line):
                yield f"{path}:{n}: {line.strip()}"


POINTS = {"1": [enums, flags, refusals, kinds], "2": [twins], "3": [loops], "4": [by_hand], "5": [many], "6": [arrays], "7": [switches], "8": [answers]}
wanted = sys.argv[1:]
for point, lists in POINTS.items():
    for each in lists:
        found = list(each())
        if point in wanted:
            print("\n".join(found))
        if not wanted or point in wanted:
            print(f"{point} {each.__name__}: {len(found)}")
