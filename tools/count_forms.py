#!/usr/bin/env python3
"""Counts the places in crates/*/src where the code still has an older form, point by point.

Run at the root of the repository: python3 tools/count_forms.py [--list]
Code below #[cfg(test)] is left out. What the patterns find is a place to look at, not a verdict.
"""
import glob
import re
import sys


def source():
    """Each line of code that is no comment, by file, with the tests left out."""
    for path in sorted(glob.glob("crates/*/src/**/*.rt", recursive=True)):
        lines = open(path, encoding="utf-8").read().split("\n")
        kept = []
        for number, line in enumerate(lines, 1):
            if line.startswith("#[cfg(test)]"):
                break
            if not line.lstrip().startswith("//"):
                kept.append((number, line))
        yield path, kept


# a function: its head to the brace that closes it at the same depth
HEAD = re.compile(r"^( *)(pub(\([a-z]+\))? )?(const )?fn (\w+)")


def functions():
    for path, lines in source():
        i = 0
        while i < len(lines):
            m = HEAD.match(lines[i][1])
            if not m:
                i += 1
                continue
            j = i
            while j < len(lines) and lines[j][1].rstrip() not in (m.group(1) + "}", m.group(1) + "{}"):
                if lines[j][1].rstrip().endswith(";") and all("{" not in t for _, t in lines[i:j + 1]):
                    break
                j += 1
            yield path, lines[i][0], m.group(5), [t for _, t in lines[i:j + 1]]
            i = j + 1


CODES = [
    r"\(bool, Cause\)",
    r"Err\(\w+\) => (return )?Err\(",
    r"return Err\(Refusal",
    r"None => Err\(",
    r"Some\(\w\) => Ok\(",
    r"Some\(\w\) => \w,",
    r"Ok\((block|state|fields)\) => Ok\(",
    r"\bpn: u16|\bpn [=<]=",
    r"\(0, 0\)$",
    r"^ +0$",
    r"enum (Form|Act)\b",
    r"Place::\w+ => \d|Step::\w+ => \d|Cause::\w+.* => \d",
]
LOOPS = [r"\bfor \w+ in [\w.]+\.\.", r"\bwhile\b"]
BY_HAND = [
    r"=> (true|false),",
    r"impl fmt::Debug",
    r"fn text\(|fn \w*name\(|fn meaning\(",
    r"\bsays: &'static str",
    r"fn (from|to)_\w+\(",
    r"Err\(Refusal \{|return Err\(Refusal",
    r"matches!",
]
BUFFERS = [r"< \w+\.len\(\)", r"\[\w+\] = \w+;"]
SWITCHES = [r"match \w+\.form\b", r": &?(dyn|fn\()"]


def places(patterns):
    for path, lines in source():
        for number, line in lines:
            if any(re.search(p, line) for p in patterns):
                yield f"{path}:{number}: {line.strip()}"


def shape(text):
    """The text with each name replaced by the order in which it comes first; comments, clauses and white space left out."""
    body = "\n".join(t for t in text if not re.match(r" *(ensures|requires|ghost)\b", t))
    names = {}

    def number(m):
        return f"#{names.setdefault(m.group(0), len(names))}"

    return re.sub(r"\s+", " ", re.sub(r"[A-Za-z_]\w*", number, body))


def twins():
    by_shape = {}
    for path, number, name, text in functions():
        code = [t for t in text if not re.match(r" *(ensures|requires|ghost)\b", t)]
        if sum(len(t.strip()) for t in code) < 90:
            continue
        by_shape.setdefault(shape(text), []).append(f"{path}:{number}: {name}")
    for group in by_shape.values():
        if len(group) > 1:
            yield " ~ ".join(group)


def together():
    """Pairs of a name and a type that stand side by side as parameters of three functions or more."""
    by_pair = {}
    for path, number, name, text in functions():
        head = " ".join(text).split("{")[0]
        m = re.search(r"fn \w+(?:<[^>]*>)?\((.*?)\)(?: ->|\s|$)", head)
        if not m:
            continue
        parameters = [p.strip() for p in m.group(1).split(",") if ":" in p and "rt:" not in p]
        for a, b in zip(parameters, parameters[1:]):
            by_pair.setdefault((a, b), []).append(f"{path}:{number}: {name}")
    for (a, b), where in sorted(by_pair.items()):
        if len(where) >= 3:
            yield f"{a}, {b}: " + " ~ ".join(where)


POINTS = [
    ("1 hand-made Option and Result, flags beside values, codes", lambda: places(CODES)),
    ("2 functions of one shape", twins),
    ("3 loops that count an index", lambda: places(LOOPS)),
    ("4 equality, conversion and printing by hand", lambda: places(BY_HAND)),
    ("5 parameters that travel together", together),
    ("6 lengths and indices minded by hand", lambda: places(BUFFERS)),
    ("7 switches on a step, tables of functions", lambda: places(SWITCHES)),
]


def main():
    for title, find in POINTS:
        found = list(find())
        print(f"{title}: {len(found)}")
        if "--list" in sys.argv:
            for place in found:
                print("   ", place)
    answers = glob.glob("crates/*/proofs/**/Answers.antt", recursive=True)
    lines = sum(len(open(p, encoding="utf-8").read().split("\n")) - 1 for p in glob.glob("crates/*/proofs/**/*.antt", recursive=True))
    print(f"8 proof files with answers: {len(answers)}; lines below proofs/: {lines}")


main()
