#!/usr/bin/env python3
"""Lists the functions of src/ that differ in names and numbers alone: python3 tools/twins.py [TREE]

Each name is read as one and the same, each number and each text too, also in the contract. A function of fewer than six lines is passed over."""
import glob
import re
import sys

WORDS = "fn pub let mut if else match while for in return ref as impl struct enum use ensures requires true false Ok Err Some None".split()


def functions(path):
    lines = open(path).read().split("\n")
    at = 0
    while at < len(lines):
        head = re.match(r'( *)(?:pub )?(?:extern "C" )?fn (\w+)', lines[at])
        if not head:
            at += 1
            continue
        end = at
        while lines[end] != head[1] + "}" and end + 1 < len(lines):
            end += 1
        yield head[2], lines[at : end + 1]
        at = end + 1


def shape(lines):
    text = re.sub(r"//.*", "", "\n".join(lines))
    text = re.sub(r"b?\"[^\"]*\"|b?'[^']*'|\b\d[\d_]*\b", "0", text)
    return re.sub(r"\s+", " ", re.sub(r"\w+", lambda w: w[0] if w[0] in WORDS or w[0] == "0" else "x", text)).replace(", }", " }")


tree = sys.argv[1] if len(sys.argv) > 1 else "."
groups = {}
for path in sorted(glob.glob(f"{tree}/crates/*/src/*.rt")):
    for name, lines in functions(path):
        if 6 <= len(lines):
            groups.setdefault(shape(lines), []).append(path.split("/crates/")[1].replace("src/", "") + " " + name)
twins = [names for names in groups.values() if 1 < len(names)]
for names in twins:
    print("; ".join(names))
print(f"{sum(map(len, twins))} functions in {len(twins)} groups")
