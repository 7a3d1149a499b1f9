#!/usr/bin/env python3
"""Brings the repository's own definitions and lemmas to snake case, in every crate.

usage: python3 tools/names.py [--show]      at the top of the repository, once, right after the kit's port.py

    verdictOf, ended-whole  ->  verdict_of, ended_whole

A name is ours where a file of specs/ or proofs/ declares it, at the top, in a module, as a field or behind a `where`, and no file has it from a
library. It turns as a whole word: in specs/ and proofs/, in the clauses and imports of src/, and in the edits. Functions of src/, exported names,
strings and comments keep theirs. A lemma gets `_lem` where its new spelling is a word somewhere in the crates, as a definition's or a function's;
so do those of LEMMAS, to which port.py gave the spelling of a definition. What turned is written to tools/names.tsv, but for LEMMAS; tools/port.tsv
has the names that port.py turned. A second run would turn the names of goals.
"""
import collections
import glob
import os
import re
import sys

DECLARED = re.compile(
    r"^ *(?:(?:abbrev|unfoldable|pub|instance) )*([^\s(){}:.,;λ]+)(?: \{[^}]*\})? :(?= )", re.M
)
ALIAS = re.compile(r"^use Rattle\.(?!std\.)\S+ as ([^\s(){}.,;]+)", re.M)
HEAD = re.compile(r"([^\s(){}.,;]*)\.\Z")
FIELD = re.compile(r"^ +(?:pub )?([^\s(){}:.,;λ]+)(?: \{[^}]*\})? :(?= )", re.M)
WORD = re.compile(r"[^\s(){}\[\].,;:\"«»`⟦⟧]+")
OWN = re.compile(r"^use (\S+?)\.\{([^}]*)\}", re.M)
PIECES = re.compile(r'"(?:[^"\\\n]|\\.)*"|(?<![^\s(){}.;,])--[^\n]*|//[^\n]*')

# Lemmas that port.py gave the spelling which a definition gets here.
LEMMAS = {
    "crates/arriving/proofs/Laws.antt": ["found_in"],
    "crates/datetime_writer/proofs/Kept.antt": ["map_found"],
    "crates/interval/proofs/Far.antt": ["tail_of"],
    "crates/interval/proofs/FollowedLaws.antt": ["tail_of"],
    "crates/looks/proofs/Two.antt": ["is_digit"],
    "crates/parser/proofs/Runs.antt": ["digits_more"],
    "crates/parser/proofs/Stable.antt": ["digits_more"],
    "crates/time_writer/proofs/Kept.antt": ["map_found"],
    "crates/types/proofs/Laws.antt": ["same_sign"],
    "crates/writing/proofs/Yields.antt": ["map_found"],
}


def read(path):
    with open(path, encoding="utf-8") as f:
        return f.read()


def snake(name):
    return re.sub(r"(?<=[a-z0-9])([A-Z])", lambda m: "_" + m[1].lower(), name).replace("-", "_")


def old_spelling(name):
    return name[0].islower() and ("-" in name or re.search(r"[a-z0-9][A-Z]", name))


def files(*ends):
    out = []
    for folder, dirs, names in os.walk("crates"):
        dirs[:] = sorted(d for d in dirs if d != "out")
        out += [os.path.join(folder, n) for n in sorted(names) if n.endswith(ends)]
    return out


def table():
    ours, words, brought = set(), collections.Counter(), set()
    for path in files(".antt"):
        text = read(path)
        ours |= {n for n in DECLARED.findall(text)}
        words.update(WORD.findall(text))
        for module, names in OWN.findall(text):
            if not module.startswith("Rattle.") or module.startswith("Rattle.std."):
                brought |= {n.strip().split(" as ")[0] for n in names.split(",")}
    for path in files(".rt"):
        words.update(WORD.findall(read(path)))
    turned = {n: snake(n) for n in ours if old_spelling(n) and n not in brought}
    definitions = {new for old, new in turned.items() if "-" not in old}
    for old in turned:
        if "-" in old and (turned[old] in definitions or words[turned[old]]):
            turned[old] += "_lem"
    return turned


def turn(text, turned, fields=()):
    out, at = [], 0
    heads = set(ALIAS.findall(text))

    # behind a dot only fields turn, and what stands behind the short name of a module of ours
    def one(m):
        before = m.string[max(0, m.start() - 80) : m.start()]
        head = HEAD.search(before)
        behind = head and head[1] not in heads
        return m[0] if behind and m[0] not in fields else turned.get(m[0], m[0])

    def plain(part):
        return WORD.sub(one, part)

    for it in PIECES.finditer(text):
        out += [plain(text[at : it.start()]), it[0]]
        at = it.end()
    return "".join(out) + plain(text[at:])


def main():
    turned = table()
    if "--show" in sys.argv or not turned:
        print(len(turned), "names")
        return
    for path, names in LEMMAS.items():
        if os.path.exists(path):
            text = turn(read(path), {n: n + "_lem" for n in names})
            with open(path, "w", encoding="utf-8") as f:
                f.write(text)
    fields = {n for path in files(".antt") for n in FIELD.findall(read(path))}
    for path in files(".antt", ".rt", ".edit"):
        text = read(path)
        new = turn(text, turned, fields)
        if new != text:
            with open(path, "w", encoding="utf-8") as f:
                f.write(new)
    with open("tools/names.tsv", "w", encoding="utf-8") as f:
        f.writelines(f"{old}\t{new}\n" for old, new in sorted(turned.items()))


main()
