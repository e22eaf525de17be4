#!/usr/bin/env python3
"""Brings the repository's own definitions and lemmas to Rattle's spelling: words in snake case.

usage: python3 tools/respell.py      at the top of the repository, once, after the kit's port script

It reads the names that specs/ and proofs/ declare, and turns each with a dash or in camel case (leastFalse, lt-or-le)
to snake case (least_false, lt_or_le), wherever it stands: in .antt files, in .rt files outside strings, and in
must-fail edits. Names of the library, of records and of modules stay, and so do the names that Rattle makes for a
function's proof. Where two names would fall together, the definition of specs/ keeps the plain one and the lemma
gets `_law` at its end.
"""
import collections
import glob
import re

WORD = re.compile(r"[^\s(){}\[\],;.:\"`|]+")
DECLARED = re.compile(r"^(\s*)(?:(?:unfoldable|abbrev|pub|opaque)\s+)*(?:(record|data|class)\s+)?([^\s:(){}]+)\s.*?(?::|where)")
KEYWORDS = {"use", "let", "in", "where", "rw", "simp", "λ", "--", "mod", "unfolding", "elim", "record"}
# variables, which may have the name of a definition
VARIABLES = ["etypeWidths", "etypeDisplacements", "filetypeWidths", "filetypeDisplacements", "all-reach", "some-entries", "ex-is", "d-is", "moved-there", "room-for-all"]
# names that Rattle makes for a function's own proof
MADE = re.compile(r"^(\+|invariant-|decreases-)|-spec$")


def snake(name):
    name = name.replace("-", "_")
    if re.match(r"[a-z]", name):
        name = re.sub(r"([a-z0-9])([A-Z])", lambda m: m.group(1) + "_" + m.group(2).lower(), name)
    return name


def lemma_files():
    return sorted(glob.glob("crates/*/specs/**/*.antt", recursive=True) + glob.glob("crates/*/proofs/*.antt"))


def answer_files():
    return sorted(set(glob.glob("crates/*/proofs/**/*.antt", recursive=True)) - set(glob.glob("crates/*/proofs/*.antt")))


def declared():
    found = collections.defaultdict(set)
    for path in lemma_files():
        for line in open(path, encoding="utf-8"):
            m = DECLARED.match(line)
            if m and m.group(3) not in KEYWORDS:
                found[m.group(3)].add("specs" if "/specs/" in path else "proofs")
    return found


def table():
    found = declared()
    by = collections.defaultdict(list)
    for name in sorted(found):
        if re.match(r"[a-z]", name):
            by[snake(name)].append(name)
    turned = {}
    for to, names in sorted(by.items()):
        names.sort(key=lambda n: ("specs" not in found[n], "-" in n, n))
        for i, name in enumerate(names):
            new = to + "_law" * i
            if name != new and not MADE.search(name):
                turned[name] = new
    for name in VARIABLES:
        turned.setdefault(name, snake(name))
    return turned


def turn(text, names):
    """Each whole word of the table, but no folder of a function's proof, as in Rattle.file.proofs.entries_fit."""
    return WORD.sub(lambda m: m.group(0) if text.endswith("proofs.", 0, m.start()) else names.get(m.group(0), m.group(0)), text)


def turn_source(text, names):
    """A .rt file: all but its strings. A name in snake case is one of the code's own there."""
    names = {a: b for a, b in names.items() if snake(a) != a}
    parts = re.split(r'(b?"(?:[^"\\\n]|\\.)*")', text)
    return "".join(p if i % 2 else turn(p, names) for i, p in enumerate(parts))


def main():
    names = table()
    for path in lemma_files() + answer_files() + sorted(glob.glob("crates/*/src/**/*.rt", recursive=True)):
        old = open(path, encoding="utf-8").read()
        new = turn_source(old, names) if path.endswith(".rt") else turn(old, names)
        if new != old:
            open(path, "w", encoding="utf-8").write(new)
    for path in sorted(glob.glob("crates/*/must-fail/*.edit")):
        lines = open(path, encoding="utf-8").read().split("\n")
        source = any(x.startswith("file: src/") for x in lines)
        new = [(turn_source if source else turn)(x, names) if x.startswith(("old:", "new:")) else x for x in lines]
        if new != lines:
            open(path, "w", encoding="utf-8").write("\n".join(new))
    fallen = {a: b for a, b in names.items() if b.endswith("_law")}
    print(f"respell: {len(names)} names turned; {len(fallen)} would have fallen together and got _law: {sorted(fallen)}")


if __name__ == "__main__":
    main()
