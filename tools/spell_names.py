#!/usr/bin/env python3
"""Brings the repository's own definitions and lemmas to snake case, after the kit's port.py has turned the rest.

usage: python3 tools/spell_names.py   at the top of the repository, once, right after port.py

A name that an .antt file below crates/ declares, that begins with a small letter and has a capital inside, is spelled with underscores
wherever it stands: in .antt and .rt files, must-fail edits, teeth/, pages, and oracle/'s texts that name definitions. Names that would fall together
with another of the same file get a name of their own first (APART). The names that port.py respelled are brought to the same spelling
in the edits, which port.py leaves alone. Functions, types, strings and other programs' names stay.
"""
import os
import re

TOKEN = re.compile(r"[\w'-]+")
CAMEL = re.compile(r"(^|-)[a-z][a-z0-9_']*[A-Z]")
DECLARED = re.compile(r"\s*(?:unfoldable |abbrev |mutual |pub )*(?:pub )?([a-z][\w'-]*)(?: \{ℓ\})? :")
# Names that would fall together with another one in their file: a lemma beside the definition that it speaks of.
APART = {
    "crates/theorems/specs/ReadQuoted.antt": {"goes_on": "goes_on-joined"},
    "crates/joints/specs/Entries.antt": {"some_item": "some_item-ink", "some_pair": "some_pair-ink"},
    "crates/choices/specs/Choices.antt": {"some_item": "some_item-on", "some_pair": "some_pair-on"},
    "crates/pieces/proofs/Laws.antt": {"ascii_by": "ascii_by-escaped"},
    "crates/block/proofs/Laws.antt": {"pair_row": "pair_row-is"},
    "crates/utf8/proofs/Runs.antt": {"run_end": "run_end-is"},
    # a fact is spelled as a type
    "crates/pieces/src/lib.rt": {"sound": "Sound"},
    "crates/pieces/specs/Piece.antt": {"sound": "Sound"},
    "crates/utf8/proofs/run_well_formed/Proof.antt": {"run_end": "run_end-is"},
}
BLOCK = "crates/block/proofs/"
# Not the repository's names, though they stand in its files.
OTHERS = {"is_Block", "left_After", "walk_Meets", "mut_slice_Tells", "shr_slice_Tells", "uint_Makes", "uint_Tells"}
# Names that stand only in edits: local variables of a definition are spelled as the definition's file has them.
EXTRA = {"doubleQuotes", "eP"}
# port.py's own respellings of library names, for texts that it leaves alone.
LIBRARY = {"getD": "get_or"}


def snake(name):
    name = re.sub(r"([a-z0-9'])([A-Z])", lambda m: m.group(1) + "_" + m.group(2).lower(), name)
    return name


def files(root, ends):
    for folder, dirs, names in os.walk(root):
        dirs[:] = sorted(d for d in dirs if d not in ("out", "target", ".git"))
        for f in sorted(names):
            if f.endswith(ends):
                yield os.path.join(folder, f)


def read(p):
    with open(p, encoding="utf-8") as f:
        return f.read()


def write(p, text):
    with open(p, "w", encoding="utf-8") as f:
        f.write(text)


def swap(text, names):
    return TOKEN.sub(lambda m: names.get(m.group(0), m.group(0)), text)


def main():
    declared = set(EXTRA)
    for p in files("crates", (".antt",)):
        for line in read(p).splitlines():
            m = DECLARED.match(line)
            if m:
                declared.add(m.group(1))
            declared |= {t for t in TOKEN.findall(line.split(" -- ")[0]) if t in EXTRA}
    names = {n: snake(n) for n in declared if CAMEL.search(n) and n not in OTHERS}
    # what port.py respelled already, in the texts that it leaves alone
    before = dict(names)
    for n in declared:
        if "_" in n and n not in names and CAMEL.search(re.sub(r"_([a-z])", lambda m: m.group(1).upper(), n)):
            before.setdefault(re.sub(r"_([a-z])", lambda m: m.group(1).upper(), n), n)
    before.update(LIBRARY)
    changed = 0
    for p in files("crates", (".antt", ".rt")):
        old = read(p)
        apart = dict(APART.get(p, {}))
        if p.startswith(BLOCK) and "put_dash_put_dashed" in p:
            apart["pair_row"] = "pair_row-is"
        new = swap(swap(old, apart), names)
        # where a lemma of another crate got a name of its own
        new = re.sub(r"(use Rattle\.choices\.specs\.Choices\.\{[^}]*)", lambda m: swap(m.group(1), APART["crates/choices/specs/Choices.antt"]), new)
        if new != old:
            write(p, new)
            changed += 1
    for p in list(files("crates", (".edit",))) + list(files("teeth", (".edit",))):
        old = read(p)
        new = "".join(l if l.startswith("#") else swap(l, before) for l in old.splitlines(keepends=True))
        # a projection is written tight, a mixfix name with dotted circles
        new = "".join(re.sub(r"(?<=[\w')]) \.(?=[a-z])", ".", l) if l.startswith(("old:", "new:")) and "file: src" not in new else l for l in new.splitlines(keepends=True))
        if new != old:
            write(p, new)
            changed += 1
    for p in ["oracle/src/antt.rs", "oracle/src/theorems.rs", "oracle/src/bin/teeth.rs", "README.md", *files("docs", (".md",))]:
        old = read(p)
        new = swap(old, before)
        if new != old:
            write(p, new)
            changed += 1
    print(f"spell_names: {len(names)} names, {changed} files")


main()
