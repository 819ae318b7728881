#!/usr/bin/env python3
"""Gives the repository's own choice by a test a name of its own: `when b then x else y`.

usage: python3 tools/spell_choice.py   at the top of the repository, once, after spell_names.py

The kit's library has `if b then x else y` now, which binds tighter than the repository's did, and the gate takes no other operator under that name.
The repository's keeps its meaning, its precedence and its place (Base), and is spelled `when` in .antt files, in clauses of .rt files, in edits of
definitions and in the oracle's texts that name definitions. Comments and code are left alone.
"""
import os
import re

WORD = re.compile(r"(?<![\w'.◌-])if(?![\w'-])")


def turned(code):
    return WORD.sub("when", code)


def antt(text):
    out = []
    for line in text.split("\n"):
        code, mark, note = line.partition("--") if line.lstrip().startswith("--") or " -- " in line else (line, "", "")
        out.append(turned(code) + mark + note)
    return "\n".join(out)


def clauses(text):
    """The ghost lines and the clauses of a .rt file: from a line that begins with requires or ensures to the end of its braces."""
    out, depth = [], 0
    for line in text.split("\n"):
        begins = re.match(r"\s*(requires|ensures)\b", line)
        if line.startswith("ghost use"):
            line = turned(line)
        elif begins or depth > 0:
            line = turned(line)
            depth += line.count("{") - line.count("}")
        out.append(line)
    return "\n".join(out)


def edit(text):
    if "file: src" in text:
        return text
    return "\n".join(turned(line) if line.startswith(("old:", "new:")) else line for line in text.split("\n"))


def main():
    changed = 0
    for root in ("crates", "teeth"):
        for folder, dirs, names in os.walk(root):
            dirs[:] = sorted(d for d in dirs if d not in ("out", "target"))
            for name in sorted(names):
                path = os.path.join(folder, name)
                turn = {".antt": antt, ".rt": clauses, ".edit": edit}.get(os.path.splitext(name)[1])
                changed += write(path, turn) if turn else 0
    changed += write("oracle/src/bin/teeth.rs", lambda t: "\n".join(turned(l) if l.strip().startswith('("') else l for l in t.split("\n")))
    print(f"spell_choice: {changed} files")


def write(path, turn):
    with open(path, encoding="utf-8") as f:
        old = f.read()
    new = turn(old)
    if new == old:
        return 0
    with open(path, "w", encoding="utf-8") as f:
        f.write(new)
    return 1


main()
