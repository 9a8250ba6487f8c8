#!/usr/bin/env python3
"""Respells the names of this repository's definitions and lemmas, as tools/names.txt has them: facts in upper camel case, all
others in snake case.

    python3 tools/respell.py [ROOT]

A name is changed where it stands as a whole word: in specs/ and proofs/, in the clauses and ghost lines of src/, in must-fail/,
and between backticks in comments and pages. A file that takes a name of the same spelling from the standard library keeps it.
Run it once, after the kit's own script.
"""
import os
import re
import sys

HERE = os.path.dirname(os.path.realpath(__file__))
WORD = re.compile(r"[^\s(){};,.:λ\[\]|`]+")
STD = re.compile(r"use Rattle\.std[^\s{]*\.\{([^}]*)\}")
TICKS = re.compile(r"`[^`\n]*`")


def table():
    with open(os.path.join(HERE, "names.txt"), encoding="utf-8") as f:
        return dict(line.split() for line in f if line.strip())


def respelled(text, names):
    return WORD.sub(lambda m: names.get(m.group(0), m.group(0)), text)


def in_ticks(text, names):
    return TICKS.sub(lambda m: respelled(m.group(0), names), text)


def turned(path, text, names):
    kept = {x.strip().split(" as ")[0] for m in STD.finditer(text) for x in m.group(1).split(",")}
    names = {k: v for k, v in names.items() if k not in kept}
    if path.endswith(".md"):
        return in_ticks(text, names)
    if path.endswith(".rt"):
        lines = text.split("\n")
        return "\n".join(in_ticks(l, names) if l.lstrip().startswith("//") else respelled(l, names) for l in lines)
    return respelled(text, names)


def main():
    root = sys.argv[1] if len(sys.argv) > 1 else os.path.dirname(HERE)
    names, changed = table(), 0
    for folder, dirs, files in os.walk(root):
        dirs[:] = sorted(d for d in dirs if d not in ("out", ".git", "target"))
        for f in sorted(files):
            path = os.path.join(folder, f)
            if not f.endswith((".antt", ".rt", ".edit", ".md")) or os.path.islink(path):
                continue
            with open(path, encoding="utf-8") as h:
                old = h.read()
            new = turned(path, old, names)
            if new != old:
                changed += 1
                with open(path, "w", encoding="utf-8") as h:
                    h.write(new)
    print(f"{changed} files changed")


if __name__ == "__main__":
    main()
