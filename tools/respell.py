#!/usr/bin/env python3
"""Spells this repository's own definitions and lemmas as today's Rattle does, by the rows of names.tsv beside this file: an old name, a tab, the new one.

usage: tools/respell.py [FOLDER..]      in the repository's top; without folders: crates, docs and README.md

Only whole names turn: in .antt and .edit files everywhere but in quoted text, in .rt files likewise, where no name of Rust's own is in the table, and in .md
files inside code spans. A second run changes nothing.
"""

import os
import re
import sys

HERE = os.path.dirname(os.path.realpath(__file__))
WORD = re.compile(r"[^\s(){}.;,@\"«»`:|\[\]]+")
QUOTED = re.compile(r'"(?:[^"\\\n]|\\.)*"')
SPAN = re.compile(r"`[^`\n]*`")


def main():
    with open(os.path.join(HERE, "names.tsv"), encoding="utf-8") as f:
        table = dict(line.rstrip("\n").split("\t") for line in f if line.strip())

    def turned(text):
        return WORD.sub(lambda m: table.get(m.group(0), m.group(0)), text)

    def unquoted(text):
        parts, at = [], 0
        for m in QUOTED.finditer(text):
            parts += [turned(text[at : m.start()]), m.group(0)]
            at = m.end()
        return "".join(parts + [turned(text[at:])])

    changed = 0
    for path in files(sys.argv[1:] or ["crates", "docs", "README.md"]):
        with open(path, encoding="utf-8") as f:
            old = f.read()
        new = SPAN.sub(lambda m: turned(m.group(0)), old) if path.endswith(".md") else unquoted(old)
        if new != old:
            changed += 1
            with open(path, "w", encoding="utf-8") as f:
                f.write(new)
    print(f"respell: {changed} files changed")


def files(tops):
    for top in tops:
        if os.path.isfile(top):
            yield top
        for folder, dirs, names in os.walk(top):
            dirs[:] = sorted(d for d in dirs if d not in ("out", "target", ".git"))
            for name in sorted(names):
                if name.endswith((".antt", ".rt", ".edit", ".md")):
                    yield os.path.join(folder, name)


main()
