#!/usr/bin/env python3
"""Spells the repository's own definitions and lemmas by the table beside this file: old, a tab, new on each line.

usage: python3 tools/respell.py [TOP]

Whole words turn in the .antt and .rt files below TOP/crates, but not in strings, in comments of .rt files, and not the names that
the check makes: what stands behind `goal.`, and where a file declares a name that it so cites.
"""

import os
import re
import sys

HERE = os.path.dirname(os.path.realpath(__file__))
WORD = re.compile(r'[^\s(){}.;,@"«»`]+')
QUIET = {
    ".antt": re.compile(r'"(?:[^"\\\n]|\\.)*"'),
    ".rt": re.compile(r'"(?:[^"\\\n]|\\.)*"|//[^\n]*'),
}


def table():
    with open(os.path.join(HERE, "spelling.tsv"), encoding="utf-8") as rows:
        return dict(row.rstrip("\n").split("\t") for row in rows)


def respelled(text, quiet, spelling):
    made = set(re.findall(r"\bgoal\.([^\s(){}.;,]+)", text))

    def word(m):
        return m[0] if m[0] in made else spelling.get(m[0], m[0])

    parts, at = [], 0
    for m in quiet.finditer(text):
        parts += [WORD.sub(word, text[at : m.start()]), m[0]]
        at = m.end()
    return "".join(parts) + WORD.sub(word, text[at:])


def main():
    top = sys.argv[1] if len(sys.argv) > 1 else "."
    spelling, turned = table(), 0
    for folder, folders, files in os.walk(os.path.join(top, "crates")):
        folders[:] = sorted(f for f in folders if f != "out")
        for name in files:
            quiet = QUIET.get(os.path.splitext(name)[1])
            if quiet is None:
                continue
            path = os.path.join(folder, name)
            with open(path, encoding="utf-8") as f:
                old = f.read()
            new = respelled(old, quiet, spelling)
            if new != old:
                with open(path, "w", encoding="utf-8") as f:
                    f.write(new)
                turned += 1
    print(f"{turned} files turned")


main()
