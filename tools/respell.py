#!/usr/bin/env python3
"""Brings this repository's own definitions and lemmas to snake case, by respelled.tsv beside it: a row has the old name, a tab and the new one.

usage: python3 tools/respell.py [FOLDER]

It turns whole names in the .rt and .antt files below FOLDER/crates, and in the code spans of FOLDER's README.md and docs/*.md. FOLDER is this repository if it is left out.
A name right behind `c.` or `goal.` is one that Rattle makes, and stays. A second run changes nothing.
"""

import os
import re
import sys

HERE = os.path.dirname(os.path.realpath(__file__))
EDGE = r"[^\s(){}.;,@\"«»\[\]`:]"


def main():
    root = sys.argv[1] if len(sys.argv) > 1 else os.path.join(HERE, "..")
    with open(os.path.join(HERE, "respelled.tsv"), encoding="utf-8") as f:
        rows = dict(line.rstrip("\n").split("\t") for line in f)
    names = "|".join(re.escape(n) for n in sorted(rows, key=len, reverse=True))
    name = re.compile(rf"(?<!{EDGE})(?<!goal\.)(?<![\s(]c\.)(?:{names})(?!{EDGE})")

    def turned(text):
        return name.sub(lambda m: rows[m[0]], text)

    changed = 0
    for folder, dirs, files in os.walk(os.path.join(root, "crates")):
        dirs[:] = [d for d in dirs if d != "out"]
        for file in files:
            if file.endswith((".rt", ".antt")):
                changed += rewrite(os.path.join(folder, file), turned)
    pages = [os.path.join(root, "README.md")] + [os.path.join(root, "docs", f) for f in sorted(os.listdir(os.path.join(root, "docs"))) if f.endswith(".md") and not f.startswith("PORT")]
    for page in pages:
        changed += rewrite(page, lambda text: re.sub(r"`[^`\n]*`", lambda m: turned(m[0]), text))
    print(f"respell: {changed} files changed")


def rewrite(path, turned):
    with open(path, encoding="utf-8") as f:
        old = f.read()
    new = turned(old)
    if new != old:
        with open(path, "w", encoding="utf-8") as f:
            f.write(new)
    return new != old


main()
