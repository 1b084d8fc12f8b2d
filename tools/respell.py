#!/usr/bin/env python3
"""Brings the repository's own names to Rattle's spelling, once, behind port.py. Usage: respell.py [ROOT]

A row of respelled.tsv is a name of specs/ or proofs/: as it was, as port.py leaves it, as it is now. Whole words turn: in .antt and .rt files from the
second spelling, in must-fail edits and in the code spans of pages from the first. A library of the kit is called sha1, so that crate is hmac_sha1 now.
"""

import os
import re
import shutil
import sys

HERE = os.path.dirname(os.path.abspath(__file__))
WORD = re.compile(r"[^\s(){}.;,@\"«»\x60]+")
SPAN = re.compile(r"\x60[^\x60\n]+\x60")
SKIPPED = ("out", "target", ".git", "reference", "rust", "tools")


def rows():
    with open(os.path.join(HERE, "respelled.tsv"), encoding="utf-8") as f:
        return [line.rstrip("\n").split("\t") for line in f]


def files(root):
    for folder, dirs, names in os.walk(root):
        dirs[:] = sorted(d for d in dirs if d not in SKIPPED)
        for name in sorted(names):
            if name.endswith((".antt", ".rt", ".edit", ".md")):
                yield os.path.join(folder, name)


def words(text, table):
    return WORD.sub(lambda m: table.get(m[0], m[0]), text)


def crate_renamed(text):
    text = text.replace("Rattle.sha1.", "Rattle.hmac_sha1.")
    return re.sub(r"\bsha1::", "hmac_sha1::", text)


def turned(path, text, old, ported):
    if path.endswith(".md"):
        return SPAN.sub(lambda m: words(m[0], old), text)
    if path.endswith(".edit"):
        return crate_renamed(words(text, old))
    return crate_renamed(words(text, ported))


def rename_crate(root):
    shutil.move(os.path.join(root, "crates", "sha1"), os.path.join(root, "crates", "hmac_sha1"))
    path = os.path.join(root, "crates.txt")
    with open(path, encoding="utf-8") as f:
        text = f.read()
    with open(path, "w", encoding="utf-8") as f:
        f.write(re.sub(r"\bsha1\b", "hmac_sha1", text))


def main(argv):
    root = argv[0] if argv else "."
    old = {it[0]: it[2] for it in rows()}
    ported = {it[1]: it[2] for it in rows()}
    for path in files(root):
        with open(path, encoding="utf-8") as f:
            text = f.read()
        new = turned(path, text, old, ported)
        if new != text:
            with open(path, "w", encoding="utf-8") as f:
                f.write(new)
    rename_crate(root)


if __name__ == "__main__":
    main(sys.argv[1:])
