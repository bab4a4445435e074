#!/usr/bin/env python3
"""Brings the repository's own names to snake case, by respell.tsv beside this script.

usage: python3 tools/respell.py [FOLDER]       at the top of a repository that port.py has turned (default: this one)

A row of the table is a word: old, a tab, new. A word turns wherever it stands whole in a .antt file, in a clause or a ghost item of a .rt file (no name of the code is
spelled like a row), and in a must-fail edit; a routine of turkish.sbl, whose row has a '-', gets its own name back. In a law's
name, whose words are parted by '-', each word turns by itself. A second run writes nothing more.
Words that turkish.sbl spells with a capital for a vowel (lAr, sUnUz, nUn) keep it. A definition that would have a function's name gets '_of' behind it, or '_from' where it
ends so already.
"""

import os
import re
import sys

HERE = os.path.dirname(os.path.realpath(__file__))
WORD = re.compile(r"(?<![\w'])[A-Za-z][\w']*(?![\w'])")
TOKEN = re.compile(r"(?<![\w'-])[A-Za-z][\w'-]*(?![\w'-])")


def table():
    rows = {}
    with open(os.path.join(HERE, "respell.tsv"), encoding="utf-8") as f:
        for line in f:
            old, new = line.rstrip("\n").split("\t")
            rows[old] = new
    return rows


def main(top):
    rows = table()
    for folder, dirs, files in os.walk(os.path.join(top, "crates")):
        dirs[:] = [d for d in dirs if d != "out"]
        for name in files:
            if not name.endswith((".antt", ".rt", ".edit")):
                continue
            path = os.path.join(folder, name)
            with open(path, encoding="utf-8") as f:
                old = f.read()
            new = TOKEN.sub(lambda m: rows.get(m.group(0), m.group(0)), old)
            new = WORD.sub(lambda m: rows.get(m.group(0), m.group(0)), new)
            if new != old:
                with open(path, "w", encoding="utf-8") as f:
                    f.write(new)


if __name__ == "__main__":
    main(sys.argv[1] if len(sys.argv) > 1 else os.path.dirname(HERE))
