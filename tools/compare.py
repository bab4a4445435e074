#!/usr/bin/env python3
"""Holds a tree to LANDED, the last commit in the older language, whose number docs/PORT.md begins with.

usage: compare.py specs LANDED PORTED      the files of specs/, word by word: PORTED is LANDED after port.py and respell.py
       compare.py clauses LANDED PORTED    the clauses of each function, in the same way
       compare.py laws PORTED NOW          the statements of the laws in proofs/, by name and text

The first two print what has another number of words, each word of LANDED that stands for two of PORTED, and each of PORTED that stands for two of LANDED; nothing of the three where
spelling alone differs. Imports are left out, and brackets and dots, since a projection is written otherwise. The last prints the laws that are gone, also under another name, and those of another statement.
"""

import collections
import os
import re
import sys

WORD = r'"[^"]*"|[^\s(){}.;,"]+|[{};,]'


def files(top, folder, ending):
    for at, folders, names in os.walk(os.path.join(top, "crates")):
        folders[:] = [f for f in folders if f != "out"]
        if f"/{folder}" in at:
            for name in sorted(names):
                if name.endswith(ending):
                    yield os.path.relpath(os.path.join(at, name), top)


def read(top, path):
    with open(os.path.join(top, path), encoding="utf-8") as f:
        return f.read()


class Pairs:
    """Which words stand for which."""

    def __init__(self):
        self.there, self.back = collections.defaultdict(set), collections.defaultdict(set)
        self.count = self.odd = 0

    def add(self, what, old, new):
        self.count += 1
        if len(old) != len(new):
            self.odd += 1
            print(f"another number of words: {what}: {len(old)} and {len(new)}")
            return
        for a, b in zip(old, new):
            self.there[a].add(b)
            self.back[b].add(a)

    def tell(self, what):
        for words, said in ((self.there, "stands for"), (self.back, "stands for, of LANDED,")):
            for word, others in words.items():
                if len(others) > 1:
                    print(f"{word} {said} {sorted(others)}")
        print(f"{self.count} {what}, {self.odd} with another number of words")


def specs(landed, ported):
    def words(text):
        text = re.sub(r"--[^\n]*", "", text)
        text = re.sub(r"^\s*(pub )?use [^\n]*", "", text, flags=re.M)
        return re.findall(WORD, text.replace("«", "").replace("»", ""))

    pairs = Pairs()
    for path in files(ported, "specs", ".antt"):
        pairs.add(path, words(read(landed, path)), words(read(ported, path)))
    pairs.tell("files")


def functions(text):
    """Each function with its clauses as they are written."""
    text = re.sub(r"//[^\n]*", "", text)
    for m in re.finditer(r"\bfn (\w+)", text):
        end = text.find("\n{", m.end())
        head = text[m.end() : end]
        clauses = []
        for c in re.finditer(r"\b(requires|ensures)\b\s*(\w+\s*)?\{", head):
            k, deep = c.end(), 1
            while deep:
                deep += (head[k] == "{") - (head[k] == "}")
                k += 1
            clauses.append((c.group(1), head[c.end() : k - 1]))
        yield m.group(1), clauses


def landed_words(clause):
    m = re.match(r"\s*λ (\S+?)\s*\.", clause)
    if m:
        clause = clause[m.end() :]
        if m.group(1) != "_":
            clause = re.sub(rf"(?<![\w.]){m.group(1)}\b", "result", clause)
    clause = re.sub(r"[⌜⌝«»]", "", clause)
    clause = re.sub(r"now \((\w+) \.entry\)", r"\1 BEFORE", clause)
    clause = re.sub(r"now \((\w+) \.exit\)", r"\1 AFTER", clause)
    clause = re.sub(r"\((\w+) \.entry\)", r"\1", clause)
    clause = re.sub(r"now (\w+)", r"\1 BEFORE", clause)
    return [w for w in re.findall(WORD, clause) if w != "×"]


def ported_words(clause):
    clause = re.sub(r"[«»]", "", clause)
    clause = re.sub(r"\b(\w+)\.(now|old)\b", r"\1 BEFORE", clause)
    clause = re.sub(r"\b(\w+)\.new\b", r"\1 AFTER", clause)
    return [w for w in re.findall(WORD, clause) if w != "×"]


def clauses(landed, ported):
    pairs = Pairs()
    for path in files(ported, "src", ".rt"):
        for old, new in zip(functions(read(landed, path)), functions(read(ported, path)), strict=True):
            if old[0] != new[0]:
                print(f"{path}: {old[0]} and {new[0]}")
            for kind in ("requires", "ensures"):
                a = [w for k, c in old[1] if k == kind for w in landed_words(c)]
                b = [w for k, c in new[1] if k == kind for w in ported_words(c)]
                pairs.add(f"{path} {old[0]} {kind}", a, b)
    pairs.tell("kinds of clauses of functions")


def statements(top):
    out = collections.defaultdict(list)
    for path in files(top, "proofs", ".antt"):
        if path.endswith(("/Proof.antt", "/Answers.antt", "/Invariants.antt")):
            continue
        lines = read(top, path).split("\n")
        for i, line in enumerate(lines):
            m = re.match(r"^(\s*)(?:(?:pub|unfoldable|abbrev|private) )*([^\s(){}.;,@\":]+)((?: \{[^{}]*\})*) :(?: |$)(.*)$", line)
            if not m or line.strip().startswith(("--", "use", "let", "record", "data")):
                continue
            said, j = [m.group(4)], i + 1
            while j < len(lines) and lines[j].strip() and len(lines[j]) - len(lines[j].lstrip()) > len(m.group(1)) and not re.match(r"\s*unfolding", lines[j]):
                said.append(lines[j])
                j += 1
            out[m.group(2)].append((path, re.sub(r"[\s()]", "", "".join(said))))
    return out


def laws(ported, now):
    old, new, same = statements(ported), statements(now), 0
    for name, places in old.items():
        left = list(new.get(name, []))
        for path, text in places:
            fit = [n for n in left if n[1] == text]
            if fit:
                left.remove(fit[0])
                same += 1
            else:
                print(f"{'another statement' if left else 'gone'}: {name} of {path}\n    {text[:200]}")
                for n in left:
                    print(f"    {n[1][:200]}")
    print(f"{same} statements are the same")


if __name__ == "__main__":
    calls = {"specs": specs, "clauses": clauses, "laws": laws}
    if len(sys.argv) != 4 or sys.argv[1] not in calls:
        raise SystemExit(__doc__)
    calls[sys.argv[1]](sys.argv[2], sys.argv[3])
