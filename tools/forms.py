#!/usr/bin/env python3
"""Lists places in crates/*/src that are written in a form for which Rattle has a plainer one.

    tools/forms.py [POINT ..]       each place of the points named (default: all), and a count of each
    tools/forms.py --counts         the counts alone

The points, and what is looked for:
  1 option     enums with one case that holds something and one that holds nothing; structs with a bool beside a
               value; constants and results that are numbers for a kind or a refusal
  2 twins      functions with the same body but for names and numbers, and functions in pairs by their names
  3 loops      `while` and `loop`
  4 by-hand    functions that turn one type into another by a `match` or by copying fields, and that compare
  5 repeated   facts that stand in the `requires` of three functions or more, and parameters that are passed
               together in three or more
  6 lengths    a field or a parameter that says how much of the one beside it counts
  7 ladders    `if` or `if let` on an answer, which returns it, and a next step after it
  8 proofs     files and lines of answers and of laws
"""
import collections
import glob
import re
import sys


def files():
    return sorted(glob.glob("crates/*/src/**/*.rt", recursive=True))


def text_of(path):
    return open(path, encoding="utf-8").read()


def without_comments(text):
    return re.sub(r"//[^\n]*", "", text)


class Function:
    """A function's name, parameters, `requires` clauses and body."""

    def __init__(self, path, line, name, parameters, result, head, body):
        self.path, self.line, self.name = path, line, name
        self.parameters, self.result, self.head, self.body = parameters, result, head, body

    def place(self):
        return f"{self.path[7:]}:{self.line} {self.name}"

    def requires(self):
        facts = []
        for clause in re.findall(r"requires(?:\s+\w+)?\s*\{((?:[^{}]|\{[^{}]*\})*)\}", self.head):
            facts.append(re.sub(r"\s+", " ", clause).strip())
        return facts


def matching(text, at, left, right):
    depth = 0
    for i in range(at, len(text)):
        if text[i] == left:
            depth += 1
        elif text[i] == right:
            depth -= 1
            if depth == 0:
                return i
    return len(text)


def functions(path):
    text = without_comments(text_of(path))
    for found in re.finditer(r"\bfn (\w+)(?:<[^({]*>)?\(", text):
        close = matching(text, found.end() - 1, "(", ")")
        parameters = text[found.end():close]
        # the body is the first brace that no clause opens
        at = close + 1
        while True:
            brace = text.find("{", at)
            if brace < 0:
                break
            before = text[at:brace]
            if re.search(r"(requires|ensures)(\s+\w+)?\s*$", before):
                at = matching(text, brace, "{", "}") + 1
                continue
            break
        if brace < 0:
            continue
        end = matching(text, brace, "{", "}")
        head = text[close + 1:brace]
        result = re.match(r"\s*->\s*([^\n{]+?)\s*(?:requires|ensures|\n|$)", head)
        line = text.count("\n", 0, found.start()) + 1
        yield Function(path, line, found.group(1), parameters, result.group(1) if result else "", head, text[brace:end + 1])


def every_function():
    for path in files():
        yield from functions(path)


def structs(path):
    text = without_comments(text_of(path))
    for found in re.finditer(r"\bstruct (\w+)(?:<[^{;(]*>)?\s*\{", text):
        end = matching(text, found.end() - 1, "{", "}")
        fields = re.findall(r"(\w+):\s*([^,\n]+)", text[found.end():end])
        yield text.count("\n", 0, found.start()) + 1, found.group(1), fields


def enums(path):
    text = without_comments(text_of(path))
    for found in re.finditer(r"\benum (\w+)(?:<[^{;(]*>)?\s*\{", text):
        end = matching(text, found.end() - 1, "{", "}")
        cases = re.findall(r"^\s*(\w+)(\([^)]*\)|\s*\{[^}]*\})?,", text[found.end():end], re.M)
        yield text.count("\n", 0, found.start()) + 1, found.group(1), cases


def option():
    for path in files():
        if "/turkish/src/answer.rt" in path:
            continue
        for line, name, cases in enums(path):
            empty = [c for c, held in cases if not held]
            if len(empty) == 1 and len(cases) >= 2 and len(cases) - 1 <= 2:
                yield f"{path[7:]}:{line} enum {name}"
        for line, name, fields in structs(path):
            flags = [f for f, t in fields if t == "bool"]
            if flags and len(fields) > 1:
                yield f"{path[7:]}:{line} struct {name}: {', '.join(flags)}"
            numbers = [f for f, t in fields if f in ("refusal", "answer", "kind", "more") and re.fullmatch(r"u8|u32|usize", t)]
            if numbers:
                yield f"{path[7:]}:{line} struct {name}: {', '.join(numbers)} by number"
        text = text_of(path)
        for found in re.finditer(r"^(?:pub )?const ([A-Z_]+): (u32|usize) = \d+;", text, re.M):
            if path.endswith(("/marks/src/mark.rt", "/nouns/src/mark.rt", "/vowels/src/harmony.rt", "/refusals/src/refusal.rt", "/pieces/src/buffer.rt")):
                if found.group(1) not in ("LIMIT", "ROOM"):
                    yield f"{path[7:]}:{text.count(chr(10), 0, found.start()) + 1} const {found.group(1)}"
    for f in every_function():
        if "refusal" in f.name and f.result == "u32":
            yield f"{f.place()} -> u32"


PAIRS = [
    ("on_by_64", "on_by_8"), ("is_plain", "are_plain"), ("last_width", "first_width"), ("goes_on", "continues_at"),
    ("decode_two", "decode_three"), ("decode_three", "decode_four"), ("previous_char", "next_char"), ("eq_s_b", "eq_s"),
    ("put_repair", "write_repair"), ("put_run", "write_run"), ("put_pass", "put_whole"), ("begins", "begins"),
    ("may_follow", "may_follow"), ("each_follows", "each_follows"),
]


def shape(body):
    names = {}
    out = []
    for token in re.findall(r"\w+|[^\w\s]", body):
        if re.fullmatch(r"0x[0-9A-Fa-f]+|\d\w*|[A-Z][A-Z_0-9]+", token):
            out.append("N")
        elif re.fullmatch(r"\w+", token) and token not in ("let", "if", "else", "return", "match", "while", "loop", "for", "in", "as", "mut"):
            out.append(names.setdefault(token, f"x{len(names)}"))
        else:
            out.append(token)
    return " ".join(out)


def twins():
    groups = collections.defaultdict(list)
    for f in every_function():
        if len(re.findall(r"\w+", f.body)) >= 8:
            groups[shape(f.body)].append(f)
    for group in groups.values():
        if len(group) > 1:
            yield f"{len(group)} of one shape: " + ", ".join(f.place() for f in group)
    by_name = collections.defaultdict(list)
    for f in every_function():
        by_name[f.name].append(f)
    for a, b in PAIRS:
        if a == b and len(by_name[a]) > 1:
            yield "by name: " + ", ".join(f.place() for f in by_name[a])
        elif a != b and by_name[a] and by_name[b]:
            yield "by name: " + by_name[a][0].place() + ", " + by_name[b][0].place()


def loops():
    for path in files():
        for number, line in enumerate(without_comments(text_of(path)).split("\n"), 1):
            if re.search(r"^\s*('\w+:\s*)?(let .*= )?('\w+:\s*)?(while\b|loop \{)", line):
                yield f"{path[7:]}:{number} {line.strip()}"


def by_hand():
    for f in every_function():
        arms = re.findall(r"=>\s*([\w:*\"]+)", f.body)
        copies = re.findall(r"^\s+(\w+): (?:self|s|n|r|t|o|a)\.\1,?$", f.body, re.M)
        if len(copies) >= 2:
            yield f"{f.place()}: copies {', '.join(copies)}"
        elif len(arms) >= 3 and len(arms) * 2 >= len(f.body.strip().split("\n")) - 4:
            yield f"{f.place()}: a match of {len(arms)}"
        elif re.fullmatch(r"\{\s*if \w+ \{\s*return [\w:]+;\s*\}\s*[\w:]+\s*\}", f.body):
            yield f"{f.place()}: one of two"
        elif re.fullmatch(r"\{\s*\w+ == \w+\s*\}", f.body):
            yield f"{f.place()}: compares"


def repeated():
    facts = collections.defaultdict(list)
    together = collections.defaultdict(list)
    for f in every_function():
        for fact in f.requires():
            facts[fact].append(f)
        names = re.findall(r"(\w+)\s*:\s*([^,]+)", f.parameters)
        for a in range(len(names)):
            for b in range(a + 1, len(names)):
                pair = (names[a][0] + ": " + names[a][1].strip(), names[b][0] + ": " + names[b][1].strip())
                together[pair].append(f)
    for fact, where in sorted(facts.items(), key=lambda e: -len(e[1])):
        if len(where) >= 3:
            yield f"{len(where)} require {fact}"
    for (a, b), where in sorted(together.items(), key=lambda e: -len(e[1])):
        if len(where) >= 3 and not all("extern" in f.head for f in where):
            yield f"{len(where)} take {a} with {b}"


LENGTHS = {"n", "count", "len", "length", "held", "more", "width", "m", "given", "end", "upto"}


def lengths():
    for path in files():
        if "/turkish/src/answer.rt" in path:
            continue
        for line, name, fields in structs(path):
            buffers = [f for f, t in fields if re.search(r"\[[^\]]*;|&|Vec", t)]
            counts = [f for f, t in fields if f in LENGTHS and t in ("usize", "u8", "u32")]
            bytes_ = [f for f, t in fields if t == "u8"]
            if counts and (buffers or len(bytes_) >= 2):
                yield f"{path[7:]}:{line} struct {name}: {', '.join(buffers or bytes_)} with {', '.join(counts)}"
    for f in every_function():
        names = re.findall(r"(\w+)\s*:\s*([^,]+)", f.parameters)
        buffers = [n for n, t in names if "[" in t]
        counts = [n for n, t in names if n in LENGTHS and t.strip() == "usize"]
        if buffers and counts:
            yield f"{f.place()}: {', '.join(buffers)} with {', '.join(counts)}"


def ladders():
    for f in every_function():
        steps = len(re.findall(r"if let [^{]*\{\s*return", f.body)) + len(re.findall(r"if \w+\.(?:moved|yes) \{\s*return", f.body))
        if steps >= 1:
            yield f"{f.place()}: {steps}"


def proofs():
    answers = sorted(glob.glob("crates/*/proofs/**/Answers.antt", recursive=True))
    loops_ = sorted(glob.glob("crates/*/proofs/**/Invariants.antt", recursive=True))
    laws = [p for p in sorted(glob.glob("crates/*/proofs/**/*.antt", recursive=True)) if p not in answers and p not in loops_]
    for name, paths in (("Answers.antt", answers), ("Invariants.antt", loops_), ("files of laws", laws)):
        lines = sum(len(text_of(p).split("\n")) - 1 for p in paths)
        yield f"{len(paths)} {name}, {lines} lines"


POINTS = [option, twins, loops, by_hand, repeated, lengths, ladders, proofs]


def main():
    words = sys.argv[1:]
    counts_alone = "--counts" in words
    wanted = [int(w) for w in words if w.isdigit()] or list(range(1, 9))
    for n in wanted:
        places = list(POINTS[n - 1]())
        print(f"{n} {POINTS[n - 1].__name__}: {len(places)}")
        if not counts_alone:
            for place in places:
                print(f"    {place}")


main()
