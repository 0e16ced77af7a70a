#!/usr/bin/env python3
"""Counts the places in crates/*/src where an older form of the language may stand.

    python3 tools/places.py            a count for each question
    python3 tools/places.py --places   the places too

A place is one to look at, and not yet a fault: docs/DESIGN-PASS.md says of each what became of it.
"""
import collections
import pathlib
import re
import sys

ROOT = pathlib.Path(__file__).resolve().parent.parent
SOURCES = sorted(p for p in ROOT.glob("crates/*/src/**/*.rt"))
PROOFS = sorted(p for p in ROOT.glob("crates/*/proofs/**/*.antt"))

# A question, and the lines of source that it finds.
LINES = [
    ("1 enums declared", r"^\s*(pub )?enum "),
    ("1 a flag with a value beside it", r"\(bool, "),
    ("1 a theorem that answers a number", r"^pub fn \w+\(\) -> u8"),
    ("1 a number that stands for none", r"unwrap_or\(0\)|else \{ 0 \}|_ => 0,|else \{ -1 \}|^\s*-1$|=> -1,|0 where|or 0 "),
    ("1 a kind or a flag compared as a number", r"(kind|flag) == -?\d|match (r\.)?(kind|flag) \{"),
    ("1 a kind or a flag compared with a named number", r"kind [=!<>]=? [A-Z_]{3,}|kind\([A-Z_]{3,}|^\s*[A-Z_]{3,}( \||\s*=>| if)|, [A-Z_]{4,}, r"),
    ("3 while and loop", r"^\s*(while|loop)\b"),
    ("3 for over a range of numbers", r"^\s*for \w+ in .*\.\."),
    ("3 a count by hand", r"[a-z] [+-]= 1;"),
    ("4 casts by as", r" as (usize|[ui]\d+)\b"),
    ("4 impls of printing and conversion", r"^impl.* (fmt::Display|From<.*>|TryFrom<.*>|Error) for "),
    ("4 an equality by hand", r"fn same\w*\("),
    ("6 a slice or an array with a count or an index beside it", r"^\s*(len|tail|head|at|feeds): (usize|u16),|^\s*let mut (tail|head|at) = "),
    ("6 arrays of a fixed size", r"\[[^\]\[]+; [A-Z0-9_]{2,}\]"),
    ("7 a match or a chain of tests that picks the step", r"match (section|\(task_of)|if word == |match self\.task"),
    ("7 closures, dyn and function pointers taken", r"impl Fn|F: Fn|dyn |: fn\("),
]


def functions(text):
    """Each function of a source: its name, its head up to the body, and its body."""
    for m in re.finditer(r"^( *)(?:pub )?fn (\w+).*?(?:\{$|\{\}$|;$)", text, re.M | re.S):
        end = re.compile(r"^" + m[1] + r"\}", re.M).search(text, m.end())
        yield m[2], m[0], text[m.end():end.start()] if end and m[0].endswith("{") else ""


def shape(body):
    """A body with its names and numbers taken out, all but punctuation and keywords."""
    keep = {"if", "else", "match", "for", "in", "while", "let", "return", "mut", "true", "false", "None", "Some"}
    return tuple(w if w in keep or not re.match(r"\w", w) else "x" for w in re.findall(r"\w+|[^\w\s]", body))


def main():
    show = "--places" in sys.argv[1:]
    texts = {p: p.read_text() for p in SOURCES}
    for question, pattern in LINES:
        found = [f"{p.relative_to(ROOT)}:{n}: {line.strip()}" for p, text in texts.items()
                 for n, line in enumerate(text.splitlines(), 1)
                 if re.search(pattern, line) and not line.lstrip().startswith("ghost")]
        tell(question, len(found), found, show)

    shapes, facts, pairs = (collections.defaultdict(set) for _ in range(3))
    for p, text in texts.items():
        if "/tests" in str(p) or "input_tests" in str(p):
            continue
        for name, head, body in functions(text):
            where = f"{p.relative_to(ROOT)}: {name}"
            if body.count("\n") >= 2:
                shapes[shape(body)].add(where)
            clauses = " ".join(re.findall(r"^\s*(?:requires|ensures).*(?:\n\s+[|\]].*)*", head, re.M))
            for fact in set(re.findall(r"\b[A-Z]\w+(?= )", clauses)) - {"Some", "None", "Ok", "Err", "T", "S", "IsTrue"}:
                facts[fact].add(where)
            names = sorted(set(re.findall(r"(\w+: [^,()]+)", head.split("->")[0])))
            for i, a in enumerate(names):
                for b in names[i + 1:]:
                    pairs[a + ", " + b].add(where)
    several = {s: w for s, w in shapes.items() if len(w) > 1}
    tell("2 functions of one shape", sum(map(len, several.values())), [", ".join(sorted(w)) for w in several.values()], show)
    often = {f: w for f, w in facts.items() if len(w) > 2}
    tell("5 facts in the clauses of three functions or more", len(often), [f"{f} ({len(w)})" for f, w in sorted(often.items())], show)
    together = {f: w for f, w in pairs.items() if len(w) > 2}
    tell("5 parameters that travel together in three or more", len(together), [f"{f} ({len(w)})" for f, w in sorted(together.items())], show)

    lines = sum(len(p.read_text().splitlines()) for p in PROOFS)
    tell("8 files of proofs", len(PROOFS), [], show)
    tell("8 lines of proofs", lines, [], show)


def tell(question, count, found, show):
    print(f"{count:5} {question}")
    if show:
        for place in found:
            print(f"          {place}")


main()
