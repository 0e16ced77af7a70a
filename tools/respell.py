#!/usr/bin/env python3
"""Brings the names of definitions and lemmas to one spelling: words in snake case.

Run once, at the top of the repository, after the toolchain's own script has turned the files. It renames what
specs/ and proofs/ declare, there, in the clauses of src/, and in the edits of must-fail/; a dash stays only where
it joins the names of two definitions. Names in docs/ and README.md are turned where they stand in backticks.
Functions, types and fields of src/, strings, inputs and outputs keep their names.
"""
import collections
import pathlib
import re

# A name of specs/ or proofs/, not reached through a path.
TOKEN = re.compile(r"(?<![\w'-])[A-Za-z][\w'-]*")
DECLARED = re.compile(r"^\s*(?:(?:abbrev|unfoldable|pub)\s+)*([^\s:(){}]+(?:\s+[^\s:(){}]+)*)\s+:\s+(.*)$")
LOCAL = re.compile(r"^\s*let ([^\s:=]+)(?: :| =)")
CAMEL = re.compile(r"[a-z][a-z0-9_]*[A-Z][A-Za-z0-9_']*")
DASHED = re.compile(r"[A-Za-z0-9_]+(?:-[A-Za-z0-9_]+)+'?")

# The library's words that names here are made of.
WORDS = {"length", "drop", "take", "set", "map", "replicate", "cond", "nth"}

# Names that would fall together with a function's, and names of words that the library calls otherwise now.
GIVEN = {
    "ranks-fall": "ranks_fall_lem",
    "steps-fall": "steps_fall_lem",
    "getD-end": "get_or-end",
    "getD-upward": "get_or-upward",
}

# What the toolchain's script has turned already: for the pages, which it leaves alone.
TURNED = """allOf andThen cutOf graphOf headOf isCall lineOf linesOf nameOf nextOf numberOf ofBytes orderOf passingOf
placeOf placesOf sizeAt sizeOf sourceOf spanOf stateOf symbolAt symbolOf textOf totalOf valueOf widthOf withSign
wordsIn wordsOf""".split()


def snake(name):
    """The name with each capital inside it as a new word."""
    return re.sub(r"([a-z0-9])([A-Z])", lambda m: m.group(1) + "_" + m.group(2).lower(), name)


def declared(top):
    """The names that specs/ and proofs/ declare, but for the goals of functions, each with its crates; and which
    of them are definitions."""
    names, definitions = collections.defaultdict(set), set()
    for path in top.glob("crates/*/*/**/*.antt"):
        for line in path.read_text().split("\n"):
            if line.strip().startswith("--"):
                continue
            match = DECLARED.match(line)
            if match and not match.group(2).startswith("goal."):
                for name in match.group(1).split():
                    names[name].add(path.parts[1])
                if re.match(r"(pub )?(abbrev|unfoldable) ", line):
                    definitions.update(match.group(1).split())
            match = LOCAL.match(line)
            if match:
                names[match.group(1)].add(path.parts[1])
    return names, definitions


def spelled(name, definitions):
    """A name as it is to be spelled, among these definitions."""
    if name in GIVEN:
        return GIVEN[name]
    if CAMEL.fullmatch(name):
        return snake(name)
    words = name.split("-")
    whole = all(word in definitions or word in WORDS for word in words)
    return ("-" if whole else "_").join(snake(word) for word in words)


def turn(path, table):
    """Renames what stands in a file, outside of strings."""
    text = path.read_text()
    parts = re.split(r'("(?:[^"\\\n]|\\.)*")', text) if path.suffix == ".rt" else [text]
    for i in range(0, len(parts), 2):
        parts[i] = TOKEN.sub(lambda m: table.get(m.group(0), m.group(0)), parts[i])
    path.write_text("".join(parts))


def main():
    top = pathlib.Path(".")
    names, definitions = declared(top)
    olds = sorted(name for name in names if CAMEL.fullmatch(name) or DASHED.fullmatch(name))
    table = {old: spelled(old, definitions) for old in olds}
    table = {old: new for old, new in table.items() if old != new}
    for old, new in table.items():
        others = [other for other in names if other != old and table.get(other, other) == new]
        if any(names[old] & names[other] for other in others):
            print(f"falls together: {old} and {', '.join(others)} as {new}")
    for suffix in ("antt", "rt", "edit"):
        for path in top.glob(f"crates/**/*.{suffix}"):
            if "out" not in path.parts:
                turn(path, table)
    pages = {old: snake(old) for old in [*table, *TURNED] if CAMEL.fullmatch(old)}
    for path in [top / "README.md", *top.glob("docs/*.md")]:
        text = path.read_text()
        path.write_text(re.sub(r"`([A-Za-z][\w'-]*)`", lambda m: f"`{pages.get(m.group(1), m.group(1))}`", text))
    for old, new in table.items():
        print(f"{old} -> {new}")


if __name__ == "__main__":
    main()
