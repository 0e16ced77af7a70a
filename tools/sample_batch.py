#!/usr/bin/env python3
"""Writes the sample batch of commands, the files that it names, and what it must print.

What is expected of a text comes from sample.py, and what is expected of a table
from the checker in tables.py; never from the program. Run it in the
repository's top folder, after `tables.py samples`.
"""
import pathlib

import tables
from sample import LINES, report

USAGE = """\
scoreline audit FILE      says of each line of FILE how many symbols it has, or why it is refused
scoreline time FILE       walks FILE as one text, and says how long a symbol takes
scoreline check TABLE...  says of each TABLE, a file of numbers, how many records it has, or why it is refused
scoreline batch FILE      carries out each line of FILE as a command
scoreline help            prints this"""


def audit(lines):
    """What the audit of these lines prints."""
    reports = [report(line) for line in lines]
    out = [f"line {n}: {words}" for n, (words, _) in enumerate(reports, 1)]
    symbols = sum(count for _, count in reports if count is not None)
    refused = sum(count is None for _, count in reports)
    return out + [f"{len(lines)} lines, {symbols} symbols, {refused} refused"]


def checks(names):
    """What the check of these sample tables prints."""
    return [tables.say(f"tables/{name}.table", tables.read(tables.FOLDER / f"{name}.table")) for name in names]


SOUND = ["a_or_ab", "a_or_a_end", "seat_j_or_j", "comment", "abc", "words"]
LAYOUT = ["ends_early", "count_outside", "left_over"]
RECORDS = [
    "state_flag",
    "transition_target",
    "interval_upside_down",
    "mode_not_a_start",
    "rule_stop_wrong",
    "actions_alike",
]
ROUNDS = ["round", "round_by_call"]

# Files that hold no table at all, and what is to be said of them.
NO_TABLES = {
    "empty.txt": ("", "holds no number"),
    "word.table": ("1 2 # three\nfour 5\n", "line 2: not a decimal number"),
    "wide.table": ("2147483647 -2147483648\n2147483648\n", "line 2: a number that does not fit 32 bits"),
    "missing.table": (None, "cannot be read: No such file or directory (os error 2)"),
}

# The lines of the batch, each with what it prints (None: it is passed over).
BATCH = [
    ("# Each command that prints the same on every run, and some that fail.", None),
    ("audit recording.txt", audit(LINES)),
    ("audit empty.txt", audit([])),
    ("help", [USAGE]),
    *((f"check {' '.join(f'tables/{name}.table' for name in names)}", checks(names)) for names in (SOUND, LAYOUT, RECORDS, ROUNDS)),
    (f"check {' '.join(NO_TABLES)}", [f"{name}: {words}" for name, (_, words) in NO_TABLES.items()]),
    ("", None),
    ("audit missing.txt", ["error: cannot read missing.txt: No such file or directory (os error 2)"]),
    ("audit", ["error: not a command, or not its words: see scoreline help"]),
    ("sing recording.txt", ["error: not a command, or not its words: see scoreline help"]),
    ("check", ["error: not a command, or not its words: see scoreline help"]),
    ("batch commands.txt", ["error: a batch is one FILE, and stands in no batch"]),
]


def main():
    crate = pathlib.Path("crates/scoreline_batch")
    data = crate / "data"
    data.mkdir(exist_ok=True)
    (data / "recording.txt").write_bytes(b"\n".join(LINES))
    for name, (text, _) in NO_TABLES.items():
        if text is not None:
            (data / name).write_text(text)
    (data / "commands.txt").write_text("".join(f"{line}\n" for line, _ in BATCH))
    out = [text for line, printed in BATCH if printed is not None for text in [f"> {line}", *printed]]
    (crate / "stdout").write_text("\n".join(out) + "\n", encoding="utf-8")


if __name__ == "__main__":
    main()
