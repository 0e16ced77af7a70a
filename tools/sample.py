#!/usr/bin/env python3
"""Writes the sample recording and the output that its audit must give.

What is expected comes from Python's own strict UTF-8 decoder and the limit of
1,048,576 bytes, never from the program. Run it in the repository's top folder.
"""
import pathlib

LIMIT = 1_048_576

LINES = [
    b"Ada scored 12400 at seat 3",
    "Ζωή: θέση 5, 9870 πόντοι".encode(),
    "Юрий: место 2, 15020 очков".encode(),
    "ليلى: المقعد ٧".encode(),
    "अनन्या: सीट १, ८८०० अंक".encode(),
    "지우: 4번 자리, 7310점".encode(),
    "小明：第六席，一万二千分".encode(),
    "𐌲𐌿𐍄𐌹𐍃𐌺: 🕹 🎮".encode(),
    b"",
    b"carriage return at the end\r",
    bytes([0xC0, 0x80]),
    bytes([0xED, 0xA0, 0x80]),
    b"good so far \xf4\x90\x80\x80 and no further",
    b"cut off \xe2\x82",
    b"\x80 a tail alone",
    b"\xef\xbb\xbfsignature bytes are a symbol",
    b"a" * (LIMIT + 1),
    "the last line has no line feed ✓".encode(),
]

SYMBOL = "not a symbol, or not well-formed UTF-8"
LONG = "longer than 1048576 numbers or bytes"


def report(line):
    """What is to be said of a line, and how many symbols it has (None: refused)."""
    if len(line) > LIMIT:
        return f"refused 8 at {LIMIT} in text: {LONG}", None
    try:
        symbols = len(line.decode("utf-8", "strict"))
    except UnicodeDecodeError as error:
        return f"refused 7 at {error.start} in text: {SYMBOL}", None
    return f"{symbols} symbols, {len(line)} bytes", symbols


def main():
    crate = pathlib.Path("crates/scoreline")
    (crate / "data").mkdir(exist_ok=True)
    (crate / "data/recording.txt").write_bytes(b"\n".join(LINES))
    reports = [report(line) for line in LINES]
    out = [f"line {n}: {words}" for n, (words, _) in enumerate(reports, 1)]
    symbols = sum(count for _, count in reports if count is not None)
    refused = sum(count is None for _, count in reports)
    out.append(f"{len(LINES)} lines, {symbols} symbols, {refused} refused")
    (crate / "stdout").write_text("\n".join(out) + "\n", encoding="utf-8")


if __name__ == "__main__":
    main()
