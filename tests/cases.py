#!/usr/bin/env python3
"""Blocks of cases, as the crate case_kit reads them.

    tests/cases.py KIND NAME TEXT WANTED    prints a block of a kind with one cell, from two files
"""

import re
import sys

SHORT = {"\n": "\\n", "\r": "\\r", "\t": "\\t", "\0": "\\0", "\\": "\\\\"}
BYTES = {b"n": b"\n", b"r": b"\r", b"t": b"\t", b"0": b"\0", b"\\": b"\\"}


def spelled(value):
    """Bytes as a cell's value. A space at the end would be lost in an editor."""
    text = "".join(SHORT.get(c) or (c if " " <= c <= "~" else f"\\x{ord(c):02x}") for c in value.decode("latin-1"))
    return text[:-1] + "\\x20" if text.endswith(" ") else text


def bytes_of(text):
    """The bytes that a cell's value spells."""
    def escaped(match):
        return bytes([int(match[1][1:], 16)]) if len(match[1]) == 3 else BYTES[match[1]]

    return re.sub(rb"\\(x[0-9a-f]{2}|.)", escaped, text.encode("ascii"))


def pieces_of(text):
    """The lines of a text with their ends, or of other bytes pieces of 64."""
    if b"\0" in text:
        return [text[place:place + 64] for place in range(0, len(text), 64)]
    return text.splitlines(keepends=True)


def block(kind, name, text, wanted):
    """A block with the one cell `text`."""
    lines = [f"{kind} {name}"]
    for piece in pieces_of(text) or [b""]:
        lines.append(f"{'more' if len(lines) > 1 else 'text'} {spelled(piece)}")
    lines += [f"wanted {spelled(line)}" for line in wanted.split(b"\n")]
    return "".join(line.rstrip(" ") + "\n" for line in lines)


def blocks_of(path):
    """The blocks of a file: the kind, the name, the cells in their order, and what is wanted."""
    with open(path, encoding="ascii") as file:
        texts = file.read().split("\n\n")
    for text in texts:
        lines = [line for line in text.split("\n") if line and not line.startswith("#")]
        if lines:
            kind, name = lines[0].split(" ")
            rows = [(word, bytes_of(value)) for word, _, value in (line.partition(" ") for line in lines[1:])]
            wanted = b"\n".join(value for word, value in rows if word == "wanted")
            yield kind, name, [row for row in rows if row[0] != "wanted"], wanted


def main():
    _, kind, name, text, wanted = sys.argv
    with open(text, "rb") as file, open(wanted, "rb") as other:
        print(block(kind, name, file.read(), other.read()), end="")


if __name__ == "__main__":
    main()
