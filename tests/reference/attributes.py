"""Attribute files, patterns, and what decides an attribute (docs/FORMATS.md, "Attributes")."""
import re
from dataclasses import dataclass

from reference.texts import unquoted

CLASSES = {
    "alnum": "0-9A-Za-z", "alpha": "A-Za-z", "blank": " \\t", "cntrl": "\\x00-\\x1f\\x7f", "digit": "0-9", "graph": "!-~",
    "lower": "a-z", "print": " -~", "punct": "!-/:-@\\[-`{-~", "space": " \\t-\\r", "upper": "A-Z", "xdigit": "0-9A-Fa-f",
}
NAME = re.compile(rb"[A-Za-z0-9_.][A-Za-z0-9_.-]*\Z")
SET, UNSET, UNSPECIFIED = ("set",), ("unset",), ("unspecified",)
BINARY = [(b"diff", UNSET), (b"merge", UNSET), (b"text", UNSET)]


@dataclass
class File:
    """An attribute file: its folder, its rows of pattern and pairs, its macros, and how many of its lines are ignored."""
    folder: bytes
    rows: list
    macros: list
    ignored: int = 0


def pairs_of(words):
    """The pairs of a line, or None if a name is bad."""
    pairs = []
    for word in words:
        if word[:1] in (b"-", b"!"):
            name, state = word[1:].partition(b"=")[0], UNSET if word[:1] == b"-" else UNSPECIFIED
        else:
            name, equals, value = word.partition(b"=")
            state = ("value", value) if equals else SET
        if not NAME.match(name):
            return None
        pairs.append((name, state))
    return pairs


def read_line(file, line, is_top):
    """Reads a line into its file. It returns whether the line is ignored."""
    if len(line) >= 2048:
        return True
    line = line.lstrip(b" \t\r")
    if not line or line.startswith(b"#"):
        return False
    read = unquoted(line) if line.startswith(b'"') else None
    pattern, rest = read or (re.split(rb"[ \t\r]", line, maxsplit=1) + [b""])[:2]
    pairs = pairs_of(re.split(rb"[ \t\r]+", rest.strip(b" \t\r")) if rest.strip(b" \t\r") else [])
    if read is None and len(pattern) > 6 and pattern.startswith(b"[attr]"):
        if not is_top or not NAME.match(pattern[6:]) or pairs is None:
            return True
        file.macros.append((pattern[6:], pairs))
        return False
    if pattern.startswith(b"!") or pairs is None:
        return True
    file.rows.append((pattern, pairs))
    return False


def read_file(text, folder, is_top):
    """An attribute file in a folder."""
    if text.startswith(b"\xEF\xBB\xBF"):
        text = text[3:]
    file = File(folder, [], [])
    for line in text.replace(b"\r\n", b"\n").split(b"\n"):
        file.ignored += read_line(file, line, is_top)
    return file


# Patterns. A pattern becomes a list of pieces, and each piece says after which bytes of a text the rest may begin.


class Closed(Exception):
    """A set that matches no byte."""


def read_member(pattern, place):
    """A byte, or a backslash and a byte."""
    if pattern[place] == 92:
        place += 1
    if place >= len(pattern):
        raise Closed
    return pattern[place], place + 1


def read_set(pattern, place):
    """The bytes of a set, and the place behind its `]`."""
    negated = pattern[place:place + 1] in (b"!", b"^")
    place += negated
    members, first = set(), True
    while True:
        if place >= len(pattern):
            raise Closed
        if pattern[place] == 93 and not first:
            break
        first = False
        named = re.compile(rb"\[:([^\]]*):\]").match(pattern, place)
        if named:
            if named[1].decode("latin-1") not in CLASSES:
                raise Closed
            members |= {byte for byte in range(128) if re.match(f"[{CLASSES[named[1].decode()]}]", chr(byte))}
            place = named.end()
            continue
        low, place = read_member(pattern, place)
        high = low
        if pattern[place:place + 1] == b"-" and pattern[place + 1:place + 2] not in (b"]", b""):
            high, place = read_member(pattern, place + 1)
        members |= set(range(low, high + 1))
    found = set(range(256)) - members if negated else members
    return found - {47}, place + 1


def pieces_of(pattern, is_whole):
    """The pieces of a pattern: a set of bytes, or one of the words `star`, `folders` and `all`."""
    pieces, place = [], 0
    while place < len(pattern):
        byte = pattern[place]
        if byte == 42:
            end = place
            while end < len(pattern) and pattern[end] == 42:
                end += 1
            at_part = is_whole and end - place == 2 and (place == 0 or pattern[place - 1] == 47)
            if at_part and pattern[end:end + 1] == b"/":
                pieces.append("folders")
                end += 1
            elif at_part and end == len(pattern):
                pieces.append("all")
            else:
                pieces.append("star")
            place = end
        elif byte == 63:
            pieces.append(set(range(256)) - {47})
            place += 1
        elif byte == 91:
            found, place = read_set(pattern, place + 1)
            pieces.append(found)
        elif byte == 92:
            if place + 1 == len(pattern):
                raise Closed
            pieces.append({pattern[place + 1]})
            place += 2
        else:
            pieces.append({byte})
            place += 1
    return pieces


def behind(piece, text, place):
    """The places at which the rest of a text may begin behind a piece."""
    if isinstance(piece, set):
        return [place + 1] if place < len(text) and text[place] in piece else []
    if piece == "star":
        end = text.find(b"/", place)
        return range(place, (len(text) if end < 0 else end) + 1)
    if piece == "all":
        return [len(text)] if place < len(text) else []
    return [place] + [end + 1 for end in range(place, len(text)) if text[end] == 47]


def matches(pattern, path):
    """Whether a pattern matches a path from its file's folder."""
    if not pattern or pattern.endswith(b"/"):
        return False
    is_whole = b"/" in pattern
    if is_whole and pattern.startswith(b"/"):
        pattern = pattern[1:]
    text = path if is_whole else path.rpartition(b"/")[2]
    try:
        pieces = pieces_of(pattern, is_whole)
    except Closed:
        return False
    places = {0}
    for piece in pieces:
        places = {end for place in places for end in behind(piece, text, place)}
    return len(text) in places


# What decides


def reaching(files, path):
    """The files that reach a path, the one that decides first at the front, and the path from each file's folder."""
    found = [(files["info"], path)]
    folder = path.rpartition(b"/")[0]
    while True:
        if folder in files["folders"]:
            found.append((files["folders"][folder], path[len(folder) + 1:] if folder else path))
        if not folder:
            return found
        folder = folder.rpartition(b"/")[0]


def states_of(files, path):
    """The states of a path's attributes that are decided."""
    macros, decided = {}, {}
    for file, _ in reaching(files, path):
        if file.folder == b"":
            for name, pairs in reversed(file.macros):
                macros.setdefault(name, pairs)
    macros.setdefault(b"binary", BINARY)

    def decide(pairs):
        for name, state in reversed(pairs):
            if name not in decided:
                decided[name] = state
                if state == SET and name in macros:
                    decide(macros[name])

    for file, rest in reaching(files, path):
        for pattern, pairs in reversed(file.rows):
            if matches(pattern, rest):
                decide(pairs)
    return decided
