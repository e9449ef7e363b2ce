"""Quoting, and the check of a path (docs/FORMATS.md, "The report" and "The index")."""

NAMED = {7: "a", 8: "b", 9: "t", 10: "n", 11: "v", 12: "f", 13: "r", 34: '"', 92: "\\"}
BY_LETTER = {letter: byte for byte, letter in NAMED.items()}


class Refused(Exception):
    """The repository is refused: the text is the line without `refused `."""


def quoted(path):
    """A path as a report has it."""
    if all(0x20 <= byte <= 0x7E and byte not in b'"\\' for byte in path):
        return path.decode()
    shown = ""
    for byte in path:
        if byte in NAMED:
            shown += "\\" + NAMED[byte]
        elif 0x20 <= byte <= 0x7E:
            shown += chr(byte)
        else:
            shown += f"\\{byte:03o}"
    return f'"{shown}"'


def unquoted(text):
    """The bytes of a quoted text and what follows its closing quote, or None."""
    found, place = bytearray(), 1
    while place < len(text):
        byte = text[place]
        if byte == 34:
            return bytes(found), text[place + 1:]
        if byte != 92:
            found.append(byte)
            place += 1
            continue
        letter = chr(text[place + 1]) if place + 1 < len(text) else ""
        digits = text[place + 1:place + 4]
        if letter in BY_LETTER:
            found.append(BY_LETTER[letter])
            place += 2
        elif len(digits) == 3 and all(digit in b"01234567" for digit in digits) and digits[0] in b"0123":
            found.append(int(digits, 8))
            place += 4
        else:
            return None
    return None


def path_fault(path):
    """Why a path may not be written, or None. The first part with a fault decides."""
    if not path:
        return "empty"
    if len(path) > 4096:
        return "too-long"
    for part in path.split(b"/"):
        if not part:
            return "empty-part"
        if part == b".":
            return "dot"
        if part == b"..":
            return "dot-dot"
        if part.lower() == b".git":
            return "dot-git"
    return None


def folders(path):
    """The folders of a path, from the top."""
    parts = path.split(b"/")
    return [b"/".join(parts[:count]) for count in range(1, len(parts))]
