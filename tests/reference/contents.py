"""Objects and conversions (docs/FORMATS.md, "Objects" and "Conversions")."""
import hashlib
import re

from reference.attributes import SET, UNSET, UNSPECIFIED

ENCODINGS = {
    "utf-16": (b"\xFF\xFE", "utf-16-le"), "utf-16le": (b"", "utf-16-le"), "utf-16be": (b"", "utf-16-be"),
    "utf-16le-bom": (b"\xFF\xFE", "utf-16-le"), "utf-32": (b"\xFF\xFE\0\0", "utf-32-le"), "utf-32le": (b"", "utf-32-le"),
    "utf-32be": (b"", "utf-32-be"),
}
SHOWN = {word: word.upper() for word in ENCODINGS}
PRINTING = set(range(0x20, 0x100)) - {0x7F} | {8, 9, 12, 27}


def object_fault(stored, name):
    """Why a stored object isn't right, or None; and its content."""
    if stored is None:
        return "object-absent", b""
    if len(stored) > 268_435_471:
        return "object-too-large", b""
    head = re.match(rb"blob (0|[1-9][0-9]*)\0", stored)
    if not head:
        return "object-header", b""
    content = stored[head.end():]
    if int(head[1]) != len(content):
        return "object-size", b""
    if hashlib.sha1(stored).digest() != name:
        return "object-name", b""
    return None, content


def text_action(state):
    return {SET: "text", UNSET: "binary", ("value", b"auto"): "auto", ("value", b"input"): "text-lf"}.get(state)


def line_ends(states, settings):
    """`crlf`, `auto-crlf` or `-`."""
    action = text_action(states.get(b"text", UNSPECIFIED)) or text_action(states.get(b"crlf", UNSPECIFIED))
    eol = states.get(b"eol")
    if action != "binary" and eol in (("value", b"lf"), ("value", b"crlf")):
        action = ("auto-" if action == "auto" else "text-") + eol[1].decode()
    if action is None:
        action = {False: "binary", True: "auto-crlf", "input": "auto-lf"}[settings.autocrlf]
    if action in ("text", "auto"):
        is_crlf = settings.autocrlf is True or (settings.autocrlf is False and settings.eol == "crlf")
        action += "-crlf" if is_crlf else "-lf"
    return {"text-crlf": "crlf", "auto-crlf": "auto-crlf"}.get(action, "-")


def encoding_of(states):
    """The encoding's word or `-`, or None if it is unknown."""
    state = states.get(b"working-tree-encoding", UNSPECIFIED)
    if state in (UNSPECIFIED, UNSET) or state == ("value", b""):
        return "-"
    word = state[1].decode("latin-1").lower() if state[0] == "value" else ""
    for known in ("utf-8", *ENCODINGS):
        if word in (known, known.replace("-", "", 1)):
            return "-" if known == "utf-8" else known
    return None


def expanded(content, name):
    """A content with its keywords."""
    found, place = bytearray(), 0
    text = b"$Id: " + name.hex().encode() + b" $"
    while place < len(content):
        keyword = re.compile(rb"\$Id(?:\$|:([^\n$]*)\$)").match(content, place)
        if keyword and b" " not in (keyword[1] or b"")[1:-1]:
            found += text
            place = keyword.end()
        else:
            found.append(content[place])
            place += 1
    return bytes(found)


def is_binary(content):
    """Whether an automatic conversion leaves a content alone."""
    if b"\r" in content or b"\0" in content:
        return True
    if content.endswith(b"\x1A"):
        content = content[:-1]
    printing = sum(byte in PRINTING for byte in content)
    others = sum(byte not in PRINTING and byte != 10 for byte in content)
    return others > printing // 128


def prepared(content, name, conversion):
    """A content as it stands in the worktree without a driver, and whether it was left unencoded."""
    has_ident, ends, encoding = conversion
    if has_ident:
        content = expanded(content, name)
    if ends == "crlf" or (ends == "auto-crlf" and not is_binary(content)):
        content = re.sub(rb"(?<!\r)\n", b"\r\n", content)
    if encoding == "-" or not content:
        return content, False
    mark, codec = ENCODINGS[encoding]
    try:
        return mark + content.decode("utf-8").encode(codec), False
    except UnicodeDecodeError:
        return content, True
