"""The index (docs/FORMATS.md, "The index"): how it is read, and how one is spelled."""
import hashlib
import struct
from dataclasses import dataclass

from reference.texts import Refused, folders, path_fault

PLAIN, EXECUTABLE, LINK, GITLINK = 0o100644, 0o100755, 0o120000, 0o160000
MODES = [PLAIN, EXECUTABLE, LINK, GITLINK]


@dataclass
class Entry:
    path: bytes
    stage: int
    mode: int
    name: bytes
    sparse: bool = False
    intent: bool = False


class Cut(Exception):
    """The bytes end too early."""


def piece(text, place, length):
    if place + length > len(text):
        raise Cut
    return text[place:place + length]


def counted(text, place):
    """The number of a path's dropped bytes, and the place behind it."""
    value, first = 0, True
    while True:
        byte = piece(text, place, 1)[0]
        place += 1
        value = byte & 127 if first else (value + 1) * 128 + (byte & 127)
        first = False
        if byte < 128:
            return value, place


def to_nul(text, place):
    end = text.find(b"\0", place)
    if end < 0:
        raise Cut
    return text[place:end], end


def padded_path(text, begun, place, length, number):
    """A path with its padding, in versions 2 and 3."""
    if length == 0xFFF:
        path, _ = to_nul(text, place)
    else:
        path = piece(text, place, length)
    end = place + len(path)
    padding = piece(text, end, 8 - (end - begun) % 8)
    if b"\0" in path or (length == 0xFFF and len(path) < 4095):
        raise Refused(f"index entry {number} name")
    if padding.strip(b"\0"):
        raise Refused(f"index entry {number} padding")
    return path, end + len(padding)


def shared_path(text, place, length, number, before):
    """A path by the one before it, in version 4."""
    count, place = counted(text, place)
    if count > len(before):
        raise Refused(f"index entry {number} prefix")
    rest, end = to_nul(text, place)
    path = before[:len(before) - count] + rest
    if length != min(len(path), 4095):
        raise Refused(f"index entry {number} name")
    return path, end + 1


def read_entry(text, place, version, number, before):
    fixed = piece(text, place, 62)
    mode, flags = struct.unpack(">I", fixed[24:28])[0], struct.unpack(">H", fixed[60:62])[0]
    behind, more = place + 62, 0
    if flags & 0x4000:
        if version == 2:
            raise Refused(f"index entry {number} extended")
        more = struct.unpack(">H", piece(text, behind, 2))[0]
        behind += 2
        if more & 0x9FFF:
            raise Refused(f"index entry {number} extended-bits")
    if version == 4:
        path, end = shared_path(text, behind, flags & 0xFFF, number, before)
    else:
        path, end = padded_path(text, place, behind, flags & 0xFFF, number)
    if mode not in MODES:
        raise Refused(f"index mode {number}")
    fault = path_fault(path)
    if fault:
        raise Refused(f"index path {number} {fault}")
    return Entry(path, flags >> 12 & 3, mode, fixed[40:60], bool(more & 0x4000), bool(more & 0x2000)), end


def check_order(entries, entry, files):
    """An entry beside those before it."""
    number = len(entries)
    if entries:
        last = entries[-1]
        if (entry.path, entry.stage) <= (last.path, last.stage):
            raise Refused(f"index order {number}")
        if entry.path == last.path and last.stage == 0:
            raise Refused(f"index entry {number} mixed-stage")
    if entry.stage == 0 and any(folder in files for folder in folders(entry.path)):
        raise Refused(f"index clash {number}")


def read_entries(body, version, count):
    entries, files, place, before = [], set(), 12, b""
    for number in range(count):
        entry, place = read_entry(body, place, version, number, before)
        check_order(entries, entry, files)
        if entry.stage == 0:
            files.add(entry.path)
        entries.append(entry)
        before = entry.path
    return entries, place


def pass_extensions(body, place):
    while place < len(body):
        head = piece(body, place, 8)
        piece(body, place + 8, struct.unpack(">I", head[4:])[0])
        if not 65 <= head[0] <= 90:
            raise Refused(f"index extension {head[:4].hex()}")
        place += 8 + struct.unpack(">I", head[4:])[0]


def read_index(text):
    """The entries of an index."""
    if len(text) > 67_108_864:
        raise Refused("index too-large")
    if len(text) < 32:
        raise Refused("index short")
    if text[:4] != b"DIRC":
        raise Refused("index signature")
    version, count = struct.unpack(">II", text[4:12])
    if version not in (2, 3, 4):
        raise Refused(f"index version {version}")
    if count > 100_000:
        raise Refused(f"index count {count}")
    body = text[:-20]
    try:
        entries, place = read_entries(body, version, count)
        pass_extensions(body, place)
    except Cut:
        raise Refused("index short") from None
    if text[-20:] not in (bytes(20), hashlib.sha1(body).digest()):
        raise Refused("index hash")
    return entries


def spelled_count(value):
    found = [value & 127]
    value >>= 7
    while value:
        value -= 1
        found.append(128 | (value & 127))
        value >>= 7
    return bytes(reversed(found))


def spell_entry(entry, version, before):
    more = (0x4000 if entry.sparse else 0) | (0x2000 if entry.intent else 0)
    flags = entry.stage << 12 | min(len(entry.path), 0xFFF) | (0x4000 if more else 0)
    text = bytes(24) + struct.pack(">I", entry.mode) + bytes(12) + entry.name + struct.pack(">H", flags)
    if more:
        text += struct.pack(">H", more)
    if version < 4:
        text += entry.path
        return text + bytes(8 - len(text) % 8)
    same = 0
    while same < min(len(before), len(entry.path)) and before[same] == entry.path[same]:
        same += 1
    return text + spelled_count(len(before) - same) + entry.path[same:] + b"\0"


def spell_index(entries, version, extensions, with_hash):
    """An index of these entries. One with marks has version 3 or 4."""
    text, before = b"DIRC" + struct.pack(">II", version, len(entries)), b""
    for entry in entries:
        text += spell_entry(entry, version, before)
        before = entry.path
    text += extensions
    return text + (hashlib.sha1(text).digest() if with_hash else bytes(20))
