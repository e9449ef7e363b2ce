"""fuzz.py PROGRAM FOLDER CASES SEED [CASE]: the work of fuzz. With CASE that case alone is run, and its folder stays."""
import json
import os
import random
import shutil
import struct
import subprocess
import sys
import hashlib
import time

from reference.checkout import Checkout, Plan, Repository
from reference.index import EXECUTABLE, GITLINK, LINK, PLAIN, Entry, spell_index
from reference.texts import Refused

HERE = os.path.dirname(os.path.abspath(__file__))
PARTS = [b"a", b"b", b"ab", b"a.c", b"b.c", b"B", b"x y", b"\xc3\xa9", b"q\"", b"[a]", b"-", b"f\\g", b"t\tu", b"long" * 20]
ODD_PARTS = [b"\xff", b".git", b".", b"..", b"", b".GIT", b"n\nl", b"\xed\xa0\x80"]
STATES = [
    b"text", b"-text", b"!text", b"text=auto", b"text=input", b"text=x", b"eol=lf", b"eol=crlf", b"eol", b"crlf", b"-crlf", b"crlf=input",
    b"ident", b"-ident", *[b"filter=one", b"filter=two"] * 5, b"filter=three", b"filter=none", b"-filter", b"filter", b"binary", b"-binary", b"mac",
    b"-mac", b"other", b"working-tree-encoding=UTF-16", b"working-tree-encoding=utf16le", b"working-tree-encoding=UTF-16BE",
    b"working-tree-encoding=UTF-16LE-BOM", b"working-tree-encoding=UTF-32", b"working-tree-encoding=utf-32LE",
    b"working-tree-encoding=UTF32BE", b"working-tree-encoding=UTF-8", b"working-tree-encoding=", b"-working-tree-encoding",
    b"working-tree-encoding=KOI8-R", b"working-tree-encoding", b"b^d", b"-", b"=", b"text=auto=x",
]
CONTENTS = [b"line\n", b"line\r\n", b"\r", b"\n", b"\0", b"$Id$", b"$Id: old $", b"$Id: a b $", b"$Id:\n$", b"$", b"\xc3\xa9", b"\xf0\x9f\x98\x80",
            b"\xff", b"\xed\xa0\x80", b"\x1a", b"\x07", b"\x7f", b"text " * 40, b"\xef\xbb\xbf", b"$Id", b": x$", b"\t\x08\x0c\x1b"]
PATTERN_BYTES = [b"*", b"**", b"?", b"/", b"a", b"b", b".c", b"a", b"ab", b"\\", b"[", b"]", b"!", b"^", b"-", b"[a-b]", b"[!a]", b"[[:alpha:]]",
                 b"[^/]", b"**/", b"/**", b"B", b"[[:x:]]", b"[]a]", b"[a-]", b"\xc3\xa9", b".gitattributes", b"x"]
REPLIES = ["content"] * 4 + ["error", "error-late", "delayed", "delayed", "delayed", "abort", "end", "cut", "packet", "status"]
SECOND = ["content"] * 6 + ["error", "error-late", "delayed", "abort", "end", "cut", "packet", "status"]
HELLOS = ["ok"] * 12 + ["no-smudge", "ends", "packet", "version", "name"]


def chance(rng, share):
    return rng.random() < share


def mixed(rng, pieces, most):
    return b"".join(rng.choice(pieces) for _ in range(rng.randint(0, most)))


def pattern_of(rng):
    if chance(rng, 0.7):
        return rng.choice([b"*", b"*", b"*.c", b"a*", b"/a", b"a/*", b"**/b", b"a/**", b"?", b"[ab]*", b"x\\ y", b'"x y"', b'"q\\""', b"\xc3\xa9", b'"\\303\\251"'])
    return mixed(rng, PATTERN_BYTES, 5)


def attribute_line(rng):
    kind = rng.random()
    if kind < 0.04:
        return rng.choice([b"", b"# comment", b"!a text", b"  \t", b"a " + b"x" * 2040, b"a " + b"x" * 2046, b'"a text', b'"\\q" text', b"\\#a text"])
    pairs = b" ".join(rng.choice(STATES) for _ in range(rng.randint(0, 3)))
    if kind < 0.12:
        return b"[attr]" + rng.choice([b"mac", b"binary", b"text", b"-x", b"m^", b"", b"mac2"]) + b" " + pairs
    return rng.choice([b"", b"", b" ", b"\t\r"]) + pattern_of(rng) + rng.choice([b" ", b"\t", b"  ", b" \r "]) + pairs


def attributes_of(rng):
    ends = rng.choice([b"\n", b"\n", b"\n", b"\r\n"])
    text = rng.choice([b"", b"", b"", b"\xef\xbb\xbf"]) + ends.join(attribute_line(rng) for _ in range(rng.randint(0, 6)))
    return text + rng.choice([ends, ends, b"", b"\r"])


def setting_line(rng):
    key = rng.choice([b"autocrlf", b"AutoCRLF", b"eol", b"EOL", b"workers", b"thresholdForParallelism", b"process", b"smudge", b"required", b"other"])
    value = rng.choice([
        b"", b" = true", b" = input", b"=lf", b" = crlf", b" = native", b"= 4", b" = 1k", b" = -1", b" = no", b" = \"tr\"ue", b" = on ; comment",
        b" =  off\t# x", b" = \"a b\" c ", b" = x\\\ny", b" = \\q", b" = \"open", b" = 1234567890123456789", b" = yes\\", b"= \\t\\\"\\\\\\n\\b", b" x",
        b" = 0", b" = false",
    ])
    return rng.choice([b"\t", b"", b"  "]) + key + value


def config_of(rng, commands):
    lines = []
    for _ in range(rng.randint(0, 4)):
        lines.append(rng.choice([b"[core]", b"[Core]", b"[checkout]", b"[extensions]", b"[core \"x\"]", b"[a.B]", b"[ core]", b"[core] eol = lf",
                                 b"[filter \"two\"]", b"[filter \"t\\wo\"]", b"[filter \"three\"]", b"[filter.four]", b"[core", b"; x", b"# y", b"", b"[]"]
                                if chance(rng, 0.1) else [b"[core]", b"[checkout]"]))
        lines += [setting_line(rng) for _ in range(rng.randint(0, 2))] if chance(rng, 0.1) else [
            rng.choice([b"autocrlf = true", b"autocrlf = input", b"eol = crlf", b"workers = 3", b"thresholdForParallelism = 1", b"x = y"])]
    for name, command in commands.items():
        required = rng.choice([b"", b"\trequired\n", b"\trequired = true\n", b"\trequired = no\n"])
        long_running, single_run = b"\tprocess = \"" + command + b"\"\n", b"\tsmudge = \"" + command + b" %f\"\n"
        keys = rng.choice([long_running] * 5 + [single_run] * 3 + [single_run + long_running, single_run + b"\tprocess =\n"])
        lines.append(b"[filter \"" + name + b"\"]\n" + keys + required)
    end = rng.choice([b"\n", b"\n", b"\r\n"])
    return rng.choice([b"", b"", b"\xef\xbb\xbf"]) + end.join(lines) + rng.choice([b"\n", b""])


def path_of(rng):
    parts = [rng.choice(PARTS[:7] if chance(rng, 0.8) else PARTS) for _ in range(rng.choice([1, 1, 2, 2, 3]))]
    if chance(rng, 0.02):
        parts[rng.randrange(len(parts))] = rng.choice(ODD_PARTS)
    if chance(rng, 0.15):
        parts[-1] = b".gitattributes"
    return b"/".join(parts)


def stored_of(rng, content, objects):
    """The name of a stored object, which may be wrong or absent."""
    stored = b"blob %d\0" % len(content) + content
    name = hashlib.sha1(stored).digest()
    objects[name] = stored
    fault = rng.random()
    if fault < 0.01:
        del objects[name]
    elif fault < 0.03:
        objects[name] = rng.choice([b"", b"blob", b"tree 0\0", b"blob 00\0", b"blob 7\0x", stored + b"x", b"blob 1\0y", b"blob 99999999999999999999999\0"])
    return name


def entries_of(rng, objects):
    paths, entries = {path_of(rng) for _ in range(rng.randint(0, 12))}, []
    for path in sorted(paths):
        if any(other != path and path.startswith(other + b"/") for other in paths) and not chance(rng, 0.02):
            continue
        content = attributes_of(rng) if path.endswith(b".gitattributes") else mixed(rng, CONTENTS, 7)
        stages = [0] if not chance(rng, 0.04) else sorted(rng.sample([1, 2, 3], rng.randint(1, 3)))
        for stage in stages:
            mode = rng.choice([PLAIN] * 8 + [EXECUTABLE, EXECUTABLE, LINK, GITLINK])
            marks = chance(rng, 0.03), chance(rng, 0.03)
            entries.append(Entry(path, stage, mode, stored_of(rng, content, objects), *marks))
    return entries


def changed(rng, text):
    """Bytes with something changed."""
    text = bytearray(text)
    for _ in range(rng.randint(1, 3)):
        place = rng.randrange(len(text) + 1)
        kind = rng.random()
        if kind < 0.3:
            del text[place:place + rng.choice([1, 1, 2, 8, 62])]
        elif kind < 0.5:
            text[place:place] = bytes([rng.randrange(256)]) * rng.choice([1, 1, 2, 8])
        elif kind < 0.6:
            del text[place:]
        elif place < len(text):
            text[place] = rng.choice([text[place] ^ 1 << rng.randrange(8), rng.randrange(256), 0])
    return bytes(text)


def index_of(rng, entries):
    has_marks = any(entry.sparse or entry.intent for entry in entries)
    version = rng.choice([3, 4] if has_marks else [2, 2, 3, 4])
    extensions = b""
    for _ in range(rng.choice([0, 0, 0, 0, 1, 2])):
        body = mixed(rng, [b"x", b"\0"], 9)
        extensions += rng.choice([b"TREE", b"REUC", b"ZZZZ", b"link" if chance(rng, 0.05) else b"UNTR"]) + struct.pack(">I", len(body)) + body
    text = spell_index(entries, version, extensions, chance(rng, 0.3))
    return changed(rng, text) if chance(rng, 0.15) else text


def script_of(rng, paths):
    replies = {path: rng.choice(REPLIES) for path in paths}
    lists = [rng.choice([1, 2, 9, 9, 9, "strange", "twice", "abort", "error", "end", 0]) for _ in range(rng.randint(0, 3))]
    second = {path: rng.choice(SECOND) for path in paths}
    return {"hello": rng.choice(HELLOS), "delay": chance(rng, 0.8), "replies": replies, "second": second, "lists": lists}


class Case:
    """A repository, the scripts of its drivers, and the words of a checkout."""

    def __init__(self, rng, folder):
        self.folder = folder
        objects = {}
        entries = entries_of(rng, objects)
        drivers = [b"one", b"two"] if chance(rng, 0.4) else []
        self.scripts = {name: script_of(rng, [entry.path for entry in entries]) for name in drivers}
        commands = {name: f"exec '{HERE}/fuzz_driver' '{folder}/{name.decode()}.json'".encode() for name in drivers}
        config = config_of(rng, commands) if drivers or chance(rng, 0.9) else None
        if config and chance(rng, 0.1) and not drivers:
            config = changed(rng, config)
        info = attributes_of(rng) if drivers or chance(rng, 0.5) else None
        self.repository = Repository(index_of(rng, entries), config, info, objects)
        self.words = rng.choice([[], [], ["--workers", "1"], ["--workers", "3"], ["--workers=16"]])

    def write(self):
        repository = os.path.join(self.folder, "R")
        for name, text in (("index", self.repository.index), ("config", self.repository.config), ("info/attributes", self.repository.info)):
            if text is not None:
                write(os.path.join(repository, name), text)
        for name, stored in self.repository.objects.items():
            write(os.path.join(repository, "objects", name.hex()[:2], name.hex()[2:]), stored)
        for name, script in self.scripts.items():
            plain = {key: {path.decode("latin-1"): word for path, word in value.items()} if isinstance(value, dict) else value
                     for key, value in script.items()}
            write(os.path.join(self.folder, name.decode() + ".json"), json.dumps(plain).encode())

    def wanted(self):
        """The plan with its status, and the report with its status and the files."""
        try:
            plan = Plan(self.repository).text()
        except Refused as refused:
            line = f"refused {refused}\n"
            return (3, line), (3, line, {})
        checkout = Checkout(self.repository, self.scripts)
        return (0, plan), (checkout.status, checkout.report, checkout.files)

    def seen(self, program):
        plan = run(program, os.path.join(self.folder, "R"), "-", "plan")
        tree = os.path.join(self.folder, "T")
        checkout = run(program, os.path.join(self.folder, "R"), tree, "checkout", *self.words)
        return plan, (*checkout, files_in(tree))


def write(path, text):
    os.makedirs(os.path.dirname(path), exist_ok=True)
    with open(path, "wb") as file:
        file.write(text)


def run(program, *words):
    ended = subprocess.run([program, *words], stdout=subprocess.PIPE, stderr=subprocess.DEVNULL, timeout=30, check=False)
    return ended.returncode, ended.stdout.decode()


def files_in(tree):
    found, tree = {}, tree.encode()
    for folder, _, names in os.walk(tree):
        for name in names:
            path = os.path.join(folder, name)
            with open(path, "rb") as file:
                found[os.path.relpath(path, tree)] = file.read()
    return found


def difference(wanted, seen):
    for name, one, other in zip(("plan", "checkout"), wanted, seen):
        for part, left, right in zip(("status", "text", "files"), one, other):
            if left != right:
                return f"{name}: its {part} is\n{right}\nand not\n{left}"
    return None


def main():
    program, work, cases, seed = sys.argv[1], sys.argv[2], int(sys.argv[3]), int(sys.argv[4])
    only = int(sys.argv[5]) if len(sys.argv) > 5 else None
    begun, counts = time.monotonic(), {}
    for number in range(cases) if only is None else [only]:
        folder = os.path.join(work, "case")
        shutil.rmtree(folder, ignore_errors=True)
        case = Case(random.Random(seed * 1_000_003 + number), folder)
        case.write()
        wanted = case.wanted()
        found = difference(wanted, case.seen(program))
        if found:
            sys.exit(f"fuzz: seed {seed}, case {number}: {found}")
        word = wanted[1][1].rpartition("\n")[0].rpartition("\n")[2].split()
        word = " ".join(word[:2]) if word[0] == "refused" else f"status {wanted[1][0]}"
        counts[word] = counts.get(word, 0) + 1
    shown = ", ".join(f"{count} {word}" for word, count in sorted(counts.items()))
    print(f"fuzz: {sum(counts.values())} cases from seed {seed} in {time.monotonic() - begun:.0f} s: {shown}")


if __name__ == "__main__":
    main()
