"""usage: read_objects.py PROGRAM WORK SEED

Makes repositories in the folder WORK, has PROGRAM check them out, and looks at each file. It exits with 1 if something is wrong.
"""
import hashlib
import os
import random
import resource
import shutil
import subprocess
import sys
import zlib

PROGRAM, WORK, SEED = sys.argv[1], sys.argv[2], int(sys.argv[3])
RANDOM = random.Random(SEED)
GIT = shutil.which("git")
LIMIT = 268_435_456
failures = 0


def fail(text):
    global failures
    failures += 1
    print(f"read_objects: {text}", flush=True)


def git(folder, *words, given=None):
    """What git writes with these words in a folder."""
    ran = subprocess.run([GIT, "-C", folder, *words], input=given, stdout=subprocess.PIPE, check=True)
    return ran.stdout


def new(name):
    folder = os.path.join(WORK, name)
    subprocess.run([GIT, "init", "-q", folder], check=True)
    for key, value in [("core.fsync", "none"), ("gc.auto", "0"), ("pack.threads", "2")]:
        git(folder, "config", key, value)
    return folder


def name_of(content):
    return hashlib.sha1(b"blob %d\0" % len(content) + content).hexdigest()


def false_git():
    """A folder with a git that fails where it is asked for objects."""
    folder = os.path.join(WORK, "bin")
    os.mkdir(folder)
    path = os.path.join(folder, "git")
    with open(path, "w", encoding="ascii") as file:
        file.write(f'#!/bin/sh\nfor word; do [ "$word" != cat-file ] || exit 1; done\nexec {GIT} "$@"\n')
    os.chmod(path, 0o755)
    return folder


FALSE_GIT = false_git()


def checkout(folder, names, workers=1, alone=True):
    """Checks out one path for each object name, and returns the status and the lines of the report by name. Each file that is
    there has the content of its name. With `alone` git gives no object."""
    rows = "".join(f"100644 {name} 0\t{name}\n" for name in names)
    index = os.path.join(folder, ".git", "index")
    if os.path.exists(index):
        os.remove(index)
    git(folder, "update-index", "--index-info", given=rows.encode())
    tree = os.path.join(WORK, "tree")
    shutil.rmtree(tree, ignore_errors=True)
    found = os.environ["PATH"]
    env = {**os.environ, "PATH": f"{FALSE_GIT}:{found}" if alone else found}
    words = [PROGRAM, "checkout", "--workers", str(workers), "--git-dir", os.path.join(folder, ".git"), tree]
    ran = subprocess.run(words, env=env, stdout=subprocess.PIPE, stderr=subprocess.PIPE, check=False)
    report = {}
    for line in ran.stdout.decode().splitlines()[:-1]:
        report[line.split()[-1]] = line
    there = os.listdir(tree) if os.path.isdir(tree) else []
    for name in there:
        with open(os.path.join(tree, name), "rb") as file:
            if name_of(file.read()) != name:
                fail(f"{folder}: {name} has another content")
    written = {name for name, line in report.items() if line.startswith("written")}
    if written != set(there):
        fail(f"{folder}: other files than the report says")
    return ran.returncode, report


def whole(what, folder, names, workers=1, alone=True):
    """Each object is given."""
    names = sorted(set(names))
    status, report = checkout(folder, names, workers, alone)
    written = sum(line.startswith("written") for line in report.values())
    if status != 0 or written != len(names):
        other = [line for line in report.values() if not line.startswith("written")]
        fail(f"{what}: status {status}, {written} of {len(names)} written: {other[:3]}")


# Histories

def history(name="history"):
    """A repository with 60 revisions of 12 texts, of which each differs a little from the one before."""
    folder = new(name)
    texts = [[b"line %d of text %d\n" % (line, text) for line in range(400)] for text in range(12)]
    stream = []
    for revision in range(60):
        stream.append(b"commit refs/heads/main\ncommitter a <a@b> %d +0000\ndata 1\nc\n" % (1_600_000_000 + revision))
        for number, text in enumerate(texts):
            for _ in range(RANDOM.randrange(1, 5)):
                text[RANDOM.randrange(len(text))] = b"%d is another line\n" % RANDOM.getrandbits(40)
            if RANDOM.random() < 0.3:
                place = RANDOM.randrange(len(text))
                text[place:place] = text[:40]
            if len(text) > 700:
                del text[:200]
            content = b"".join(text)
            stream.append(b"M 100644 inline t%d\ndata %d\n" % (number, len(content)) + content + b"\n")
    git(folder, "fast-import", "--quiet", given=b"".join(stream))
    return folder


def blobs_of(folder):
    rows = git(folder, "cat-file", "--batch-all-objects", "--batch-check").decode().splitlines()
    return [row.split()[0] for row in rows if row.split()[1] == "blob"]


def packs():
    folder = history()
    names = blobs_of(folder)
    for depth in (0, 10, 50, 250):
        git(folder, "repack", "-adfq", f"--depth={depth}", "--window=250")
        whole(f"depth {depth}", folder, names, 1 + 3 * (depth == 50))
    # deltas that name their base, and offsets of 64 bits
    git(folder, "config", "repack.useDeltaBaseOffset", "false")
    git(folder, "repack", "-adfq", "--depth=50", "--window=250")
    whole("bases by name", folder, names)
    packed = git(folder, "pack-objects", "-q", "--all", "--index-version=2,0x40", os.path.join(WORK, "far"), given=b"").decode().strip()
    for old in os.listdir(pack_folder(folder)):
        os.remove(os.path.join(pack_folder(folder), old))
    for end in ("pack", "idx"):
        shutil.move(os.path.join(WORK, f"far-{packed}.{end}"), os.path.join(pack_folder(folder), f"pack-{packed}.{end}"))
    whole("offsets of 64 bits", folder, names)
    borrowed(folder, names)
    loose(folder, names)
    first_version(folder, names)
    broken(folder, names)


def deep():
    """A text of 300 revisions, each a delta of the one before, in chains of just these depths."""
    for depth in (10, 50, 250):
        folder = new(f"deep{depth}")
        lines = [b"line %d\n" % number for number in range(300)]
        stream = []
        for revision in range(300):
            lines[revision] = b"another line %d\n" % RANDOM.getrandbits(60)
            content = b"".join(lines)
            stream.append(b"blob\ndata %d\n" % len(content) + content + b"\n")
        git(folder, "fast-import", "--quiet", f"--depth={depth}", given=b"".join(stream))
        if f"chain length = {depth}:" not in git(folder, "verify-pack", "-v", *pack_indexes(folder)).decode():
            fail(f"a chain of {depth}: git made none")
        whole(f"a chain of {depth}", folder, blobs_of(folder), 2)


def pack_folder(folder):
    return os.path.join(folder, ".git", "objects", "pack")


def pack_indexes(folder):
    return [os.path.join(pack_folder(folder), name) for name in os.listdir(pack_folder(folder)) if name.endswith(".idx")]


def borrowed(folder, names):
    """The same through five alternates, each of which names the next one."""
    objects = os.path.join(folder, ".git", "objects")
    for number in range(5):
        borrower = new(f"borrower{number}")
        with open(os.path.join(borrower, ".git", "objects", "info", "alternates"), "w", encoding="utf-8") as file:
            file.write(objects + "\n")
        objects = os.path.join(borrower, ".git", "objects")
        if number in (0, 4):
            whole(f"{number + 1} alternates", borrower, names)


def loose(folder, names):
    [index] = pack_indexes(folder)
    with open(index[:-3] + "pack", "rb") as file:
        pack = file.read()
    for level in (0, 1, 9):
        loosened = new(f"loose{level}")
        git(loosened, "config", "core.looseCompression", str(level))
        git(loosened, "unpack-objects", "-q", given=pack)
        whole(f"loose at level {level}", loosened, names, 1 + level // 9)


def first_version(folder, names):
    """Git is asked for the objects of a pack whose index has version 1."""
    git(folder, "config", "pack.indexVersion", "1")
    git(folder, "repack", "-adfq")
    whole("an index of version 1", folder, names[:100], alone=False)
    status, _ = checkout(folder, names[:10])
    if status != 1:
        fail("an index of version 1: it is read without git")
    git(folder, "config", "--unset", "pack.indexVersion")


def broken(folder, names):
    """A pack with a wrong byte in each object is broken, and its objects aren't absent."""
    git(folder, "repack", "-adfq")
    [index] = pack_indexes(folder)
    path = index[:-3] + "pack"
    with open(path, "rb") as file:
        pack = bytearray(file.read())
    for place in range(14, len(pack) - 20, 40):
        pack[place] ^= 0xFF
    os.chmod(path, 0o644)
    with open(path, "wb") as file:
        file.write(pack)
    status, report = checkout(folder, names[:200])
    if status != 1 or not all(line.startswith("failed") for line in report.values()):
        fail(f"a broken pack: status {status}")
    if any("absent" in line for line in report.values()):
        fail("a broken pack: an object is absent")


def damaged_packs():
    """Packs and indexes with wrong, missing or more bytes: each path fails or is right, and the program ends as it says."""
    folder = history("damaged")
    names = RANDOM.sample(blobs_of(folder), 60)
    git(folder, "repack", "-adfq", "--depth=50", "--window=250")
    [index] = pack_indexes(folder)
    sound = {}
    for path in (index, index[:-3] + "pack"):
        os.chmod(path, 0o644)
        with open(path, "rb") as file:
            sound[path] = file.read()
    failed = 0
    for number in range(60):
        # an index is damaged in its head and its tables as often as elsewhere
        path = list(sound)[number % 2]
        near = len(sound[path]) if number % 4 < 2 else 1100
        with open(path, "wb") as file:
            file.write(damaged(sound[path], near))
        status, report = checkout(folder, names, 1 + number % 2)
        if status not in (0, 1):
            fail(f"a damaged pack, number {number}: status {status}")
        failed += sum(line.startswith("failed") for line in report.values())
        with open(path, "wb") as file:
            file.write(sound[path])
    if not failed:
        fail("damaged packs: no path failed")
    whole("the pack as it was", folder, names)


# Sizes

def large():
    folder = new("large")
    contents = [b"%d\n" % number for number in range(100_000)]
    stream = b"".join(b"blob\ndata %d\n" % len(content) + content + b"\n" for content in contents)
    git(folder, "fast-import", "--quiet", given=stream)
    if len(pack_indexes(folder)) != 1:
        fail("100,000 objects: git made no pack of them")
    names = [name_of(content) for content in RANDOM.sample(contents, 2000)]
    whole("100,000 objects", folder, names, 4)
    absent = name_of(b"nowhere")
    status, report = checkout(folder, [absent], alone=False)
    if status != 1 or "object-absent" not in report[absent]:
        fail(f"an object that isn't there: status {status}, {report}")


def at_the_limit():
    folder = new("limit")
    most, more = bytes(LIMIT), bytes(LIMIT + 1)
    for content in (most, more):
        put_loose(folder, name_of(content), zlib.compress(b"blob %d\0" % len(content) + content, 1))
    names = [name_of(most), name_of(more)]
    for where in ("loose", "packed"):
        status, report = checkout(folder, names)
        if status != 1 or not report[names[0]].startswith("written") or "object-too-large" not in report[names[1]]:
            fail(f"{where} contents at the limit: status {status}, {report}")
        if where == "loose":
            git(folder, "pack-objects", "-q", "--compression=1", "--window=0", os.path.join(pack_folder(folder), "pack"),
                given="".join(f"{name}\n" for name in names).encode())
            for name in names:
                os.remove(os.path.join(folder, ".git", "objects", name[:2], name[2:]))


# Streams

def put_loose(folder, name, stream):
    place = os.path.join(folder, ".git", "objects", name[:2])
    os.makedirs(place, exist_ok=True)
    with open(os.path.join(place, name[2:]), "wb") as file:
        file.write(stream)


def content_of(number):
    """A content of one of seven kinds."""
    size = RANDOM.choice((0, 1, 2, 100, 258, 259, 1000, 5000, 33_000, 70_000))
    front = b"%d:" % number
    kind = number % 7
    if kind == 0:
        return front + RANDOM.randbytes(size)
    if kind == 1:
        return front + bytes(size)
    if kind == 2:
        return front + b"".join(b"word%d " % RANDOM.randrange(50) for _ in range(size // 6))
    if kind == 3:
        return front + bytes(RANDOM.choice(b"ab") for _ in range(size))
    if kind == 4:
        return front + RANDOM.randbytes(max(size // 3, 1)) * 3
    if kind == 5:
        return front + bytes(min(int(RANDOM.expovariate(0.05)), 255) for _ in range(size))
    return front + b"".join(b"    let x%d = y%d;\n" % (RANDOM.randrange(9), RANDOM.randrange(99)) for _ in range(size // 18))


def stream_of(number, content):
    """The object of a content as zlib writes it, each level and strategy in turn, in one or several blocks."""
    strategies = (zlib.Z_DEFAULT_STRATEGY, zlib.Z_FILTERED, zlib.Z_HUFFMAN_ONLY, zlib.Z_RLE, zlib.Z_FIXED)
    packer = zlib.compressobj(number % 10, zlib.DEFLATED, RANDOM.randrange(9, 16), RANDOM.randrange(1, 10), strategies[number // 10 % 5])
    stored = b"blob %d\0" % len(content) + content
    if number % 4:
        return packer.compress(stored) + packer.flush()
    half = len(stored) // 2
    flush = RANDOM.choice((zlib.Z_SYNC_FLUSH, zlib.Z_FULL_FLUSH))
    return packer.compress(stored[:half]) + packer.flush(flush) + packer.compress(stored[half:]) + packer.flush()


def damaged(stream, near=None):
    """The bytes with the end cut off, with more bytes, or with a bit or two flipped, at the front if that is near enough."""
    how = RANDOM.randrange(4)
    if how == 0:
        return stream[: RANDOM.randrange(len(stream))]
    if how == 1:
        return stream + RANDOM.randbytes(RANDOM.randrange(1, 9))
    wrong = bytearray(stream)
    for _ in range(how - 1):
        wrong[RANDOM.randrange(min(len(wrong), near or len(wrong)))] ^= 1 << RANDOM.randrange(8)
    return bytes(wrong)


def streams():
    folder = new("streams")
    made = {}
    for number in range(2000):
        content = content_of(number)
        made[name_of(content)] = stream_of(number, content)
    for name, stream in made.items():
        put_loose(folder, name, stream)
    whole("streams of zlib", folder, made, 2)
    for name, stream in made.items():
        put_loose(folder, name, damaged(stream))
    status, report = checkout(folder, sorted(made), 2)
    failed = sum(line.startswith("failed") for line in report.values())
    if status != 1 or failed < 1800:
        fail(f"damaged streams: status {status}, {failed} failed")
    if any("absent" in line for line in report.values()):
        fail("damaged streams: an object is absent")


packs()
damaged_packs()
deep()
large()
streams()
peak = resource.getrusage(resource.RUSAGE_CHILDREN).ru_maxrss // 1024
if peak > 200:
    fail(f"{peak} MiB were in use at once")
at_the_limit()
sys.exit(failures != 0)
