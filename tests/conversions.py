"""Contents for each conversion, and what git's checkout makes of them: for make_conversion_table and conversion_differences.

Each function below yields one list, by what it looks at. Every content is then a blob that holds exactly its bytes, written
past all filters, and the files that `git checkout-index` writes are git's answers.
"""

import itertools
import os
import shutil
import subprocess
import tempfile

ENVIRONMENT = dict(os.environ, GIT_CONFIG_NOSYSTEM="1", GIT_CONFIG_GLOBAL="/dev/null", GIT_ATTR_NOSYSTEM="1")
ENCODINGS = ["UTF-16LE", "UTF-16BE", "UTF-16LE-BOM", "UTF-32LE", "UTF-32BE"]

# The control characters. Git counts most of them as no text.
CONTROLS = [bytes([number]) for number in (*range(0x20), 0x7F)]
# A text with more than 128 printing bytes, so that with one byte of another kind it is still a text
LINES = b"thirty bytes of a line of text\n" * 5
# `eol_convert` counts printing bytes over this many at once
CHUNK = 224


def strings(letters, longest):
    """Every string of these letters, up to this length."""
    for length in range(longest + 1):
        yield from (b"".join(string) for string in itertools.product(letters, repeat=length))


# Line ends


def short_texts():
    yield from strings([b"\n", b"\r", b"x"], 4)
    yield from [
        b"\n" * 300, b"\r\n" * 150, b"\n\r" * 150, b"\r\r\n" * 100, b"a\n" * 200, b"a\nb\rc\r\nd\n", b"line of text\n" * 40 + b"and no end",
        LINES, LINES + b"\r", LINES + b"\r\n", LINES.replace(b"\n", b"\r\n"), LINES.replace(b"\n", b"\r\n") + b"\n",
    ]


def long_lines():
    yield from [b"a" * 5000, b"a" * 5000 + b"\n" + b"b" * 3000 + b"\n", b"a" * 2000 + b"\r\n" + b"b\n"]
    for before in (CHUNK - 1, CHUNK, CHUNK + 1, 239, 240, 241, 2 * CHUNK - 1, 2 * CHUNK, 479, 480, 1000):
        yield from [b"a" * before + b"\n", b"a" * before + b"\r\nb\n", b"a" * before + b"\nb\n" + b"c" * 100]


def odd_bytes():
    """Each control byte in a text too short for it and in one that bears it, and the bytes beside and above them."""
    for odd in CONTROLS:
        yield from [b"a" + odd + b"b\n", LINES + odd + b"\n"]
    for first in range(0x20, 0x100, 0x20):
        yield bytes(range(first, first + 0x20)) + b"\n"
    yield from (bytes([number]) + b"\n" for number in (0x20, 0x7E, 0x80, 0x9A, 0xFF))
    yield from [
        b"\t\tindented\n", b"\x08\t\x0c\x1b\n", b"page\x0c\nnext\n", b"\x1b[1mbold\x1b[0m\n", b"\xc3\xa9\n\xf0\x9f\x98\x80\n", b"\x80\xff\n" * 30,
        bytes(range(1, 32)) + b"\n", bytes(number for number in range(1, 256) if number not in (10, 13)) + b"\n",
    ]


def zeros():
    yield from (string for string in strings([b"\n", b"\0", b"x"], 2) if b"\0" in string)
    yield from [b"\0" + LINES, LINES + b"\0", LINES[:-1] + b"\0", LINES[:77] + b"\0" + LINES[77:], b"\0" * 200 + b"\n", b"a" * 500 + b"\n\0"]


def end_marks():
    """1A isn't counted where it is the last byte."""
    yield from (string for string in strings([b"\n", b"\x1a", b"x"], 3) if b"\x1a" in string)
    yield from [b"a\r\n\x1a", b"\0\n\x1a", b"a\n\x1a\x00", b"a\n\x1a\r"]
    for printing in (127, 128, 129):
        text = b"a" * printing + b"\n"
        yield from [text + b"\x1a", text + b"\x1a\n", text + b"\x1a\x1a", text + b"\x01\n\x1a", b"\x1a" + text + b"\x1a", b"\x1a" + text]


def near_the_bound():
    """On both sides of one odd byte to 128 printing ones, with line feeds that count as neither."""
    for printing in (126, 127, 128, 129, 254, 255, 256, 257, 383, 384, 385, 511, 512, 1279, 1280, 1281):
        text = b"".join(b"x" * 31 + b"\n" for _ in range(printing // 31)) + b"x" * (printing % 31)
        fits = printing // 128
        for odd in ((1, 2, 3) if printing < 258 else (fits, fits + 1)):
            yield from [b"\x02" * odd + text + b"\n", text + b"\n" + b"\x7f" * odd, text[:100] + b"\x1f" * odd + text[100:] + b"\n\n\n"]


def beside_chunks():
    """A byte at the edges of the chunks that are counted, beside as many odd ones that it decides whether this is a text."""
    for place in (0, CHUNK - 2, CHUNK - 1, CHUNK, CHUNK + 1, 2 * CHUNK - 1, 2 * CHUNK, 2 * CHUNK + 1):
        for byte in (b"\x01", b"\x7f", b"\x08"):
            yield from (long_text(place, byte, others) for others in (2, 3))
        for byte in (b"\r", b"\0"):
            yield long_text(place, byte, 0)
        yield from [long_text(place, byte, 0).replace(b"\n", b"x") for byte in (b"\x01", b"\r")]


def long_text(place, byte, others):
    """A text of 500 bytes with few line feeds, that has this byte at this place and so many odd ones elsewhere."""
    text = bytearray(b"x" * 500)
    for number in range(others):
        text[40 + number] = 2
    text[100] = text[300] = text[-1] = 10
    text[place] = byte[0]
    return bytes(text)


def line_ends():
    """Contents for the conversion of line ends."""
    return distinct(short_texts(), long_lines(), odd_bytes(), zeros(), end_marks(), near_the_bound(), beside_chunks())


# Keywords


def placed_keywords():
    """At each place of a text, beside each kind of byte, and several of them."""
    text = b"ab \r\n\n $d"
    for place in range(len(text) + 1):
        yield from (text[:place] + keyword + text[place:] for keyword in (b"$Id$", b"$Id: x $"))
    sides = [b"", b"\n", b"\r\n", b"\r", b"\0", b"\xff", b"$", b" ", b"x"]
    yield from (before + b"$Id$" + behind for before in sides for behind in sides)
    yield from [
        b"$Id$" * 2, b"$Id$" * 3, b"$Id$ $Id$", b"$Id$\n$Id$\n", b"$Id$\r\n$Id$\r\n", b"$Id: a $$Id: b $", b"$Id$$Id: a $", b"$Id: a $$Id$",
        b"$Id$ a $Id$ b $Id$ c $Id$\n", b"x" * 300 + b"$Id$" + b"y" * 300, b"x" * 5000 + b"$Id$\n" + b"y" * 5000,
    ]


def middles():
    """What stands between `$Id:` and `$`."""
    yield from strings([b" ", b"a"], 4)
    yield from strings([b" ", b"\t", b"\n", b"\r", b"a"], 2)
    yield from (b" " + byte + b" " for byte in CONTROLS)
    yield from (before + byte + b"b" for byte in (b"\t", b"\n", b"\r", b"\0", b"\x0b", b"\x7f", b"\xa0", b"\xff") for before in (b"a", b" a"))
    yield from [
        b" \0 ", b"\0", b" a\0b c ", b" \0 b c ", b" \xc3\xa9 ", b" a\xc2\xa0b ", b" \x80\xff ", b" a\tb ", b" a\tb c ", b"\ta b", b" a:b ", b": ",
        b" 0123456789012345678901234567890123456789 ", b" file.c,v 1.1 2001/01/01 who Exp ", b" a b ", b"   a", b"a   ",
    ]
    for length in (200, 1000, 5000):
        long = b"m" * length
        yield from [long, b" " + long + b" ", long + b" m", b" m " + long, long + b"\nm", long + b"  "]


def cut_keywords():
    """Each front of a keyword, alone and before another, and words that are almost one."""
    for whole in (b"$Id$", b"$Id: a b $", b"$Id:a\nb$"):
        for length in range(1, len(whole)):
            front = whole[:length]
            yield from [front, front + b"$Id$", front + b"\n$Id$", front + front]
    for place, byte in itertools.product(range(4), b"$Iid:D \0\n"):
        word = bytearray(b"$Id$")
        word[place] = byte
        yield bytes(word)
    yield from [
        b"$id$$Id$", b"$Id\0$Id$", b"$Id\0\0$Id$", b"$ Id$", b"$I d$", b"$Id $", b"$Id\n$", b"Id$", b"$ID: a $", b"$Id; $", b"$Ident$",
        b"$Author$", b"$Author$Id$", b"$Rev: 1 $", b"Id: a $", b"$Id-$", b"$Id: unclosed and $Id$", b"$Id: a\n$ $Id$", b"$Id:\n$Id:\n$Id$",
        b"$Id: a \n$Id$", b"$Id:\r\n$", b"$Id: over\nlines $ and $Id$",
    ]


def shared_dollars():
    """`$` before a keyword and in the middle of one, and keywords that share one."""
    yield from [
        b"$$", b"$$$Id$$", b"$Id: a b$Id$", b"$Id: 1$Id$", b"$Id:a$Id:b$", b"$Id:a b$Id:c$Id$", b"$Id:$Id:$Id:$", b"$Id$Id$", b"$Id$Id$Id$",
        b"$Id$Id:a$Id$", b"a$b$Id$c$", b"$Id: a$b $", b"$Id: $ $", b"$Id: a $ b $", b"$Id:$b$", b"$Id: $Id", b"$Id: $Id: $", b"$Id:$$Id$",
    ]


def keywords():
    """Contents for the conversion `ident`."""
    closed = (b"$Id:" + middle + b"$" for middle in middles())
    return distinct([b""], placed_keywords(), closed, cut_keywords(), shared_dollars())


# Encodings

# The first and the last character of each length in UTF-8, those beside the surrogates, and a mark's two forms
EDGES = "\0 \x7f \x80 \u07ff \u0800 \ud7ff \ue000 \ufeff \ufffe \uffff \U00010000 \U0010ffff".split(" ")
# One character of each length
LENGTHS = ["a", "\u00e9", "\u20ac", "\U0001f600"]
PANGRAM = "The quick brown fox jumps over the lazy dog."


def characters():
    yield from EDGES
    yield from ("".join(pair) for pair in itertools.product(LENGTHS, repeat=2))
    yield from ("".join(triple) for triple in itertools.product(LENGTHS, repeat=3))
    yield from ["", "".join(EDGES), "\n".join(EDGES), "".join(reversed(EDGES)), "\0\0\0", "\ufdd0\ufffd\ufffe", "\U000e0001\U000e007f", "e\u0301"]
    yield from ["a\n", "a\r\nb\r\n", "a\rb", "\r", "\n", "\u2028\u2029\u0085", "na\u00efve caf\u00e9\n", "\u65e5\u672c\u8a9e\r\n\U0001f600\r\n"]


def marks():
    """A byte order mark is a character, also at the start."""
    for behind in ("", "a", "\ufeff", "\ufeffa", "\ufffe", "\n", "\u00e9", PANGRAM):
        yield "\ufeff" + behind
    yield from ["a\ufeff", "\ufffea", "\0\ufeff", "\n\ufeff", PANGRAM + "\ufeff" + PANGRAM]


def runs():
    """Stretches of ASCII, which are written eight at a time, and blocks of 64 that are looked at together."""
    yield from ("x" * count for count in (7, 8, 9, 15, 16, 17, 31, 32, 63, 64, 65))
    for count in (0, 1, 2, 3, 4, 5, 6, 7, 8, 9, 15, 16, 17, 63, 64, 65, 127, 128, 129):
        yield "x" * count + "\u00e9" + "y" * 20
    for character, count in itertools.product(LENGTHS[1:], (7, 8, 9, 16, 21, 22, 32, 64)):
        yield character * count
    yield from ["\u00e9" + "x" * 8 + "\u20ac" + "y" * 7 + "\U0001f600" + "z" * 9, ("x" * 8 + "\u00df") * 12, ("x" * 7 + "\u00df") * 12]
    yield from [PANGRAM, PANGRAM * 20, bytes(range(128)).decode(), "x" * 4095 + "\U0001f600" + "x" * 20]


def faulty():
    """What isn't UTF-8. Git says so and leaves it as it is."""
    kinds = [
        # Continuations alone, and bytes that begin nothing
        b"\x80", b"\xbf", b"\xfe", b"\xff", b"\xff\xfe", b"\xf8\x88\x80\x80\x80", b"\xfc\x84\x80\x80\x80\x80",
        # Cut characters
        b"\xc3", b"\xe2", b"\xe2\x82", b"\xf0", b"\xf0\x9f", b"\xf0\x9f\x98",
        # Forms that are too long
        b"\xc0\x80", b"\xc1\xbf", b"\xe0\x80\xaf", b"\xe0\x9f\xbf", b"\xf0\x80\x80\xaf", b"\xf0\x8f\xbf\xbf",
        # Surrogates, and what is above 10FFFF
        b"\xed\xa0\x80", b"\xed\xbf\xbf", b"\xed\xa0\xbd\xed\xb8\x80", b"\xf4\x90\x80\x80", b"\xf5\x80\x80\x80", b"\xf7\xbf\xbf\xbf",
    ]
    for kind in kinds:
        yield from [kind, kind + b"a", b"good\n" + kind]
    yield from [b"x" * 63 + b"\xff", b"x" * 64 + b"\xff" + b"y" * 64, b"x" * 20 + b"\xf0\x9f\x98", b"caf\xe9\n", b"a\0\xff"]


def texts():
    """Contents for the encodings."""
    good = (text.encode() for text in itertools.chain(characters(), marks(), runs()))
    return distinct(good, faulty())


def distinct(*lists):
    return list(dict.fromkeys(itertools.chain(*lists)))


# Git


def use_memory():
    """Temporary folders in memory, where there is room: most of the time goes into small files."""
    if os.path.isdir("/dev/shm") and shutil.disk_usage("/dev/shm").free > 500_000_000:
        tempfile.tempdir = "/dev/shm"


def git(folder, *words, given=b""):
    ran = subprocess.run(["git", *words], cwd=folder, input=given, stdout=subprocess.PIPE, stderr=subprocess.DEVNULL, check=True, env=ENVIRONMENT)
    return ran.stdout


def check_out(groups):
    """For each group of attributes and contents, the names of the contents' blobs and the contents of the files that git writes."""
    with tempfile.TemporaryDirectory() as folder:
        git(folder, "init", "--quiet", ".")
        paths = [[f"g{number}/f{place}" for place in range(len(contents))] for number, (_, contents) in enumerate(groups)]
        with open(f"{folder}/.git/info/attributes", "w", encoding="ascii") as file:
            file.writelines(f"g{number}/* {attributes}\n" for number, (attributes, _) in enumerate(groups))
        names = [store(folder, contents) for _, contents in groups]
        rows = (f"100644 {name}\t{path}\n" for pair in zip(names, paths) for name, path in zip(*pair))
        git(folder, "update-index", "--index-info", given="".join(rows).encode())
        git(folder, "checkout-index", "--all")
        return [(group, [read(f"{folder}/{path}") for path in files]) for group, files in zip(names, paths)]


def store(folder, contents):
    """Makes a blob of each content, and returns their names."""
    with tempfile.TemporaryDirectory() as aside:
        paths = [f"{aside}/{place}" for place in range(len(contents))]
        for path, content in zip(paths, contents):
            with open(path, "wb") as file:
                file.write(content)
        listed = "".join(f"{path}\n" for path in paths)
        return git(folder, "hash-object", "-w", "--no-filters", "--stdin-paths", given=listed.encode()).decode().split()


def read(path):
    with open(path, "rb") as file:
        return file.read()
