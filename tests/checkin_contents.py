"""Contents of files for compare_checkin and checkin_round_trips, made by a random generator; no script of its own."""

import codecs

# The codec, the mark and the width of a unit of each encoding that is known.
ENCODINGS = {
    "UTF-8": ("utf-8", b"", 1),
    "UTF-16": ("utf-16-le", b"\xff\xfe", 2),
    "UTF-16LE": ("utf-16-le", b"", 2),
    "UTF-16BE": ("utf-16-be", b"", 2),
    "UTF-16LE-BOM": ("utf-16-le", b"\xff\xfe", 2),
    "UTF-32": ("utf-32-le", b"\xff\xfe\0\0", 4),
    "UTF-32LE": ("utf-32-le", b"", 4),
    "UTF-32BE": ("utf-32-be", b"", 4),
}
MARKS = {2: (b"\xff\xfe", b"\xfe\xff"), 4: (b"\xff\xfe\0\0", b"\0\0\xfe\xff")}

# What texts are made of. The rare pieces make a content binary, or aren't UTF-8.
PLAIN = ["a", "word", " ", "\t", "line of text", "caf\u00e9", "\u20ac", "\U0001f600", "$", "$Id$", "$Id:", "$Id: 1f $", "$Id: a\nb $", "Id: x $", "x" * 200]
ENDS = ["\n", "\r\n", "\r"]
ODD = ["\0", "\x01", "\x7f", "\x1a", "\x1b", "\ufeff", "\ufffe"]
BAD = [b"\xff", b"\xc3", b"\xe2\x82", b"\xed\xa0\x80", b"\xf4\x90\x80\x80"]


def text(rng, ends=tuple(ENDS), odd=True):
    """A text of up to 40 pieces, whose lines end in one way, mostly, or in any."""
    usual = rng.choice(ends)
    strict = rng.random() < 0.6
    pieces = []
    for _ in range(rng.choice((0, 1, 2, 5, 12, 40))):
        roll = rng.random()
        if roll < 0.5:
            pieces.append(rng.choice(PLAIN))
        elif odd and roll < 0.52:
            pieces.append(rng.choice(ODD))
        else:
            pieces.append(usual if strict else rng.choice(ends))
    if odd and rng.random() < 0.03:
        pieces.append("\x1a")
    return "".join(pieces)


def content(rng):
    """The bytes of such a text, now and then with some that aren't UTF-8."""
    made = text(rng).encode()
    if rng.random() < 0.05:
        place = rng.randrange(len(made) + 1)
        made = made[:place] + rng.choice(BAD) + made[place:]
    return made


def encoded(rng, name):
    """A content in an encoding, now and then without its mark, with another one, or with a wrong unit."""
    codec, mark, width = ENCODINGS[name]
    body = text(rng).encode(codec)
    roll = rng.random()
    if width == 1:
        return content(rng)
    if roll < 0.06:
        mark = b""
    elif roll < 0.12:
        mark = rng.choice(MARKS[width])
    elif roll < 0.16 and name in ("UTF-16", "UTF-32"):
        body, mark = text(rng).encode(codec.replace("-le", "-be")), MARKS[width][1]
    elif roll < 0.20:
        body = body[: len(body) - rng.randrange(1, width)]
    elif roll < 0.24:
        place = rng.randrange(len(body) // width + 1) * width
        unit = rng.choice((0xD800, 0xDBFF, 0xDC00, 0xDFFF) if width == 2 else (0xD800, 0x110000, 0x7FFFFFFF))
        body = body[:place] + unit.to_bytes(width, "big" if codec.endswith("be") else "little") + body[place:]
    return mark + body


def is_encodable(made):
    """Whether bytes are UTF-8."""
    try:
        codecs.decode(made, "utf-8")
    except UnicodeDecodeError:
        return False
    return True
