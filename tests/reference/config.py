"""The configuration (docs/FORMATS.md, "The configuration")."""
from reference.texts import Refused

BLANKS = b" \t"
LETTERS = b"abcdefghijklmnopqrstuvwxyzABCDEFGHIJKLMNOPQRSTUVWXYZ"
DIGITS = b"0123456789"
ESCAPES = {ord('"'): 34, ord("\\"): 92, ord("n"): 10, ord("t"): 9, ord("b"): 8}
TRUE, FALSE = ("true", "yes", "on", "1"), ("false", "no", "off", "0", "")
UNITS = {"k": 1024, "m": 1024 ** 2, "g": 1024 ** 3}


class Reader:
    """The text, with LF for each line end, the place that is read next, and the number of its line."""

    def __init__(self, text):
        if text.startswith(b"\xEF\xBB\xBF"):
            text = text[3:]
        self.text = text.replace(b"\r\n", b"\n")
        self.place = 0
        self.line = 1

    def next(self):
        """The next byte, or none at the end of a line or of the text."""
        return self.text[self.place] if self.place < len(self.text) and self.text[self.place] != 10 else None

    def take(self):
        byte = self.next()
        if byte is not None:
            self.place += 1
        return byte

    def pass_blanks(self):
        begun = self.place
        while self.next() is not None and self.next() in BLANKS:
            self.place += 1
        return self.place > begun

    def end_line(self):
        self.place += 1
        self.line += 1

    def take_while(self, letters):
        begun = self.place
        while self.next() is not None and self.next() in letters:
            self.place += 1
        return self.text[begun:self.place]


def read_header(reader):
    """The section and the subsection behind `[`, or None."""
    name = reader.take_while(LETTERS + DIGITS + b"-.").decode()
    if not name:
        return None
    sub = None
    if reader.pass_blanks():
        if reader.take() != ord('"'):
            return None
        found = bytearray()
        while (byte := reader.take()) != ord('"'):
            if byte == ord("\\"):
                byte = reader.take()
            if byte is None:
                return None
            found.append(byte)
        sub = bytes(found)
    if reader.take() != ord("]"):
        return None
    if sub is None and "." in name:
        name, _, rest = name.partition(".")
        sub = rest.lower().encode()
    return name.lower(), sub


def read_value(reader):
    """The value behind `=`, or None."""
    found, kept, is_quoted = bytearray(), 0, False
    while True:
        byte = reader.take()
        if byte is None:
            return None if is_quoted else bytes(found[:kept])
        if not is_quoted and byte in b"#;":
            while reader.take() is not None:
                pass
            return bytes(found[:kept])
        if byte in BLANKS and not is_quoted:
            if found:
                found.append(byte)
            continue
        if byte == ord('"'):
            is_quoted = not is_quoted
        elif byte == ord("\\") and reader.next() is None:
            reader.end_line()
        elif byte == ord("\\"):
            byte = ESCAPES.get(reader.take())
            if byte is None:
                return None
            found.append(byte)
        else:
            found.append(byte)
        # the blanks before this byte aren't at the end
        kept = len(found)


def read_config(text):
    """The settings in order, each as its section, subsection, key and value, which is None without `=`."""
    if len(text) > 1_048_576:
        raise Refused("config too-large")
    reader, section, settings = Reader(text), None, []
    while reader.place < len(reader.text):
        reader.pass_blanks()
        begun = reader.line
        byte = reader.next()
        if byte is None:
            reader.end_line()
        elif byte in b"#;":
            while reader.take() is not None:
                pass
        elif byte == ord("["):
            reader.take()
            section = read_header(reader)
            if section is None:
                raise Refused(f"config line {begun} section")
        else:
            settings.append((*read_key(reader, begun, section),))
    return settings


def read_key(reader, begun, section):
    if reader.next() not in LETTERS:
        raise Refused(f"config line {begun} key")
    if section is None:
        raise Refused(f"config line {begun} no-section")
    key = reader.take_while(LETTERS + DIGITS + b"-").decode().lower()
    reader.pass_blanks()
    byte = reader.take()
    if byte is None:
        return (*section, key, None)
    if byte != ord("="):
        raise Refused(f"config line {begun} key")
    value = read_value(reader)
    if value is None:
        raise Refused(f"config line {begun} value")
    return (*section, key, value)


class Bad(Exception):
    """A value that its key can't have."""


def truth(value):
    if value is None:
        return True
    word = value.decode("latin-1").lower()
    if word in TRUE or word in FALSE:
        return word in TRUE
    raise Bad


def number(value):
    word = (value or b"").decode("latin-1").lower()
    sign, digits = (-1, word[1:]) if word.startswith("-") else (1, word)
    unit = UNITS.get(digits[-1:], 1)
    digits = digits[:-1] if digits[-1:] in UNITS else digits
    if not (digits.isascii() and digits.isdigit() and len(digits) <= 18):
        raise Bad
    return sign * int(digits) * unit


def choice(words):
    def read(value):
        word = (value or b"\0").decode("latin-1").lower()
        if word not in words:
            raise Bad
        return word
    return read


def autocrlf(value):
    return "input" if value is not None and value.lower() == b"input" else truth(value)


KEYS = [
    ("core", "autocrlf", "autocrlf", autocrlf, False),
    ("core", "eol", "eol", choice(("lf", "crlf", "native")), "native"),
    ("checkout", "workers", "workers", number, 1),
    ("checkout", "thresholdforparallelism", "threshold", number, 100),
    ("extensions", "objectformat", "objectformat", choice(("sha1",)), "sha1"),
]


class Settings:
    """What a configuration says. A driver is its command, or None, whether it is required, and whether it is a single-run one."""

    def __init__(self, config):
        last, names, self.drivers = {}, set(), {}
        for section, sub, key, value in config:
            last[section, sub, key] = value
            if section == "filter" and sub is not None:
                names.add(sub)
        for section, key, word, read, default in KEYS:
            value = default
            if (section, None, key) in last:
                try:
                    value = read(last[section, None, key])
                except Bad:
                    raise Refused(f"setting {word}") from None
            setattr(self, word, value)
        for name in sorted(names):
            try:
                required = truth(last.get(("filter", name, "required"), b""))
            except Bad:
                raise Refused("setting required") from None
            process, smudge = (last.get(("filter", name, key)) or None for key in ("process", "smudge"))
            self.drivers[name] = (process or smudge, required, process is None)
