"""The differences between this program's conversions and git's (2.39), for tests/conversion_differences: all contents of
`ident` as git streams a blob into a file, all texts in plain UTF-16 and UTF-32, and a few texts in encodings by other names.
Every difference, and no more, has a line in tests/conversion_differences.tsv with both answers.

Contents and answers are spelled with escapes; `m{200}` is a byte that stands there 200 times, and NAME the blob's name.
`fails` is a path that isn't written.

As it streams, git (2.39) ignores a keyword right after the front of one that fails. It looks for a foreign keyword only after
`$Id: `, where any white space in the middle makes one and NUL ends the search. In memory, where it converts under `text=auto`,
it has this program's answers, and so has tests/make_conversion_table. Git leaves the byte order of plain `UTF-16` and `UTF-32`
to the machine's iconv: that of glibc agrees.

Left out is an encoding without a value, at which git stops.
"""

import itertools
import pathlib
import re
import subprocess
import sys

sys.dont_write_bytecode = True
import conversions

TABLE = pathlib.Path(__file__).resolve().parent / "conversion_differences.tsv"
HEAD = "conversion\tcontent\tgit\tours\n"

# What an encoding's name does shows in a few texts.
SAMPLES = [b"caf\xc3\xa9\n", b"\xe2\x82\xac", b"caf\xe9\n"]
# The known names spelled otherwise, and names that only git or the machine's iconv knows, or nobody
KNOWN = ["UTF-16", "UTF-16LE", "UTF-16BE", "UTF-16LE-BOM", "UTF-32", "UTF-32LE", "UTF-32BE"]
OTHERS = ["UTF-16BE-BOM", "UTF-16LEBOM", "UTF-7", "UCS-2", "ISO-8859-1", "latin1", "Shift_JIS", "no-such-encoding"]


def other_names():
    """Each known name but as it stands, and the others."""
    for name in KNOWN:
        yield from [name.lower(), name.replace("-", "", 1), name.lower().replace("-", "", 1)]
    yield from OTHERS


def tasks():
    """The conversions that are compared: the attributes for git, the kind for the program, and contents."""
    yield "ident", "ident", conversions.keywords()
    for name in ("UTF-16", "UTF-32"):
        yield f"working-tree-encoding={name}", name, conversions.texts()
    for name in other_names():
        yield f"working-tree-encoding={name}", name, SAMPLES


def ours(program, kind, contents, names):
    """This program's answers, or None for each where it doesn't know the kind."""
    lines = (f"{kind} {content.hex() or '-'} {name}\n" for content, name in zip(contents, names))
    ran = subprocess.run([program, "conversions"], input="".join(lines).encode(), capture_output=True, check=False)
    if ran.returncode and b"no case knows" in ran.stderr:
        return [None] * len(contents)
    if ran.returncode:
        sys.exit(f"conversion_differences: the program ended with status {ran.returncode} for {kind}: {ran.stderr.decode()}")
    lines = ran.stdout.decode().splitlines()
    if len(lines) != len(contents):
        sys.exit(f"conversion_differences: {len(lines)} answers to {len(contents)} contents of {kind}")
    return [bytes.fromhex(line.replace("-", "")) for line in lines]


def spelled(answer, name):
    """An answer in printing ASCII alone, with its long runs counted and the blob's name left out."""
    if answer is None:
        return "fails"
    runs = ((byte, len(list(run))) for byte, run in itertools.groupby(answer))
    text = "".join(f"{letter(byte)}{{{count}}}" if count > 16 else letter(byte) * count for byte, count in runs)
    # a space at an edge would not be seen
    return re.sub("^ | $", r"\\x20", text.replace(name, "NAME"))


def letter(byte):
    shown = {9: "\\t", 10: "\\n", 13: "\\r", 92: "\\\\"}
    # braces are for counts
    return shown.get(byte) or (chr(byte) if 32 <= byte < 127 and byte not in b"{}" else f"\\x{byte:02x}")


def differences(program):
    """The lines of the table."""
    asked = list(tasks())
    answered = conversions.check_out([(attributes, contents) for attributes, _, contents in asked])
    for (attributes, kind, contents), (names, theirs) in zip(asked, answered):
        for content, name, their, our in zip(contents, names, theirs, ours(program, kind, contents, names)):
            if their != our:
                yield "\t".join([attributes, *(spelled(it, name) for it in (content, their, our))]) + "\n"


def main():
    program, *words = sys.argv[1:]
    conversions.use_memory()
    found = list(differences(program))
    if words == ["--write"]:
        TABLE.write_text(HEAD + "".join(found), encoding="ascii")
        print(f"conversion_differences: {len(found)} written")
        return
    wanted = TABLE.read_text(encoding="ascii").splitlines(keepends=True)[1:]
    if found != wanted:
        sys.stdout.writelines(f"no difference any more: {line}" for line in wanted if line not in found)
        sys.stdout.writelines(f"not in the table: {line}" for line in found if line not in wanted)
        sys.exit(f"conversion_differences: {TABLE.name} has {len(wanted)} differences, and there are {len(found)}")
    print("conversion_differences: passed")


main()
