"""The work of checkin_round_trips; no script of its own."""

import hashlib
import os
import pathlib
import random
import re
import subprocess
import sys

sys.dont_write_bytecode = True
import checkin_contents as contents

TOOLS = pathlib.Path(__file__).resolve().parent.parent / "tools"
# For each configuration its attributes, each of a folder of its own.
ENCODED = [f"{ends} working-tree-encoding={name}" for name in contents.ENCODINGS for ends in ("-text", "text eol=crlf")]
GROUPS = {
    "": [
        "text", "text eol=crlf", "eol=crlf", "-text", "text=auto", "text=auto eol=crlf", "text=auto eol=lf", "ident -text",
        "ident text eol=crlf", "ident text=auto eol=crlf", *ENCODED, "ident text eol=crlf working-tree-encoding=UTF-16",
        "ident -text working-tree-encoding=UTF-32BE",
    ],
    "core.autocrlf=true": ["!text", "text=auto", "ident !text", "working-tree-encoding=UTF-16BE", "-text"],
    "core.autocrlf=input": ["!text", "text=auto"],
    "core.eol=crlf": ["text", "text=auto"],
}
KEYWORD = re.compile(rb"\$Id:[^$\n]*\$")


def run(*words, given=None):
    return subprocess.run(words, input=given, capture_output=True, check=True).stdout


def name_of(content):
    return hashlib.sha1(b"blob %d\0" % len(content) + content).hexdigest()


class Path:
    """A path with its content in the repository, and what is asked of it."""

    def __init__(self, setting, attributes, content):
        self.content = content
        words = attributes.split()
        self.encoding = next((word.split("=")[1] for word in words if word.startswith("working-tree")), None)
        self.ident = "ident" in words
        is_auto = "text=auto" in words or setting.startswith("core.autocrlf") and not {"text", "-text"} & set(words)
        self.drops_cr = not is_auto and ("text" in words or "eol=crlf" in words)

    def comes_back(self):
        """Whether the promise covers the content."""
        if self.encoding not in (None, "UTF-8"):
            if not contents.is_encodable(self.content):
                return False
            if not contents.ENCODINGS[self.encoding][1] and self.content.startswith("\ufeff".encode()):
                return False
        return not (self.ident and KEYWORD.search(self.content)) and not (self.drops_cr and b"\r\n" in self.content)

    def wanted(self):
        """What the report has to say of the path, or None where that isn't simple."""
        if self.comes_back():
            return "same"
        if self.encoding not in (None, "UTF-8"):
            is_marked = self.content.startswith("\ufeff".encode()) and not contents.ENCODINGS[self.encoding][1]
            return "failed encoding-form" if is_marked and contents.is_encodable(self.content) else None
        if self.ident and b"$Id$" in self.content:
            return None  # a checkout may use up a dollar that begins another keyword
        stored = self.content
        if self.drops_cr:
            stored = stored.replace(b"\r\n", b"\n")
        if self.ident:
            stored = KEYWORD.sub(b"$Id$", stored)
        return f"changed {name_of(stored)}"


def made_paths(rng, setting, groups, each):
    """The paths of each group."""
    paths = {}
    for number, attributes in enumerate(groups):
        for place in range(each):
            made = Path(setting, attributes, contents.content(rng))
            # most are covered: what isn't is mended, or stays
            if not made.comes_back() and rng.random() < 0.8:
                mended = made.content.decode("utf-8", "ignore").lstrip("\ufeff").encode().replace(b"\r\n", b"\n")
                made = Path(setting, attributes, KEYWORD.sub(b"$Id$", mended) if made.ident else mended)
            paths[f"g{number:02}/f{place:05}"] = made
    return paths


def make_repository(folder, setting, groups, paths):
    run("git", "init", "-q", folder)
    for key in filter(None, [setting, "gc.auto=0", "core.fsync=none"]):
        run("git", "-C", folder, "config", *key.split("=", 1))
    with open(f"{folder}/.git/info/attributes", "w", encoding="ascii") as file:
        file.writelines(f"g{number:02}/** {attributes}\n" for number, attributes in enumerate(groups))
    os.mkdir(f"{folder}/aside")
    for number, made in enumerate(paths.values()):
        with open(f"{folder}/aside/{number}", "wb") as file:
            file.write(made.content)
    listed = "".join(f"{folder}/aside/{number}\n" for number in range(len(paths)))
    names = run("git", "-C", folder, "hash-object", "-w", "--no-filters", "--stdin-paths", given=listed.encode()).decode().split()
    rows = [f"{'100755' if number % 7 == 0 else '100644'} {name}\t{path}\n" for number, (name, path) in enumerate(zip(names, paths))]
    link = run("git", "-C", folder, "hash-object", "-w", "--stdin", given=b"../g00/nowhere").decode().strip()
    rows.append(f"120000 {link}\tg00/link\n")
    run("git", "-C", folder, "update-index", "--index-info", given="".join(rows).encode())


def said_of(lines):
    """What the lines of a report say of each path."""
    return {line.rsplit(" ", 1)[1]: line.rsplit(" ", 1)[0] for line in lines}


def check_in(words, status):
    ran = subprocess.run(words, capture_output=True, check=False)
    said = [line for line in ran.stderr.decode().splitlines() if not line.startswith("note: the new index is ")]
    if ran.returncode not in status or said:
        sys.exit(f"checkin_round_trips: {words}: status {ran.returncode}: {ran.stderr.decode()[:500]}")
    report = ran.stdout.decode().splitlines()
    if "checkin" in words and not counts_are_right(report, ran.returncode):
        sys.exit(f"checkin_round_trips: {words}: status {ran.returncode}, and {report[-1:]}")
    return report


def listed(gitdir, index):
    return subprocess.run(
        ["git", f"--git-dir={gitdir}", "ls-files", "-s"], env=dict(os.environ, GIT_INDEX_FILE=index), capture_output=True, check=True
    ).stdout.decode().splitlines()


def wanted_index(before, said):
    """The rows of the index with the new names."""
    rows = []
    for row in before:
        told, path = row.split("\t")
        mode, name, stage = told.split()
        words = said[path].split()
        rows.append(f"{mode} {words[1] if words[0] == 'changed' else name} {stage}\t{path}")
    return rows


def counts_are_right(report, status):
    """Whether the last line and the status go with the lines."""
    words = [line.split(" ")[0] for line in report[:-1]]
    counts = [words.count(word) for word in ("same", "changed", "gone", "kept", "failed")]
    return report[-1] == "done " + " ".join(map(str, counts)) and status == (counts[4] > 0)


def unkept(said, gitdir, raw):
    """The names of changed paths whose objects aren't there for git, or whose uncompressed objects are others."""
    names = sorted({words.split(" ")[1] for words in said.values() if words.startswith("changed ")})
    found = run("git", f"--git-dir={gitdir}", "cat-file", "--batch-check=%(objectname)", given="".join(f"{name}\n" for name in names).encode())
    lost = set(names) - set(found.decode().split("\n"))
    for name in names:
        path = pathlib.Path(raw, "objects", name[:2], name[2:])
        if not path.is_file() or hashlib.sha1(path.read_bytes()).hexdigest() != name:
            lost.add(name)
    return lost


def look(paths, said, differs):
    """Compares what is said with what has to be said, and counts the paths that come back."""
    if said.pop("g00/link") != "same":
        differs.append("the link isn't the same")
    back = 0
    for path, made in paths.items():
        wanted = made.wanted()
        back += wanted == "same"
        if wanted and said[path] != wanted:
            differs.append(f"{path}: {made.content[:80]!r}: {said[path]}, and not {wanted}")
    return back


def main():
    siuwbren, program, work, seed, count = sys.argv[1:]
    rng = random.Random(int(seed))
    each = -(-int(count) // sum(map(len, GROUPS.values())))
    differs, files, back = [], 0, 0
    for number, (setting, groups) in enumerate(GROUPS.items()):
        repo, tree, raw, other = (f"{work}/{kind}{number}" for kind in ("repo", "tree", "raw", "other"))
        paths = made_paths(rng, setting, groups, each)
        make_repository(repo, setting, groups, paths)
        gitdir = f"{repo}/.git"
        check_in([siuwbren, "checkout", "--git-dir", gitdir, tree], (0,))
        report = check_in([siuwbren, "checkin", "--git-dir", gitdir, tree], (0, 1))
        run(TOOLS / "raw_repository", gitdir, raw)
        check_in([program, raw, other, "checkout"], (0,))
        if check_in([program, raw, other, "checkin"], (0, 1)) != report:
            differs.append(f"{setting}: the two programs differ")
        said = said_of(report[:-1])
        before, after = listed(gitdir, f"{gitdir}/index"), listed(gitdir, f"{gitdir}/index-checkin")
        lost = unkept(said, gitdir, raw)
        if lost:
            differs.append(f"{setting}: {len(lost)} objects aren't kept, among them {min(lost)}")
        if after != wanted_index(before, said) or after != listed(gitdir, f"{raw}/index-checkin"):
            differs.append(f"{setting}: the new index isn't that of the report")
        files, back = files + len(paths), back + look(paths, said, differs)
        run("git", f"--git-dir={gitdir}", "fsck", "--no-dangling")
    for line in differs[:20]:
        print(f"checkin_round_trips: {line}")
    if differs:
        sys.exit(f"checkin_round_trips: {len(differs)} differences with seed {seed}")
    print(f"checkin_round_trips: {back} of {files} contents come back, and the others as the rules say; seed {seed}: passed")


main()
