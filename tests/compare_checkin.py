"""The work of compare_checkin; no script of its own."""

import hashlib
import os
import random
import re
import subprocess
import sys

sys.dont_write_bytecode = True
import checkin_contents as contents

FILES = 1000
KEYWORD = re.compile(rb"\$Id:[^$\n]*\$")
# For each configuration its attributes, each of a folder of its own.
ENCODED = [f"text working-tree-encoding={name}" for name in contents.ENCODINGS]
GROUPS = {
    "": [
        "text", "text eol=crlf", "text eol=lf", "eol=crlf", "-text", "text=auto", "text=auto eol=crlf", "text=auto eol=lf", "ident",
        "ident text eol=crlf", "crlf", "-crlf", "crlf=input", *ENCODED, "-text ident working-tree-encoding=UTF-16",
    ],
    "core.autocrlf=true": ["!text", "text=auto", "ident", "working-tree-encoding=UTF-32LE"],
    "core.autocrlf=input": ["!text", "text=auto"],
    "core.autocrlf=false": ["!text", "text=auto"],
    "core.eol=crlf": ["text"],
}


def run(*words, given=None, folder=None, env=None):
    return subprocess.run(words, input=given, cwd=folder, env=env, capture_output=True, check=True).stdout


def blob_name(content):
    return hashlib.sha1(b"blob %d\0" % len(content) + content).hexdigest()


def is_binary(content):
    """Whether git takes a content for binary, and whether it has CR LF (convert.c, gather_stats and convert_is_binary)."""
    lone, printable, others, crlf, place = False, 0, 0, False, 0
    while place < len(content):
        byte = content[place]
        if byte == 13 and content[place + 1 : place + 2] == b"\n":
            crlf, place = True, place + 1
        elif byte == 13:
            lone = True
        elif byte != 10:
            odd = byte == 127 or byte < 32 and byte not in (8, 9, 27, 12)
            printable, others = printable + (not odd), others + odd
        place += 1
    if content.endswith(b"\x1a"):
        others -= 1
    return lone or b"\0" in content or printable >> 7 < others, crlf


class Repository:
    """A repository with the files of each group, whose index has the blobs of other contents."""

    def __init__(self, folder, rng, setting, groups):
        self.folder, self.setting = folder, setting
        run("git", "init", "-q", folder)
        for key in filter(None, [setting, "core.safecrlf=false", "gc.auto=0", "core.fsync=none"]):
            run("git", "-C", folder, "config", *key.split("=", 1))
        with open(f"{folder}/.git/info/attributes", "w", encoding="ascii") as file:
            file.writelines(f"g{number:02}/** {attributes}\n" for number, attributes in enumerate(groups))
        self.files, self.groups = {}, {}
        for number, attributes in enumerate(groups):
            os.mkdir(f"{folder}/g{number:02}")
            encoding = dict(word.split("=", 1) for word in attributes.split() if "=" in word).get("working-tree-encoding")
            for place in range(FILES):
                path = f"g{number:02}/f{place:04}"
                made = contents.encoded(rng, encoding) if encoding else contents.content(rng)
                self.files[path], self.groups[path] = made, (attributes, encoding)
                with open(f"{folder}/{path}", "wb") as file:
                    file.write(made)
        self.blobs = self.store([contents.content(rng) for _ in range(300)])
        self.index = {path: rng.choice(list(self.blobs)) for path in self.files}

    def store(self, made):
        """Makes blobs, and returns the content of each name."""
        os.makedirs(f"{self.folder}/.git/aside", exist_ok=True)
        paths = []
        for number, content in enumerate(made):
            paths.append(f"{self.folder}/.git/aside/{number}")
            with open(paths[-1], "wb") as file:
                file.write(content)
        listed = "".join(f"{path}\n" for path in paths).encode()
        names = run("git", "-C", self.folder, "hash-object", "-w", "--no-filters", "--stdin-paths", given=listed).decode().split()
        return dict(zip(names, made))

    def set_index(self):
        """An index of these blobs that knows no file."""
        rows = "".join(f"100644 {name}\t{path}\n" for path, name in self.index.items())
        if os.path.exists(f"{self.folder}/.git/index"):
            os.remove(f"{self.folder}/.git/index")
        run("git", "-C", self.folder, "update-index", "--index-info", given=rows.encode())

    def listed(self, index):
        rows = run("git", "-C", self.folder, "ls-files", "-s", "-z", env=dict(os.environ, GIT_INDEX_FILE=index)).decode().split("\0")[:-1]
        return {row.split("\t")[1]: row.split()[1] for row in rows}

    def refuses(self, path):
        """Whether git doesn't take a file."""
        words = ["git", "-C", self.folder, "hash-object", "-w", f"--path={path}", f"{self.folder}/{path}"]
        return subprocess.run(words, capture_output=True, check=False).returncode != 0

    def index_content(self, path):
        name = self.index[path]
        if name not in self.blobs:
            self.blobs[name] = run("git", "-C", self.folder, "cat-file", "blob", name)
        return self.blobs[name]


def checked_in(program, repository):
    """What siuwbren says of each path, with its new index."""
    words = [program, "checkin", "--git-dir", f"{repository.folder}/.git", repository.folder]
    ran = subprocess.run(words, capture_output=True, check=False)
    said = {}
    lines = ran.stdout.decode().splitlines()
    for line in lines[:-1]:
        words = line.split(" ")
        said[words[-1]] = words[:-1]
    failed = sum(words[0] == "failed" for words in said.values())
    counts = [sum(words[0] == word for words in said.values()) for word in ("same", "changed", "gone", "kept", "failed")]
    index = f"{repository.folder}/.git/index-checkin"
    note = f"note: the new index is {index}. To take it: mv {index} {repository.folder}/.git/index\n"
    if ran.returncode != bool(failed) or lines[-1] != "done " + " ".join(map(str, counts)) or ran.stderr.decode() != note:
        sys.exit(f"compare_checkin: status {ran.returncode}, {lines[-1:]}, {ran.stderr.decode()}")
    return said, repository.listed(index)


def known_difference(repository, path):
    """The row of docs/DIFFERENCES.md by which git stores another content of a path, refuses it, or takes it, or None."""
    attributes, encoding = repository.groups[path]
    made = repository.files[path]
    if encoding == "UTF-16LE-BOM" and made and not made.startswith(b"\xff\xfe"):
        return "takes"
    other = {"UTF-16LE": b"\xfe\xff", "UTF-16BE": b"\xff\xfe", "UTF-32LE": b"\0\0\xfe\xff", "UTF-32BE": b"\xff\xfe\0\0"}.get(encoding)
    if other and made.startswith(other):
        return "refuses"
    is_set = repository.setting in ("core.autocrlf=true", "core.autocrlf=input") and "text" not in attributes.replace("!text", "")
    is_auto = "text=auto" in attributes or is_set
    if is_auto and is_binary(repository.index_content(path)) == (True, True):
        return "converts"
    return None


def kept_name(repository, path):
    """The name of the blob of a file whose CR LF stay."""
    attributes, encoding = repository.groups[path]
    made = repository.files[path] if encoding is None else repository.files[path].decode(encoding).encode()
    return blob_name(KEYWORD.sub(b"$Id$", made) if "ident" in attributes else made)


def own_answer(repository, path, known):
    """What siuwbren says of a path that git refuses for its mark, or takes without one."""
    if known == "takes":
        return ["failed", "encoding-form"]
    encoding = repository.groups[path][1]
    if known != "refuses" or encoding is None:
        return None
    try:
        text = repository.files[path].decode(encoding)
    except UnicodeDecodeError:
        return ["failed", "encoding-form"]
    name = blob_name(text.encode().replace(b"\r\n", b"\n") if "text" in repository.groups[path][0].split() else text.encode())
    return ["same"] if name == repository.index[path] else ["changed", name]


def compare(repository, said, ours, differs):
    """Compares the names with git's."""
    if list(said) != list(repository.files) or list(ours) != list(repository.files):
        differs.append(f"{repository.setting}: the report or the index has other paths")
        return repository.index, 0
    skip = set()
    for path, words in said.items():
        known = known_difference(repository, path)
        about = f"{repository.setting} {repository.groups[path][0]}: {repository.files[path][:60]!r}: {words}"
        if words == ["failed", "encoding-form"] or known == "refuses":
            skip.add(path)
            wanted = known != "takes"
            if repository.refuses(path) != wanted:
                differs.append(f"{about}, and git {'takes' if wanted else 'refuses'} it")
            own = own_answer(repository, path, known)
            if own and words != own:
                differs.append(f"{about}, and not {own}")
        elif words[0] not in ("same", "changed") or known == "takes":
            differs.append(about)
    listed = "".join(f"{path}\0" for path in said if path not in skip).encode()
    run("git", "-C", repository.folder, "add", "--pathspec-from-file=-", "--pathspec-file-nul", given=listed)
    theirs = repository.listed(f"{repository.folder}/.git/index")
    known = 0
    for path, words in said.items():
        name = words[1] if words[0] == "changed" else repository.index[path]
        if ours.get(path) != name:
            differs.append(f"{path}: the index has {ours.get(path)}, and the report {words}")
        if path in skip:
            known += known_difference(repository, path) is not None
            continue
        if name == theirs[path]:
            continue
        if known_difference(repository, path) == "converts" and name == kept_name(repository, path):
            known += 1
            continue
        differs.append(f"{repository.setting} {repository.groups[path][0]}: {repository.files[path][:60]!r}: {words[0]} {name}, and git's is {theirs[path]}")
    return theirs, known


def objects_are_there(repository, said):
    """Git reads the object of each changed path, before it has written one itself."""
    names = {words[1] for words in said.values() if words[0] == "changed"}
    listed = run("git", "-C", repository.folder, "cat-file", "--batch-check", given="".join(f"{name}\n" for name in names).encode()).decode()
    return len(names) - listed.count(" blob ")


def main():
    program, work, seed = sys.argv[1:]
    rng = random.Random(int(seed))
    differs, known, files, rounds = [], 0, 0, 0
    for number, (setting, groups) in enumerate(GROUPS.items()):
        repository = Repository(f"{work}/r{number}", rng, setting, groups)
        for _ in range(2):
            repository.set_index()
            said, ours = checked_in(program, repository)
            lacking = objects_are_there(repository, said)
            if lacking:
                differs.append(f"git lacks {lacking} objects")
            theirs, more = compare(repository, said, ours, differs)
            known, files, rounds = known + more, files + len(said), rounds + 1
            repository.index = theirs
        run("git", "-C", repository.folder, "fsck", "--no-dangling")
    for line in differs[:20]:
        print(f"compare_checkin: {line}")
    if differs:
        sys.exit(f"compare_checkin: {len(differs)} differences with seed {seed}")
    print(f"compare_checkin: {files} files in {rounds} check-ins are as git adds them, but for {known} of known differences; seed {seed}: passed")


main()
