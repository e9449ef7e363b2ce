"""A checkout of a repository: its plan, or its report, its files and its status."""
from dataclasses import dataclass, field

from reference.attributes import File, read_file, states_of
from reference.config import Settings, read_config
from reference.contents import SHOWN, encoding_of, line_ends, object_fault, prepared
from reference.drivers import Talk, single_ends
from reference.index import EXECUTABLE, GITLINK, LINK, PLAIN, read_index
from reference.texts import Refused, quoted

MOST = 1_048_576
MARKS = {PLAIN: "-", EXECUTABLE: "x", LINK: "l", GITLINK: "-"}


@dataclass
class Repository:
    """The files of a repository, or None for one that isn't there, and its stored objects by their names."""
    index: bytes
    config: bytes
    info: bytes
    objects: dict = field(default_factory=dict)


@dataclass
class Path:
    """A path's entry, why the plan closes it or None, its driver's name or None, and its conversion."""
    entry: object
    closed: str = None
    driver: bytes = None
    conversion: tuple = (False, "-", "-")


def attribute_files(repository, entries):
    """`info/attributes` and the attribute files of folders."""
    if repository.info is not None and len(repository.info) > MOST:
        raise Refused("attributes info too-large")
    files = {"info": read_file(repository.info or b"", b"", True), "folders": {}}
    for entry in entries:
        folder, _, name = entry.path.rpartition(b"/")
        if name != b".gitattributes" or entry.stage or entry.mode not in (PLAIN, EXECUTABLE) or entry.intent:
            continue
        fault, content = object_fault(repository.objects.get(entry.name), entry.name)
        if not fault and len(content) > MOST:
            fault = "too-large"
        if fault:
            raise Refused(f"attributes {quoted(entry.path)} {fault}")
        files["folders"][folder] = read_file(content, folder, folder == b"")
    return files


def skipped(entry):
    """Why an entry isn't checked out, or None."""
    for applies, word in ((entry.stage, "unmerged"), (entry.mode == GITLINK, "gitlink"), (entry.sparse, "sparse"), (entry.intent, "intent")):
        if applies:
            return word
    return None


def is_text(path):
    try:
        path.decode("utf-8")
        return True
    except UnicodeDecodeError:
        return False


def planned(entry, files, settings):
    """What becomes of an entry's path."""
    path = Path(entry, skipped(entry) or (None if is_text(entry.path) else "name"))
    if path.closed or entry.mode == LINK:
        return path
    states = states_of(files, entry.path)
    encoding = encoding_of(states)
    if encoding is None:
        path.closed = "encoding"
        return path
    filtered = states.get(b"filter", ("unspecified",))
    if filtered[0] == "value" and filtered[1] in settings.drivers:
        command, required, _ = settings.drivers[filtered[1]]
        if command is None and required:
            path.closed = "no-process"
            return path
        path.driver = filtered[1] if command else None
    path.conversion = (states.get(b"ident") == ("set",), line_ends(states, settings), encoding)
    return path


class Plan:
    """The paths of a repository with its settings, and how many lines of attribute files are ignored."""

    def __init__(self, repository):
        if repository.index is None:
            raise Refused("index absent")
        entries = read_index(repository.index)
        self.settings = Settings(read_config(repository.config or b""))
        files = attribute_files(repository, entries)
        self.ignored = files["info"].ignored + sum(file.ignored for file in files["folders"].values())
        first = {}
        for entry in entries:
            first.setdefault(entry.path, entry)
        self.paths = [planned(entry, files, self.settings) for entry in first.values()]
        self.drivers = sorted({path.driver for path in self.paths if path.driver is not None})
        if len(self.drivers) > 16:
            raise Refused(f"drivers {len(self.drivers)}")

    def text(self):
        lines = [self.line(path) for path in self.paths]
        return "".join(line + "\n" for line in [*lines, f"skipped-lines {self.ignored}"])

    def line(self, path):
        ident, ends, encoding = path.conversion
        columns = [path.closed or "card", MARKS[path.entry.mode]]
        columns += [ends, "ident" if ident else "-", SHOWN.get(encoding, "-")]
        if path.driver is None:
            columns += ["-", "-"]
        else:
            columns += ["required" if self.settings.drivers[path.driver][1] else "optional", quoted(path.driver)]
        return " ".join([*columns, quoted(path.entry.path)])


class Checkout:
    """A checkout by a plan: its report, its files, and its status."""

    def __init__(self, repository, scripts):
        plan = Plan(repository)
        self.files, self.rows = {}, {}
        contents = {}
        for path in plan.paths:
            self.begin(repository, path, contents)
        for driver in plan.drivers:
            paths = [path for path in plan.paths if path.driver == driver and path.entry.path in contents]
            _, required, is_single = plan.settings.drivers[driver]
            names = [path.entry.path for path in paths]
            ends = single_ends(scripts[driver], names) if is_single else Talk(scripts[driver], names).ends
            for path in paths:
                self.end(path, contents[path.entry.path], ends[path.entry.path], required)
        words = [row[0] for row in self.rows.values()]
        counts = " ".join(str(words.count(word)) for word in ("written", "unfiltered", "failed", "skipped"))
        lines = [" ".join([*self.rows[path.entry.path], quoted(path.entry.path)]) for path in plan.paths]
        self.report = "".join(line + "\n" for line in [*lines, f"done {counts}"])
        self.status = 1 if "failed" in words else 0

    def row(self, path, word, cause="-", unencoded=False):
        self.rows[path.entry.path] = (word, MARKS[path.entry.mode], "unencoded" if unencoded else "-", cause)

    def begin(self, repository, path, contents):
        """Closes a path, writes one without a driver, and keeps what a driver is sent."""
        if path.closed:
            is_skip = path.closed in ("gitlink", "unmerged", "sparse", "intent")
            return self.row(path, "skipped" if is_skip else "failed", path.closed)
        fault, content = object_fault(repository.objects.get(path.entry.name), path.entry.name)
        if fault:
            return self.row(path, "failed", fault)
        made = prepared(content, path.entry.name, path.conversion)
        if path.driver is not None:
            contents[path.entry.path] = made
        else:
            self.files[path.entry.path] = made[0]
            self.row(path, "written", unencoded=made[1])
        return None

    def end(self, path, made, end, required):
        """A path by what its driver said."""
        if end == "content":
            self.files[path.entry.path] = made[0].swapcase()
            self.row(path, "written", unencoded=made[1])
        elif required or end == "missing":
            self.row(path, "failed", end)
        else:
            self.files[path.entry.path] = made[0]
            self.row(path, "unfiltered", end, made[1])
