"""mutated_journals.py PROGRAM FOLDER CASES SEED: the work of mutated_journals.

The judge below says of a text what `audit` has to say of it. It goes by docs/FORMATS.md, "The journal", and makes no use of the
program: a line's words by a table, and each event by the rule of its kind on the states of all paths.
"""
import random
import subprocess
import sys

MOST = 4_294_967_295
BROKEN = [f"broken-{word}" for word in "ended link packet handshake status delay too-long".split()]
LIST_ONLY = ["broken-strange-path", "broken-list"]
REPLIES = ["content", "error", "error-late", "abort", "delayed", "no-memory"]
OWN = ["fine", "fine-unencoded", "read", "write", "no-memory"] + [
    f"object-{word}" for word in "absent header size name too-large".split()]
DONE = "gitlink unmerged sparse intent name encoding no-process".split()
NUMBER = object()
SHAPES = {
    "claim": [NUMBER, NUMBER],
    "close": [NUMBER, NUMBER, OWN],
    "opened": [NUMBER, ["smudge", "-"], ["delay", "-"]],
    "open-failed": [NUMBER, ["not-started", "no-memory"] + BROKEN + LIST_ONLY],
    "answered": [NUMBER, REPLIES + BROKEN + LIST_ONLY],
    "redone": [NUMBER, REPLIES + BROKEN + LIST_ONLY],
    "named": [NUMBER],
    "hand-back": [NUMBER],
    "shut": [NUMBER],
    "listed": [NUMBER, ["empty", "abort", "no-memory"] + BROKEN + LIST_ONLY],
}


def number_in(word, least=0, most=MOST):
    """The number that a word spells, or None."""
    if not word.isascii() or not word.isdigit() or (len(word) > 1 and word[0] == "0"):
        return None
    return int(word) if least <= int(word) <= most else None


def fits(word, place):
    return number_in(word) is not None if place is NUMBER else word in place


def event_in(words):
    """The event of a line's words, its numbers as numbers, or None."""
    if len(words) == 4 and words[0] == "listed" and words[2] == "names":
        shape = [NUMBER, ["names"], NUMBER]
    else:
        shape = SHAPES.get(words[0])
    if shape is None or len(words) != len(shape) + 1:
        return None
    if not all(fits(word, place) for word, place in zip(words[1:], shape)):
        return None
    return [words[0]] + [int(word) if place is NUMBER else word for word, place in zip(words[1:], shape)]


def start_in(words, drivers):
    """How a path begins, of a line's words, or None."""
    if words == ["pool"]:
        return ("pool",)
    if len(words) == 3 and words[0] == "desk" and words[2] in ("required", "optional"):
        driver = number_in(words[1])
        return ("desk", driver, words[2] == "required") if driver is not None and driver < drivers else None
    if len(words) == 2 and words[0] == "done" and words[1] in DONE:
        return ("done",)
    return None


class Core:
    """The paths and the drivers of a run so far. A state is a tuple with its name first."""

    def __init__(self, starts, workers, drivers):
        self.starts = starts
        self.workers = workers
        self.drivers = ["off"] * drivers
        first = {"pool": ("waiting", None), "desk": ("unasked",), "done": ("closed",)}
        self.paths = [first[start[0]] for start in starts]

    def of(self, driver):
        """The driver's paths, in order."""
        return [p for p, start in enumerate(self.starts) if start[0] == "desk" and start[1] == driver]

    def those(self, driver, name):
        return [p for p in self.of(driver) if self.paths[p][0] == name]

    def is_on(self, driver):
        return isinstance(self.drivers[driver], dict)

    def end(self, driver, state, left):
        """The driver's session is over: what it still owed gets this state."""
        for p in self.those(driver, "delayed") + self.those(driver, "named"):
            self.paths[p] = left
        self.drivers[driver] = state

    def reply(self, p, driver, word):
        """A path gets an answer."""
        if word == "delayed":
            self.paths[p] = ("delayed",)
            self.drivers[driver]["had"] = True
            return
        self.paths[p] = {"content": ("got",), "no-memory": ("wanted",)}.get(word, ("refused", word))
        if word == "abort":
            self.end(driver, "aborted", ("lost",))
        elif word == "no-memory":
            self.end(driver, "off", ("wanted",))
        elif word in BROKEN:
            self.end(driver, "off", ("lost",))

    def refusal(self, p, driver):
        """Whether the driver has refused the path, or will not be asked for it."""
        if self.paths[p][0] == "refused":
            return True
        if self.paths[p][0] != "unasked":
            return False
        return self.drivers[driver] == "aborted" or (self.is_on(driver) and not self.drivers[driver]["smudge"])

    def may_close(self, p, actor, own):
        state = self.paths[p][0]
        raw_free = own not in OWN[2:3] + OWN[5:]
        if state == "held":
            return self.paths[p][1] == actor and (self.paths[p][2] is None or raw_free)
        if self.starts[p][0] != "desk":
            return False
        driver = self.starts[p][1]
        if actor != self.workers + driver:
            return False
        if state in ("got", "refused", "lost", "wanted"):
            return raw_free
        if state != "unasked":
            return False
        session = self.drivers[driver] if self.is_on(driver) else None
        is_first = session is not None and session["first"] == p
        if not raw_free:
            return not is_first
        if own == "no-memory":
            return not is_first or not session["smudge"]
        return self.refusal(p, driver)

    def step(self, event):
        """Takes an event, if it is allowed here: whether it is."""
        name, at, *more = event
        if name in ("opened", "listed", "shut"):
            return at < len(self.drivers) and getattr(self, name)(at, *more)
        if at >= len(self.paths):
            return False
        if name == "claim":
            if self.paths[at][0] != "waiting" or more[0] >= self.workers + len(self.drivers):
                return False
            self.paths[at] = ("held", more[0], self.paths[at][1])
            return True
        if name == "close":
            if not self.may_close(at, *more):
                return False
            self.paths[at] = ("closed",)
            return True
        if self.starts[at][0] != "desk":
            return False
        return getattr(self, name.replace("-", "_"))(at, self.starts[at][1], *more)

    def opened(self, driver, smudge, delay):
        unasked = self.those(driver, "unasked")
        if self.drivers[driver] != "off" or not unasked:
            return False
        self.drivers[driver] = {"smudge": smudge == "smudge", "delay": delay == "delay", "first": unasked[0],
                                "had": False, "naming": False}
        return True

    def is_lowest(self, p, driver):
        return self.those(driver, "unasked")[:1] == [p]

    def open_failed(self, p, driver, cause):
        if self.drivers[driver] != "off" or not self.is_lowest(p, driver) or cause in LIST_ONLY:
            return False
        self.paths[p] = ("wanted",) if cause == "no-memory" else ("refused", cause)
        return True

    def answered(self, p, driver, word):
        if not self.is_on(driver) or not self.drivers[driver]["smudge"] or not self.is_lowest(p, driver):
            return False
        if word in LIST_ONLY or (word == "delayed" and not self.drivers[driver]["delay"]):
            return False
        self.reply(p, driver, word)
        return True

    def named(self, p, driver):
        session = self.drivers[driver]
        if not self.is_on(driver) or not session["had"] or self.those(driver, "unasked"):
            return False
        turn = len(self.those(driver, "named"))
        if self.paths[p][0] != "delayed" or not (session["naming"] or turn == 0):
            return False
        self.paths[p] = ("named", turn)
        session["naming"] = True
        return True

    def listed(self, driver, word, count=None):
        session = self.drivers[driver]
        if not self.is_on(driver):
            return False
        named = self.those(driver, "named")
        if word == "names":
            if not session["naming"] or count != len(named):
                return False
            session["naming"] = False
            return True
        if not session["had"] or session["naming"] or named or self.those(driver, "unasked"):
            return False
        if word == "empty":
            self.end(driver, "done", ("lost",))
        elif word == "abort":
            self.end(driver, "aborted", ("lost",))
        else:
            self.end(driver, "off", ("wanted",) if word == "no-memory" else ("lost",))
        return True

    def redone(self, p, driver, word):
        if not self.is_on(driver) or self.drivers[driver]["naming"] or self.paths[p][0] != "named":
            return False
        if self.paths[p][1] != min(self.paths[q][1] for q in self.those(driver, "named")):
            return False
        if word == "delayed" or word in LIST_ONLY:
            return False
        self.reply(p, driver, word)
        return True

    def hand_back(self, p, driver):
        if self.starts[p][2] or not self.refusal(p, driver):
            return False
        self.paths[p] = ("waiting", "refused")
        return True

    def shut(self, driver):
        if not self.is_on(driver) or self.drivers[driver]["had"] or self.those(driver, "unasked"):
            return False
        self.drivers[driver] = "done"
        return True

    def open_paths(self):
        return sum(state[0] != "closed" for state in self.paths)


def judge(text):
    """What the audit of a text is."""
    *lines, last = text.decode("latin-1").split("\n")
    if not lines:
        return "unreadable 1"
    head = lines[0].split(" ")
    if len(head) != 4 or head[0] != "journal":
        return "unreadable 1"
    workers, drivers, paths = number_in(head[1], 1, 16), number_in(head[2], 0, 16), number_in(head[3], 0, 100_000)
    if None in (workers, drivers, paths):
        return "unreadable 1"
    starts = []
    for at, line in enumerate(lines[1:paths + 1]):
        start = start_in(line.split(" "), drivers)
        if start is None:
            return f"unreadable {at + 2}"
        starts.append(start)
    if len(starts) < paths:
        return f"unreadable {len(lines) + 1}"
    core, wrong, events = Core(starts, workers, drivers), None, 0
    for at, line in enumerate(lines[paths + 1:], paths + 2):
        words = line.split(" ")
        event = event_in(words)
        if event is not None:
            if wrong is None and not core.step(event):
                wrong = at
            events += 1
            continue
        if words != ["end", str(events)]:
            return f"unreadable {at}"
        if at < len(lines) or last:
            return f"unreadable {at + 1}"
        return f"legal {events} {core.open_paths()}" if wrong is None else f"illegal {wrong}"
    return f"unreadable {len(lines) + 1}"


def made_up(rng):
    """A run of random legal steps, as the lines of its journal."""
    workers, drivers, paths = rng.randint(1, 3), rng.randint(0, 3), rng.randint(0, 12)
    lines, starts = [f"journal {workers} {drivers} {paths}"], []
    for _ in range(paths):
        kinds = ["pool", "done " + rng.choice(DONE)]
        if drivers:
            kinds += [f"desk {rng.randrange(drivers)} {rng.choice(['required', 'optional'])}"] * 4
        lines.append(rng.choice(kinds))
        starts.append(start_in(lines[-1].split(" "), drivers))
    core, events = Core(starts, workers, drivers), 0
    for _ in range(rng.choice([5, 60, 600])):
        words = random_event(rng, core)
        if core.step(event_in(words)):
            lines.append(" ".join(words))
            events += 1
    return lines + [f"end {events}"]


def random_event(rng, core):
    """The words of an event. Paths that are open, their own actors and good answers are more frequent than others."""
    name = rng.choice(list(SHAPES) + ["named", "redone", "listed"])
    rare = [p for p, state in enumerate(core.paths) if state[0] in ("held", "delayed", "named")]
    path = rng.choice(rare) if rare and rng.random() < 0.6 else rng.randrange(max(len(core.paths), 1))
    driver, actor = rng.randrange(max(len(core.drivers), 1)), rng.randrange(core.workers + len(core.drivers) + 1)
    if name == "close" and path < len(core.paths) and rng.random() < 0.5:
        state, start = core.paths[path], core.starts[path]
        actor = state[1] if state[0] == "held" else core.workers + start[1] if start[0] == "desk" else actor
    path, driver, actor = str(path), str(driver), str(actor)
    if name == "listed" and rng.random() < 0.5:
        return [name, driver, "names", str(rng.randint(1, 3))]
    first = driver if name in ("opened", "listed", "shut") else path
    words = [name, first]
    for place in SHAPES[name][1:]:
        if place is NUMBER:
            words.append(actor)
        else:
            words.append(rng.choice(place[:2] if rng.random() < 0.5 else place))
    if name == "answered" and rng.random() < 0.6:
        words[-1] = "delayed"
    if name == "opened" and rng.random() < 0.7:
        words[2:] = ["smudge", "delay"]
    return words


def changed(rng, lines):
    """The lines with something changed, as a text."""
    lines = list(lines)
    at, other = rng.randrange(len(lines)), rng.randrange(len(lines))
    first = 1 + int(lines[0].split(" ")[3])
    if first < len(lines) - 1 and rng.random() < 0.7:
        # lines of events
        at, other = rng.randrange(first, len(lines) - 1), rng.randrange(first, len(lines) - 1)
    kind = rng.choice(["put", "away", "doubled", "swapped", "moved", "number", "number", "word", "byte", "cut", "end"])
    if kind == "put" and first < len(lines):
        # an event, at a random place behind legal ones
        at = rng.randrange(first, len(lines))
        starts = [start_in(line.split(" "), int(lines[0].split(" ")[2])) for line in lines[1:first]]
        core = Core(starts, int(lines[0].split(" ")[1]), int(lines[0].split(" ")[2]))
        for line in lines[first:at]:
            core.step(event_in(line.split(" ")))
        lines.insert(at, " ".join(random_event(rng, core)))
    elif kind == "away":
        del lines[at]
    elif kind == "doubled":
        lines.insert(at, lines[at])
    elif kind == "swapped":
        lines[at], lines[other] = lines[other], lines[at]
    elif kind == "moved":
        lines.insert(other, lines.pop(at))
    elif kind in ("number", "word"):
        words = lines[at].split(" ")
        digits = [k for k, word in enumerate(words) if word.isdigit()]
        if kind == "number" and digits:
            k = rng.choice(digits)
            old = int(words[k])
            near = [str(old + 1), str(max(old - 1, 0))]
            words[k] = rng.choice(near * 2 + ["0" + words[k], str(MOST), str(MOST + 1), ""])
        else:
            k = rng.randrange(len(words))
            places = SHAPES.get(words[0], [])
            words[k] = rng.choice((places[k - 1] if 0 < k <= len(places) and places[k - 1] is not NUMBER
                                   else lines[other].split(" ")) + ["-", "x"])
        lines[at] = " ".join(words)
    text = "".join(line + "\n" for line in lines).encode()
    if kind in ("put", "away", "doubled") and first <= at and rng.random() < 0.8:
        # with a right end, so that the events are judged
        text = "".join(line + "\n" for line in lines[:-1] + [f"end {len(lines) - 1 - first}"]).encode()
    if kind == "byte" and text:
        k = rng.randrange(len(text))
        text = text[:k] + bytes([rng.choice(b" \n\r\t\0-09az\xff")]) + text[k + rng.randint(0, 1):]
    elif kind == "cut":
        text = text[:rng.randrange(len(text) + 1)]
    elif kind == "end":
        text += rng.choice([b"\n", b" ", b"end 0\n", b"shut 0\n"])
    return text


def main():
    program, folder, cases, seed = sys.argv[1], sys.argv[2], int(sys.argv[3]), int(sys.argv[4])
    rng = random.Random(seed)
    rehearsed = []
    for paths in (0, 1, 8, 40):
        for number in range(3):
            printed = subprocess.run([program, "R", "T", "journal", str(number), str(paths)], stdout=subprocess.PIPE, check=True)
            rehearsed.append(printed.stdout.decode().splitlines())
    name, counts = f"{folder}/journal", {}
    for case in range(cases):
        lines = rng.choice(rehearsed) if rng.random() < 0.3 else made_up(rng)
        text = "".join(line + "\n" for line in lines).encode() if rng.random() < 0.1 else changed(rng, lines)
        with open(name, "wb") as file:
            file.write(text)
        ended = subprocess.run([program, name, "-", "audit"], stdout=subprocess.PIPE)
        said, wanted = ended.stdout.decode(), judge(text) + "\n"
        word = wanted.split(" ")[0]
        counts[word] = counts.get(word, 0) + 1
        if said != wanted or ended.returncode != {"legal": 0, "illegal": 1, "unreadable": 3}[word]:
            kept = "/tmp/mutated_journal"
            with open(kept, "wb") as file:
                file.write(text)
            sys.exit(f"mutated_journals: case {case} of seed {seed}: audit says {said.strip()!r} with status "
                     f"{ended.returncode}, the judge says {wanted.strip()!r}: {kept} has the text")
    if min(counts.get(word, 0) for word in ("legal", "illegal", "unreadable")) < cases // 20:
        sys.exit(f"mutated_journals: too few of one answer: {counts}")


main()
