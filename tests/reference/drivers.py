"""What becomes of the paths of a filter driver (docs/FORMATS.md, "Filter drivers"), by a script of its behaviour.

A script is a dict: `hello` is how a session begins, `delay` whether `delay` is announced, `replies` what is answered of each
path at first, `second` what is answered when it is asked again, and `lists` the lists of a session. tests/fuzz_driver acts by it.
Of a single-run driver only `replies` count: each that isn't `content` or `delayed` is one of its ways to fail.
"""

# what a reply is, beside `content` and `delayed`: the cause, and whether the session ends, and the driver is given up
REPLIES = {
    "error": ("filter-error", False, False),
    "error-late": ("filter-error-late", False, False),
    "abort": ("filter-abort", True, True),
    "end": ("broken-ended", True, False),
    "cut": ("broken-ended", True, False),
    "packet": ("broken-packet", True, False),
    "status": ("broken-status", True, False),
}
HELLOS = {
    "ends": "broken-ended", "packet": "broken-packet", "version": "broken-handshake", "name": "broken-handshake",
}


def single_ends(script, paths):
    """The ends of the paths of a single-run driver, each `content` or the cause of a refusal."""
    given = ("content", "delayed")
    return {path: "content" if script["replies"].get(path, "content") in given else "filter-error" for path in paths}


class Talk:
    """A driver's talk: the ends of its paths, each `content`, or the cause of a refusal, or `missing`."""

    def __init__(self, script, paths):
        self.script = script
        self.ends = {}
        self.delayed = []
        self.is_open = False
        self.is_given_up = False
        for path in paths:
            self.serve(path)
        if self.is_open and self.delayed:
            self.list_all()

    def lose(self):
        """The session is over: what is delayed is lost."""
        for path in self.delayed:
            self.ends[path] = "missing"
        self.delayed = []
        self.is_open = False

    def reply(self, path, word):
        """A reply that isn't a delay. It returns whether the session goes on."""
        if word == "content":
            self.ends[path] = "content"
            return True
        cause, is_over, gives_up = REPLIES[word]
        self.ends[path] = cause
        if is_over:
            self.lose()
        self.is_given_up = self.is_given_up or gives_up
        return not is_over

    def serve(self, path):
        if self.is_given_up:
            self.ends[path] = "filter-abort"
            return
        hello = self.script["hello"]
        if not self.is_open and hello in HELLOS:
            self.ends[path] = HELLOS[hello]
            return
        self.is_open = True
        if hello == "no-smudge":
            self.ends[path] = "filter-no-smudge"
            return
        word = self.script["replies"].get(path, "content")
        if word != "delayed":
            self.reply(path, word)
        elif self.script["delay"]:
            self.delayed.append(path)
        else:
            self.ends[path] = "broken-delay"
            self.lose()

    def list_all(self):
        """The rounds of lists. Each list takes so many of the delayed paths, the last first."""
        for take in [*self.script["lists"], 0]:
            if take in ("strange", "twice", "abort", "error", "end"):
                self.lose()
                return
            names = list(reversed(self.delayed))[:take]
            if not names:
                self.lose()
                return
            for path in names:
                self.delayed.remove(path)
                word = self.script["second"].get(path, "content")
                if word == "delayed":
                    self.ends[path] = "broken-delay"
                    self.lose()
                    return
                if not self.reply(path, word):
                    return
