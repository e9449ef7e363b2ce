#!/usr/bin/env python3
"""mistaken LINE KIND: a filter driver with a mistake of this kind: in its greeting (`greeting`, `version`, `silent`, `text`), or in
its answer to each path that ends in `3` (`packet`, `status`, `no-status`, `delay`, `twice`, `stranger`)."""
import sys

from packets import put, requests, spelled, turned, until_flush, whole, write

kind = sys.argv[2]
answers = {
    "packet": b"0003",
    "status": spelled(b"status=maybe"),
    "no-status": spelled(),
    "delay": spelled(b"status=delayed"),
}
until_flush()
if kind == "silent":
    sys.exit(0)
if kind == "text":
    print("Not in a Git repository.")
    sys.exit(1)
put(b"git-filter-client" if kind == "greeting" else b"git-filter-server", b"version=3" if kind == "version" else b"version=2")
until_flush()
lists = kind in ("twice", "stranger")
put(b"capability=smudge", *[b"capability=delay"] * lists)
late = {}
for keys, content in requests():
    path = keys.get(b"pathname")
    if content is None:
        put(*[b"pathname=" + name for name in late], *[b"pathname=" + (b"a stranger" if kind == "stranger" else name) for name in late])
        put(b"status=success")
    elif path in late:
        write(whole(turned(late.pop(path))))
    elif lists and path.endswith(b"3"):
        late[path] = content
        put(b"status=delayed")
    elif path.endswith(b"3"):
        write(answers[kind])
    else:
        write(whole(turned(content)))
