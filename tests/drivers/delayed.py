#!/usr/bin/env python3
"""delayed [LINE [NUMBER]]: a filter driver that delays each path, and then lists so many at a time (else seven), the last
first."""
import sys

from packets import greet, put, requests, turned, whole, write

number = int(sys.argv[2]) if len(sys.argv) > 2 else 7
late, listed = [], {}
greet(b"smudge", b"delay")
for keys, content in requests():
    if content is None:
        listed = dict(late.pop() for _ in range(min(number, len(late))))
        put(*[b"pathname=" + path for path in listed])
        put(b"status=success")
    elif b"can-delay" in keys:
        late.append((keys[b"pathname"], content))
        put(b"status=delayed")
    else:
        write(whole(turned(listed.pop(keys[b"pathname"]))))
