#!/usr/bin/env python3
"""A filter driver that writes before it reads: its greeting before the program's, and for each path the status before the
content that it is sent."""
from packets import put, spelled, spelled_content, turned, until_flush, write

put(b"git-filter-server", b"version=2")
put(b"capability=smudge")
until_flush()
until_flush()
while True:
    until_flush()
    put(b"status=success")
    write(spelled_content(turned(b"".join(until_flush()))) + spelled())
