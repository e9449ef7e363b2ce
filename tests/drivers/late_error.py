#!/usr/bin/env python3
"""A filter driver that gives half of a content, and then an error, for each path that ends in `3`."""
from packets import greet, requests, spelled, spelled_content, turned, whole, write

greet(b"smudge")
for keys, content in requests():
    if keys[b"pathname"].endswith(b"3"):
        half = turned(content)[: len(content) // 2]
        write(spelled(b"status=success") + spelled_content(half) + spelled(b"status=error"))
    else:
        write(whole(turned(content)))
