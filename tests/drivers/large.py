#!/usr/bin/env python3
"""A filter driver that answers each path that ends in `3` with 64 MiB."""
from packets import greet, requests, turned, whole, write

greet(b"smudge")
for keys, content in requests():
    content = turned(content) or b"?"
    if keys[b"pathname"].endswith(b"3"):
        content = (content * (2**26 // len(content) + 1))[: 2**26]
    write(whole(content))
