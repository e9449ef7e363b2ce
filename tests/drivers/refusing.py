#!/usr/bin/env python3
"""A filter driver that refuses each path that ends in `3`, at once."""
from packets import greet, put, requests, turned, whole, write

greet(b"smudge")
for keys, content in requests():
    if keys[b"pathname"].endswith(b"3"):
        put(b"status=error")
    else:
        write(whole(turned(content)))
