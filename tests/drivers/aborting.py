#!/usr/bin/env python3
"""A filter driver that aborts at the first path that ends in `3`."""
from packets import greet, put, requests, turned, whole, write

greet(b"smudge")
for keys, content in requests():
    if keys[b"pathname"].endswith(b"3"):
        put(b"status=abort")
    else:
        write(whole(turned(content)))
