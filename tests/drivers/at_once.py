#!/usr/bin/env python3
"""A filter driver that answers each path at once."""
from packets import greet, requests, turned, whole, write

greet(b"smudge")
for _, content in requests():
    write(whole(turned(content)))
