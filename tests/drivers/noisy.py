#!/usr/bin/env python3
"""A filter driver that writes 100,000 bytes on standard error for each path."""
import sys

from packets import greet, requests, turned, whole, write

greet(b"smudge")
for keys, content in requests():
    sys.stderr.write("noise " * 16666 + "done\n")
    sys.stderr.flush()
    write(whole(turned(content)))
