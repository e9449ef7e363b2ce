#!/usr/bin/env python3
"""A filter driver that writes each byte by itself."""
import os

from packets import requests, spelled, turned, until_flush, whole


def trickle(text):
    for byte in text:
        os.write(1, bytes([byte]))


until_flush()
trickle(spelled(b"git-filter-server", b"version=2"))
until_flush()
trickle(spelled(b"capability=smudge"))
for _, content in requests():
    trickle(whole(turned(content)))
