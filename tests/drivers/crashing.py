#!/usr/bin/env python3
"""A filter driver that dies in the middle of a packet, at each path that ends in `3`."""
import os
import signal

from packets import greet, requests, turned, whole, write

greet(b"smudge")
for keys, content in requests():
    answer = whole(turned(content))
    if keys[b"pathname"].endswith(b"3"):
        write(answer[:-20])
        os.kill(os.getpid(), signal.SIGKILL)
    write(answer)
