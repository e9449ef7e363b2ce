#!/usr/bin/env python3
"""stalling [LINE [SECONDS]]: a filter driver that waits so long (else half a second) in the middle of an answer, at each path
that ends in `3`, and then goes on."""
import sys
import time

from packets import greet, requests, turned, whole, write

seconds = float(sys.argv[2]) if len(sys.argv) > 2 else 0.5
greet(b"smudge")
for keys, content in requests():
    answer = whole(turned(content))
    if keys[b"pathname"].endswith(b"3"):
        write(answer[: len(answer) // 2])
        time.sleep(seconds)
        answer = answer[len(answer) // 2 :]
    write(answer)
