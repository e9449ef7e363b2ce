#!/usr/bin/env python3
"""forking [LINE [SECONDS]]: a filter driver with a child that keeps its pipes, and goes on for so long (else two seconds) after
the driver has ended. The driver ends with its input."""
import os
import sys
import time

from packets import greet, requests, turned, whole, write

parent = os.getpid()
if os.fork() == 0:
    while os.getppid() == parent:
        time.sleep(0.05)
    time.sleep(float(sys.argv[2]) if len(sys.argv) > 2 else 2)
    os._exit(0)
greet(b"smudge")
for _, content in requests():
    write(whole(turned(content)))
