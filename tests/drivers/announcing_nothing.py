#!/usr/bin/env python3
"""A filter driver that can do nothing: it announces no capability."""
from packets import greet, requests

greet()
for _ in requests():
    raise SystemExit("it was asked for something all the same")
