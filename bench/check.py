#!/usr/bin/env python3
"""Times `flow check` on 1 MiB of process text, and `tr -s ' '` on the same bytes. Usage: check.py [PROGRAM]"""
from scripts import long_text
from timing import best, program, table

flow = program()
text = long_text(1_048_576)
ours, canonical = best(5, [flow, "check"], text)
theirs, _ = best(5, ["tr", "-s", " "], text)
table([("flow check", ours, f"{len(text)} bytes in, {len(canonical)} out"),
       ("tr -s ' '", theirs, f"{ours / theirs:.1f} times its time")])
