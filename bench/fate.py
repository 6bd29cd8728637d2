#!/usr/bin/env python3
"""Times `flow fate` on 1,024 activities, 4,096 connectors and 1,024 completions. Usage: fate.py [PROGRAM]"""
from scripts import wide_text
from timing import best, program, table

flow = program()
text = wide_text()
seconds, out = best(5, [flow, "fate"], text)
table([("flow fate", seconds, out.split(b"\n")[0].decode())])
