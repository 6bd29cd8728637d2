#!/usr/bin/env python3
"""Times reading lines: a script of 200,000 comments of 100 bytes, and one of 300 lines of 65,536 bytes, none of
which has a reply. Usage: lines.py [PROGRAM]"""
from timing import best, program, table

flow = program()
short = (b"/*" + b"x" * 96 + b"*/\n") * 200_000
long = (b"/*" + b"x" * 65_532 + b"*/\n") * 300
rows = []
for name, script in (("short lines", short), ("long lines", long)):
    seconds, _ = best(3, [flow, "try"], script)
    rows.append((name, seconds, f"{len(script) / seconds / 1e6:.0f} MB/s"))
table(rows)
