#!/usr/bin/env python3
"""Times `flow load 1 N` for growing N, the last one 20,000. Usage: load.py [PROGRAM]"""
import resource
from timing import best, program, table

flow = program()
rows = []
for roots in (2500, 5000, 10000, 20000):
    seconds, out = best(3, [flow, "load", "1", str(roots)])
    rows.append((f"flow load 1 {roots}", seconds, out.decode().strip()))
table(rows)
print("greatest memory of a run:", resource.getrusage(resource.RUSAGE_CHILDREN).ru_maxrss // 1024, "MiB")
