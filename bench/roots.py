#!/usr/bin/env python3
"""Times commands on one root beside many others, long graphs, and deletions. Usage: roots.py [PROGRAM]"""
from scripts import one_root_beside, path_of, fan_of, run_through, deletions
from timing import best, program, table

WORDS = ["try", "LIMIT", "10000000", "QUEUES", "4"]
flow = program()


def behind(start, rest):
    """The seconds that the rest of a script takes beyond its start, and what the last run prints."""
    before, _ = best(5, [flow, *WORDS], start)
    whole, out = best(5, [flow, *WORDS], start + rest)
    return max(0.0, whole - before), out


def last_line(out, word):
    """The last line of a reply that begins with these words."""
    return [line for line in out.decode().splitlines() if line.startswith(word)][-1]


rows = []
for others in (1, 20000):
    start = one_root_beside(others)
    for name, line in (("WORKLIST of ten lines", "WORKLIST 'bob'"), ("SHOW of one root", "SHOW 1")):
        seconds, out = behind(start, f"{line}\n".encode() * 2000)
        rows.append((f"2000 x {name}, beside {others}", seconds, last_line(out, "ok")))
for name, connectors in (("chain of 1024", path_of(1024)), ("fan of 1023", fan_of(1023))):
    seconds, out = best(3, [flow, *WORDS], run_through(1024, connectors))
    rows.append((name, seconds, last_line(out, "ok SHOW")))
seconds, out = behind(*deletions(2000))
rows.append(("DELETE of 2000 roots", seconds, last_line(out, "ok")))
table(rows)
