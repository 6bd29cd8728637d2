#!/usr/bin/env python3
"""Times `flow run A B` on scripts of 600 and of 3,000 roots, beside the writes and syncs alone that they ask for: two
syncs a transaction, each after a write to one file. One floor syncs whole files that grow (fsync), the other the bytes
alone of a file whose room is there (fdatasync). The three take turns. Of the longer script all but the first 65,536
bytes have room that was written ahead. Then a CHECKPOINT, and reopening. Usage: run.py [PROGRAM [FOLDER]]"""
import os
import sys
import tempfile
import time

from scripts import load_script
from timing import program, table, timed

SCRIPTS = (600, 3000)
TURNS = 3


def transactions(roots):
    """The transactions of a script: an IMPORT, and nine a root."""
    return 1 + 9 * roots


def floor(folder, sync, room, size, count):
    """The seconds for so many transactions of so many bytes: a record behind a closed gate, then its gate."""
    path = os.path.join(folder, "floor")
    file = os.open(path, os.O_RDWR | os.O_CREAT | os.O_TRUNC, 0o600)
    os.pwrite(file, bytes(room), 0)
    os.fsync(file)
    begin = time.perf_counter()
    for i in range(count):
        os.pwrite(file, b"x" * (size - 1) + b"\0", size * i + 1)
        sync(file)
        os.pwrite(file, b"\1", size * i)
        sync(file)
    seconds = time.perf_counter() - begin
    os.close(file)
    os.remove(path)
    return seconds


def served(flow, folder, roots):
    """The seconds that a new store takes to serve a script, and the bytes of a transaction."""
    for name in ("A", "B"):
        if os.path.exists(os.path.join(folder, name)):
            os.remove(os.path.join(folder, name))
    timed([flow, "new", "A", "B"], folder=folder)
    seconds, _ = timed([flow, "run", "A", "B"], load_script(roots), folder)
    with open(os.path.join(folder, "A"), "rb") as file:
        return seconds, len(file.read().rstrip(b"\0")) // transactions(roots)


def beside_floors(flow, folder, roots):
    """The rows of one script: its time, and the rates of the floors."""
    runs, grown, roomy = [], [], []
    count = transactions(roots)
    for _ in range(TURNS):
        seconds, size = served(flow, folder, roots)
        runs.append(seconds)
        grown.append(floor(folder, os.fsync, 0, size, count))
        roomy.append(floor(folder, os.fdatasync, size * count + 4096, size, count))
    run, fsyncs, fdatasyncs = min(runs), min(grown), min(roomy)
    return [(f"flow run, {roots} roots", run, f"{count} transactions, {size} bytes each"),
            ("two fsyncs a transaction", fsyncs, f"run has {fsyncs / run:.2f} times the rate"),
            ("two fdatasyncs, room there", fdatasyncs, f"run has {fdatasyncs / run:.2f} times the rate")]


flow = program()
with tempfile.TemporaryDirectory(dir=sys.argv[2] if len(sys.argv) > 2 else ".") as folder:
    rows = [row for roots in SCRIPTS for row in beside_floors(flow, folder, roots)]
    again, _ = timed([flow, "run", "A", "B"], folder=folder)
    check, _ = timed([flow, "run", "A", "B"], b"CHECKPOINT\n", folder)
    table([*rows,
           ("reopening", again, f"{os.path.getsize(os.path.join(folder, 'A'))} bytes in A"),
           ("reopening and CHECKPOINT", check, f"{os.path.getsize(os.path.join(folder, 'B'))} bytes in B")])
