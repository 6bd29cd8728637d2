#!/usr/bin/env python3
"""Measures what docs/operations.md needs: a sync of the device, transactions a second while serving, the bytes of
a transaction and of a case, and for stores of several sizes opening, memory, CHECKPOINT, copying both files, ship
and follow.

Usage: operations.py [PROGRAM [FOLDER [SIZE..]]]

The stores that are measured lie in FOLDER (here if it is left out), so name one on the device that you want to
know about. They are filled in a folder in memory where the machine has one, since a sync costs nothing there. SIZE
is a number of transactions, 10,000, 100,000 and 1,000,000 if left out; the last takes 400 MB in FOLDER.
"""
import os
import shutil
import subprocess
import sys
import tempfile
import time

from scripts import load_script, manual_case
from timing import TOP, program

sys.path.insert(0, os.path.join(TOP, "examples"))
from client import Store  # noqa: E402

MANUAL = 20
CASES = 30


def row(name, figure, note=""):
    """A line of the table."""
    print(f"{name:<44} {figure:>14}  {note}".rstrip(), flush=True)


def measured(words, folder, data=b"", out=subprocess.DEVNULL):
    """The seconds and the greatest memory in MiB of a run; data is bytes, or an open file."""
    source = data if not isinstance(data, bytes) else subprocess.PIPE
    begin = time.perf_counter()
    process = subprocess.Popen(words, cwd=folder, stdin=source, stdout=out)
    if isinstance(data, bytes):
        process.stdin.write(data)
        process.stdin.close()
    _, status, used = os.wait4(process.pid, 0)
    process.returncode = os.waitstatus_to_exitcode(status)
    if process.returncode != 0:
        sys.exit(f"{' '.join(words)}: status {process.returncode}")
    return time.perf_counter() - begin, used.ru_maxrss / 1024


def written(path):
    """The bytes of a slot up to its last record, without the room that is written ahead."""
    with open(path, "rb") as file:
        return len(file.read().rstrip(b"\0"))


def syncing(folder):
    """How long a sync takes that has 40 bytes to write, in a file whose room is there, and in one that grows."""
    count = 1000
    for name, room in (("in a file whose room is there", 1 << 20), ("in a file that grows", 0)):
        file = os.open(os.path.join(folder, "sync"), os.O_RDWR | os.O_CREAT | os.O_TRUNC, 0o600)
        os.pwrite(file, b"\0" * room, 0)
        os.fsync(file)
        begin = time.perf_counter()
        for i in range(count):
            os.pwrite(file, b"x" * 40, 40 * i)
            os.fdatasync(file)
        seconds = (time.perf_counter() - begin) / count
        os.close(file)
        row(f"a sync {name}", f"{seconds * 1000:.3f} ms", f"at most {0.5 / seconds:,.0f} transactions a second")


def serving(flow, folder):
    """Transactions a second: of a script that is piped in, and asked one by one; and what a case takes."""
    script = load_script(300)
    Store.make("A", "B", flow, folder)
    seconds, _ = measured([flow, "run", "A", "B"], folder, script)
    row("run, a script of 2,701 transactions", f"{2701 / seconds:,.0f} a second", f"{seconds:.3f} s")
    text, commands = manual_case(MANUAL)
    Store.make("C", "D", flow, folder)
    with Store("C", "D", flow, folder) as store:
        store.import_text(text)
        begin = time.perf_counter()
        for case in range(1, CASES + 1):
            for command in commands(case):
                store.ask(command)
        seconds = time.perf_counter() - begin
        count = store.audit(1)
    done = len(count) * CASES
    row("run, asked one by one by examples/client.py", f"{done / seconds:,.0f} a second",
        f"{done} transactions, {seconds:.3f} s")
    bytes_of = written(os.path.join(folder, "C")) - len(text)
    row(f"a case of {MANUAL} manual activities", f"{len(count)} transactions",
        f"{bytes_of / CASES:,.0f} bytes, {bytes_of / done:.0f} a transaction")


def filled(flow, size, folder):
    """Fills a store with about `size` transactions, and answers how many there are."""
    roots = max(1, (size - 1) // 9)
    memory = "/dev/shm" if os.access("/dev/shm", os.W_OK) else folder
    with tempfile.TemporaryDirectory(dir=memory) as quick:
        Store.make("A", "B", flow, quick, limit=10_000_000)
        measured([flow, "run", "A", "B"], quick, load_script(roots))
        for name in ("A", "B"):
            shutil.copy(os.path.join(quick, name), os.path.join(folder, name))
    os.sync()
    return 1 + 9 * roots


def copied(folder):
    """The seconds to copy both files, with a sync of the copies."""
    begin = time.perf_counter()
    for name in ("A", "B"):
        path = os.path.join(folder, name + ".copy")
        shutil.copy(os.path.join(folder, name), path)
        with open(path, "rb+") as file:
            os.fsync(file.fileno())
    return time.perf_counter() - begin


def by_size(flow, size, folder):
    """What opening, CHECKPOINT, copying, ship and follow take for a store of about `size` transactions."""
    count = filled(flow, size, folder)
    bytes_of = written(os.path.join(folder, "A"))
    print(f"\n{count:,} transactions, {bytes_of / 1e6:.1f} MB, {bytes_of / count:.0f} bytes each")
    opening, memory = measured([flow, "run", "A", "B"], folder)
    row("opening", f"{opening:.3f} s", f"{opening / count * 1e6:.2f} microseconds a transaction")
    row("memory of an opened store", f"{memory:.0f} MiB", f"{memory * 1048576 / count:.0f} bytes a transaction")
    row("copying both files, with a sync", f"{copied(folder):.3f} s")
    stream = os.path.join(folder, "stream")
    with open(stream, "wb") as out:
        shipping, _ = measured([flow, "ship", "A", "B", "0"], folder, out=out)
    row("ship of all", f"{shipping:.3f} s", f"{os.path.getsize(stream) / 1e6:.1f} MB")
    Store.make("C", "D", flow, folder, limit=10_000_000)
    with open(stream, "rb") as data:
        following, _ = measured([flow, "follow", "C", "D"], folder, data)
    row("follow of all", f"{following:.3f} s", f"{count / following:,.0f} transactions a second")
    both, most = measured([flow, "run", "A", "B"], folder, b"CHECKPOINT\n")
    row("opening and CHECKPOINT", f"{both:.3f} s", f"CHECKPOINT about {max(0.0, both - opening):.3f} s, {most:.0f} MiB")


def main():
    flow = program()
    place = sys.argv[2] if len(sys.argv) > 2 else "."
    sizes = [int(word.replace(",", "")) for word in sys.argv[3:]] or [10_000, 100_000, 1_000_000]
    with tempfile.TemporaryDirectory(dir=place) as folder:
        syncing(folder)
        serving(flow, folder)
    for size in sizes:
        with tempfile.TemporaryDirectory(dir=place) as folder:
            by_size(flow, size, folder)


if __name__ == "__main__":
    main()
