"""What the benchmarks share: the path of the program, a timed run, and a plain table. Standard library only."""
import os
import subprocess
import sys
import time

TOP = os.path.dirname(os.path.dirname(os.path.abspath(__file__)))
USUAL = os.path.join(TOP, "crates", "flow_cli", "out", "flow_cli")


def program():
    """The path of the program: the first word, or the usual place."""
    path = os.path.abspath(sys.argv[1] if len(sys.argv) > 1 else USUAL)
    if not os.access(path, os.X_OK):
        sys.exit(f"{sys.argv[0]}: no program at {path}; ./flow build makes it, or name one")
    return path


def timed(words, data=b"", folder=None, wanted=(0,)):
    """The seconds that a run takes, and what it prints."""
    begin = time.perf_counter()
    done = subprocess.run(words, input=data, stdout=subprocess.PIPE, cwd=folder)
    seconds = time.perf_counter() - begin
    if done.returncode not in wanted:
        sys.exit(f"{' '.join(words)}: status {done.returncode}: {done.stdout[:200]!r}")
    return seconds, done.stdout


def best(times, words, data=b"", folder=None, wanted=(0,)):
    """The least of several runs, and what the last one prints."""
    runs = [timed(words, data, folder, wanted) for _ in range(times)]
    return min(run[0] for run in runs), runs[-1][1]


def table(rows):
    """Prints rows of a name, seconds and a note."""
    width = max(len(row[0]) for row in rows)
    for name, seconds, note in rows:
        print(f"{name:<{width}}  {seconds:9.3f} s  {note}")
