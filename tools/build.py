#!/usr/bin/env python3
"""Proves and compiles the program: the crates that `flow_cli` stands on, by `rt ci` in a copy without the must-fail edits.

Prints a line as each crate is proved, and every half minute which ones are being proved, with how many are done and the
time so far. What an earlier run of `rt ci` on this machine proved is not proved again where nothing below it changed.
Usage: build.py
"""
import os
import re
import shutil
import subprocess
import sys
import tempfile
import threading
import time

TOP = os.path.dirname(os.path.dirname(os.path.abspath(__file__)))
PROGRAM = "flow_cli"
BUILT = os.path.join("crates", PROGRAM, "out", PROGRAM)
HALF_A_MINUTE = 30


def crates_below(program):
    """The crates that a program stands on, itself among them, each with its line of crates.txt."""
    lines = {}
    with open(os.path.join(TOP, "crates.txt"), encoding="utf-8") as file:
        for line in file:
            name, colon, _ = line.split("#")[0].partition(":")
            if colon:
                lines[name.strip()] = line.strip()
    wanted = {}
    waiting = [program]
    while waiting:
        name = waiting.pop()
        if name in lines and name not in wanted:
            wanted[name] = lines[name]
            waiting += lines[name].partition(":")[2].split()
    return wanted


def copy_crates(crates, copy):
    """Makes a repository of these crates alone."""
    os.mkdir(os.path.join(copy, ".git"))
    shutil.copy(os.path.join(TOP, "HANDLES"), copy)
    with open(os.path.join(copy, "crates.txt"), "w", encoding="utf-8") as file:
        file.writelines(line + "\n" for line in crates.values())
    for name in crates:
        shutil.copytree(os.path.join(TOP, "crates", name), os.path.join(copy, "crates", name),
                        ignore=shutil.ignore_patterns("out", "must-fail"))


def under_way(copy):
    """The crates below a copy that are being proved now."""
    found = set()
    for process in filter(str.isdigit, os.listdir("/proc")):
        try:
            folder = os.readlink(f"/proc/{process}/cwd")
        except OSError:
            continue
        if folder.startswith(os.path.join(copy, "crates") + os.sep):
            found.add(os.path.basename(folder))
    return sorted(found)


class Progress:
    """How many crates are proved, and the time so far."""

    def __init__(self, total):
        self.total = total
        self.done = set()
        self.begin = time.monotonic()

    def say(self, text):
        minutes, seconds = divmod(int(time.monotonic() - self.begin), 60)
        print(f"flow: [{len(self.done)} of {self.total}, {minutes}:{seconds:02}] {text}", flush=True)

    def read(self, line):
        """Takes a line of rt's, and tells where a crate is done."""
        found = re.match(r"rt: (\w+) (proved|is kept)", line)
        if found and found.group(1) not in self.done:
            self.done.add(found.group(1))
            earlier = " earlier on this machine" if found.group(2) == "is kept" else ""
            self.say(f"proved {found.group(1)}{earlier}")

    def tell_what_is_under_way(self, copy, ended):
        while not ended.wait(HALF_A_MINUTE):
            crates = under_way(copy)
            if crates:
                self.say("being proved: " + ", ".join(crates))


def prove(copy, progress):
    """Runs rt ci in the copy; its status, and its last lines."""
    child = subprocess.Popen(["rt", "ci"], cwd=copy, stdin=subprocess.DEVNULL, stdout=subprocess.PIPE,
                             stderr=subprocess.STDOUT, text=True)
    ended = threading.Event()
    teller = threading.Thread(target=progress.tell_what_is_under_way, args=(copy, ended), daemon=True)
    teller.start()
    last = []
    for line in child.stdout:
        progress.read(line)
        last = last[-40:] + [line]
    status = child.wait()
    ended.set()
    return status, last


def main():
    if shutil.which("rt") is None:
        sys.exit("flow: there is no rt on the path to prove and compile with")
    crates = crates_below(PROGRAM)
    progress = Progress(len(crates))
    with tempfile.TemporaryDirectory(prefix="flow-build-") as copy:
        copy_crates(crates, copy)
        status, last = prove(os.path.realpath(copy), progress)
        if status != 0:
            sys.stdout.writelines(last)
            progress.say("the program was not built")
            return 1
        os.makedirs(os.path.join(TOP, os.path.dirname(BUILT)), exist_ok=True)
        shutil.copy(os.path.join(copy, BUILT), os.path.join(TOP, BUILT))
    progress.say(f"the program is {BUILT}")
    return 0


if __name__ == "__main__":
    sys.exit(main())
