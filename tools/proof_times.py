#!/usr/bin/env python3
"""Which functions of a crate take the time of its proof.

`rt check --jobs 1` in a crate's folder keeps each module that it has checked as a file below `out/incremental`. With one
job the modules are checked one behind the other, so the time between two files is what the second one took. This prints
the seconds by function, the longest first, and by what was checked: `borrows` are the proofs of lifetimes and drops.

Usage: proof_times.py CRATE [ROWS]
"""
import os
import re
import sys
from collections import Counter

TOP = os.path.dirname(os.path.dirname(os.path.abspath(__file__)))
# A longer gap is the time between two checks.
LONGEST_MODULE = 200
PARTS = {"Lts": "borrows", "Proof": "proof", "Answers": "answers", "AnswersTried": "search", "Code": "code"}


def modules(crate):
    """The checked modules of a crate, each with the time when its file was written, in this order."""
    found = []
    for folder, _, files in os.walk(os.path.join(TOP, "crates", crate, "out", "incremental")):
        if "-offers" not in folder:
            found += [(os.stat(os.path.join(folder, file)).st_mtime, file) for file in files if file.endswith(".oantt")]
    return sorted(found)


def function_and_part(file):
    """The function of which a module tells, and what it tells; other modules are named by themselves."""
    name = re.sub(r"(\.decls)?\.oantt$", "", file)
    name = re.sub(r"^Rattle-\w+[-.](proofs|specs)\.", "", name)
    function, _, last = name.rpartition(".")
    if function.endswith(".Lts"):
        return function[: -len(".Lts")], "borrows"
    # Functions that call one another have a module of borrows each.
    if last.startswith("Lts-"):
        return f"{function}, {last[len('Lts-'):]}", "borrows"
    if last in PARTS:
        return function, PARTS[last]
    return (function, "other") if last[:1].isupper() and function else (name, "other")


def seconds_of(crate):
    """The seconds by function, and those by part."""
    functions, parts = Counter(), Counter()
    found = modules(crate)
    for (before, _), (after, file) in zip(found, found[1:]):
        if after - before < LONGEST_MODULE:
            function, part = function_and_part(file)
            functions[function] += after - before
            parts[part] += after - before
    return functions, parts


def main(words):
    if not words or not os.path.isdir(os.path.join(TOP, "crates", words[0])):
        print(__doc__.strip().splitlines()[-1], file=sys.stderr)
        return 2
    functions, parts = seconds_of(words[0])
    if not functions:
        print("nothing is kept: run `rt check --jobs 1` in the crate's folder first", file=sys.stderr)
        return 1
    print("all  " + ", ".join(f"{part} {seconds:.0f} s" for part, seconds in parts.most_common()))
    for function, seconds in functions.most_common(int(words[1]) if len(words) > 1 else 20):
        print(f"{seconds:7.1f} s  {function}")
    return 0


if __name__ == "__main__":
    sys.exit(main(sys.argv[1:]))
