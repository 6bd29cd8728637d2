#!/usr/bin/env python3
"""No clause of a contract, in any crate, is wider than 120 columns.

A clause is an `ensures` or `requires` of a `.rt` file with the lines that go on from it. Usage: widths.py
"""
import os
import re
import sys

TOP = os.path.dirname(os.path.dirname(os.path.abspath(__file__)))
WIDEST = 120


def wide_lines(path):
    """The numbers of the lines of a file that belong to a clause and are too wide."""
    found = []
    in_clause = False
    with open(path, encoding="utf-8") as lines:
        for number, line in enumerate(lines, 1):
            text = line.rstrip("\n")
            if re.match(r"\s*(ensures|requires)\b", text):
                in_clause = True
            elif re.match(r"\s*(\{$|where\b|/|#|pub |fn |\}$)", text) or not text.strip():
                in_clause = False
            if in_clause and len(text) > WIDEST:
                found.append(number)
    return found


def widths():
    """The too wide lines of each crate, as pairs of a file and a line."""
    crates = {}
    for crate in sorted(os.listdir(os.path.join(TOP, "crates"))):
        found = crates.setdefault(crate, [])
        for folder, _, files in os.walk(os.path.join(TOP, "crates", crate, "src")):
            for file in sorted(files):
                if file.endswith(".rt"):
                    path = os.path.join(folder, file)
                    found.extend((os.path.relpath(path, TOP), number) for number in wide_lines(path))
    return crates


def main():
    found = widths()
    for lines in found.values():
        for path, number in lines:
            print(f"{path}:{number}: a clause has more than {WIDEST} columns")
    failed = sum(1 for lines in found.values() if lines)
    print(f"{len(found) - failed} passed, {failed} failed")
    return failed > 0


if __name__ == "__main__":
    sys.exit(main())
