#!/usr/bin/env python3
"""Words of a reading path have one meaning: no two crates define the same name for different things.

A name of a definition in `specs/` that is defined by more than one crate is a failure, but for those in
`tests/words.txt`, a table that may only shrink. Usage: words.py
"""
import collections
import os
import re
import sys

TOP = os.path.dirname(os.path.dirname(os.path.abspath(__file__)))
TABLE = os.path.join(TOP, "tests", "words.txt")


def definitions(crate):
    """The public names that the specs of a crate define."""
    names = set()
    for folder, _, files in os.walk(os.path.join(TOP, "crates", crate, "specs")):
        for file in files:
            if file.endswith(".antt"):
                with open(os.path.join(folder, file), encoding="utf-8") as lines:
                    for line in lines:
                        found = re.match(r"(?:abbrev pub|pub record|pub data) ([\w-]+)", line)
                        if found:
                            names.add(found.group(1))
    return names


def several():
    """Each name that several crates define, with these crates."""
    places = collections.defaultdict(list)
    for crate in sorted(os.listdir(os.path.join(TOP, "crates"))):
        for name in definitions(crate):
            places[name].append(crate)
    return {name: crates for name, crates in places.items() if len(crates) > 1}


def allowed():
    """The names that may still have several meanings, with their crates."""
    with open(TABLE, encoding="utf-8") as lines:
        rows = [line.split() for line in lines if line.strip() and not line.startswith("#")]
    return {row[0]: row[1:] for row in rows}


def main():
    found, table = several(), allowed()
    failed = 0
    for name in sorted(set(found) | set(table)):
        if found.get(name, []) != table.get(name, []):
            failed += 1
            print(f"{name}: defined in {', '.join(found.get(name, [])) or 'one crate'};"
                  f" the table has {', '.join(table.get(name, [])) or 'nothing'}")
    passed = len(set(found) | set(table)) - failed
    print(f"{passed} passed, {failed} failed")
    return failed > 0


if __name__ == "__main__":
    sys.exit(main())
