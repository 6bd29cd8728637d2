#!/usr/bin/env python3
"""What the pages promise is in the sources: the calls and clauses of each crate's README, and the definitions that are quoted.

- In `crates/NAME/README.md` each row of the table under "Promises" names calls and clauses: each call is a function of
  the crate, and each clause an `ensures` of one of the calls of its row.
- In `crates/NAME/README.md` each test that is named under "Tested only" is one of some crate, and a number of tests
  that is said there is the crate's own.
- In `docs/*.md` each block of ```antt follows a line "In `crates/..`:", and each of its lines stands in that file.
- Each path below `crates/` that a page names is there.

Usage: promises.py
"""
import glob
import os
import re
import sys

TOP = os.path.dirname(os.path.dirname(os.path.abspath(__file__)))


def text_of(path):
    with open(os.path.join(TOP, path), encoding="utf-8") as file:
        return file.read()


def clauses_of(crate):
    """The names of the clauses of each function of a crate."""
    found = {}
    for folder, _, files in os.walk(os.path.join(TOP, "crates", crate, "src")):
        for file in files:
            if file.endswith(".rt"):
                read_clauses(text_of(os.path.join(folder, file)), found)
    return found


def read_clauses(text, found):
    """Adds the clauses of the functions in a text."""
    function = None
    for line in text.splitlines():
        begins = re.match(r"\s*(?:pub(?:\(\w+\))? )?(?:final |const )?fn (\w+)", line)
        clause = re.match(r"\s*ensures (\w+) \{", line)
        if begins:
            function = found.setdefault(begins.group(1), set())
        elif clause and function is not None:
            function.add(clause.group(1))


def rows_of(readme):
    """The cells with calls and with clauses, of each row under "Promises"."""
    section = readme.partition("## Promises")[2].partition("\n## ")[0]
    for line in section.splitlines():
        cells = [cell.strip() for cell in re.split(r"(?<!\\)\|", line)[1:-1]]
        if len(cells) == 3 and cells[0].startswith("`"):
            yield re.findall(r"`([^`]+)`", cells[0]), re.findall(r"`([^`]+)`", cells[1])


def wrong_promises(crate):
    """What the README of a crate names that its sources don't have."""
    readme = os.path.join("crates", crate, "README.md")
    if not os.path.exists(os.path.join(TOP, readme)):
        return [f"{readme}: is missing"]
    text = text_of(readme)
    wrong = [f"{readme}: has no heading {heading}"
             for heading in ("Question", "Begin with", "Promises", "Tested only", "Open", "Limits")
             if f"\n## {heading}\n" not in text]
    functions = clauses_of(crate)
    for calls, clauses in rows_of(text):
        names = [call.split("::")[-1].split("(")[0] for call in calls]
        wrong += [f"{readme}: {name} is no function of the crate" for name in names if name not in functions]
        has = set().union(*(functions.get(name, set()) for name in names))
        wrong += [f"{readme}: {', '.join(names)} has no clause {clause}" for clause in clauses if clause not in has]
    return wrong


def tests_of(crate):
    """The names of the tests of a crate."""
    sources = sorted(glob.glob(os.path.join(TOP, "crates", crate, "src", "*.rt")))
    return {name for path in sources for name in re.findall(r"#\[test\]\s*fn (\w+)", text_of(path))}


def wrong_tests(crate, tests):
    """The tests that the README of a crate names or counts and that aren't there; `tests` has those of each crate."""
    readme = os.path.join("crates", crate, "README.md")
    section = text_of(readme).partition("## Tested only")[2].partition("\n## ")[0]
    known = set(tests).union(*tests.values())
    wrong = [f"{readme}: {name} is no test" for name in re.findall(r"`(\w+)`", section) if name not in known]
    said = re.search(r"(\d+) tests", section)
    if said and int(said.group(1)) != len(tests[crate]):
        wrong.append(f"{readme}: says {said.group(1)} tests, has {len(tests[crate])}")
    return wrong


def wrong_quotes(page):
    """The lines that a page quotes and that don't stand where it says."""
    wrong = []
    blocks = re.findall(r"In `(crates/[^`]+)`:\n\n```antt\n(.*?)```", text_of(page), re.S)
    if len(blocks) != text_of(page).count("```antt"):
        wrong.append(f"{page}: a quoted definition doesn't say where it stands")
    for path, quoted in blocks:
        lines = set(text_of(path).splitlines())
        wrong += [f"{page}: {path} has no line {line!r}" for line in quoted.splitlines() if line and line not in lines]
    return wrong


def wrong_paths(page):
    """The paths below crates/ that a page names and that aren't there."""
    named = {path for path in re.findall(r"`(crates/[\w/.]+)`", text_of(page)) if "/out/" not in path and "NAME" not in path}
    return [f"{page}: {path} is not there" for path in sorted(named) if not os.path.exists(os.path.join(TOP, path))]


def pages():
    names = ["README.md", "CONTRIBUTING.md", "CHANGELOG.md"]
    names += sorted("docs/" + name for name in os.listdir(os.path.join(TOP, "docs")) if name.endswith(".md"))
    return names


def main():
    crates = sorted(os.listdir(os.path.join(TOP, "crates")))
    tests = {crate: tests_of(crate) for crate in crates}
    trials = {f"promises of {crate}": wrong_promises(crate) + wrong_tests(crate, tests) for crate in crates}
    for page in pages():
        trials[f"quotes and paths of {page}"] = wrong_quotes(page) + wrong_paths(page)
    for wrong in trials.values():
        for line in wrong:
            print(line)
    failed = sum(1 for wrong in trials.values() if wrong)
    print(f"{len(trials) - failed} passed, {failed} failed")
    return failed > 0


if __name__ == "__main__":
    sys.exit(main())
