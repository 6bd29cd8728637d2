#!/usr/bin/env python3
"""Runs what the pages print, and compares.

  pages.py [--fill] [--only WORD] [PROGRAM]

- Blocks: each fenced block of README.md, docs/*.md and examples/**/*.md that begins with a line `$ ` is run,
  command by command, in a folder of its own for the page; blocks of one page share it, in order. `./flow` stands
  there for the program, and the repository's folders beside it. What a command prints, standard error behind
  standard output, has to be what stands below it; a line `..` stands for any number of lines.
- Sessions: a table of commands and replies behind a comment `<!-- session: FILE -->` is compared with what `flow
  try` replies to the script FILE: its rows have to stand there in their order. Words behind FILE are given to `try`.
- Rules: the texts of the table of rules in docs/language.md, with their answers.
- Examples: each `script.txt` under examples/ with its `replies.txt`, and the texts of `fate`.
- Paths: each file or folder that a page names in code marks is there, and each that it links to; in the pages at
  the top and those of the crates too.
- Patterns: each `NAME.txt` of examples/patterns/ with the rows in `NAME.rows`.

PROGRAM is crates/flow_cli/out/flow_cli where it is left out. --only runs the parts whose names have a word in
them. --fill writes what came into the blocks that differ, for whoever writes a page; look at it before you keep
it. The last line is `N passed, M failed`. Standard library only.
"""
from __future__ import annotations

import argparse
import os
import re
import subprocess
import sys
import tempfile
from collections.abc import Callable, Iterator
from dataclasses import dataclass, field
from pathlib import Path

TOP = Path(__file__).resolve().parent.parent
sys.path.insert(0, str(TOP / "examples"))
sys.dont_write_bytecode = True

from client import lines_behind  # noqa: E402

SECONDS = 120


@dataclass
class Results:
    """What passed, and what failed: each failure with what was wanted and what came."""
    passed: int = 0
    failures: list[str] = field(default_factory=list)

    def compare(self, name: str, wanted: list[str], got: list[str]) -> bool:
        """Counts a comparison; prints it where it fails. `..` in what is wanted stands for any lines."""
        if fits(wanted, got):
            self.passed += 1
            return True
        self.failures.append(name)
        print(f"FAILED {name}")
        print("  wanted: " + "\n          ".join(wanted))
        print("  got:    " + "\n          ".join(got))
        return False


def fits(wanted: list[str], got: list[str]) -> bool:
    """Whether the lines are those that are wanted, where a line `..` stands for any number of lines."""
    parts = ["(?:[^\n]*\n)*?" if line == ".." else re.escape(line) + "\n" for line in wanted]
    return re.fullmatch("".join(parts), "".join(line + "\n" for line in got)) is not None


def run(words: list[str], folder: Path, data: bytes = b"") -> list[str]:
    """The lines that a command prints: standard output, then standard error."""
    surroundings = {**os.environ, "PYTHONDONTWRITEBYTECODE": "1", "LC_ALL": "C.UTF-8"}
    done = subprocess.run(words, cwd=folder, input=data, capture_output=True, timeout=SECONDS, check=False,
                          env=surroundings)
    return (done.stdout + done.stderr).decode("utf-8", "replace").splitlines()


# ---- blocks


@dataclass
class Command:
    """A command of a block: where it stands in its page, its own lines, and the lines that it has to print."""
    line: int
    text: list[str]
    wanted: list[str]


def blocks(page: list[str]) -> Iterator[tuple[int, int]]:
    """The first line of each fenced block, and the line behind its last."""
    begin = None
    for at, line in enumerate(page):
        if line.startswith("```"):
            if begin is None:
                begin = at + 1
            else:
                yield begin, at
                begin = None


def commands(page: list[str], begin: int, end: int) -> Iterator[Command]:
    """The commands of a block that begins with `$ `. A command goes on to the end of its here-document."""
    at = begin
    while at < end:
        text = [page[at][2:]]
        line = at
        word = re.search(r"<<-?'?([A-Z]+)'?", page[at])
        at += 1
        while word and at < end and text[-1] != word.group(1):
            text.append(page[at])
            at += 1
        wanted = []
        while at < end and not page[at].startswith("$ "):
            wanted.append(page[at])
            at += 1
        yield Command(line, text, wanted)


def make_folder(folder: Path, program: Path) -> None:
    """The program, and the repository's folders, as a reader at the top of the repository has them."""
    (folder / "flow").symlink_to(program)
    for name in ("README.md", "examples", "bench", "docs", "tests", "crates.txt"):
        if (TOP / name).exists():
            (folder / name).symlink_to(TOP / name)


def check_page(path: Path, program: Path, results: Results, is_filled: bool) -> None:
    """Runs the blocks of a page. Where it is to be filled, what came replaces what was wanted."""
    page = path.read_text(encoding="utf-8").split("\n")
    changes: list[tuple[Command, list[str]]] = []
    with tempfile.TemporaryDirectory() as name:
        folder = Path(name)
        make_folder(folder, program)
        for begin, end in blocks(page):
            if begin == end or not page[begin].startswith("$ "):
                continue
            for command in commands(page, begin, end):
                got = run(["bash", "-c", "\n".join(command.text) + "\n"], folder)
                label = f"{path.relative_to(TOP)}:{command.line + 1} $ {command.text[0]}"
                if not results.compare(label, command.wanted, got) and is_filled:
                    changes.append((command, got))
    for command, got in reversed(changes):
        first = command.line + len(command.text)
        page[first:first + len(command.wanted)] = got
    if changes:
        path.write_text("\n".join(page), encoding="utf-8")


# ---- sessions


def replies_of(script: list[str], replies: list[str]) -> list[tuple[str, list[str]]]:
    """Each command of a script with the lines of its reply. An import has one, at its end."""
    pairs, at, is_inside = [], 0, False
    for line in script:
        if is_inside and line.strip() != ".":
            continue
        if re.sub(r"/\*.*?\*/", "", line).strip() == "":
            continue
        if line == "IMPORT":
            is_inside = True
            continue
        is_inside = False
        count = 1 + (lines_behind(replies[at]) if at < len(replies) else 0)
        pairs.append((line, replies[at:at + count]))
        at += count
    return pairs


def spans(cell: str) -> list[str] | None:
    """The code spans of a cell; None where there is more in it than spans and commas."""
    found = re.findall(r"`([^`]*)`", cell)
    return found if found and re.sub(r"`[^`]*`", "", cell).strip(" ,") == "" else None


def rows_behind(page: list[str], at: int) -> Iterator[tuple[int, list[str]]]:
    """The rows of the first table behind a line, each with its line and its cells; the head is left out."""
    while at < len(page) and not page[at].startswith("|"):
        at += 1
    at += 2
    while at < len(page) and page[at].startswith("|"):
        yield at, [cell.strip() for cell in re.split(r"(?<!\\)\|", page[at])[1:-1]]
        at += 1


def check_sessions(path: Path, program: Path, results: Results) -> None:
    """Compares the tables of a page that name a session with what the program replies to it."""
    page = path.read_text(encoding="utf-8").split("\n")
    for at, line in enumerate(page):
        named = re.fullmatch(r"<!-- session: (\S+)( .*)? -->", line)
        if not named:
            continue
        script = (TOP / named.group(1)).read_text(encoding="utf-8")
        words = [str(program), "try", *(named.group(2) or "").split()]
        pairs = replies_of(script.splitlines(), run(words, TOP, script.encode()))
        for row, cells in rows_behind(page, at):
            asked, answered = spans(cells[0]), spans(cells[1])
            if asked is None or answered is None:
                continue
            while pairs and pairs[0][0] != asked[0]:
                pairs.pop(0)
            got = [line for _, reply in pairs[:len(asked)] for line in reply]
            del pairs[:len(asked)]
            results.compare(f"{path.relative_to(TOP)}:{row + 1} {asked[0]}", answered, got)


# ---- the table of rules

FRAME = ["STRUCTURE 'N' 'n' : LONG ; 's' : STRING ; END 'N'", "PROCESS 'P' ('N','N')",
         "PROGRAM_ACTIVITY 'A' ('N','N') {}END 'A'", "PROGRAM_ACTIVITY 'B' ('N','N') {}END 'B'"]
ENDED = "END 'P'"


def chain(count: int, calls: int) -> list[str]:
    """A chain of `count` processes; each but the first calls the one before it `calls` times. The first has 3 lines,
    the others 2 + calls."""
    lines = [FRAME[0], "PROCESS 'P0' ('N','N')", "PROGRAM_ACTIVITY 'A' ('N','N') END 'A'", "END 'P0'"]
    for i in range(1, count):
        lines += [f"PROCESS 'P{i}' ('N','N')"]
        lines += [f"PROCESS_ACTIVITY 'A{k}' ('N','N') PROCESS 'P{i - 1}' END 'A{k}'" for k in range(calls)]
        lines += [f"END 'P{i}'"]
    return lines


def many_processes(count: int) -> list[str]:
    """A structure, and `count` processes, one on each line."""
    return [FRAME[0]] + [f"PROCESS 'P{i}' ('N','N') PROGRAM_ACTIVITY 'A' ('N','N') END 'A' END 'P{i}'"
                         for i in range(count)]


def rule_text(rule: int, cell: str, page: list[str]) -> list[str]:
    """The text that a row of the table of rules describes."""
    found = re.findall(r"`([^`]*)`", cell)
    generated: dict[int, Callable[[], list[str]]] = {
        18: lambda: page[page.index("The text of rule 18:") + 3:][:8], 21: lambda: chain(18, 1),
        22: lambda: chain(6, 10), 24: lambda: many_processes(257)}
    if rule in generated:
        return generated[rule]()
    if found[0] in ("A", "B"):
        attributes = {found[0]: found[1] + " "}
        return FRAME[:2] + [line.format(attributes.get(name, "")) for name, line in zip("AB", FRAME[2:])] \
            + (found[2:3] if rule == 20 else []) + [ENDED]
    if cell.startswith("the structure"):
        return [FRAME[0]] + found
    if 9 <= rule <= 16:
        return [line.format("") for line in FRAME] + found + [ENDED]
    return found * 2 if "twice" in cell else found


def check_rules(program: Path, results: Results) -> None:
    """The texts of the table of rules, and their answers."""
    path = TOP / "docs" / "language.md"
    page = path.read_text(encoding="utf-8").split("\n")
    head = next(at for at, line in enumerate(page) if line.startswith("| Rule |"))
    for row, cells in rows_behind(page, head):
        text = "\n".join(rule_text(int(cells[0]), cells[2], page)) + "\n"
        got = run([str(program), "check"], TOP, text.encode())
        results.compare(f"docs/language.md:{row + 1} rule {cells[0]}", spans(cells[3]) or [], got[:1])


# ---- examples and patterns


def check_examples(program: Path, results: Results) -> None:
    """The scripts with their replies, and the texts of `fate` with their rows."""
    for script in sorted(TOP.glob("examples/*/script.txt")):
        got = run([str(program), "try"], TOP, script.read_bytes())
        wanted = script.with_name("replies.txt").read_text(encoding="ascii").splitlines()
        results.compare(str(script.relative_to(TOP)), wanted, got)
    for wanted_file in sorted(TOP.glob("examples/fate/*.out")) + sorted(TOP.glob("examples/patterns/*.rows")):
        text = wanted_file.with_suffix(".txt")
        got = run([str(program), "fate"], TOP, text.read_bytes())
        results.compare(str(text.relative_to(TOP)), wanted_file.read_text(encoding="ascii").splitlines(), got)


PATH = re.compile(r"`((?:docs|examples|bench|tests|crates)/[A-Za-z0-9_./-]*[A-Za-z0-9_-]/?)(?: [^`]*)?`")


LINK = re.compile(r"\]\(([^)#:]+)(?:#[^)]*)?\)")


def named_paths(path: Path, line: str) -> Iterator[tuple[str, Path]]:
    """The files and folders that a line of a page names, and where they should be. What a build makes (out/) and
    patterns of names are left out."""
    for name in PATH.findall(line):
        if "NAME" not in name and "/out/" not in name:
            yield name, TOP / name
    for name in LINK.findall(line):
        yield name, path.parent / name


def check_paths(path: Path, results: Results) -> None:
    """The files and folders that a page names are there."""
    for at, line in enumerate(path.read_text(encoding="utf-8").split("\n")):
        for name, place in named_paths(path, line):
            there = name if place.exists() else "no such file"
            results.compare(f"{path.relative_to(TOP)}:{at + 1} names {name}", [name], [there])


def check_pattern_names(results: Results) -> None:
    """Each text of examples/patterns/ has its rows, and is named on the page of patterns; and the other way round."""
    page = TOP / "docs" / "patterns.md"
    if not page.exists():
        return
    there = sorted(path.stem for path in TOP.glob("examples/patterns/*.txt"))
    rows = sorted(path.stem for path in TOP.glob("examples/patterns/*.rows"))
    named = sorted(set(re.findall(r"examples/patterns/([a-z_]+)\.txt", page.read_text(encoding="utf-8"))))
    results.compare("examples/patterns: each text has its rows", there, rows)
    results.compare("docs/patterns.md: names each text", there, named)


def main() -> None:
    parser = argparse.ArgumentParser(description="Runs what the pages print, and compares.")
    parser.add_argument("program", nargs="?", default=TOP / "crates" / "flow_cli" / "out" / "flow_cli")
    parser.add_argument("--fill", action="store_true", help="write what came into the blocks that differ")
    parser.add_argument("--only", default="", help="run the parts with this word in their names")
    words = parser.parse_args()
    program = Path(words.program).resolve()
    if not os.access(program, os.X_OK):
        sys.exit(f"pages.py: no program at {program}; ./flow build makes it, or name one")
    results = Results()
    parts: list[tuple[str, Callable[[], None]]] = []
    for path in [TOP / "README.md"] + sorted(TOP.glob("docs/*.md")) + sorted(TOP.glob("examples/**/*.md")):
        name = str(path.relative_to(TOP))
        parts.append((name, lambda path=path: check_page(path, program, results, words.fill)))
        parts.append((name, lambda path=path: check_sessions(path, program, results)))
        parts.append((name, lambda path=path: check_paths(path, results)))
    for path in sorted(TOP.glob("C*.md")) + sorted(TOP.glob("crates/*/README.md")):
        parts.append((str(path.relative_to(TOP)), lambda path=path: check_paths(path, results)))
    parts += [("rules", lambda: check_rules(program, results)),
              ("examples", lambda: check_examples(program, results)),
              ("patterns", lambda: check_pattern_names(results))]
    for name, part in parts:
        if words.only in name:
            part()
    print(f"{results.passed} passed, {len(results.failures)} failed")
    sys.exit(1 if results.failures else 0)


if __name__ == "__main__":
    main()
