#!/usr/bin/env python3
"""Compares what `try` shows of a root with what `fate` gives from its completions alone. Usage: agreement.py [PROGRAM]

Each trial makes a random process with blocks and a subprocess in it, starts it, and completes one ready item after the
other, chosen at random. After each completion every row of SHOW that is settled, taken before the queues are drained,
has to be one of `fate`, and once they are empty all rows have to be the same; so has the output at the end. A failure
prints the script, what was wanted and what came. The last line is `N passed, M failed`. PROGRAM is
crates/flow_cli/out/flow_cli where it is left out. Standard library only.
"""
from __future__ import annotations

import random
import subprocess
import sys
from dataclasses import dataclass, field
from pathlib import Path

TOP = Path(__file__).resolve().parent.parent
TRIALS = 60
MOST_COMPLETIONS = 16
HEAD = """STRUCTURE 'N' 'n' : LONG ; 's' : STRING ; END 'N'
PERSON 'ann' END 'ann'
"""


def condition(rng: random.Random) -> str:
    """A condition on an output."""
    if rng.random() < 0.3:
        return f"'s' {rng.choice(['=', '<>', '<'])} \"{rng.choice(['', 'a', 'b'])}\""
    side = rng.choice(["'n'", "'_RC'", "'n' + '_RC'"])
    return f"{side} {rng.choice(['<', '>=', '='])} {rng.randint(0, 3)}"


def activity(rng: random.Random, name: str, incoming: int, depth: int) -> str:
    """An activity of a graph: a program, a block or a subprocess."""
    join = " WHEN AT_LEAST_ONE CONNECTOR TRUE" if incoming and rng.random() < 0.5 else ""
    leave = f" EXIT WHEN ({condition(rng)})" if rng.random() < 0.25 else ""
    kind = rng.random()
    if depth and kind < 0.25:
        return f"BLOCK '{name}' ('N','N'){join}{leave}\n{graph(rng, name, depth - 1)}END '{name}'\n"
    if depth > 1 and kind < 0.4:
        return f"PROCESS_ACTIVITY '{name}' ('N','N') PROCESS 'Q'{join}{leave} END '{name}'\n"
    return f"PROGRAM_ACTIVITY '{name}' ('N','N'){join}{leave} END '{name}'\n"


def transitions(rng: random.Random, count: int) -> list[str]:
    """What the connectors from an activity say of their conditions; beside an OTHERWISE each has one."""
    other = rng.randrange(count) if count > 1 and rng.random() < 0.5 else None
    said = []
    for place in range(count):
        if place == other:
            said.append(" OTHERWISE")
        else:
            said.append(f" WHEN ({condition(rng)})" if other is not None or rng.random() < 0.6 else "")
    return said


def graph(rng: random.Random, prefix: str, depth: int) -> str:
    """The elements of a graph, whose activities are named after the one around it."""
    names = [f"{prefix}{letter}" for letter in "abcde"[: rng.randint(1, 5)]]
    pairs = [(a, b) for i, a in enumerate(names) for b in names[i + 1 :] if rng.random() < 0.5]
    text = "".join(activity(rng, name, sum(b == name for _, b in pairs), depth) for name in names)
    for a in names:
        targets = [b for source, b in pairs if source == a]
        for b, when in zip(targets, transitions(rng, len(targets))):
            text += f"CONTROL FROM '{a}' TO '{b}'{when}\n"
    for a, b in pairs:
        if rng.random() < 0.4:
            text += f"DATA FROM '{a}' TO '{b}' MAP 'n' TO 'n', 's' TO 's'\n"
    for name in names:
        if rng.random() < 0.5:
            text += f"DATA FROM '{name}' TO SINK MAP 'n' TO 'n', 's' TO 's'\n"
    return text


def process(rng: random.Random, name: str, depth: int) -> str:
    """A process in which blocks nest that deep; one of depth 2 may run `Q`."""
    return f"PROCESS '{name}' ('N','N')\n{graph(rng, name, depth)}END '{name}'\n"


@dataclass
class Case:
    """A root of a random process: its text, the lines that were served, and the completions among them."""

    program: str
    text: str
    queues: int
    served: list[str] = field(default_factory=list)
    completions: list[str] = field(default_factory=list)

    def answers(self, words: list[str], lines: list[str]) -> list[str]:
        """What the program prints for these lines."""
        script = "".join(f"{line}\n" for line in lines)
        ran = subprocess.run([self.program, *words], input=script, capture_output=True, text=True)
        compare(0, ran.returncode, f"the status of {words[0]}, which prints {ran.stdout[:200]!r}")
        return ran.stdout.splitlines()

    def shown(self, more: list[str]) -> list[str]:
        """What `try` answers to the lines so far and some more."""
        lines = ["IMPORT", self.text + ".", "START 'P' BY 'ann'", *self.served, *more]
        return self.answers(["try", "QUEUES", str(self.queues)], lines)

    def fates(self) -> list[str]:
        """What `fate` answers to the completions so far."""
        return self.answers(["fate"], [self.text + ".", *self.completions])


def rows_behind(answers: list[str], head: str) -> list[str]:
    """The rows that stand behind the last line that begins so."""
    place = max((i for i, line in enumerate(answers) if line.startswith(head)), default=None)
    if place is None:
        raise AssertionError(f"wanted a line {head!r}, got {answers[-3:]!r}")
    count = int(answers[place].split()[-1])
    return answers[place + 1 : place + 1 + count]


def compare(wanted: object, got: object, what: str) -> None:
    """Raises AssertionError with both where they differ."""
    if wanted != got:
        raise AssertionError(f"{what}: wanted {wanted!r}, got {got!r}")


def check_state(case: Case) -> list[str]:
    """Compares the rows before and after the queues are drained; answers the items that are ready then."""
    fates = rows_behind(case.fates(), "ok FATE ")
    early = rows_behind(case.shown(["SHOW 1"]), "ok SHOW 1 ")
    settled = [row for row in early if row.endswith(" DEAD") or " FINISHED " in row]
    compare([], [row for row in settled if row not in fates], "settled before the queues are empty")
    case.served.append("DRAIN")
    rows = rows_behind(case.shown(["SHOW 1"]), "ok SHOW 1 ")
    compare(fates, rows, "with empty queues")
    return [f"{row.split(' ')[0][:-1]}#{row.split(' ')[2]}'" for row in rows if " READY " in row]


def complete(rng: random.Random, case: Case, item: str) -> None:
    """Completes an item, by force or by an agent."""
    result = f"RC {rng.randint(0, 2)} WITH 'n' = {rng.randint(0, 4)}, 's' = \"{rng.choice(['', 'a', 'b'])}\""
    if rng.random() < 0.5:
        case.served += [f"TAKE {item}", f"DONE {item} TAKE 1 {result}"]
    else:
        case.served.append(f"FORCE {item} {result}")
    case.completions.append(f"DONE {item} {result}")


def trial(program: str, seed: int) -> None:
    """Runs a random process to its end, or until it has had enough completions."""
    rng = random.Random(seed)
    text = f"{HEAD}{process(rng, 'Q', 1)}{process(rng, 'P', 2)}"
    case = Case(program, text, rng.randint(1, 4))
    try:
        ready = check_state(case)
        while ready and len(case.completions) < MOST_COMPLETIONS:
            complete(rng, case, rng.choice(ready))
            ready = check_state(case)
        if not ready:
            output = rows_behind(case.fates(), "ok OUTPUT 1 ")
            compare(output, rows_behind(case.shown(["OUTPUT 1"]), "ok OUTPUT 1 "), "the output")
    except AssertionError as fault:
        raise AssertionError(f"{fault}\n{case.text}{chr(10).join(case.served)}") from None


def main() -> int:
    """Runs all trials; the status is 1 where one failed."""
    program = Path(sys.argv[1] if len(sys.argv) > 1 else TOP / "crates/flow_cli/out/flow_cli").resolve()
    if not program.exists():
        sys.exit(f"agreement.py: no program at {program}; ./flow build makes it, or name one")
    failed = 0
    for seed in range(TRIALS):
        try:
            trial(str(program), seed)
        except AssertionError as fault:
            failed += 1
            print(f"failed: random process {seed}: {fault}")
    print(f"{TRIALS - failed} passed, {failed} failed")
    return 1 if failed else 0


if __name__ == "__main__":
    sys.exit(main())
