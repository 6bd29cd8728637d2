#!/usr/bin/env python3
"""Plays the people and the agents of a credit case over a store, until the case is done.

  driver.py [--program PATH] [--folder DIR] [--kill] [--kills N] [--seed N]

It runs `flow run A B` through the client of `client.py`: it asks what the store shows, and decides from that what
to do next. With --kill it kills the process with SIGKILL at random moments and starts it again. After each start
it checks that the audit trail of the case begins with every answered transaction, and that at most the one that
was under way when the process was killed stands behind them. Standard library only.
"""
from __future__ import annotations

import argparse
import os
import random
import re
import sys
import tempfile
import threading
import time

from client import USUAL_PROGRAM, Fault, NoRoot, NoStore, Shown, Store, Values

HERE = os.path.dirname(os.path.abspath(__file__))
PEOPLE = ("ann", "olga", "max")
QUERIES = ("SHOW", "OUTPUT", "INPUT", "WORKLIST", "QUEUE", "AUDIT", "TEMPLATES")
AGENTS = ("Rate#1/Fetch File", "Rate#1/Score", "Reject", "Pay Out", "Archive")


class DoomedStore(Store):
    """A store whose program is killed at a chosen moment: after a number of changes, within the time of the next one.

    It keeps the answered transactions by their numbers, each with the first word of its command.
    """

    # How long the last change took, in seconds.
    pace = 0.01

    def __init__(self, program: str, folder: str) -> None:
        super().__init__("A", "B", program, folder)
        self.answered: dict[int, str] = {}
        self.changes_left: int | None = None
        self.part = 0.0
        self.timer: threading.Timer | None = None

    def doom(self, changes: int, part: float) -> None:
        """Kills the program at the change of this number from now, after this part of a change's time."""
        self.changes_left, self.part = changes, part

    def ask(self, command: str) -> list[str]:
        word = command.split()[0]
        if word in QUERIES:
            return super().ask(command)
        self.count_down()
        begin = time.perf_counter()
        reply = super().ask(command)
        DoomedStore.pace = time.perf_counter() - begin
        number = re.match(r"ok (\d+) ", reply[0])
        if number:
            self.answered[int(number.group(1))] = word
        return reply

    def count_down(self) -> None:
        """At the last change, sets the moment of the kill."""
        if self.changes_left is None or self.timer is not None:
            return
        self.changes_left -= 1
        if self.changes_left <= 0:
            self.timer = threading.Timer(self.part * self.pace, self.kill)
            self.timer.start()

    def kill(self) -> None:
        """Kills the program, if it hasn't ended."""
        process = self.process
        if process is not None and process.poll() is None:
            process.kill()

    def close(self) -> int:
        if self.timer is not None:
            self.timer.cancel()
        self.timer, self.changes_left = None, None
        return super().close()


def result(item: str) -> Values:
    """What the case's people and agents find."""
    if item.endswith("Score#1"):
        return {"Score": 71}
    if item == "1/Receive#1":
        return {"Customer": "Lee", "Amount": 8000}
    if item == "1/Review#1/Assess#1":
        return {"Amount": 8000}
    if re.fullmatch(r"1/Review#\d+/Assess#1", item):
        return {"Amount": 4000, "Verdict": "good"}
    if item == "1/Pay Out#1":
        return {"Amount": 8000}
    return {}


def begin(store: DoomedStore) -> None:
    """Imports the process and starts the case, where that hasn't been done."""
    if not store.templates():
        store.import_file(os.path.join(HERE, "credit", "credit.fdl"))
        store.answered[store.newest] = "IMPORT"
    # The key makes this safe to repeat: a case of this key that is there is answered, not started again.
    store.start("Credit", by="ann", key="c-17", values={"Customer": "Lee", "Amount": 8000})


def people_work(store: Store) -> bool:
    """Each person claims and does the first item of the worklist. Answers whether there was one."""
    worked = False
    for person in PEOPLE:
        for entry in store.worklist(person)[:1]:
            if not entry.is_held:
                store.claim(entry.item, person)
            store.done(entry.item, person, result(entry.item))
            worked = True
    return worked


def agents_work(store: Store, shown: Shown) -> bool:
    """Each agent does its item, if that is ready. An item that a killed run took is given back first."""
    worked = False
    for name in AGENTS:
        fate = shown.at(f"1/{name}")
        if fate is None or fate.word not in ("READY", "RUNNING"):
            continue
        if fate.word == "RUNNING":
            store.restart(fate.item)
        store.done(fate.item, store.take(fate.item), result(fate.item))
        worked = True
    return worked


def play(store: DoomedStore) -> list[str]:
    """Plays until the case is done, and answers its output as it is printed."""
    begin(store)
    while True:
        # One message a turn: each turn is a transaction that is answered by its number.
        while store.turn() is not None:
            pass
        shown = store.show(1)
        if shown.mode == "DONE":
            return store.ask("OUTPUT 1")
        if not people_work(store) and not agents_work(store, shown):
            sys.exit("driver.py: the case stands still")


def kept(store: Store) -> dict[int, str]:
    """The transactions that the store has: the import, and those of the case."""
    there = {1: "IMPORT"} if store.templates() else {}
    try:
        there.update((event.number, event.word) for event in store.audit(1))
    except NoRoot:
        pass
    return there


def check(store: DoomedStore) -> int:
    """Checks that the store has every answered transaction, and at most one more. That one, which was under way
    when the process was killed, counts as answered from now on; answers how many there are."""
    there = kept(store)
    for number, word in store.answered.items():
        if there.get(number) != word:
            sys.exit(f"driver.py: transaction {number} was answered ({word}), and the store has {there.get(number)}")
    more = sorted(set(there) - set(store.answered))
    if len(more) > 1 or (more and more[0] != max(store.answered, default=0) + 1):
        sys.exit(f"driver.py: the store has transactions that nobody was answered: {more}")
    store.answered.update((number, there[number]) for number in more)
    return len(more)


def rounds(store: DoomedStore, kills: int, chance: random.Random) -> tuple[list[str], int, int]:
    """Plays the case with at most this number of kills. Answers its output, the kills, and how many transactions were
    found without an answer."""
    killed, found = 0, 0
    while True:
        store.reopen()
        try:
            found += check(store)
            if killed < kills:
                store.doom(chance.randint(1, 4), chance.uniform(0.0, 1.5))
            output = play(store)
            check(store)
            return output, killed, found
        except Fault:
            killed += 1


def words() -> argparse.Namespace:
    """The words of the command line."""
    parser = argparse.ArgumentParser(description="Plays a credit case over a store.")
    parser.add_argument("--program", default=USUAL_PROGRAM)
    parser.add_argument("--folder", help="where the store is made; a temporary folder if it is left out")
    parser.add_argument("--kill", action="store_true", help="kill the process at random moments")
    parser.add_argument("--kills", type=int, default=20, help="how often, at most")
    parser.add_argument("--seed", type=int, default=None)
    return parser.parse_args()


def main() -> None:
    options = words()
    program = os.path.abspath(options.program)
    if not os.access(program, os.X_OK):
        sys.exit(f"driver.py: no program at {program}; ./flow build makes it, or name one with --program")
    with tempfile.TemporaryDirectory() as own:
        folder = options.folder or own
        try:
            Store.make("A", "B", program, folder)
        except (NoStore, Fault) as error:
            sys.exit(f"driver.py: {error}")
        store = DoomedStore(program, folder)
        output, kills, found = rounds(store, options.kills if options.kill else 0, random.Random(options.seed))
        status = store.close()
    print("\n".join(output))
    print(f"transactions: {len(store.answered)}; kills: {kills}; found there without an answer: {found}; "
          f"status: {status}")


if __name__ == "__main__":
    main()
