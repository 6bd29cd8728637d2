#!/usr/bin/env python3
"""Prints what no query of a store shows: its transactions with their values, who gave which output, the live
roots with their starters, keys and modes, the clock, and how full the store is.

  flow ship A B 0 | journal.py [--json]           the transactions of a stream
  journal.py [--json] [--program PATH] A B        the live transactions of the two files themselves

With --json it prints one JSON object a line, for whoever keeps an archive before a DELETE. The files are read
under a shared lock: while a program serves the store, journal.py says so and ends. A stream of a store after a
CHECKPOINT can't begin at 0; the files have the live transactions in any case. Whether a root is DONE follows from
its graph and stands in no transaction: with --program the modes are asked of the program, else such a root is
printed as `ACTIVE or DONE`. The forms of stream, slot and payload are those of docs/store.md and
docs/commands.md. Standard library only.
"""
from __future__ import annotations

import argparse
import fcntl
import json
import os
import re
import sys
from collections.abc import Iterator
from dataclasses import dataclass, field

from client import Fault, Refusal, Store

Value = int | str


class Malformed(Exception):
    """The bytes aren't in the form of a stream, a slot or a payload."""


# ---- bytes


@dataclass
class Reader:
    """Takes values from the front of bytes. Numbers are big-endian."""
    data: bytes
    at: int = 0

    def take(self, count: int) -> bytes:
        if self.at + count > len(self.data):
            raise Malformed(f"the input ends at byte {len(self.data)}, inside a value that begins at {self.at}")
        self.at += count
        return self.data[self.at - count:self.at]

    def number(self, count: int) -> int:
        return int.from_bytes(self.take(count), "big")

    def name(self) -> str:
        return self.take(self.number(1)).decode("ascii")

    def path(self) -> str:
        """A path as commands write it: 1/Loop#2/Check#1."""
        root = self.number(8)
        parts = [f"/{self.name()}#{self.number(8)}" for _ in range(self.number(1))]
        return str(root) + "".join(parts)

    def value(self) -> Value:
        """1 and 4 bytes, or 3 and 8 bytes of a signed number; 2 and a text."""
        kind = self.number(1)
        if kind == 2:
            return self.name()
        return int.from_bytes(self.take(4 if kind == 1 else 8), "big", signed=True)

    def settings(self) -> list[tuple[int, Value]]:
        """Places of leaves, and their values."""
        return [(self.number(2), self.value()) for _ in range(self.number(2))]

    def message(self) -> str:
        kind = self.number(1)
        scope = self.path()
        if kind == 2:
            source, target = self.name(), self.name()
            return f"SIGNAL '{scope}' '{source}' '{target}' {'TRUE' if self.number(1) else 'FALSE'}"
        return f"{'BEGIN' if kind == 1 else 'END'} '{scope}'"


@dataclass
class Source:
    """What is read: the settings of the store, after which transaction it begins, and the payloads."""
    queues: int
    limit: int
    after: int
    newest: int
    payloads: list[bytes]


def stream_source(data: bytes) -> Source:
    """What a stream of `ship` holds."""
    if data.startswith(b"no "):
        raise Malformed(f"ship refused: {data.decode('ascii', 'replace').strip()}")
    reader = Reader(data)
    if reader.take(8) != b"FLOWSHP1":
        raise Malformed("the input is no stream of ship")
    queues, limit, after = reader.number(1), reader.number(8), reader.number(8)
    payloads = []
    while reader.number(1) == 1:
        payloads.append(reader.take(reader.number(4)))
    newest = Reader(payloads[-1]).number(8) if payloads else after
    return Source(queues, limit, after, newest, payloads)


def slot_source(data: bytes) -> tuple[int, Source] | None:
    """The generation of a slot and what it holds; None where the slot doesn't count."""
    if len(data) < 43 or data[0] != 1 or data[1:8] != b"FLOWSTR":
        return None
    reader = Reader(data, 9)
    generation, queues, limit, number = (reader.number(count) for count in (8, 1, 8, 8))
    reader.at = 42
    payloads = []
    while reader.at < len(data) and reader.number(1) == 1:
        payloads.append(reader.take(reader.number(4)))
    newest = max([number] + [Reader(payload).number(8) for payload in payloads[-1:]])
    return generation, Source(queues, limit, 0, newest, payloads)


def files_source(paths: list[str]) -> Source:
    """What the two files of a store hold, read under a shared lock."""
    slots = []
    for path in paths:
        with open(path, "rb") as file:
            try:
                fcntl.flock(file, fcntl.LOCK_SH | fcntl.LOCK_NB)
            except BlockingIOError:
                raise Malformed(f"a program serves the store: {path} is locked") from None
            slots.append(slot_source(file.read()))
    found = [slot for slot in slots if slot is not None]
    if not found:
        raise Malformed("the files hold no store")
    return max(found, key=lambda slot: slot[0])[1]


# ---- the names of leaves, from the texts that were imported


TOKEN = re.compile(r"\s+|/\*.*?\*/|(?P<token>'[^']*'|\"(?:[^\"]|\"\")*\"|[A-Z_]+|\d+|<>|<=|>=|[(),;:.\[\]=<>+-])",
                   re.DOTALL)

Member = tuple[str, str, int | None]


@dataclass
class Activity:
    """What the values of an activity stand in: its output structure, its own activities, or the process it runs."""
    output: str
    inside: dict[str, Activity] = field(default_factory=dict)
    process: Process | None = None


@dataclass
class Process:
    """A version of a process: its structures, its input, its activities."""
    name: str
    version: int
    structures: dict[str, list[Member]]
    input: str
    activities: dict[str, Activity] = field(default_factory=dict)
    known: dict[str, list[str]] = field(default_factory=dict)

    def leaves(self, structure: str) -> list[str]:
        """The leaves of a structure, depth first in the order of declaration. They are made once."""
        if structure not in self.known:
            self.known[structure] = self.made_leaves(structure)
        return self.known[structure]

    def made_leaves(self, structure: str) -> list[str]:
        """Makes the leaves of a structure."""
        found: list[str] = []
        for name, kind, count in self.structures[structure]:
            for place in [""] if count is None else [f"[{i}]" for i in range(count)]:
                if kind in ("LONG", "STRING"):
                    found.append(name + place)
                else:
                    found += [f"{name}{place}.{leaf}" for leaf in self.leaves(kind)]
        return found


def tokens_of(text: str) -> list[str]:
    """The tokens of an accepted text."""
    return [match.group("token") for match in TOKEN.finditer(text) if match.group("token")]


@dataclass
class Library:
    """The processes that were imported, by name, each version behind the one before it."""
    processes: dict[str, list[Process]] = field(default_factory=dict)

    def add(self, text: str) -> None:
        """Takes up the processes of an accepted text."""
        tokens = tokens_of(text)
        structures: dict[str, list[Member]] = {}
        at = 0
        heads: list[int] = []
        while at < len(tokens):
            word, name = tokens[at], tokens[at + 1].strip("'")
            end = end_of(tokens, at)
            if word == "STRUCTURE":
                structures[name] = members_of(tokens[at + 2:end])
            elif word == "PROCESS":
                heads.append(at)
            at = end + 2
        for head in heads:
            self.add_process(tokens, head, structures)

    def add_process(self, tokens: list[str], head: int, structures: dict[str, list[Member]]) -> None:
        name = tokens[head + 1].strip("'")
        versions = self.processes.setdefault(name, [])
        process = Process(name, len(versions) + 1, structures, tokens[head + 3].strip("'"))
        process.activities = self.activities_of(tokens, head + 7, end_of(tokens, head))
        versions.append(process)

    def activities_of(self, tokens: list[str], at: int, end: int) -> dict[str, Activity]:
        """The activities among the tokens of a graph."""
        found: dict[str, Activity] = {}
        while at < end:
            word = tokens[at]
            if word not in ("PROGRAM_ACTIVITY", "PROCESS_ACTIVITY", "BLOCK"):
                at += 1
                continue
            stop = end_of(tokens, at)
            activity = Activity(tokens[at + 5].strip("'"))
            if word == "BLOCK":
                activity.inside = self.activities_of(tokens, at + 7, stop)
            elif word == "PROCESS_ACTIVITY":
                # The newest version at the time of the import is the one that is run.
                activity.process = self.processes[tokens[at + 8].strip("'")][-1]
            found[tokens[at + 1].strip("'")] = activity
            at = stop + 2
        return found

    def output_leaves(self, process: Process, path: str) -> list[str]:
        """The leaves of the output of an item: `_RC`, and those of its structure."""
        activities, here = process.activities, process
        activity = None
        for part in path.split("/")[1:]:
            activity = activities[part.rsplit("#", 1)[0]]
            inner = activity.process
            here, activities = (inner, inner.activities) if inner else (here, activity.inside)
        return ["_RC"] + here.leaves(activity.output)


OPENING = ("STRUCTURE", "PERSON", "PROCESS", "PROGRAM_ACTIVITY", "PROCESS_ACTIVITY", "BLOCK")


def end_of(tokens: list[str], at: int) -> int:
    """Where the END of what begins at a token stands."""
    if tokens[at] not in ("PROCESS", "BLOCK"):
        return tokens.index("END", at)
    at += 2
    while tokens[at] != "END":
        # `PROCESS 'Q'` inside a process activity opens nothing; that activity is passed over as a whole.
        at = end_of(tokens, at) + 2 if tokens[at] in OPENING and tokens[at] != "PERSON" else at + 1
    return at


def members_of(tokens: list[str]) -> list[Member]:
    """The members of a structure: name, kind, and the count of an array."""
    found: list[Member] = []
    at = 0
    while at < len(tokens):
        stop = tokens.index(";", at)
        count = int(tokens[at + 4]) if tokens[at + 3] == "(" else None
        found.append((tokens[at].strip("'"), tokens[at + 2].strip("'"), count))
        at = stop + 1
    return found


# ---- transactions


@dataclass
class Transaction:
    """A transaction: its number, its word, the root and item that it is about, the person or the take number that
    did it, and its values."""
    number: int
    word: str
    root: int | None = None
    item: str | None = None
    by: str | None = None
    take: int | None = None
    detail: str = ""
    values: dict[str, Value] = field(default_factory=dict)

    def line(self) -> str:
        """The transaction as a line of text."""
        words = [str(self.number), self.word]
        words += [f"'{self.item}'"] if self.item is not None else []
        words += [str(self.root)] if self.item is None and self.root is not None else []
        words += [self.detail] if self.detail else []
        words += [f"BY '{self.by}'"] if self.by is not None else []
        words += [f"TAKE {self.take}"] if self.take is not None else []
        values = ", ".join(f"{leaf} = {json.dumps(value)}" for leaf, value in self.values.items())
        return " ".join(words) + (f" WITH {values}" if values else "")

    def fields(self) -> dict[str, object]:
        """The transaction as an object of JSON, without what it doesn't have."""
        fields = {"kind": "transaction", "number": self.number, "word": self.word, "root": self.root,
                "item": self.item, "by": self.by, "take": self.take, "detail": self.detail or None,
                "values": self.values or None}
        return {name: value for name, value in fields.items() if value is not None}


@dataclass
class Root:
    """A live root. The mode is known from its commands alone, until the program is asked."""
    number: int
    process: str
    version: int
    starter: str
    key: str | None
    mode: str = "ACTIVE or DONE"
    transactions: int = 0

    def line(self) -> str:
        key = f" KEY '{self.key}'" if self.key is not None else ""
        return (f"ROOT {self.number} '{self.process}' {self.version} BY '{self.starter}'{key} {self.mode} "
                f"{self.transactions} transactions")

    def fields(self) -> dict[str, object]:
        return {"kind": "root", "root": self.number, "process": self.process, "version": self.version,
                "starter": self.starter, "key": self.key, "mode": self.mode, "transactions": self.transactions}


@dataclass
class Journal:
    """The library, the roots and the clock after the transactions that were read."""
    library: Library = field(default_factory=Library)
    roots: dict[int, Root] = field(default_factory=dict)
    clock: int = 0

    def read(self, payload: bytes) -> Transaction:
        """The next transaction. Names of leaves are known where the START of the root was read."""
        reader = Reader(payload)
        number, kind = reader.number(8), reader.number(1)
        if kind not in READERS:
            raise Malformed(f"transaction {number} is of kind {kind}")
        transaction = READERS[kind](self, reader, number)
        root = self.roots.get(transaction.root or 0)
        if root is not None:
            root.transactions += 1
        return transaction

    def named(self, item: str, settings: list[tuple[int, Value]]) -> dict[str, Value]:
        """The values of an output by the names of their leaves, or by their places where those aren't known."""
        root = self.roots.get(int(item.split("/")[0]))
        versions = self.library.processes.get(root.process, []) if root else []
        if root is None or root.version > len(versions):
            return {f"leaf {place}": value for place, value in settings}
        leaves = self.library.output_leaves(versions[root.version - 1], item)
        return {leaves[place]: value for place, value in settings}

    # -- one reader for each kind of transaction

    def read_import(self, reader: Reader, number: int) -> Transaction:
        text = reader.take(reader.number(4)).decode("ascii")
        before = sum(len(versions) for versions in self.library.processes.values())
        self.library.add(text)
        added = sum(len(versions) for versions in self.library.processes.values()) - before
        noun = "process" if added == 1 else "processes"
        return Transaction(number, "IMPORT", detail=f"{added} {noun}, {len(text)} bytes")

    def read_start(self, reader: Reader, number: int) -> Transaction:
        root, process, version, starter = reader.number(8), reader.name(), reader.number(4), reader.name()
        key = reader.name() if reader.number(1) else None
        settings = reader.settings()
        self.roots[root] = Root(root, process, version, starter, key)
        versions = self.library.processes.get(process, [])
        leaves = versions[version - 1].leaves(versions[version - 1].input) if version <= len(versions) else None
        values = {leaves[place] if leaves else f"leaf {place}": value for place, value in settings}
        detail = f"'{process}' {version}" + (f" KEY '{key}'" if key is not None else "")
        return Transaction(number, "START", root, by=starter, detail=detail, values=values)

    def read_turn(self, reader: Reader, number: int) -> Transaction:
        queue, message = reader.number(1), reader.message()
        root = int(re.search(r"'(\d+)", message).group(1))
        return Transaction(number, "TURN", root, detail=f"queue {queue} {message}")

    def read_claim(self, reader: Reader, number: int) -> Transaction:
        return self.of_item("CLAIM", reader, number)

    def read_release(self, reader: Reader, number: int) -> Transaction:
        return self.of_item("RELEASE", reader, number)

    def read_transfer(self, reader: Reader, number: int) -> Transaction:
        transaction = self.of_item("TRANSFER", reader, number)
        transaction.detail = f"TO '{reader.name()}'"
        return transaction

    def of_item(self, word: str, reader: Reader, number: int) -> Transaction:
        item = reader.path()
        return Transaction(number, word, root_of(item), item, by=reader.name())

    def read_take(self, reader: Reader, number: int) -> Transaction:
        item = reader.path()
        return Transaction(number, "TAKE", root_of(item), item, take=reader.number(8))

    def read_done(self, reader: Reader, number: int) -> Transaction:
        item = reader.path()
        is_person = reader.number(1) == 1
        by, take = (reader.name(), None) if is_person else (None, reader.number(8))
        values = self.named(item, reader.settings())
        return Transaction(number, "DONE", root_of(item), item, by, take, values=values)

    def read_force(self, reader: Reader, number: int) -> Transaction:
        item = reader.path()
        return Transaction(number, "FORCE", root_of(item), item, values=self.named(item, reader.settings()))

    def read_restart(self, reader: Reader, number: int) -> Transaction:
        item = reader.path()
        return Transaction(number, "RESTART", root_of(item), item)

    def set_mode(self, word: str, mode: str, reader: Reader, number: int) -> Transaction:
        root = reader.number(8)
        if root in self.roots:
            self.roots[root].mode = mode
        return Transaction(number, word, root)

    def read_suspend(self, reader: Reader, number: int) -> Transaction:
        return self.set_mode("SUSPEND", "SUSPENDED or DONE", reader, number)

    def read_resume(self, reader: Reader, number: int) -> Transaction:
        return self.set_mode("RESUME", "ACTIVE or DONE", reader, number)

    def read_terminate(self, reader: Reader, number: int) -> Transaction:
        return self.set_mode("TERMINATE", "TERMINATED", reader, number)

    def read_delete(self, reader: Reader, number: int) -> Transaction:
        root = reader.number(8)
        self.roots.pop(root, None)
        return Transaction(number, "DELETE", root)

    def read_clock(self, reader: Reader, number: int) -> Transaction:
        self.clock = reader.number(8)
        return Transaction(number, "CLOCK", detail=f"{self.clock} minutes")


def root_of(item: str) -> int:
    """The root of an item."""
    return int(item.split("/")[0])


READERS = {1: Journal.read_import, 2: Journal.read_start, 3: Journal.read_turn, 4: Journal.read_claim,
           5: Journal.read_release, 6: Journal.read_transfer, 7: Journal.read_take, 8: Journal.read_done,
           9: Journal.read_force, 10: Journal.read_restart, 11: Journal.read_suspend, 12: Journal.read_resume,
           13: Journal.read_terminate, 14: Journal.read_delete, 15: Journal.read_clock}


# ---- printing


@dataclass
class Fullness:
    """How full the store is: its newest transaction, of how many that it takes in its life."""
    after: int
    read: int
    newest: int
    limit: int
    queues: int
    clock: int

    def line(self) -> str:
        return (f"STORE {self.newest} of {self.limit} transactions ({100 * self.newest / self.limit:.4f} %), "
                f"{self.read} read here, {self.queues} queues, clock {self.clock}")

    def fields(self) -> dict[str, object]:
        return {"kind": "store", "newest": self.newest, "limit": self.limit, "read": self.read, "after": self.after,
                "queues": self.queues, "clock": self.clock}


def ask_modes(store: Store, roots: list[Root]) -> None:
    """Asks the program for the modes of roots."""
    with store:
        for root in roots:
            root.mode = store.show(root.number).mode


def entries(source: Source, store: Store | None) -> Iterator[Transaction | Root | Fullness]:
    """The transactions of a source, then the live roots, then how full the store is. Where a store is given, the
    modes of the roots are asked of it."""
    journal = Journal()
    for payload in source.payloads:
        yield journal.read(payload)
    if store is not None:
        ask_modes(store, list(journal.roots.values()))
    yield from journal.roots.values()
    yield Fullness(source.after, len(source.payloads), source.newest, source.limit, source.queues, journal.clock)


def main() -> None:
    parser = argparse.ArgumentParser(description="Prints the transactions of a store, its roots, and how full it is.")
    parser.add_argument("files", nargs="*", metavar="FILE", help="the two files of a store; else a stream is read")
    parser.add_argument("--json", action="store_true", help="one JSON object a line")
    parser.add_argument("--program", help="asks this program for the modes of the roots in the two files")
    words = parser.parse_args()
    if len(words.files) not in (0, 2):
        parser.error("name both files of a store, or none")
    try:
        source = files_source(words.files) if words.files else stream_source(sys.stdin.buffer.read())
        store = Store(*words.files, program=words.program) if words.files and words.program else None
        for entry in entries(source, store):
            print(json.dumps(entry.fields()) if words.json else entry.line())
    except BrokenPipeError:
        # Whoever reads has had enough; what is still to be flushed goes nowhere.
        os.dup2(os.open(os.devnull, os.O_WRONLY), sys.stdout.fileno())
    except (Malformed, Fault, Refusal, OSError) as error:
        sys.exit(f"journal.py: {error}")


if __name__ == "__main__":
    main()
