"""A client for stores of `flow`, over the program's own commands. Standard library only.

    from client import Store

    with Store("A", "B", program="./flow") as store:
        store.import_file("credit.fdl")
        case = store.start("Credit", by="ann", key="c-17", values={"Amount": 8000})
        store.drain()
        for entry in store.worklist("ann"):
            print(entry.item, entry.is_held)

A `Store` is a `flow run A B` that is asked line by line. Replies come back as values with names. A refusal is
raised as a `Refusal` of a class of its own, with what the refusal keeps. Where the program ends before it has
answered, `Fault` is raised: the command may be kept or not, and `reopen` starts the program again. Several threads
may share a store: one command and its reply go at a time.

Leaves are written plainly: "Amount", "Lines[0].Item". Values are numbers and texts.
"""
from __future__ import annotations

import hashlib
import os
import re
import subprocess
import threading
from collections.abc import Callable, Iterable, Mapping
from dataclasses import dataclass, field
from types import TracebackType

Value = int | str
Values = Mapping[str, Value]

# A program reads this many bytes of input, and then ends with status 7.
MOST_INPUT = 268_435_456
USUAL_PROGRAM = os.path.join(os.path.dirname(os.path.abspath(__file__)), "..", "crates", "flow_cli", "out", "flow_cli")


# ---- what can go wrong


class Fault(Exception):
    """The program ended before it answered. The last command may be kept or not.

    status is what the program ended with: 3 a call on the files failed, or another program has them locked, or one
    of them is missing; negative where a signal ended it.
    """

    def __init__(self, status: int, printed: str = "") -> None:
        super().__init__(f"the program ended with status {status}" + (f": {printed}" if printed else ""))
        self.status = status
        self.printed = printed


class Refusal(Exception):
    """A command was refused. `kept` has the words behind the code, as they were printed."""

    code = ""

    def __init__(self, command: str, kept: str) -> None:
        super().__init__(f"no {self.code} {kept}".rstrip() + f" <- {command}")
        self.command = command
        self.kept = kept

    @property
    def number(self) -> int:
        """The first number that the refusal keeps: a place, a root, a take number, a minute, a count."""
        found = re.search(r"\d+", self.kept)
        return int(found.group()) if found else 0

    @property
    def name(self) -> str:
        """The quoted name that the refusal keeps, without its quotes."""
        return self.kept.strip("'")


class NoWord(Refusal):
    """The line is no command; `number` is the byte where it goes wrong."""
    code = "WORD"


class NoLine(Refusal):
    """The line is longer than 65,536 bytes."""
    code = "LINE"


class NoRule(Refusal):
    """A text breaks a rule of the language: `rule`, at `line` of the text; `text` is that line, where it is known."""
    code = "RULE"

    def __init__(self, command: str, kept: str) -> None:
        super().__init__(command, kept)
        self.rule, self.line = (int(word) for word in kept.split())
        self.text = ""

    def show(self, text: str) -> NoRule:
        """The same refusal, with the line of the text that was imported."""
        lines = text.split("\n")
        self.text = lines[self.line - 1] if self.line <= len(lines) else ""
        self.args = (f"rule {self.rule} is broken at line {self.line}: {self.text}",)
        return self


class NoPerson(Refusal):
    """Nobody of that name is known."""
    code = "PERSON"


class NoProcess(Refusal):
    """No process of that name is known."""
    code = "PROCESS"


class NoRoot(Refusal):
    """No live root has that number."""
    code = "ROOT"


class NoItem(Refusal):
    """There is no such item, or not yet."""
    code = "ITEM"


class NoQueue(Refusal):
    """The store has fewer queues; `number` is how many."""
    code = "QUEUE"


class NoMode(Refusal):
    """The root is in a mode that doesn't allow it; `kept` is the mode."""
    code = "MODE"


class NoState(Refusal):
    """The item is in a state that doesn't allow it; `kept` is READY, RUNNING or ENDED."""
    code = "STATE"


class NoOwner(Refusal):
    """Another person holds the item, or an agent does: `name`, or NOBODY."""
    code = "OWNER"


class NoTake(Refusal):
    """The take is old: the item was given to another one meanwhile. `number` is the take that holds it."""
    code = "TAKE"


class NotEligible(Refusal):
    """The person may not do this item."""
    code = "ELIGIBLE"


class NoValue(Refusal):
    """A leaf or a value isn't right; `number` is its byte in the command."""
    code = "VALUE"


class NoEmpty(Refusal):
    """The queue has no message."""
    code = "EMPTY"


class NoQueued(Refusal):
    """Messages of the root are still queued: `number` of them."""
    code = "QUEUED"


class NoClock(Refusal):
    """The clock stands at a later minute: `number`."""
    code = "CLOCK"


class NoFull(Refusal):
    """The store has as many transactions as its limit allows: `number`."""
    code = "FULL"


class NoStore(Refusal):
    """The files hold no store that can be opened, or `new` finds one: `kept` is UNMADE, MADE, FOREIGN A, .."""
    code = "STORE"


class NoGone(Refusal):
    """The transactions up to `number` may have been dropped by a checkpoint: they can't be shipped."""
    code = "GONE"


REFUSALS = {kind.code: kind for kind in Refusal.__subclasses__()}


def refusal_of(command: str, line: str) -> Refusal:
    """The refusal for a line `no CODE ..`, in the class of its code."""
    _, code, kept = (line + "  ").split(" ", 2)
    kind = REFUSALS.get(code)
    if kind is None:
        found = Refusal(command, kept.strip())
        found.code = code
        found.args = (f"{line} <- {command}",)
        return found
    return kind(command, kept.strip())


# ---- how values are written and read


def leaf_text(leaf: str) -> str:
    """'Lines'[0].'Item' for Lines[0].Item."""
    return ".".join(re.sub(r"^[^\[]+", lambda name: f"'{name.group()}'", part) for part in leaf.split("."))


def value_text(value: Value) -> str:
    """A number as it is, a text in double quotes, with its own quotes doubled."""
    if isinstance(value, int):
        return str(int(value))
    return '"' + value.replace('"', '""') + '"'


def with_text(values: Values | None) -> str:
    """The part ` WITH ..` of a command; nothing where there are no values."""
    if not values:
        return ""
    return " WITH " + ", ".join(f"{leaf_text(leaf)} = {value_text(value)}" for leaf, value in values.items())


def result_text(rc: int | None, values: Values | None) -> str:
    """The part ` RC n WITH ..` of a command."""
    return ("" if rc is None else f" RC {rc}") + with_text(values)


def container_of(lines: Iterable[str]) -> dict[str, Value]:
    """The leaves of a container and their values, from lines `leaf = value`."""
    container: dict[str, Value] = {}
    for line in lines:
        leaf, value = line.split(" = ", 1)
        plain = leaf.replace("'", "")
        container[plain] = value[1:-1].replace('""', '"') if value.startswith('"') else int(value)
    return container


# ---- what is replied


@dataclass(frozen=True)
class Start:
    """A root. `number` is the transaction; None where a root with the same key was there before."""
    root: int
    number: int | None

    @property
    def is_new(self) -> bool:
        return self.number is not None


@dataclass(frozen=True)
class Fate:
    """The fate of an activity: its path, WAITING, READY, RUNNING, FINISHED or DEAD, and the attempt."""
    path: str
    word: str
    attempt: int | None

    @property
    def item(self) -> str:
        """The item of the attempt, as commands ask for it: the path and `#attempt`."""
        return f"{self.path}#{self.attempt}"


@dataclass(frozen=True)
class Shown:
    """A root: its mode and the fates of its activities, in show order."""
    root: int
    mode: str
    fates: tuple[Fate, ...]

    def at(self, path: str) -> Fate | None:
        """The fate of the activity at a path, if it is shown."""
        return next((fate for fate in self.fates if fate.path == path), None)


@dataclass(frozen=True)
class Entry:
    """A line of a worklist."""
    item: str
    is_held: bool


@dataclass(frozen=True)
class Event:
    """A line of an audit: the number of the transaction, its word, and the rest of the line."""
    number: int
    word: str
    rest: str


def fate_of(line: str) -> Fate:
    """The fate in a line of SHOW."""
    path, word, attempt = re.fullmatch(r"'(.*)' ([A-Z]+)(?: (\d+))?", line).groups()
    return Fate(path, word, int(attempt) if attempt else None)


LINES_BEHIND = re.compile(r"ok (?:SHOW \d+ [A-Z]+|OUTPUT \d+|INPUT '[^']*'|WORKLIST '[^']*'|QUEUE \d+|AUDIT \d+"
                          r"|TEMPLATES) (\d+)")


def lines_behind(first: str) -> int:
    """How many lines follow the first line of a reply."""
    found = LINES_BEHIND.fullmatch(first)
    return int(found.group(1)) if found else 0


# ---- a store


class Store:
    """A store in two files, served by a `flow run A B`. A context manager: it opens at entry and ends at exit.

    Raises `Fault` where the program ends without an answer, and a `Refusal` where it refuses.
    """

    def __init__(self, a: str, b: str, program: str = USUAL_PROGRAM, folder: str | None = None) -> None:
        self.a, self.b, self.program, self.folder = a, b, program, folder
        self.process: subprocess.Popen[bytes] | None = None
        # The greatest transaction number that was answered, and the bytes that this run was given.
        self.newest = 0
        self.sent = 0
        self.upkeep = Upkeep()
        self.lock = threading.RLock()

    # -- opening and closing

    @classmethod
    def make(cls, a: str, b: str, program: str = USUAL_PROGRAM, folder: str | None = None, limit: int | None = None,
             queues: int | None = None) -> Store:
        """Makes a store with `flow new`. Raises NoStore where there is one."""
        words = ["new", a, b]
        words += ["LIMIT", str(limit)] if limit is not None else []
        words += ["QUEUES", str(queues)] if queues is not None else []
        line = one_line(program, words, folder)
        if line != "ok NEW":
            raise refusal_of(" ".join(words), line)
        return cls(a, b, program, folder)

    def open(self) -> None:
        """Starts the program. Whether the store can be opened shows with the first command."""
        self.process = subprocess.Popen([self.program, "run", self.a, self.b], cwd=self.folder,
                                        stdin=subprocess.PIPE, stdout=subprocess.PIPE)
        self.sent = 0

    def close(self) -> int:
        """Ends the input of the program, and answers its status."""
        process, self.process = self.process, None
        if process is None:
            return 0
        try:
            process.stdin.close()
        except BrokenPipeError:
            pass
        process.stdout.close()
        return process.wait()

    def reopen(self) -> None:
        """Ends the program if it runs, and starts it again."""
        self.close()
        self.open()

    def __enter__(self) -> Store:
        self.open()
        return self

    def __exit__(self, kind: type[BaseException] | None, error: BaseException | None,
                 trace: TracebackType | None) -> None:
        self.close()

    # -- asking

    def ask(self, command: str) -> list[str]:
        """The lines of the reply to one command. Raises a Refusal, or a Fault; ValueError where it isn't one line."""
        if "\n" in command or not re.sub(r"/\*.*?\*/", "", command).strip():
            raise ValueError("a command is one line")
        with self.lock:
            self.send(command + "\n")
            return self.reply(command)

    def send(self, text: str) -> None:
        """Gives the program lines to read. Opens the store again where they would pass what one run reads."""
        if self.process is None:
            raise ValueError("the store isn't open")
        data = text.encode("ascii")
        if self.sent + len(data) > MOST_INPUT:
            self.reopen()
        self.sent += len(data)
        try:
            self.process.stdin.write(data)
            self.process.stdin.flush()
        except BrokenPipeError:
            raise self.fault("") from None

    def reply(self, command: str) -> list[str]:
        """The lines of the next reply."""
        first = self.line()
        if first.startswith("no STORE"):
            self.close()
        if first.startswith("no "):
            raise refusal_of(command, first)
        number = re.match(r"ok (\d+) ", first)
        self.newest = max(self.newest, int(number.group(1))) if number else self.newest
        return [first] + [self.line() for _ in range(lines_behind(first))]

    def line(self) -> str:
        """The next line that the program prints. Raises Fault where it ended before the line was whole."""
        line = self.process.stdout.readline()
        if not line.endswith(b"\n"):
            raise self.fault(line.decode("ascii", "replace"))
        return line[:-1].decode("ascii")

    def fault(self, printed: str) -> Fault:
        """The fault of a program that has ended."""
        return Fault(self.close(), printed)

    def changed(self, command: str) -> list[str]:
        """The words of the reply to a command that is one transaction, behind `ok t`."""
        return self.ask(command)[0].split()[2:]

    # -- processes

    def import_text(self, text: str) -> int:
        """Imports a process text, and answers how many processes it has. Raises NoRule with the broken line."""
        if any(line in (".", ".\r") for line in text.split("\n")):
            raise ValueError("a line `.` would end the text")
        with self.lock:
            self.send("IMPORT\n" + text.rstrip("\n") + "\n.\n")
            try:
                return int(self.reply("IMPORT")[0].split()[3])
            except NoRule as broken:
                raise broken.show(text) from None

    def import_file(self, path: str) -> int:
        """Imports the process text of a file."""
        with open(path, encoding="ascii") as file:
            return self.import_text(file.read())

    def templates(self) -> list[tuple[str, int]]:
        """The processes that are known, with their versions, in the order of import."""
        lines = self.ask("TEMPLATES")[1:]
        return [(name.strip("'"), int(version)) for name, version in (line.rsplit(" ", 1) for line in lines)]

    # -- roots

    def start(self, process: str, by: str, key: str | None = None, values: Values | None = None) -> Start:
        """Starts a root of the newest version of a process."""
        named = f" KEY '{key}'" if key is not None else ""
        words = self.ask(f"START '{process}' BY '{by}'{named}{with_text(values)}")[0].split()
        if words[1] == "SAME":
            return Start(int(words[2]), None)
        return Start(int(words[3]), int(words[1]))

    def start_surely(self, process: str, by: str, key: str, values: Values | None = None, tries: int = 3) -> Start:
        """Starts a root under a key; after a fault it opens the store again and repeats. The key makes that safe:
        a root that was kept without an answer is found, not started twice. Raises the last Fault."""
        for left in range(tries - 1, -1, -1):
            try:
                return self.start(process, by, key, values)
            except Fault:
                if left == 0:
                    raise
                self.reopen()
        raise ValueError("tries is at least 1")

    def show(self, root: int) -> Shown:
        """The mode and the fates of a root."""
        first, *lines = self.ask(f"SHOW {root}")
        return Shown(root, first.split()[3], tuple(fate_of(line) for line in lines))

    def output(self, root: int) -> dict[str, Value]:
        """The output of a root that is DONE."""
        return container_of(self.ask(f"OUTPUT {root}")[1:])

    def audit(self, root: int) -> list[Event]:
        """The live transactions of a root."""
        lines = (line.split(" ", 2) for line in self.ask(f"AUDIT {root}")[1:])
        return [Event(int(words[0]), words[1], words[2] if len(words) > 2 else "") for words in lines]

    def suspend(self, root: int) -> None:
        self.changed(f"SUSPEND {root}")

    def resume(self, root: int) -> None:
        self.changed(f"RESUME {root}")

    def terminate(self, root: int) -> None:
        self.changed(f"TERMINATE {root}")

    def delete(self, root: int) -> None:
        """Removes a root that is DONE or TERMINATED. Counts what the next checkpoint will drop."""
        events = len(self.audit(root))
        self.changed(f"DELETE {root}")
        self.upkeep.deleted(events)

    # -- items

    def claim(self, item: str, by: str) -> None:
        self.changed(f"CLAIM '{item}' BY '{by}'")

    def release(self, item: str, by: str) -> None:
        self.changed(f"RELEASE '{item}' BY '{by}'")

    def transfer(self, item: str, by: str, to: str) -> None:
        self.changed(f"TRANSFER '{item}' BY '{by}' TO '{to}'")

    def take(self, item: str) -> int:
        """Takes a ready automatic item, and answers the take number."""
        return int(self.changed(f"TAKE '{item}'")[1])

    def done(self, item: str, by: str | int, values: Values | None = None, rc: int | None = None) -> str:
        """Completes an item that a person holds (by is a name) or an agent (by is the take number). Answers the
        fate: `FINISHED k`, or `READY k` where there is one more attempt."""
        holder = f"TAKE {by}" if isinstance(by, int) else f"BY '{by}'"
        return " ".join(self.changed(f"DONE '{item}' {holder}{result_text(rc, values)}"))

    def force(self, item: str, values: Values | None = None, rc: int | None = None) -> str:
        """Completes an item, whoever holds it, and answers its fate."""
        return " ".join(self.changed(f"FORCE '{item}'{result_text(rc, values)}"))

    def restart(self, item: str) -> None:
        """Makes an item that is held ready again. A report under its old take is refused from then on."""
        self.changed(f"RESTART '{item}'")

    def input(self, item: str) -> dict[str, Value]:
        """The input of an item."""
        return container_of(self.ask(f"INPUT '{item}'")[1:])

    def worklist(self, person: str) -> list[Entry]:
        """The items that the person may claim, and those that the person holds."""
        lines = (line.rsplit(" ", 1) for line in self.ask(f"WORKLIST '{person}'")[1:])
        return [Entry(item.strip("'"), state == "HELD") for item, state in lines]

    # -- messages, clock, upkeep

    def turn(self, queue: int = 1) -> str | None:
        """Takes the front message of a queue, and answers it; None where there is none."""
        try:
            return self.ask(f"TURN {queue}")[0].split(" ", 4)[4]
        except NoEmpty:
            return None

    def drain(self) -> int:
        """Takes all messages, and answers how many turns that took. Each turn is a transaction."""
        turns = int(self.ask("DRAIN")[0].split()[2])
        # DRAIN answers no transaction number: where the newest is known, it is ahead by the turns now.
        self.newest += turns if self.newest else 0
        return turns

    def queue(self, queue: int) -> list[str]:
        """The messages of a queue, from the front."""
        return self.ask(f"QUEUE {queue}")[1:]

    def clock(self, minutes: int) -> None:
        self.changed(f"CLOCK {minutes}")

    def checkpoint(self) -> int:
        """Writes the live part to the other file, and answers how many transactions it has."""
        live = int(self.ask("CHECKPOINT")[0].split()[2])
        self.upkeep.checkpointed(live)
        return live

    def checkpoint_if_due(self) -> int | None:
        """A checkpoint where it pays; answers its live transactions, or None."""
        return self.checkpoint() if self.upkeep.is_due() else None


def one_line(program: str, words: list[str], folder: str | None, data: bytes = b"") -> str:
    """The line that the program prints for these words. Raises Fault where it prints none."""
    done = subprocess.run([program, *words], cwd=folder, input=data, stdout=subprocess.PIPE, check=False)
    if not done.stdout.endswith(b"\n"):
        raise Fault(done.returncode, done.stdout[:200].decode("ascii", "replace"))
    return done.stdout.decode("ascii").rstrip("\n")


@dataclass
class Upkeep:
    """When a checkpoint pays: it drops the transactions of deleted roots, and writes all others.

    `live` is the number that the last checkpoint answered, `dropped` the transactions of roots that were deleted
    since then. A checkpoint is due where as many were dropped as the last one wrote, and a thousand at least. Both
    numbers begin at 0 with each `Store`: keep the `Upkeep` where an application is started anew often.
    """
    live: int = 0
    dropped: int = 0

    def deleted(self, events: int) -> None:
        """Counts a deleted root: its live transactions, and the DELETE itself."""
        self.dropped += events + 1

    def checkpointed(self, live: int) -> None:
        self.live, self.dropped = live, 0

    def is_due(self, least: int = 1000) -> bool:
        return self.dropped >= max(self.live, least)


# ---- agents


@dataclass(frozen=True)
class Report:
    """The result of an agent's work on an item: the item's fate; None where the take was old when it was reported."""
    item: str
    take: int
    fate: str | None


Work = Callable[[dict[str, Value]], Values]


def work_once(store: Store, item: str, work: Work) -> Report | None:
    """Takes a ready item, does the work on its input, and reports. Answers None where another agent has taken the
    item before. Where the item was restarted meanwhile, the report is refused and its fate is None: what the work
    did outside has to be undone or found by the next agent."""
    try:
        take = store.take(item)
    except NoState:
        return None
    values = work(store.input(item))
    try:
        return Report(item, take, store.done(item, take, values))
    except (NoTake, NoState):
        return Report(item, take, None)


def ready_items(store: Store, root: int, activity: str) -> list[str]:
    """The ready items of an activity by its name, in every scope of a root."""
    return [fate.item for fate in store.show(root).fates
            if fate.word == "READY" and fate.path.rsplit("/", 1)[1] == activity]


# ---- several stores


@dataclass
class Stores:
    """Several stores beside one another. A root lives in one of them, and is found by its key."""
    stores: list[Store] = field(default_factory=list)

    def place(self, key: str) -> int:
        """The store of a key: the same for the same key and the same number of stores, in every run."""
        return int.from_bytes(hashlib.sha256(key.encode()).digest()[:8], "big") % len(self.stores)

    def start(self, process: str, by: str, key: str, values: Values | None = None) -> tuple[int, Start]:
        """Starts a root in the store of its key; answers which store that is."""
        place = self.place(key)
        return place, self.stores[place].start_surely(process, by, key, values)

    def worklist(self, person: str) -> list[tuple[int, Entry]]:
        """The worklists of a person in all stores, each entry with its store."""
        merged: list[tuple[int, Entry]] = []
        for place, store in enumerate(self.stores):
            try:
                merged += [(place, entry) for entry in store.worklist(person)]
            except NoPerson:
                continue
        return merged

    def drain(self) -> int:
        return sum(store.drain() for store in self.stores)


@dataclass
class Series(Stores):
    """Stores one behind the other: roots are started in the newest, until it is nearly full.

    `reserve` is how many transactions are left to the roots that are live then: the number of live roots, times
    what a case takes to its end.
    """
    make: Callable[[int], Store] = field(kw_only=True)
    texts: list[str] = field(kw_only=True)
    limit: int = field(kw_only=True)
    reserve: int = field(kw_only=True)

    def begin(self) -> Store:
        """Makes the next store, and imports the texts there."""
        store = self.make(len(self.stores))
        store.open()
        for text in self.texts:
            store.import_text(text)
        self.stores.append(store)
        return store

    def start(self, process: str, by: str, key: str, values: Values | None = None) -> tuple[int, Start]:
        """Starts a root in the newest store; goes over to a new one first where that is nearly full."""
        if not self.stores or self.stores[-1].newest > self.limit - self.reserve:
            self.begin()
        return len(self.stores) - 1, self.stores[-1].start_surely(process, by, key, values)

    def close(self) -> None:
        for store in self.stores:
            store.close()


# ---- a standby


def standby_number(program: str, c: str, d: str, folder: str | None = None) -> int:
    """How many transactions a standby has. An empty stream asks for it: it is refused with that number."""
    line = one_line(program, ["follow", c, d], folder)
    found = re.fullmatch(r"no CUT (\d+)", line)
    if not found:
        raise refusal_of(f"follow {c} {d}", line)
    return int(found.group(1))


def ship_once(program: str, store: tuple[str, str], standby: tuple[str, str], folder: str | None = None) -> int:
    """Ships what the standby doesn't have yet, between two runs of the store, and answers how many transactions
    that were. Raises NoGone where a checkpoint has dropped them: the standby is begun anew then, by copying both
    files. What `ship` prints is fed to `follow` only where it is a stream."""
    have = standby_number(program, *standby, folder)
    words = ["ship", *store, str(have)]
    shipped = subprocess.run([program, *words], cwd=folder, stdout=subprocess.PIPE, check=False)
    if not shipped.stdout.startswith(b"FLOWSHP1"):
        if not shipped.stdout.endswith(b"\n"):
            raise Fault(shipped.returncode)
        raise refusal_of(" ".join(words), shipped.stdout.decode("ascii").strip())
    try:
        line = one_line(program, ["follow", *standby], folder, shipped.stdout)
    except Fault as fault:
        if fault.status != 7:
            raise
        # The stream is longer than what one run reads: its first part was taken, and the rest is shipped from there.
        return standby_number(program, *standby, folder) - have + ship_once(program, store, standby, folder)
    found = re.fullmatch(r"ok FOLLOW \d+ (\d+)", line)
    if not found:
        raise refusal_of(f"follow {' '.join(standby)}", line)
    return int(found.group(1))
