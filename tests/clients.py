#!/usr/bin/env python3
"""Tries examples/client.py and examples/journal.py over real stores. Usage: clients.py [PROGRAM]

Each trial has a name; a failure prints what was wanted and what came. The last line is `N passed, M failed`.
PROGRAM is crates/flow_cli/out/flow_cli where it is left out. Standard library only.
"""
from __future__ import annotations

import os
import subprocess
import sys
import tempfile
from collections.abc import Callable
from pathlib import Path
from unittest.mock import patch

TOP = Path(__file__).resolve().parent.parent
sys.path.insert(0, str(TOP / "examples"))
sys.dont_write_bytecode = True

import client  # noqa: E402
import journal  # noqa: E402

TEXT = """STRUCTURE 'Line' 'Item' : STRING ; 'Count' : LONG ; END 'Line'
STRUCTURE 'N' 'n' : LONG ; 'Lines' : 'Line' (2) ; END 'N'
PERSON 'ann' ROLES 'clerk' END 'ann'
PERSON 'bob' ROLES 'clerk' END 'bob'
PROCESS 'W' ('N','N')
PROGRAM_ACTIVITY 'A' ('N','N') START MANUAL DONE_BY ROLE 'clerk' END 'A'
PROGRAM_ACTIVITY 'B' ('N','N') END 'B'
DATA FROM SOURCE TO 'B' MAP 'n' TO 'n'
END 'W'
"""


def compare(wanted: object, got: object) -> None:
    """Raises AssertionError with both where they differ."""
    if wanted != got:
        raise AssertionError(f"wanted {wanted!r}, got {got!r}")


def refused(kind: type[client.Refusal], do: Callable[[], object]) -> client.Refusal:
    """The refusal of this class that a call raises; AssertionError where it raises none."""
    try:
        got = do()
    except kind as refusal:
        return refusal
    raise AssertionError(f"wanted {kind.__name__}, got {got!r}")


class Place:
    """A folder with the program, for one trial."""

    def __init__(self, program: str, folder: str) -> None:
        self.program, self.folder = program, folder

    def store(self, a: str = "A", b: str = "B", limit: int | None = None) -> client.Store:
        """A new store with one case of W in it, drained."""
        store = client.Store.make(a, b, self.program, self.folder, limit)
        store.open()
        store.import_text(TEXT)
        store.start("W", "ann", "k-1", {"n": 7, "Lines[1].Item": 'a "b"'})
        store.drain()
        return store


def values_are_written_and_read_back(place: Place) -> None:
    store = place.store()
    store.claim("1/A#1", "ann")
    compare("FINISHED 1", store.done("1/A#1", "ann", {"n": -5, "Lines[0].Item": 'say "hi"', "Lines[1].Count": 2 ** 40}))
    compare({"n": 7, "Lines[0].Item": "", "Lines[0].Count": 0, "Lines[1].Item": "", "Lines[1].Count": 0},
            store.input("1/B#1"))
    store.close()
    source = journal.files_source([os.path.join(place.folder, name) for name in ("A", "B")])
    told = [entry for entry in journal.entries(source, None) if isinstance(entry, journal.Transaction)]
    compare({"n": 7, "Lines[1].Item": 'a "b"'}, told[1].values)
    compare({"n": -5, "Lines[0].Item": 'say "hi"', "Lines[1].Count": 2 ** 40}, told[-1].values)
    compare("ann", told[-1].by)


def refusals_keep_what_was_printed(place: Place) -> None:
    store = place.store()
    compare("READY", refused(client.NoState, lambda: store.done("1/A#1", "ann")).kept)
    store.claim("1/A#1", "ann")
    compare("ann", refused(client.NoOwner, lambda: store.release("1/A#1", "bob")).name)
    compare("zoe", refused(client.NoPerson, lambda: store.worklist("zoe")).name)
    compare(9, refused(client.NoRoot, lambda: store.show(9)).number)
    compare(8, refused(client.NoWord, lambda: store.ask("IMPORT x")).number)
    broken = refused(client.NoRule, lambda: store.import_text("PERSON 'cal'\nEND 'bob'"))
    compare((4, 2, "END 'bob'"), (broken.rule, broken.line, broken.text))
    store.close()


def a_command_is_one_line(place: Place) -> None:
    store = place.store()
    for line in ("SHOW 1\nSHOW 1", "", "/* nothing */"):
        try:
            got = store.ask(line)
        except ValueError:
            continue
        raise AssertionError(f"wanted ValueError for {line!r}, got {got!r}")
    store.close()


def a_locked_store_is_a_fault_with_status_3(place: Place) -> None:
    first = place.store()
    second = client.Store("A", "B", place.program, place.folder)
    second.open()
    try:
        second.templates()
    except client.Fault as fault:
        compare(3, fault.status)
    else:
        raise AssertionError("wanted a Fault, got an answer")
    compare([("W", 1)], first.templates())
    first.close()


def a_start_is_repeated_after_a_kill(place: Place) -> None:
    store = place.store()
    store.process.kill()
    store.process.wait()
    compare(2, store.start_surely("W", "ann", "k-2").root)
    compare(client.Start(2, None), store.start_surely("W", "ann", "k-2"))
    store.close()


def an_old_take_is_noticed(place: Place) -> None:
    store = place.store()
    item, = client.ready_items(store, 1, "B")
    old = client.work_once(store, item, lambda given: store.restart(item) or {})
    compare(client.Report(item, 1, None), old)
    compare(client.Report(item, 2, "FINISHED 1"), client.work_once(store, item, lambda given: {"n": given["n"]}))
    compare(None, client.work_once(store, item, lambda given: {}))
    store.close()


def a_checkpoint_is_due_by_the_rule(place: Place) -> None:
    store = place.store()
    store.terminate(1)
    store.drain()
    transactions = len(store.audit(1))
    store.delete(1)
    compare(transactions + 1, store.upkeep.dropped)
    compare([False, True], [store.upkeep.is_due(), store.upkeep.is_due(least=transactions + 1)])
    compare(None, store.checkpoint_if_due())
    compare(1, store.checkpoint())
    compare((1, 0), (store.upkeep.live, store.upkeep.dropped))
    store.close()


def a_standby_follows_until_a_checkpoint(place: Place) -> None:
    store = place.store()
    newest = store.newest
    store.close()
    client.Store.make("C", "D", place.program, place.folder)
    words = (place.program, ("A", "B"), ("C", "D"), place.folder)
    compare([newest, 0], [client.ship_once(*words), client.ship_once(*words)])
    compare(newest, client.standby_number(place.program, "C", "D", place.folder))
    with store:
        store.clock(5)
        store.checkpoint()
    compare(newest + 1, refused(client.NoGone, lambda: client.ship_once(*words)).number)


def keys_lead_to_the_same_store(place: Place) -> None:
    cells = client.Stores([place.store(f"A{i}", f"B{i}") for i in range(3)])
    places = [cells.start("W", "ann", f"c-{i}")[0] for i in range(9)]
    compare(places, [cells.start("W", "ann", f"c-{i}")[0] for i in range(9)])
    compare({0, 1, 2}, set(places))
    cells.drain()
    compare(9 + 3, len(cells.worklist("bob")))
    for store in cells.stores:
        store.close()


def a_series_goes_over_before_the_limit(place: Place) -> None:
    series = client.Series(make=lambda i: client.Store.make(f"A{i}", f"B{i}", place.program, place.folder, limit=20),
                           texts=[TEXT], limit=20, reserve=12)
    places = []
    for i in range(9):
        places.append(series.start("W", "ann", f"c-{i}")[0])
        series.drain()
    compare([0, 0, 0, 0, 1, 1, 1, 1, 2], places)
    compare(True, all(store.newest <= 20 - 12 + 2 for store in series.stores))
    series.close()


def a_run_is_ended_before_its_input_is_too_long(place: Place) -> None:
    store = place.store()
    first = store.process.pid
    with patch.object(client, "MOST_INPUT", store.sent + 10):
        store.clock(1)
        compare(first, store.process.pid)
        store.clock(2)
        compare(True, first != store.process.pid)
    store.close()


def a_journal_is_read_from_stream_and_files(place: Place) -> None:
    store = place.store()
    store.suspend(1)
    store.clock(60)
    store.close()
    stream = subprocess.run([place.program, "ship", "A", "B", "0"], cwd=place.folder, capture_output=True, check=True)
    files = [os.path.join(place.folder, name) for name in ("A", "B")]
    lines = [[entry.line() for entry in journal.entries(source, None)]
             for source in (journal.stream_source(stream.stdout), journal.files_source(files))]
    compare(lines[0], lines[1])
    compare("ROOT 1 'W' 1 BY 'ann' KEY 'k-1' SUSPENDED or DONE 3 transactions", lines[0][-2])
    asked = list(journal.entries(journal.files_source(files), client.Store("A", "B", place.program, place.folder)))
    compare("SUSPENDED", asked[-2].mode)
    compare((60, 5), (asked[-1].clock, asked[-1].newest))


TRIALS = (values_are_written_and_read_back, refusals_keep_what_was_printed, a_command_is_one_line,
          a_locked_store_is_a_fault_with_status_3, a_start_is_repeated_after_a_kill, an_old_take_is_noticed,
          a_checkpoint_is_due_by_the_rule, a_standby_follows_until_a_checkpoint, keys_lead_to_the_same_store,
          a_series_goes_over_before_the_limit, a_run_is_ended_before_its_input_is_too_long,
          a_journal_is_read_from_stream_and_files)


def main() -> None:
    usual = TOP / "crates" / "flow_cli" / "out" / "flow_cli"
    program = os.path.abspath(sys.argv[1] if len(sys.argv) > 1 else usual)
    if not os.access(program, os.X_OK):
        sys.exit(f"clients.py: no program at {program}; ./flow build makes it, or name one")
    failed = 0
    for trial in TRIALS:
        name = trial.__name__.replace("_", " ")
        with tempfile.TemporaryDirectory() as folder:
            try:
                trial(Place(program, folder))
                print(f"passed: {name}")
            except (AssertionError, client.Fault, client.Refusal, journal.Malformed) as error:
                failed += 1
                print(f"FAILED: {name}: {type(error).__name__}: {error}")
    print(f"{len(TRIALS) - failed} passed, {failed} failed")
    sys.exit(1 if failed else 0)


if __name__ == "__main__":
    main()
