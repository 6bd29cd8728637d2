#!/usr/bin/env python3
"""Measures inputs that ask for the most within the limits of `docs/language.md` and `docs/commands.md`: texts of
1,048,576 bytes of each construct, and scripts with very many completions, deletions and roots. Prints a row for each:
its input, seconds, greatest memory, what is wanted, and whether it is met; the status is 1 where one isn't.

Usage: limits.py [PROGRAM] [--only NAME].. [--small] [--list]"""
import argparse
import os
import resource
import subprocess
import sys
import tempfile
import time

from timing import USUAL

TEXT_BYTES = 1_048_576
# Wanted of any text of that size: seconds, and MiB of memory.
TEXT = (2, 512)
# After so many times what is wanted a run is ended.
PATIENCE = 10
EMPTY = "STRUCTURE 'E' END 'E'\n"
NUMBER = "STRUCTURE 'N' 'n' : LONG ; END 'N'\n"
small = False


def scaled(count):
    """A count, or a tenth of it."""
    return max(1, count // 10) if small else count


def name(i, width=32):
    """A name of so many bytes between its quotes, other ones for other numbers."""
    return f"N{i:07d}".ljust(width, "x")


def filled(head, unit, tail=""):
    """A text of units, with a head and a tail, of the greatest size; line feeds fill what is left."""
    size = scaled(TEXT_BYTES)
    parts, have = [head], len(head) + len(tail) + 1
    i = 0
    while have + len(piece := unit(i)) <= size:
        parts.append(piece)
        have += len(piece)
        i += 1
    parts.append(tail)
    return "".join(parts) + "\n" * (size - have + 1)


def in_process(unit, head=EMPTY, container="E", before=""):
    """A text of one process, filled with such elements behind the first ones."""
    start = f"{head}PROCESS 'P' ('{container}','{container}')\n{before}"
    return filled(start, unit, "END 'P'\n")


def activity(title, rest="", container="E"):
    return f"PROGRAM_ACTIVITY '{title}' ('{container}','{container}') {rest}END '{title}'\n"


# ---- texts for `check`

def structures():
    return filled("", lambda i: f"STRUCTURE '{name(i)}' 'n' : LONG ; END '{name(i)}'\n")


def members():
    """Structures of 512 members of long names."""
    def unit(i):
        lines = "".join(f"'{name(k)}' : STRING ;\n" for k in range(512))
        return f"STRUCTURE '{name(i)}' {lines}END '{name(i)}'\n"
    return filled("", unit)


def structure_chain():
    """Each structure is the only member of the next."""
    def unit(i):
        kind = f"'S{i - 1}'" if i else "LONG"
        return f"STRUCTURE 'S{i}' 'm' : {kind} ; END 'S{i}'\n"
    return filled("", unit)


def structure_chain_used():
    """The same, with activities over the last one."""
    count = scaled(11_000)
    lines = ["STRUCTURE 'S0' 'm' : LONG ; END 'S0'\n"]
    lines += [f"STRUCTURE 'S{i}' 'm' : 'S{i - 1}' ; END 'S{i}'\n" for i in range(1, count)]
    last = f"S{count - 1}"
    head = "".join(lines) + f"PROCESS 'P' ('{last}','{last}')\n"
    return filled(head, lambda i: activity(f"A{i}", container=last) if i < 1024 else "\n" * 64, "END 'P'\n")


def structure_fan():
    """Structures of two members that are both the structure before: too many leaves from the tenth on."""
    def unit(i):
        kind = f"'S{i - 1}'" if i else "LONG"
        return f"STRUCTURE 'S{i}' 'a' : {kind} ; 'b' : {kind} ; END 'S{i}'\n"
    return filled("", unit)


def structure_wide():
    """Structures that each have the same one of 512 leaves as their member, and a process over each."""
    head = "STRUCTURE 'W' 'n' : LONG (512) ; END 'W'\n"

    def unit(i):
        structure = f"STRUCTURE 'S{i}' 'm' : 'W' ; END 'S{i}'\n"
        if i >= 256:
            return structure
        title = f"S{i}"
        return f"{structure}PROCESS 'P{i}' ('{title}','{title}')\n{activity('A', container=title)}END 'P{i}'\n"
    return filled(head, unit)


def deep_leaves():
    """46 KB: 1,000 structures, each a member of the next, the first with 512 leaves; 100 activities over the last."""
    count = scaled(1000)
    lines = ["STRUCTURE 'S0' 'n' : LONG (512) ; END 'S0'\n"]
    lines += [f"STRUCTURE 'S{i}' 'm' : 'S{i - 1}' ; END 'S{i}'\n" for i in range(1, count)]
    last = f"S{count - 1}"
    lines += [f"PROCESS 'P' ('{last}','{last}')\n"]
    lines += [activity(f"A{i}", container=last) for i in range(100)]
    return "".join(lines) + "END 'P'\n"


def persons():
    return filled("", lambda i: f"PERSON '{name(i)}' ROLES '{name(i)}' END '{name(i)}'\n")


def roles():
    """One person with very many roles, on lines."""
    return filled("PERSON 'ann' ROLES 'clerk'\n", lambda i: f",'{name(i)}'\n", "END 'ann'\n")


def comments():
    return filled("", lambda i: "/* a comment that says nothing at all */\n")


def comment():
    """One comment, over many lines."""
    return filled("/*", lambda i: "x" * 78 + "* \n", "*/\n")


def blanks():
    return filled("", lambda i: " \t\r\n")


def activities():
    return in_process(lambda i: activity(name(i)))


def processes():
    """256 processes, each of as many activities as fit."""
    each = scaled(TEXT_BYTES) // 256 // 130

    def unit(i):
        if i >= 256:
            return "\n" * 64
        inside = "".join(activity(name(k)) for k in range(each))
        return f"PROCESS '{name(i)}' ('E','E')\n{inside}END '{name(i)}'\n"
    return filled(EMPTY, unit)


def connector_chain():
    """Activities in a chain."""
    def unit(i):
        control = f"CONTROL FROM 'A{i - 1}' TO 'A{i}'\n" if i else ""
        return activity(f"A{i}") + control
    return in_process(unit)


def connectors():
    """Connectors between all pairs of 1,024 activities, as many as fit."""
    count = scaled(1024)
    before = "".join(activity(f"A{i}") for i in range(count))
    pairs = ((a, a + d) for d in range(1, count) for a in range(count - d))

    def unit(i):
        pair = next(pairs, None)
        return f"CONTROL FROM 'A{pair[0]}' TO 'A{pair[1]}'\n" if pair else "\n" * 64
    return in_process(unit, before=before)


def cycles():
    """Connectors that all lie on one cycle."""
    count = scaled(7_000)
    before = "".join(activity(f"A{i}") for i in range(count))
    def unit(i):
        return f"CONTROL FROM 'A{i}' TO 'A{(i + 1) % count}'\n" if i < count else "\n" * 64
    return in_process(unit, before=before)


def otherwises():
    """A WHEN and an OTHERWISE connector of each activity."""
    def unit(i):
        lines = activity(f"A{i}", container="N")
        if i >= 2:
            lines += f"CONTROL FROM 'A{i - 2}' TO 'A{i}' WHEN ('n' = 1)\nCONTROL FROM 'A{i - 2}' TO 'A{i - 1}' OTHERWISE\n"
        return lines
    return in_process(unit, head=NUMBER, container="N")


def performers():
    """A chain in which each activity is for the performer of the one before."""
    def unit(i):
        if i == 0:
            return activity("A0", "START MANUAL ")
        by = f"START MANUAL DONE_BY PERFORMER OF 'A{i - 1}' "
        return activity(f"A{i}", by) + f"CONTROL FROM 'A{i - 1}' TO 'A{i}'\n"
    return in_process(unit)


def first_performers():
    """A chain in which each activity is for the performer of the first."""
    def unit(i):
        if i == 0:
            return activity("A0", "START MANUAL ")
        return activity(f"A{i}", "DONE_BY PERFORMER OF 'A0' ") + f"CONTROL FROM 'A{i - 1}' TO 'A{i}'\n"
    return in_process(unit)


def data_chain():
    """5,000 activities in a chain, with data lines from each to the next."""
    count = scaled(5_000)
    before = "".join(activity(f"A{i}", container="N") for i in range(count))
    before += "".join(f"CONTROL FROM 'A{i}' TO 'A{i + 1}'\n" for i in range(count - 1))
    unit = lambda i: f"DATA FROM 'A{i % (count - 1)}' TO 'A{i % (count - 1) + 1}' MAP 'n' TO 'n'\n"
    return in_process(unit, head=NUMBER, container="N", before=before)


def data_far():
    """2,500 activities in a chain, with data lines from each to one that is far behind it."""
    count = scaled(2_500)
    before = "".join(activity(f"A{i}", container="N") for i in range(count))
    before += "".join(f"CONTROL FROM 'A{i}' TO 'A{i + 1}'\n" for i in range(count - 1))
    half = count // 2
    unit = lambda i: f"DATA FROM 'A{i % half}' TO 'A{count - 1 - i * 7 % half}' MAP 'n' TO 'n'\n"
    return in_process(unit, head=NUMBER, container="N", before=before)


def walks():
    """4,000 activities with connectors to the three after them, each for the performer of a far one, and far data lines."""
    count = scaled(4_000)
    by = lambda i: f"DONE_BY PERFORMER OF 'A{i * i % 997 % i}' " if i else ""
    before = "".join(activity(f"A{i}", f"START MANUAL {by(i)}", "N") for i in range(count))
    before += "".join(f"CONTROL FROM 'A{i}' TO 'A{i + d}'\n" for d in (1, 2, 3) for i in range(count - d))
    half = count // 2
    unit = lambda i: f"DATA FROM 'A{i % half}' TO 'A{count - 1 - i * 7 % half}' MAP 'n' TO 'n'\n"
    return in_process(unit, head=NUMBER, container="N", before=before)


def data_maps():
    """Data lines with very many maps between 512 leaves."""
    head = "STRUCTURE 'N' 'n' : LONG (512) ; END 'N'\n"
    before = activity("A", container="N") + activity("B", container="N") + "CONTROL FROM 'A' TO 'B'\n"

    def unit(i):
        maps = " , ".join(f"'n' [ {k} ] TO 'n' [ {511 - k} ]" for k in range(512))
        return f"DATA FROM 'A' TO 'B' MAP {maps}\n"
    return in_process(unit, head=head, container="N", before=before)


def data_map():
    """One data line, of as many maps as fit."""
    head = "STRUCTURE 'N' 'n' : LONG (512) ; END 'N'\n"
    before = activity("A", container="N") + "DATA FROM SOURCE TO 'A' MAP 'n' [ 0 ] TO 'n' [ 0 ]\n"
    unit = lambda i: f", 'n' [ {i % 512} ] TO 'n' [ {i * 7 % 512} ]\n"
    return in_process(unit, head=head, container="N", before=before)


def conditions():
    """Exit conditions of 64 operands."""
    tests = " AND ".join("'n' + 1 = 2 - 'n'" for _ in range(16))
    return in_process(lambda i: activity(f"A{i}", f"EXIT WHEN ( {tests} ) ", "N"), head=NUMBER, container="N")


def long_conditions():
    """One condition that is as long as the text."""
    before = activity("A", container="N") + activity("B", container="N") + "CONTROL FROM 'A' TO 'B' WHEN ( 'n' = 1\n"
    head = NUMBER + "PROCESS 'P' ('N','N')\n" + before
    return filled(head, lambda i: "OR 'n' = 1\n", ")\nEND 'P'\n")


def nested_conditions():
    """Conditions with 64 levels of parentheses."""
    test = "(" * 63 + "'n' = 1" + ")" * 63
    return in_process(lambda i: activity(f"A{i}", f"EXIT WHEN ({test}) ", "N"), head=NUMBER, container="N")


def blocks():
    """Blocks in one another, 64 deep."""
    def unit(i):
        opening = "".join(f"BLOCK 'B{i}x{k}' ('E','E')\n" for k in range(64))
        closing = "".join(f"END 'B{i}x{k}'\n" for k in reversed(range(64)))
        return opening + activity("A") + closing
    return in_process(unit)


def flat_blocks():
    return in_process(lambda i: f"BLOCK '{name(i)}' ('E','E')\n{activity('A')}END '{name(i)}'\n")


def calls():
    """256 processes, each calling all those before it as often as fits in the text."""
    each = scaled(TEXT_BYTES) // 256 // 56

    def unit(i):
        if i >= 256:
            return "\n" * 64
        inside = "".join(f"PROCESS_ACTIVITY 'C{k}' ('E','E') PROCESS 'P{k % i}' END 'C{k}'\n" for k in range(each)) \
            if i else activity("A")
        return f"PROCESS 'P{i}' ('E','E')\n{inside}END 'P{i}'\n"
    return filled(EMPTY, unit)


def calls_of_wide():
    """Calls of a process whose containers have 512 leaves of long names."""
    head = "STRUCTURE 'W' " + "".join(f"'{name(k)}' : LONG ;\n" for k in range(512)) + "END 'W'\n"
    head += f"PROCESS 'Q' ('W','W')\n{activity('A', container='W')}END 'Q'\nPROCESS 'P' ('W','W')\n"
    unit = lambda i: f"PROCESS_ACTIVITY 'C{i}' ('W','W') PROCESS 'Q' END 'C{i}'\n"
    return filled(head, unit, "END 'P'\n")


def calls_of_alike():
    """Calls whose containers are another structure than those of the process, with the same 512 leaves."""
    inside = "".join(f"'{name(k)}' : LONG ;\n" for k in range(512))
    head = f"STRUCTURE 'W' {inside}END 'W'\nSTRUCTURE 'V' {inside}END 'V'\n"
    head += f"PROCESS 'Q' ('W','W')\n{activity('A', container='W')}END 'Q'\nPROCESS 'P' ('V','V')\n"
    unit = lambda i: f"PROCESS_ACTIVITY 'C{i}' ('V','V') PROCESS 'Q' END 'C{i}'\n"
    return filled(head, unit, "END 'P'\n")


def calls_of_deep():
    """Calls whose containers are another structure than those of the process, with the same 512 leaves, each 1,000
    members deep."""
    count = scaled(1000)
    head = []
    for title in "VW":
        head += [f"STRUCTURE '{title}0' 'n' : LONG (512) ; END '{title}0'\n"]
        head += [f"STRUCTURE '{title}{i}' 'm' : '{title}{i - 1}' ; END '{title}{i}'\n" for i in range(1, count)]
    ours, theirs = f"V{count - 1}", f"W{count - 1}"
    head += [f"PROCESS 'Q' ('{theirs}','{theirs}')\n{activity('A', container=theirs)}END 'Q'\n"]
    head += [f"PROCESS 'P' ('{ours}','{ours}')\n"]
    unit = lambda i: f"PROCESS_ACTIVITY 'C{i}' ('{ours}','{ours}') PROCESS 'Q' END 'C{i}'\n"
    return filled("".join(head), unit, "END 'P'\n")


def misfits_of_deep():
    """A call in each of 16 blocks inside one another, whose containers differ from those of the process in the last of
    512 leaves alone, each as many members deep as the text has room for."""
    count, levels = scaled(10_800), 16
    head = []
    for title, last in (("V", "LONG"), ("W", "STRING")):
        head += [f"STRUCTURE '{title}0' 'n' : LONG (511) ; 'z' : {last} ; END '{title}0'\n"]
        head += [f"STRUCTURE '{title}{i}' 'm' : '{title}{i - 1}' ; END '{title}{i}'\n" for i in range(1, count)]
    ours, theirs = f"V{count - 1}", f"W{count - 1}"
    head += [f"PROCESS 'Q' ('{theirs}','{theirs}')\n{activity('A', container=theirs)}END 'Q'\n"]
    head += [f"PROCESS 'P' ('{ours}','{ours}')\n"]
    head += [f"BLOCK 'B{k}' ('{ours}','{ours}')\n" for k in range(levels)]
    call = lambda k: f"PROCESS_ACTIVITY 'C{k}' ('{ours}','{ours}') PROCESS 'Q' END 'C{k}'\nEND 'B{k}'\n"
    return "".join(head) + "".join(call(k) for k in reversed(range(levels))) + "END 'P'\n"


def attributes():
    rest = "WHEN ALL CONNECTORS TRUE START MANUAL EXPIRES 1 DONE_BY ROLE 'clerk' "
    return in_process(lambda i: activity(f"A{i}", rest))


def texts():
    """Conditions over texts of 255 bytes."""
    head = "STRUCTURE 'N' 's' : STRING ; END 'N'\n"
    return in_process(lambda i: activity(f"A{i}", f"EXIT WHEN ('s' = \"{'x' * 255}\") ", "N"), head=head, container="N")


# ---- inputs of `fate`

LOOPING = NUMBER + "PROCESS 'P' ('N','N')\n"
ENDED = "END 'P'\n.\n"


def fate_attempts():
    """Attempts of one activity whose exit condition stays false."""
    text = LOOPING + activity("A", "EXIT WHEN ('n' = 1) ", "N") + ENDED
    return text + "DONE 'A'\n" * scaled(1_000_000)


def fate_items():
    """The same, with each item written."""
    text = LOOPING + activity("A", "EXIT WHEN ('n' = 1) ", "N") + ENDED
    return text + "".join(f"DONE '1/A#{i}'\n" for i in range(1, scaled(1_000_000) + 1))


def fate_blocks():
    """Attempts of a block whose exit condition stays false, each with one completion."""
    text = LOOPING + f"BLOCK 'B' ('N','N') EXIT WHEN ('n' = 1)\n{activity('A', container='N')}END 'B'\n" + ENDED
    return text + "".join(f"DONE '1/B#{i}/A#1'\n" for i in range(1, scaled(1_000_000) + 1))


def fate_inner():
    """Attempts of an activity inside 16 blocks."""
    opening = "".join(f"BLOCK 'B{k}' ('N','N')\n" for k in range(15))
    closing = "".join(f"END 'B{k}'\n" for k in reversed(range(15)))
    text = LOOPING + opening + activity("A", "EXIT WHEN ('n' = 1) ", "N") + closing + ENDED
    path = "/".join(f"B{k}#1" for k in range(15))
    return text + "".join(f"DONE '1/{path}/A#{i}'\n" for i in range(1, scaled(1_000_000) + 1))


def fate_wide():
    """Attempts of 1,024 activities in turn."""
    count = scaled(1024)
    text = LOOPING + "".join(activity(f"A{i}", "EXIT WHEN ('n' = 1) ", "N") for i in range(count)) + ENDED
    return text + "".join(f"DONE 'A{i % count}'\n" for i in range(scaled(1_000_000)))


def fate_refused():
    """Completions of which the first isn't ready."""
    text = LOOPING + activity("A", "EXIT WHEN ('n' = 1) ", "N") + ENDED
    return text + "".join(f"DONE '1/A#{i}'\n" for i in range(2, scaled(1_000_000) + 2))


# ---- scripts

PEOPLE = """IMPORT
STRUCTURE 'E' END 'E'
PERSON 'ann' ROLES 'clerk' END 'ann'
PROCESS 'Q' ('E','E')
PROGRAM_ACTIVITY 'A' ('E','E') START MANUAL DONE_BY ROLE 'clerk' END 'A'
END 'Q'
.
"""


def started(roots):
    return PEOPLE + "START 'Q' BY 'ann'\n" * roots + "DRAIN\n"


def deletions():
    """200,000 roots, of which 100,000 are terminated and deleted one by one."""
    roots = scaled(200_000)
    script = started(roots)
    script += "".join(f"TERMINATE {root}\nDELETE {root}\n" for root in range(1, roots + 1, 2))
    return script


def audits(roots):
    """2,000 audits of one root, beside so many."""
    return started(roots) + "AUDIT 1\n" * 2000


def audits_alone():
    return audits(1)


def audits_beside():
    return audits(scaled(200_000))


# ---- imports

def chain_of(title, count):
    """A chain of structures, of which the last has 512 leaves that many members deep."""
    first = f"STRUCTURE '{title}0' 'n' : LONG (512) ; END '{title}0'\n"
    return first + "".join(f"STRUCTURE '{title}{i}' 'm' : '{title}{i - 1}' ; END '{title}{i}'\n" for i in range(1, count))


def deep_imports():
    """An IMPORT of 256 processes whose containers have 512 leaves, each 10,000 members deep, and two IMPORTs that call
    all of them, with structures of their own."""
    count, called = scaled(10_000), scaled(256)
    depth = lambda k: count - 1 - k
    process = lambda k: f"PROCESS 'Q{k}' ('W{depth(k)}','W{depth(k)}')\n" + \
        f"{activity('A', container=f'W{depth(k)}')}END 'Q{k}'\n"
    callees = chain_of("W", count) + "".join(process(k) for k in range(called))
    call = lambda k: f"PROCESS_ACTIVITY 'C{k}' ('V{depth(k)}','V{depth(k)}') PROCESS 'Q{k}' END 'C{k}'\n"
    caller = chain_of("V", count) + "PROCESS 'P' ('V0','V0')\n" + "".join(call(k) for k in range(called)) + "END 'P'\n"
    return "".join(f"IMPORT\n{text}.\n" for text in (callees, caller, caller))


# ---- verify

VERIFIED = """IMPORT
STRUCTURE 'N' 'n' : LONG ; END 'N'
PERSON 'ann' ROLES 'clerk' END 'ann'
PROCESS 'P' ('N','N')
PROGRAM_ACTIVITY 'A' ('N','N') EXIT WHEN ('n' = 1) END 'A'
END 'P'
.
START 'P' BY 'ann'
DRAIN
"""


def attempted(attempts):
    """A store's script in which an activity is finished after so many attempts."""
    script = VERIFIED + "".join(f"FORCE '1/A#{i}'\nDRAIN\n" for i in range(1, attempts))
    return script + f"FORCE '1/A#{attempts}' WITH 'n' = 1\nDRAIN\n"


def repeated(attempts, lines):
    """A certificate whose line FINISHED stands so many times."""
    return "SCOPE '1'\n" + f"FINISHED '1/A' {attempts}\n" * lines


class Row:
    """A run that is measured: its input, its words, what is wanted of it, and what comes before it."""

    def __init__(self, make, words, seconds, mib, statuses=(0, 8), before=None):
        self.make, self.words, self.before = make, words, before
        self.seconds, self.mib, self.statuses = seconds, mib, statuses


TEXTS = [structures, members, structure_chain, structure_chain_used, structure_fan, structure_wide, persons, roles,
         comments, comment, blanks, activities, processes, connector_chain, connectors, cycles, otherwises, performers,
         first_performers, data_chain, data_far, walks, data_maps, data_map, conditions, long_conditions, nested_conditions,
         blocks, flat_blocks, calls, calls_of_wide, calls_of_alike, calls_of_deep, misfits_of_deep, attributes,
         texts]
FATES = [fate_attempts, fate_items, fate_blocks, fate_inner, fate_wide, fate_refused]
SERVED = ["try", "LIMIT", "10000000"]


def rows():
    """All rows by their names."""
    found = {f"check {make.__name__}": Row(make, ["check"], *TEXT) for make in TEXTS}
    found["check deep_leaves"] = Row(deep_leaves, ["check"], 1, 64)
    for make in FATES:
        found[make.__name__.replace("_", " ", 1)] = Row(make, ["fate"], 5, 2048)
    found["verify 100 attempts, 1,000,000 lines"] = Row(
        lambda: repeated(100, scaled(1_000_000)), ["verify", "A", "B"], 5, 1024, before=lambda: attempted(100))
    found["verify 100,000 attempts, 10,000 lines"] = Row(
        lambda: repeated(scaled(100_000), scaled(10_000)), ["verify", "A", "B"], 5, 1024,
        before=lambda: attempted(scaled(100_000)))
    found["try deletions"] = Row(deletions, SERVED, 3, 1024)
    found["try audits_alone"] = Row(audits_alone, SERVED, 0.2, 64)
    found["try audits_beside"] = Row(audits_beside, SERVED, 2, 1024)
    found["try deep_imports"] = Row(deep_imports, SERVED, 5, 1024)
    found["load 1 20000"] = Row(lambda: "", ["load", "1", str(scaled(20_000))], 1, 64)
    return found


def run_in(words, path, folder, seconds):
    """A run as a child of this process, whose greatest memory is that of its children: status, seconds and MiB."""
    begin = time.perf_counter()
    with open(path, "rb") as data:
        child = subprocess.Popen(words, stdin=data, stdout=subprocess.DEVNULL, cwd=folder)
        try:
            status = child.wait(timeout=seconds)
        except subprocess.TimeoutExpired:
            child.kill()
            child.wait()
            status = None
    spent = time.perf_counter() - begin
    return status, spent, resource.getrusage(resource.RUSAGE_CHILDREN).ru_maxrss / 1024


def measured(words, path, folder, seconds):
    """The same in a process of its own, so that earlier children don't count."""
    end, other = os.pipe()
    pid = os.fork()
    if pid == 0:
        os.close(end)
        os.write(other, repr(run_in(words, path, folder, seconds)).encode())
        os._exit(0)
    os.close(other)
    with os.fdopen(end, "rb") as told:
        result = told.read().decode()
    os.waitpid(pid, 0)
    return eval(result, {"__builtins__": {}})


def prepare(flow, row, folder):
    """Makes the store that a row needs."""
    if row.before is None:
        return
    subprocess.run([flow, "new", "A", "B", "LIMIT", "10000000"], cwd=folder, stdout=subprocess.DEVNULL, check=True)
    subprocess.run([flow, "run", "A", "B"], cwd=folder, input=row.before().encode(), stdout=subprocess.DEVNULL,
                   check=True)


def judge(flow, title, row):
    """Runs a row and prints its line; whether it is met."""
    with tempfile.TemporaryDirectory() as folder:
        prepare(flow, row, folder)
        path = os.path.join(folder, "input")
        with open(path, "w", encoding="ascii") as file:
            file.write(row.make())
        size = os.path.getsize(path)
        status, seconds, mib = measured([flow, *row.words], path, folder, row.seconds * PATIENCE)
    met = status in row.statuses and seconds <= row.seconds and mib <= row.mib
    ended = "late" if status is None else f"status {status}" if status not in row.statuses else ""
    verdict = "ok" if met else " ".join(["NOT MET", ended]).strip()
    print(f"{title:<40} {size:>11,} B {seconds:>9.3f} s {mib:>8.0f} MiB   "
          f"{row.seconds:>4} s {row.mib:>5} MiB   {verdict}", flush=True)
    return met


def main():
    global small
    asked = argparse.ArgumentParser(description=__doc__, formatter_class=argparse.RawDescriptionHelpFormatter)
    asked.add_argument("program", nargs="?", default=USUAL)
    asked.add_argument("--only", action="append", default=[], metavar="NAME", help="rows with these words in their names")
    asked.add_argument("--small", action="store_true", help="a tenth of the sizes")
    asked.add_argument("--list", action="store_true", help="the names of the rows")
    asked.add_argument("--input", metavar="NAME", help="prints the input of one row, and runs nothing")
    words = asked.parse_args()
    small = words.small
    chosen = {title: row for title, row in rows().items()
              if not words.only or any(part in title for part in words.only)}
    if words.list:
        print(*chosen, sep="\n")
        return 0
    if words.input:
        sys.stdout.write(rows()[words.input].make())
        return 0
    flow = os.path.abspath(words.program)
    if not os.access(flow, os.X_OK):
        sys.exit(f"limits.py: no program at {flow}; ./flow build makes it, or name one")
    if not chosen:
        sys.exit("limits.py: no such row; --list has them")
    print(f"{'row':<40} {'input':>13} {'time':>11} {'memory':>12}   {'wanted':>16}")
    met = [judge(flow, title, row) for title, row in chosen.items()]
    print(f"{sum(met)} of {len(met)} rows are met")
    return 0 if all(met) else 1


if __name__ == "__main__":
    sys.exit(main())
