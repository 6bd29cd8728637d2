#!/usr/bin/env python3
"""Tries the program on real files, and prints a line for each trial with what was seen.

  run.py [PROGRAM]

The program is crates/flow_cli/out/flow_cli unless one is named. The last line says how many trials passed, failed
and were skipped; the status is 0 where none failed. Trials with faults need a C compiler as `cc`. Standard library
only.
"""
import concurrent.futures
import fcntl
import os
import random
import resource
import shutil
import signal
import subprocess
import sys
import tempfile
import threading
import time

HERE = os.path.dirname(os.path.abspath(__file__))
TOP = os.path.dirname(os.path.dirname(HERE))
PROGRAM = os.path.abspath(sys.argv[1] if len(sys.argv) > 1 else os.path.join(TOP, "crates/flow_cli/out/flow_cli"))
EXAMPLES = os.path.join(TOP, "examples")
CREDIT = os.path.join(EXAMPLES, "credit/script.txt")
NOBODY = 65534
SEED = 20261128
TRIALS = []


class Skipped(Exception):
    """The trial can't be made on this machine."""


def trial(function):
    """Adds a trial. Its name is the function's, and it answers what was seen."""
    TRIALS.append((function, False))
    return function


def trial_in_memory(function):
    """Adds a trial whose files lie in memory, where there is such a folder: its many syncs cost nothing there."""
    TRIALS.append((function, True))
    return function


def check(holds, what):
    if not holds:
        raise AssertionError(what)


def flow(folder, *words, data=b"", **more):
    """Status and output of the program with these words, in a folder."""
    done = subprocess.run([PROGRAM, *words], input=data, stdout=subprocess.PIPE, stderr=subprocess.DEVNULL,
                          cwd=folder, timeout=60, **more)
    return done.returncode, done.stdout


def serving(folder):
    """A run that serves a store, with pipes to it and from it."""
    return subprocess.Popen([PROGRAM, "run", "A", "B"], cwd=folder, stdin=subprocess.PIPE, stdout=subprocess.PIPE)


def wants(seen, status, output=None):
    """Fails where a run didn't end with this status and, if it is given, this output."""
    is_so = seen[0] == status and output in (None, seen[1])
    check(is_so, f"status {seen[0]} and {seen[1][:80]!r}, not {status}, {output!r}")


def made(folder, *lines):
    """A new store in a folder, that has served these lines."""
    wants(flow(folder, "new", "A", "B"), 0, b"ok NEW\n")
    if lines:
        wants(flow(folder, "run", "A", "B", data="".join(line + "\n" for line in lines).encode()), 0)


def held(folder):
    """Names and bytes of all files in a folder."""
    found = {}
    for name in sorted(os.listdir(folder)):
        with open(os.path.join(folder, name), "rb") as file:
            found[name] = file.read()
    return found


def count_of(folder):
    """The number of transactions of a store."""
    status, output = flow(folder, "ship", "A", "B", "10000000")
    check(status == 8 and output.startswith(b"no AHEAD "), f"ship: status {status}, {output[:60]!r}")
    return int(output.split()[2])


# Words that look at a store, each with what it reads.
LOOKS = [("explain", "A", "B", "1/X"), ("verify", "A", "B"), ("overdue", "A", "B"), ("ship", "A", "B", "0")]
# A stream without transactions, for a store of the usual size.
STREAM = b"FLOWSHP1\x01" + (1000000).to_bytes(8, "big") + bytes(8) + b"\0"


def each_word(folder):
    """Each word but `new`, run in a folder: the word, its status and its output."""
    for words in [("run", "A", "B"), ("follow", "A", "B"), *LOOKS]:
        data = STREAM if words[0] == "follow" else b""
        yield words[0], *flow(folder, *words, data=data)


# --- Which files are opened ---

@trial
def two_runs_at_once(folder):
    made(folder, "CLOCK 1")
    with serving(folder) as first:
        first.stdin.write(b"CLOCK 2\n")
        first.stdin.flush()
        check(first.stdout.readline() == b"ok 2 CLOCK 2\n", "the first run answers")
        before = held(folder)
        refused = [flow(folder, "run", "A", "B", data=b"CLOCK 9\n"), flow(folder, "new", "A", "B"),
                   flow(folder, "follow", "A", "B", data=STREAM)]
        for seen in refused:
            wants(seen, 3, b"")
        check(held(folder) == before, "a refused run changed a file")
        output, _ = first.communicate(b"CLOCK 3\n")
    check(output == b"ok 3 CLOCK 3\n" and count_of(folder) == 3, f"the first run goes on: {output!r}")
    return "run, new and follow beside a run: status 3, nothing printed, no byte changed; the first went on"


@trial
def look_during_a_run(folder):
    made(folder, "CLOCK 1")
    with serving(folder) as first:
        first.stdin.write(b"CLOCK 2\n")
        first.stdin.flush()
        first.stdout.readline()
        for words in LOOKS:
            wants(flow(folder, *words), 3, b"")
        first.communicate()
    wants(flow(folder, "ship", "A", "B", "2"), 0)
    return "explain, verify, overdue and ship: status 3 and nothing printed; after the run ship serves"


@trial
def look_beside_a_look(folder):
    made(folder, "CLOCK 1")
    with open(os.path.join(folder, "A"), "rb") as a, open(os.path.join(folder, "B"), "rb") as b:
        fcntl.flock(a, fcntl.LOCK_SH)
        fcntl.flock(b, fcntl.LOCK_SH)
        wants(flow(folder, "overdue", "A", "B"), 0)
        wants(flow(folder, "run", "A", "B", data=b"CLOCK 2\n"), 3, b"")
    return "beside a shared lock overdue serves and run gives status 3"


@trial
def no_files(folder):
    for word, status, output in each_word(folder):
        check(output == b"no STORE UNMADE\n", f"{word}: {output!r}")
        check(os.listdir(folder) == [], f"{word} left {os.listdir(folder)}")
    return "each word but new: no STORE UNMADE, and no file is left"


@trial
def one_file_missing(folder):
    made(folder, "CLOCK 1")
    a = held(folder)["A"]
    for missing, kept in (("A", "B"), ("B", "A")):
        os.remove(os.path.join(folder, missing))
        with open(os.path.join(folder, kept), "wb") as file:
            file.write(a)
        for word, status, output in each_word(folder):
            check((status, output) == (3, b""), f"{word} without {missing}: status {status}, {output!r}")
        wants(flow(folder, "new", "A", "B"), 3, b"")
        check(held(folder) == {kept: a}, "the files have changed")
        open(os.path.join(folder, missing), "wb").close()
    return "each word, new too, with A or B missing: status 3, nothing printed, nothing made"


@trial
def interrupted_new(folder):
    open(os.path.join(folder, "A"), "wb").close()
    wants(flow(folder, "run", "A", "B"), 3, b"")
    made(folder, "CLOCK 1")
    return "run beside an empty A alone: status 3; new makes B and the store"


@trial
def one_file_under_two_names(folder):
    wants(flow(folder, "new", "x", "./x"), 3, b"")
    made(folder, "CLOCK 1")
    os.link(os.path.join(folder, "A"), os.path.join(folder, "hard"))
    os.symlink("A", os.path.join(folder, "soft"))
    before = held(folder)
    for other in ("./A", "hard", "soft"):
        for words in (("new",), ("run",), ("follow",), ("verify",), ("overdue",)):
            data = STREAM if words[0] == "follow" else b""
            wants(flow(folder, *words, "A", other, data=data), 3, b"")
    check(held(folder) == before, "the files have changed")
    return "new, run, follow, verify and overdue over A and ./A, a hard link, a symbolic link: status 3"


@trial
def no_regular_file(folder):
    os.mkfifo(os.path.join(folder, "A"))
    os.mkdir(os.path.join(folder, "B"))
    for words in (("run", "A", "B"), ("overdue", "A", "B"), ("run", "B", "A"), ("new", "A", "B")):
        wants(flow(folder, *words), 3, b"")
    return "a pipe and a folder in place of the files: status 3, and nobody waits"


@trial
def modes(folder):
    old = os.umask(0)
    try:
        made(folder)
    finally:
        os.umask(old)
    modes_seen = {name: oct(os.stat(os.path.join(folder, name)).st_mode & 0o7777) for name in ("A", "B")}
    check(set(modes_seen.values()) == {"0o600"}, f"modes {modes_seen}")
    return "with umask 0, new makes both files with mode 0600"


@trial
def reader_without_write_access(folder):
    made(folder, "CLOCK 1")
    names = [os.path.join(folder, name) for name in ("A", "B")]
    for name in names:
        os.chmod(name, 0o444)
    os.chmod(folder, 0o555)
    is_root = os.geteuid() == 0
    program = shutil.copy(PROGRAM, os.path.join(os.path.dirname(folder), "program"))
    os.chmod(program, 0o755)

    def as_nobody():
        if is_root:
            os.setgroups([])
            os.setgid(NOBODY)
            os.setuid(NOBODY)

    def run(*words):
        done = subprocess.run([program, *words], input=b"", stdout=subprocess.PIPE, stderr=subprocess.DEVNULL,
                              cwd=folder, preexec_fn=as_nobody, timeout=60)
        return done.returncode, done.stdout

    try:
        before = held(folder)
        for words in (("overdue", "A", "B"), ("ship", "A", "B", "1")):
            wants(run(*words), 0)
        wants(run("verify", "A", "B"), 0)
        wants(run("run", "A", "B"), 3, b"")
        check(held(folder) == before, "the files have changed")
    finally:
        os.chmod(folder, 0o755)
    who = "nobody" if is_root else "their owner without the right to write"
    return f"overdue, ship and verify serve {who}; run gives status 3"


@trial
def words_that_are_not_text(folder):
    for words in ((b"\xff",), (b"run", b"A\xff", b"B"), (b"new", b"A", b"B\xc3")):
        wants(flow(folder, *words), 1, b"no USAGE\n")
    check(os.listdir(folder) == [], "a file was made")
    return "words that aren't UTF-8: no USAGE, status 1, no file"


@trial
def examples_on_files(folder):
    names = sorted(name for name in os.listdir(EXAMPLES)
                   if os.path.exists(os.path.join(EXAMPLES, name, "replies.txt")))
    for name in names:
        place = os.path.join(folder, name)
        os.mkdir(place)
        made(place)
        with open(os.path.join(EXAMPLES, name, "script.txt"), "rb") as script:
            data = script.read()
        with open(os.path.join(EXAMPLES, name, "replies.txt"), "rb") as replies:
            wants(flow(place, "run", "A", "B", data=data), 0, replies.read())
    check(names, "there are no examples")
    return f"run gives the replies that are kept beside {', '.join(names)}"


# --- The outside ends or fails ---

@trial
def closed_reader(folder):
    made(folder)
    with serving(folder) as run:
        run.stdin.write(b"CLOCK 1\n")
        run.stdin.flush()
        check(run.stdout.readline() == b"ok 1 CLOCK 1\n", "the run answers")
        run.stdout.close()
        try:
            run.stdin.write(b"".join(b"CLOCK %d\n" % i for i in range(2, 50)))
            run.stdin.close()
        except BrokenPipeError:
            pass
        status = run.wait()
    count = count_of(folder)
    check(status == 5, f"status {status}")
    check(1 <= count <= 2, f"{count} transactions")
    return f"status {status} after the reader has gone; {count} transactions stand, 1 was answered"


def limited(ignored):
    """What a child does first: it may not make a file longer than 300 bytes."""
    def begin():
        if ignored:
            signal.signal(signal.SIGXFSZ, signal.SIG_IGN)
        resource.setrlimit(resource.RLIMIT_FSIZE, (300, 300))
    return begin


@trial
def full_disk(folder):
    seen = []
    for ignored in (True, False):
        for name in os.listdir(folder):
            os.remove(os.path.join(folder, name))
        made(folder)
        data = b"".join(b"CLOCK %d\n" % i for i in range(1, 30))
        status, output = flow(folder, "run", "A", "B", data=data, preexec_fn=limited(ignored))
        check(status == (3 if ignored else -signal.SIGXFSZ), f"status {status}")
        answered, count = output.count(b"\n"), count_of(folder)
        check(0 < answered <= count <= answered + 1, f"{answered} answered, {count} stand")
        wants(flow(folder, "run", "A", "B", data=b"CLOCK 99\n"), 0)
        seen.append(status)
    return f"at the limit on a file's size: status {seen[0]} with SIGXFSZ ignored, the signal without; nothing is lost"


@trial
def stopped_and_continued(folder):
    made(folder)
    data = b"".join(b"CLOCK %d\n" % i for i in range(1, 101))
    with serving(folder) as run:
        output = []
        reading = threading.Thread(target=lambda: output.append(run.communicate(data)[0]))
        reading.start()
        stops = 0
        while reading.is_alive() and stops < 200:
            run.send_signal(signal.SIGSTOP)
            time.sleep(0.001)
            run.send_signal(signal.SIGCONT)
            time.sleep(0.004)
            stops += 1
        reading.join()
    wanted = b"".join(b"ok %d CLOCK %d\n" % (i, i) for i in range(1, 101))
    check(output == [wanted] and run.returncode == 0 and count_of(folder) == 100, "a reply is missing")
    return f"{stops} times SIGSTOP and SIGCONT under 100 commands: each reply is right"


# --- Damage ---

def judged(folder, a, b):
    """The answer of a store of these bytes: no signal, no hang, and a named refusal or a right open."""
    for name, content in (("A", a), ("B", b)):
        with open(os.path.join(folder, name), "wb") as file:
            file.write(content)
    status, output = flow(folder, "overdue", "A", "B")
    fine = status == 0 or status == 2 and output.startswith(b"no STORE ") and output.endswith(b"\n")
    check(fine, f"status {status}, {output[:60]!r}")
    check(held(folder) == {"A": a, "B": b}, "a look has changed the files")
    return output.split()[2] if status else b"OPENS"


def tally(answers):
    """How often each answer came."""
    return ", ".join(f"{answers.count(each)} {each.decode()}" for each in sorted(set(answers)))


@trial_in_memory
def cut_and_altered(folder):
    made(folder, "CLOCK 5", "CHECKPOINT", "CLOCK 6")
    whole = held(folder)
    cases = [(whole["A"], whole["B"][:i]) for i in range(len(whole["B"]))]
    cases += [(whole["A"][:i], whole["B"]) for i in range(len(whole["A"]))]
    for slot in ("A", "B"):
        for i in range(len(whole[slot])):
            for flip in (1, 0x80):
                altered = bytearray(whole[slot])
                altered[i] ^= flip
                cases.append((bytes(altered), whole["B"]) if slot == "A" else (whole["A"], bytes(altered)))
    answers = beside(folder, lambda place, case: judged(place, *case), cases)
    return f"{len(cases)} stores cut or with a byte altered: {tally(answers)}"


def beside(folder, function, cases):
    """The answers of a function to cases, each thread in a folder of its own."""
    workers = os.cpu_count() or 1
    own = threading.local()

    def one(case):
        if not hasattr(own, "folder"):
            own.folder = tempfile.mkdtemp(dir=folder)
        return function(own.folder, case)

    with concurrent.futures.ThreadPoolExecutor(workers) as pool:
        return list(pool.map(one, cases))


# --- Kills ---

def killed_run(folder, chance, clock, checkpoints):
    """Kills a run at a random moment, and answers how far the store has come."""
    lines = []
    for i in range(clock + 1, clock + 41):
        lines += [f"CLOCK {i}"] + ["CHECKPOINT"] * (checkpoints and i % 3 == 0)
    with serving(folder) as run:
        run.stdin.write("".join(line + "\n" for line in lines).encode())
        run.stdin.flush()
        output = b"".join(run.stdout.readline() for _ in range(chance.randrange(1, 8)))
        time.sleep(chance.random() * 0.01)
        run.kill()
        output += run.stdout.read()
    numbers = [int(line.split()[1]) for line in output.splitlines() if line.startswith(b"ok ") and b"CLOCK" in line]
    answered = max(numbers, default=clock)
    count = count_of(folder)
    check(answered <= count <= answered + 1, f"{answered} answered, {count} stand")
    return count


def killed_runs(folder, case):
    seed, checkpoints, kills = case
    place = tempfile.mkdtemp(dir=folder)
    chance = random.Random(seed)
    made(place)
    clock = 0
    for _ in range(kills):
        clock = killed_run(place, chance, clock, checkpoints)
    return clock


@trial
def kills_under_run(folder):
    cases = [(SEED + i, i % 2 == 1, 20) for i in range(8)]
    clocks = beside(folder, killed_runs, cases)
    return f"{20 * len(cases)} kills, half of them with CHECKPOINT: every answered one of {sum(clocks)} transactions " \
           f"stands, and at most one more"


def killed_follow(folder, case):
    seed, stream, kills = case
    place = tempfile.mkdtemp(dir=folder)
    chance = random.Random(seed)
    made(place)
    seen = 0
    for _ in range(kills):
        before = os.stat(os.path.join(place, "A")).st_mtime_ns
        with subprocess.Popen([PROGRAM, "follow", "A", "B"], cwd=place, stdin=subprocess.PIPE,
                              stdout=subprocess.DEVNULL) as run:
            run.stdin.write(stream)
            run.stdin.flush()
            begin = time.monotonic()
            while os.stat(os.path.join(place, "A")).st_mtime_ns == before and time.monotonic() - begin < 10:
                time.sleep(0.0005)
            time.sleep(chance.random() * 0.02)
            run.kill()
        count = count_of(place)
        check(seen <= count, f"{count} transactions after {seen}")
        seen = count
        status, kept = flow(place, "ship", "A", "B", "0")
        check(status == 0 and stream.startswith(kept[:-1]), "the standby isn't a front part of the stream")
        if count == 600:
            made_again(place)
            seen = 0
    return seen


def made_again(folder):
    """A new store in place of the one that is there."""
    for name in ("A", "B"):
        os.remove(os.path.join(folder, name))
    made(folder)


@trial
def kills_under_follow(folder):
    source = os.path.join(folder, "source")
    os.mkdir(source)
    made(source, *[f"CLOCK {i}" for i in range(1, 601)])
    status, stream = flow(source, "ship", "A", "B", "0")
    check(status == 0, f"ship: status {status}")
    cases = [(SEED + i, stream, 15) for i in range(4)]
    beside(folder, killed_follow, cases)
    return f"{15 * len(cases)} kills: the standby opens, keeps what it had, and holds a front part of the stream"


# --- Faults of the device ---

def library():
    """The path of the library that makes faults."""
    compiler = shutil.which("cc")
    if compiler is None:
        raise Skipped("no cc on this machine")
    path = os.path.join(FOLDER, "faults.so")
    if not os.path.exists(path):
        subprocess.run([compiler, "-O1", "-shared", "-fPIC", "-o", path, os.path.join(HERE, "faults.c")], check=True)
    return path


def faulty(folder, kind, call, data):
    """A run with a fault at a call: its status and output, and whether the fault came."""
    fired = os.path.join(folder, "fired")
    environment = dict(os.environ, LD_PRELOAD=library(), FAULT_FOLDER=os.path.realpath(folder), FAULT_KIND=kind,
                       FAULT_CALL=str(call), FAULT_FIRED=fired)
    status, output = flow(folder, "run", "A", "B", data=data, env=environment)
    came = os.path.exists(fired)
    if came:
        os.remove(fired)
    return status, output, came


def marks(folder):
    return [name for name in ("A.unsynced", "B.unsynced") if os.path.exists(os.path.join(folder, name))]


def credit_with_checkpoints():
    """The credit case, with a CHECKPOINT in its middle and at its end."""
    with open(CREDIT, "rb") as file:
        lines = file.read().splitlines(keepends=True)
    end = next(i for i, line in enumerate(lines) if line == b".\n") + 1
    middle = (end + len(lines)) // 2
    return b"".join(lines[:middle] + [b"CHECKPOINT\n"] + lines[middle:] + [b"CHECKPOINT\n"])


def numbers_of(output):
    """How many transactions stand after each line that was answered."""
    counts = [0]
    for line in output.splitlines():
        words = line.split()
        if words[:2] == [b"ok", b"TURNS"]:
            counts.append(counts[-1] + int(words[2]))
        elif words[:1] == [b"ok"] and words[1].isdigit():
            counts.append(int(words[1]))
        else:
            counts.append(counts[-1])
    return counts


LOOK = b"TEMPLATES\nAUDIT 1\n"


def stands(folder):
    """The number of transactions of a store of the credit case, and its audit trail."""
    status, output = flow(folder, "run", "A", "B", data=LOOK)
    check(status == 0, f"the store doesn't open: status {status}, {output[:60]!r}")
    lines = output.splitlines()
    trail = [line for line in lines if line.split()[0].isdigit()]
    is_imported = not output.startswith(b"ok TEMPLATES 0")
    return int(trail[-1].split()[0]) if trail else int(is_imported), trail


def fault_case(folder, case):
    """A fault at one call of the credit case. Answers whether it came, and whether a mark was left."""
    kind, call, fresh, data, whole, counts, trail = case
    for name in os.listdir(folder):
        os.remove(os.path.join(folder, name))
    for name in ("A", "B"):
        shutil.copy(os.path.join(fresh, name), folder)
    status, output, came = faulty(folder, kind, call, data)
    place = f"{kind} at call {call}"
    check(whole.startswith(output), f"{place}: a reply that isn't right")
    left = marks(folder)
    if not came or kind == "short":
        check(status == 0 and output == whole and not left, f"{place}: status {status}")
        return came, False
    check(status == (3 if kind == "fail" else 9), f"{place}: status {status}")
    for name in left:
        os.remove(os.path.join(folder, name))
    lines = output.count(b"\n")
    most = counts[lines + 1] if lines + 1 < len(counts) else counts[-1]
    count, seen = stands(folder)
    check(counts[lines] <= count <= most, f"{place}: {counts[lines]} answered, {count} stand")
    check(seen == trail[:len(seen)], f"{place}: the audit trail is another")
    return came, bool(left)


@trial_in_memory
def a_fault_at_each_call(folder):
    library()
    data = credit_with_checkpoints()
    fresh = os.path.join(folder, "fresh")
    os.mkdir(fresh)
    made(fresh)
    plain = os.path.join(folder, "plain")
    shutil.copytree(fresh, plain)
    status, whole = flow(plain, "run", "A", "B", data=data)
    check(status == 0 and whole.count(b"ok CHECKPOINT") == 2, f"status {status}")
    counts, (_, trail) = numbers_of(whole), stands(plain)
    seen = []
    for kind in ("fail", "stop", "short"):
        came, call, marked = 0, 1, 0
        while True:
            cases = [(kind, call + i, fresh, data, whole, counts, trail) for i in range(40)]
            found = beside(folder, fault_case, cases)
            came += sum(one[0] for one in found)
            marked += sum(one[1] for one in found)
            call += 40
            if not all(one[0] for one in found):
                break
        check(came > 0, f"{kind}: no fault came")
        seen.append(f"{came} {kind} ({marked} marks)")
    return f"credit case with CHECKPOINT, {', '.join(seen)}: each store opens with every answered transaction"


@trial_in_memory
def interrupted_calls(folder):
    made(folder)
    data = credit_with_checkpoints()
    plain = os.path.join(folder, "plain")
    shutil.copytree(folder, plain)
    _, whole = flow(plain, "run", "A", "B", data=data)
    status, output, came = faulty(folder, "interrupt", 1, data)
    check(came and status == 0 and output == whole, f"status {status}")
    return "every second call on the files gives EINTR: status 0, and each reply is right"


@trial
def mark_after_a_failed_sync(folder):
    for name in ("A.unsynced", "B.unsynced"):
        made(folder, "CLOCK 1")
        open(os.path.join(folder, name), "wb").close()
        before = held(folder)
        for word, status, output in each_word(folder):
            check((status, output) == (3, b""), f"{word} beside {name}: status {status}, {output!r}")
        wants(flow(folder, "new", "A", "B"), 3, b"")
        check(held(folder) == before, "the files have changed")
        os.remove(os.path.join(folder, name))
        wants(flow(folder, "run", "A", "B", data=b"CLOCK 2\n"), 0, b"ok 2 CLOCK 2\n")
        for slot in ("A", "B"):
            os.remove(os.path.join(folder, slot))
    made(folder)
    status, output, came = faulty(folder, "sync", 5, b"CLOCK 1\nCLOCK 2\nCLOCK 3\n")
    check(came and status == 3 and marks(folder) == ["A.unsynced"], f"status {status}, {marks(folder)}")
    wants(flow(folder, "run", "A", "B"), 3, b"")
    os.remove(os.path.join(folder, "A.unsynced"))
    count = count_of(folder)
    check(output.count(b"\n") <= count <= output.count(b"\n") + 1, f"{count} transactions")
    return "a failed sync leaves A.unsynced; beside A.unsynced or B.unsynced each word gives status 3"


# --- Room ahead ---

@trial
def room_ahead(folder):
    made(folder, *[f"CLOCK {i}" for i in range(1, 2501)])
    size = os.path.getsize(os.path.join(folder, "A"))
    check(size == 43 + 22 * 2500, f"{size} bytes: no room below 65,536")
    wants(flow(folder, "run", "A", "B", data=b"".join(b"CLOCK %d\n" % i for i in range(2501, 3001))), 0)
    with_room = held(folder)["A"]
    end = 43 + 22 * 3000
    check(len(with_room) == 1 << 17 and not any(with_room[end:]), f"{len(with_room)} bytes")
    status, stream = flow(folder, "ship", "A", "B", "0")
    with open(os.path.join(folder, "A"), "r+b") as file:
        file.truncate(end)
    check((status, stream) == (0, flow(folder, "ship", "A", "B", "0")[1]), "the room has a meaning")
    with open(os.path.join(folder, "A"), "wb") as file:
        file.write(with_room)
    for clock in range(3001, 3004):
        wants(flow(folder, "run", "A", "B", data=b"CHECKPOINT\nCLOCK %d\n" % clock), 0,
              b"ok CHECKPOINT %d\nok %d CLOCK %d\n" % (clock - 1, clock, clock))
    check(count_of(folder) == 3003, "after three checkpoints")
    return f"zeros behind the records of a file of more than 65,536 bytes, up to 131,072; they mean nothing"


MEMORY = "/dev/shm"


def tried(function, in_memory):
    """Runs a trial in a folder of its own, and answers its word and its line."""
    parent = MEMORY if in_memory and os.access(MEMORY, os.W_OK) else FOLDER
    begin = time.perf_counter()
    with tempfile.TemporaryDirectory(dir=parent) as folder:
        os.chmod(folder, 0o755)
        try:
            word, seen = "passed", function(folder)
        except Skipped as why:
            word, seen = "skipped", why
        except (AssertionError, OSError, ValueError, subprocess.SubprocessError) as why:
            word, seen = "failed", why
    return word, f"{word:<7} {function.__name__.replace('_', ' ')}: {seen} [{time.perf_counter() - begin:.1f} s]"


def main():
    global FOLDER
    if not os.access(PROGRAM, os.X_OK):
        sys.exit(f"{sys.argv[0]}: no program at {PROGRAM}; ./flow builds it, or name one")
    words = []
    with tempfile.TemporaryDirectory() as FOLDER:
        os.chmod(FOLDER, 0o755)
        for function, in_memory in TRIALS:
            word, line = tried(function, in_memory)
            words.append(word)
            print(line, flush=True)
    skipped = f", {words.count('skipped')} skipped" if "skipped" in words else ""
    print(f"{words.count('passed')} passed, {words.count('failed')} failed{skipped}")
    return 1 if "failed" in words else 0


if __name__ == "__main__":
    sys.exit(main())
