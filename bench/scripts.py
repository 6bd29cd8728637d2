"""The texts and scripts that the benchmarks run. Standard library only."""

LOAN = """STRUCTURE 'Loan' 'Amount' : LONG ; 'Risk' : STRING ; END 'Loan'
PERSON 'ann' ROLES 'clerk' END 'ann'
PROCESS 'P' ('Loan','Loan')
PROGRAM_ACTIVITY 'A' ('Loan','Loan') END 'A'
PROGRAM_ACTIVITY 'B' ('Loan','Loan') END 'B'
PROGRAM_ACTIVITY 'C' ('Loan','Loan') END 'C'
PROGRAM_ACTIVITY 'D' ('Loan','Loan') WHEN AT_LEAST_ONE CONNECTOR TRUE END 'D'
CONTROL FROM 'A' TO 'B' WHEN ('Amount' > 100)
CONTROL FROM 'A' TO 'C' OTHERWISE
CONTROL FROM 'B' TO 'D'
CONTROL FROM 'C' TO 'D'
DATA FROM SOURCE TO 'A' MAP 'Amount' TO 'Amount'
DATA FROM 'D' TO SINK MAP 'Amount' TO 'Amount'
END 'P'
"""


def load_script(roots, seed=1):
    """The script that `load SEED ROOTS` serves."""
    lines = ["IMPORT", *LOAN.splitlines(), "."]
    x = seed
    for root in range(1, roots + 1):
        x = (x * 1103515245 + 12345) % 2147483648
        amount = x // 65536 % 201
        way = "B" if amount > 100 else "C"
        lines += [f"START 'P' BY 'ann' WITH 'Amount' = {amount}", "DRAIN",
                  f"FORCE '{root}/A#1' WITH 'Amount' = {amount}", "DRAIN",
                  f"FORCE '{root}/{way}#1'", "DRAIN", f"FORCE '{root}/D#1'", "DRAIN"]
    return ("\n".join(lines) + "\n").encode()


def long_text(size):
    """A process text of exactly `size` bytes, blanks at its end included, that breaks no rule."""
    parts = ["STRUCTURE 'N' 'n' : LONG ; 's' : STRING ; END 'N'\n"]
    have, process = len(parts[0]), 0
    while process < 256:
        lines = [f"PROCESS 'P{process}' ('N','N')\n"]
        for i in range(34):
            lines.append(f"PROGRAM_ACTIVITY 'Activity {i}' ('N','N') EXIT WHEN ('n' >= {i}) END 'Activity {i}'\n")
        for i in range(33):
            lines.append(f"CONTROL FROM 'Activity {i}' TO 'Activity {i + 1}' WHEN ('n' + {i} > 7 OR '_RC' = 0)\n")
        lines.append(f"END 'P{process}'\n")
        text = "".join(lines)
        if have + len(text) > size:
            break
        parts.append(text)
        have += len(text)
        process += 1
    text = "".join(parts)
    return (text + " " * max(0, size - len(text) - 1) + "\n").encode()


def wide_text():
    """1,024 activities, 4,096 connectors that lead forward, and 1,024 completions in order."""
    lines = ["STRUCTURE 'E' END 'E'", "PROCESS 'W' ('E','E')"]
    lines += [f"PROGRAM_ACTIVITY 'A{i}' ('E','E') END 'A{i}'" for i in range(1024)]
    pairs = [(i, i + d) for i in range(1024) for d in (1, 2, 3, 5) if i + d < 1024]
    pairs += [(i, i + 7) for i in range(4096 - len(pairs))]
    lines += [f"CONTROL FROM 'A{a}' TO 'A{b}'" for a, b in pairs]
    lines += ["END 'W'", "."]
    lines += [f"DONE 'A{i}'" for i in range(1024)]
    return ("\n".join(lines) + "\n").encode()


PEOPLE = """STRUCTURE 'L' 'A' : LONG ; END 'L'
PERSON 'ann' ROLES 'clerk' END 'ann'
PERSON 'bob' ROLES 'rare' END 'bob'
PROCESS 'P' ('L','L')
PROGRAM_ACTIVITY 'A' ('L','L') START MANUAL DONE_BY ROLE 'clerk' END 'A'
END 'P'
PROCESS 'Q' ('L','L')
PROGRAM_ACTIVITY 'A' ('L','L') START MANUAL DONE_BY ROLE 'rare' END 'A'
END 'Q'
"""


def one_root_beside(others):
    """`others` roots with an item for a clerk, and ten with one for bob."""
    lines = ["IMPORT", *PEOPLE.splitlines(), "."]
    lines += ["START 'P' BY 'ann'"] * others + ["START 'Q' BY 'bob'"] * 10 + ["DRAIN"]
    return ("\n".join(lines) + "\n").encode()


def path_of(count):
    """Connectors from each of `count` activities to the next."""
    return [(i, i + 1) for i in range(count - 1)]


def fan_of(count):
    """Connectors from the first activity to `count` others."""
    return [(0, i) for i in range(1, count + 1)]


def run_through(count, connectors):
    """A process of `count` activities with these connectors, started and completed one by one."""
    lines = ["IMPORT", "STRUCTURE 'E' END 'E'", "PERSON 'ann' ROLES 'clerk' END 'ann'", "PROCESS 'W' ('E','E')"]
    lines += [f"PROGRAM_ACTIVITY 'A{i}' ('E','E') END 'A{i}'" for i in range(count)]
    lines += [f"CONTROL FROM 'A{a}' TO 'A{b}'" for a, b in connectors]
    lines += ["END 'W'", ".", "START 'W' BY 'ann'", "DRAIN"]
    for i in range(count):
        lines += [f"FORCE '1/A{i}#1'", "DRAIN"]
    return ("\n".join(lines + ["SHOW 1"]) + "\n").encode()


def deletions(count):
    """`count` roots, started and completed; and their deletion."""
    lines = ["IMPORT", *PEOPLE.splitlines(), "."] + ["START 'Q' BY 'bob'"] * count + ["DRAIN"]
    lines += [f"FORCE '{root}/A#1'" for root in range(1, count + 1)] + ["DRAIN"]
    start = ("\n".join(lines) + "\n").encode()
    return start, "".join(f"DELETE {root}\n" for root in range(1, count + 1)).encode()


def manual_case(count):
    """A process of `count` manual activities in a chain, for one role; and the commands of one case of it, as a
    function of its root, one transaction each."""
    lines = ["STRUCTURE 'E' END 'E'", "PERSON 'ann' ROLES 'clerk' END 'ann'", "PROCESS 'Manual' ('E','E')"]
    lines += [f"PROGRAM_ACTIVITY 'A{i}' ('E','E') START MANUAL DONE_BY ROLE 'clerk' END 'A{i}'" for i in range(count)]
    lines += [f"CONTROL FROM 'A{i}' TO 'A{i + 1}'" for i in range(count - 1)] + ["END 'Manual'"]

    def commands(root):
        lines = ["START 'Manual' BY 'ann'", "TURN 1"]
        for i in range(count):
            lines += [f"CLAIM '{root}/A{i}#1' BY 'ann'", f"DONE '{root}/A{i}#1' BY 'ann'"]
            lines += ["TURN 1"] if i < count - 1 else []
        return lines

    return "\n".join(lines) + "\n", commands
