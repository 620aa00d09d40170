"""What confirm must answer: worked out on Python's sets and dictionaries, by the tables and files of tests/expected/spec.py. It shares nothing with confirm: where
that reads a file and prints a report again, this writes the file again and reads the report by a pattern."""
import re
import subprocess

import model
import spec

SAFE, UNSAFE, NOT_CONFIRMED, DRAFT = 0, 1, 3, 4
NUMBER = b"(?:0|[1-9][0-9]*)"
LIST = b"(?:%b)(?: %b)*" % (NUMBER, NUMBER)
REPORT = re.compile(
    b"states (?P<n>%b) groups (?P<g>%b)\n(?:safe refinements (?P<i>%b)\ninvariant (?P<size>%b): (?P<invariant>none|%b)|unsafe refinements (?P<j>%b)\npath (?P<path>%b))\n(?:SHA-256 (?P<sum>[0-9a-f]{64})\n)?"
    % (NUMBER, NUMBER, NUMBER, NUMBER, LIST, NUMBER, LIST)
)


def members(some):
    return {8 * at + bit for at, byte in enumerate(some) for bit in range(8) if byte >> bit & 1}


def table_of(file, site):
    """The table of a file, or None: what is read of it in any way at all must be written as the same bytes."""
    content = b"".join(file[at + 2 : at + 510] for at in range(0, len(file), spec.BLOCK))
    n, g = int.from_bytes(content[:2], "little"), int.from_bytes(content[2:4], "little") - spec.NEW_FORM
    if not file:
        return spec.Table(0, set(), set(), set())
    if not (1 <= n <= spec.MAX_STATES and 0 <= g <= spec.MAX_GROUPS):
        return None
    width = -(-n // 8)
    sets = [members(content[4 + width * i : 4 + width * (i + 1)]) for i in range(3 + g + n)]
    steps = {(a, b) for a, row in enumerate(sets[3 + g :]) for b in row}
    table = spec.Table(n, sets[0], sets[1], steps, sets[3 : 3 + g], sets[2])
    if any(state >= n for some in sets for state in some):
        return None
    return table if model.at_site(spec.encode(table), site) == file else None


def is_invariant(table, states):
    return table.initial <= states and not states & table.forbidden() and all(b in states for a, b in table.steps if a in states)


def is_path(table, states):
    return states[0] in table.initial and states[-1] in table.forbidden() and set(zip(states, states[1:])) <= table.steps


def sum_of(file):
    """As sha256sum has it."""
    return subprocess.run(["sha256sum"], input=file, stdout=subprocess.PIPE, check=True).stdout.split()[0]


def released(file, report):
    """What release prints, and check does not."""
    return report + b"SHA-256 %b\n" % sum_of(file)


def status(file, site, report):
    table, found = table_of(file, site), REPORT.fullmatch(report)
    if not table or not found or (int(found["n"]), int(found["g"])) != (table.n, len(table.groups)):
        return NOT_CONFIRMED
    if int(found["i"] or found["j"]) > table.n:
        return NOT_CONFIRMED
    states = [int(word) for word in (found["path"] or found["invariant"]).split() if word != b"none"]
    if not set(states) <= table.states():
        return NOT_CONFIRMED
    if found["path"]:
        return UNSAFE if is_path(table, states) and not found["sum"] else NOT_CONFIRMED
    if int(found["size"]) != len(states) or states != sorted(set(states)) or not is_invariant(table, set(states)):
        return NOT_CONFIRMED
    if found["sum"] and (not table.n or found["sum"] != sum_of(file)):
        return NOT_CONFIRMED
    return SAFE if table.n else DRAFT


def remark(file, site, report):
    """What is said below a confirmed safe that says little."""
    if status(file, site, report) != SAFE:
        return ""
    table = table_of(file, site)
    told = [] if table.initial else ["no state is initial"]
    told += [] if table.forbidden() else ["nothing is forbidden"]
    return f"but {told[0]}: the table is safe whatever else is in it\n" if told else ""


def is_true(file, site, status):
    """Whether an answer is so, by a search through the table from its initial states."""
    if status == NOT_CONFIRMED:
        return True
    table = table_of(file, site)
    reached = model.reached(table, table.initial) & table.forbidden()
    return {SAFE: not reached and table.n > 0, UNSAFE: bool(reached), DRAFT: not file}[status]
