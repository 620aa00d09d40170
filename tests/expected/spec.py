"""The specification's text as Python, on numbers and sets: tables, rounds, shortest paths, files, texts, and what `check` prints. It shares no code with
the library. The makers beside it and the tests of the commands are held to it."""

import re
from dataclasses import dataclass, field, replace
from functools import reduce
from itertools import count
from operator import or_

MAX_STATES, MAX_GROUPS = 512, 64
ALLOWANCE = MAX_STATES
BLOCK, CONTENT = 512, 508
MAX_FILE = 37_376
PRIME = 65_521
NEW_FORM = 32_768


@dataclass
class Table:
    n: int
    initial: set
    marked: set
    steps: set  # pairs (a, b) for a -> b
    groups: list = field(default_factory=list)
    resting: set = field(default_factory=set)

    def states(self):
        return set(range(self.n))

    def row(self, state):
        return {b for a, b in self.steps if a == state}

    def dead_ends(self):
        return self.states() - {a for a, _ in self.steps}

    def forbidden(self):
        """Marked so, or without successor and not resting."""
        return self.marked | self.dead_ends() - self.resting

    def head(self):
        """The sets before the groups."""
        return [self.initial, self.marked, self.resting]

    def second(self):
        """The second number of a file."""
        return NEW_FORM + len(self.groups)


class OldTable(Table):
    """A table of the old form: no resting set, forbidden as marked, and g itself as the second number."""

    def forbidden(self):
        return self.marked

    def head(self):
        return [self.initial, self.marked]

    def second(self):
        return len(self.groups)


def old(table):
    return OldTable(table.n, table.initial, table.marked, table.steps, table.groups)


def rewritten(table):
    """A table of the old form with its dead ends, and no other state, resting."""
    return Table(table.n, table.initial, table.marked, table.steps, table.groups, table.dead_ends())


# ---- The rounds, with a set of states as one number: state s is the bit of value 2^s

def bits(states):
    return sum(1 << s for s in states)


def members(x):
    return [s for s in range(x.bit_length()) if x >> s & 1]


def union(sets):
    return reduce(or_, sets, 0)


def fixpoint(step, start):
    """Where repeating a step from a set comes to rest."""
    while (after := step(start)) != start:
        start = after
    return start


def decide(table):
    """Verdict, count and invariant of the rounds with the allowance."""
    rows = [bits(table.row(s)) for s in range(table.n)]
    every, initial, z = bits(table.states()), bits(table.initial), bits(table.states() - table.forbidden())
    post = lambda x: union(rows[s] for s in members(x))
    hold = lambda x: bits(s for s in range(table.n) if not rows[s] & ~x)
    spots = [every] * table.n
    cover = lambda x: union(spots[s] for s in members(x))

    def add(y):
        for s in members(y):
            spots[s] &= y

    for group in table.groups:
        add(bits(group))
    for i in count():
        add(z)
        r = fixpoint(lambda x: cover(z & (initial | post(x))), 0)
        if not (initial | post(r)) & ~z:
            return "safe", i, set(members(r))
        s = fixpoint(lambda x: cover(r & hold(x)), every)
        if initial & ~s:
            return "unsafe", i, set()
        if i == ALLOWANCE:
            return "undecided", i, set()
        z = s & hold(s)


def shortest_path(table):
    """The smallest of the shortest paths: the least path to each state that a level reaches first."""
    level, seen, forbidden = {s: [s] for s in table.initial}, set(), table.forbidden()
    while level:
        found = [path for s, path in level.items() if s in forbidden]
        if found:
            return min(found)
        seen |= set(level)
        longer = [path + [t] for path in level.values() for t in table.row(path[-1]) - seen]
        level = {path[-1]: path for path in sorted(longer, reverse=True)}
    return None


# ---- Block files

def set_bytes(states, n):
    return bytes(sum(1 << s % 8 for s in states if s // 8 == b) for b in range((n + 7) // 8))


def two(number):
    return number.to_bytes(2, "little")


def contents(table):
    sets = [*table.head(), *table.groups, *map(table.row, range(table.n))]
    return two(table.n) + two(table.second()) + b"".join(set_bytes(s, table.n) for s in sets)


def check(block):
    return sum((i + 1) * byte for i, byte in enumerate(block[:510])) % PRIME


def sealed(number, content):
    body = two(number) + content.ljust(CONTENT, b"\0")
    return body + two(check(body))


def blocks(content):
    return [sealed(k, content[CONTENT * k:CONTENT * (k + 1)]) for k in range(-(-len(content) // CONTENT))]


def encode(table):
    """The draft, a table without states, is a file of no bytes."""
    return b"".join(blocks(contents(table))) if table.n else b""


def with_byte(data, at, value):
    return data[:at] + bytes([value]) + data[at + 1:]


# ---- Texts

END = "end\n"


def listing(states):
    return " ".join(map(str, states)) or "none"


def text(table):
    """One fact a line, in the one order that `shuntberry decode` has, and the end. The draft has one fact; a state without successors has none."""
    head = [("initial", table.initial), ("forbidden", table.marked), ("resting", table.resting)]
    rows = [(f"step {s} ->", table.row(s)) for s in sorted({a for a, _ in table.steps})]
    facts = [*head, *(("group", group) for group in table.groups), *rows] if table.n else []
    return f"states {table.n}\n" + "".join(f"{fact} {listing(sorted(states))}\n" for fact, states in facts) + END


def before_end(text):
    """A text without its last line, which it must have: else it was cut."""
    assert text.endswith("\n" + END), f"the text may be cut: {text[-40:]!r}"
    return text[:-len(END)]


def longer(text, lines):
    """A text with more lines."""
    return before_end(text) + lines + END


def with_names(text, names):
    """The text that `shuntberry decode` has of a table with names: a line for each, and each state that has one by its name."""
    first, *facts = text.splitlines(keepends=True)
    named = lambda fact: re.sub("[0-9]+", lambda number: names.get(int(number[0]), number[0]), fact)
    return "".join([first, *(f"state {s} {name}\n" for s, name in sorted(names.items())), *map(named, facts)])


def read_text(text):
    """The table of a text, and the names of its states. Only what examples/pump.txt has is read: no groups, and each state by its name."""
    facts = [line.split("#")[0].replace("->", " ").split() for line in before_end(text).splitlines()]
    names = {words[2]: int(words[1]) for words in facts if words[:1] == ["state"]}
    of = lambda fact: {names[word] for words in facts if words[:1] == [fact] for word in words[1:]}
    steps = {(names[words[1]], names[word]) for words in facts if words[:1] == ["step"] for word in words[2:]}
    n = next(int(words[1]) for words in facts if words[:1] == ["states"])
    return Table(n, of("initial"), of("forbidden"), steps, [], of("resting")), {state: name for name, state in names.items()}


# ---- What `check` prints

def printed(table):
    verdict, i, invariant = decide(table)
    path = shortest_path(table)
    assert (verdict == "unsafe") == (path is not None)
    lines = [f"states {table.n} groups {len(table.groups)}", f"{verdict} refinements {i}"]
    if verdict == "safe":
        lines.append(f"invariant {len(invariant)}: {listing(sorted(invariant))}")
    else:
        lines.append(f"path {listing(path)}")
    return "".join(line + "\n" for line in lines)


# ---- The specification's tables (Worked tables), and others at the limits

A = Table(3, {0}, {2}, {(0, 1), (1, 0), (2, 2)})
B = Table(5, {0}, {3}, {(0, 1), (1, 2), (2, 3), (4, 4)})
D = Table(5, {0}, {3}, B.steps, [{0}, {1}, {2}])
E = Table(3, {0}, {2}, {(0, 0), (1, 2)})
F = Table(1, {0}, {0}, set())
G = Table(1, set(), set(), set())
HANG = Table(5, {0}, set(), B.steps)
HANG_ALONE = Table(1, {0}, set(), set())


def rests(table, *states):
    return replace(table, resting=set(states))


# H: 0 to 40 circle, 41 to 59 lead to the forbidden 60 and are not reached. A group of the
# reachable states spares all refinements.
H_STEPS = {(s, s + 1) for s in range(60) if s != 40} | {(40, 20), (60, 60)}
H = Table(61, {0}, {60}, H_STEPS)
H1 = Table(61, {0}, {60}, H_STEPS, [set(range(41))])

# Its contents fill one block to the last byte.
FULL_BLOCK = Table(60, {0}, {59}, {(s, (s + 1) % 60) for s in range(60)}, [], {59})

# As many states as there can be, each a step to the next: the longest path. One state fewer: the last byte of a set is not full.
CORRIDOR = Table(MAX_STATES, {0}, {MAX_STATES - 1}, {(s, s + 1) for s in range(MAX_STATES - 1)})
ONE_FEWER = Table(MAX_STATES - 1, {0}, {MAX_STATES - 2}, {(s, s + 1) for s in range(MAX_STATES - 2)})

# The same, and its last state a hang; resting, it makes all states an invariant.
LAST_HANGS = Table(MAX_STATES, {0}, set(), CORRIDOR.steps)

# The same, but its last state cannot be reached, and a group spares all refinements: an invariant of all other states.
ALL_BUT_ONE = Table(
    MAX_STATES, {0}, {MAX_STATES - 1},
    {(s, (s + 1) % (MAX_STATES - 1)) for s in range(MAX_STATES)},
    [set(range(MAX_STATES - 1))],
)

# The largest file: as many states and groups as there can be, a corridor with steps back. The groups are of neighbours, every third state rests.
LARGEST = Table(
    MAX_STATES, {0, 1}, {MAX_STATES - 1},
    {(s, s + 1) for s in range(MAX_STATES - 1)} | {(s, s * 7 % MAX_STATES) for s in range(MAX_STATES)},
    [{s for s in range(MAX_STATES) if s * MAX_GROUPS // MAX_STATES == j} for j in range(MAX_GROUPS)],
    set(range(0, MAX_STATES, 3)),
)
