"""Random drafts, each edited many times, with what the proved archive answers after each edit, by the Python
module, as lines of JSON: a text, and edits as a person makes them on the page.

    cases.py SEED COUNT EDITS
"""
import json
import random
import sys
from copy import deepcopy
from pathlib import Path

TOP = Path(__file__).resolve().parents[2]
sys.path[:0] = [str(TOP / "python"), str(TOP / "tests" / "expected")]
sys.dont_write_bytecode = True
import shuntberry  # noqa: E402
import spec  # noqa: E402

SEED, COUNT, EDITS = map(int, sys.argv[1:])
random.seed(SEED)
SIZES = [0, 1, 2, 3, 4, 5, 6, 8, 8, 10, 13, 25, 25, 40, 64, 65]
LARGEST = 512
MAX_GROUPS = 64


class Draft:
    """A draft: a table whose steps may be there only with an option, and names."""

    def __init__(self, n):
        self.names = [None] * n
        self.initial, self.marked, self.resting = set(), set(), set()
        self.groups = []
        self.certain, self.options = set(), set()  # pairs

    @property
    def n(self):
        return len(self.names)

    def called(self, s):
        return str(s) if self.names[s] is None else self.names[s]

    def text(self):
        rows = lambda steps, word: [f"{word} {a} -> {b}" for a, b in sorted(steps)]  # noqa: E731
        sets = [("initial", self.initial), ("forbidden", self.marked), ("resting", self.resting)]
        lines = [f"states {self.n}"]
        lines += [f"state {s} {name}" for s, name in enumerate(self.names) if name is not None]
        lines += [f"{word} {' '.join(map(str, sorted(states))) or 'none'}" for word, states in sets]
        lines += [f"group {' '.join(map(str, sorted(group))) or 'none'}" for group in self.groups]
        return "\n".join([*lines, *rows(self.certain, "step"), *rows(self.options, "possible"), "end", ""])

    def table(self, steps):
        rows = {s: sorted(b for a, b in steps if a == s) for s in range(self.n)}
        return shuntberry.Table(
            self.n, initial=self.initial, marked=self.marked, resting=self.resting, groups=self.groups,
            steps=rows)

    def answers(self):
        """What the archive says. Reachable screens and distances are of the table with all possible steps."""
        every = self.certain | self.options
        table = self.table(every)
        if self.options:
            rows = {s: sorted(b for a, b in every if a == s) for s in range(self.n)}
            decision = shuntberry.decide_modal(self.table(self.certain), rows)
        else:
            decision = shuntberry.decide(table)
        verdict = decision.verdict.name.lower()
        if self.n == 0:
            verdict = "draft"
        elif verdict == "safe" and not (self.initial and self.marked):
            verdict = "vacuous"
        away = shuntberry.distances(table)
        return {
            "verdict": verdict,
            "path": None if decision.path is None else list(decision.path),
            "reached": sorted(shuntberry.Session(table).reachable),
            "distances": [None if steps in (None, float("inf")) else steps for steps in away],
        }


def pair(n):
    return random.randrange(n), random.randrange(n)


def drawn(n):
    draft = Draft(n)
    if n == 0:
        return draft
    if random.random() < 0.6:
        draft.names = [f"screen-{s}" if random.random() < 0.8 else None for s in range(n)]
    some = lambda most: set(random.sample(range(n), random.randint(0, min(n, most))))  # noqa: E731
    draft.initial, draft.marked, draft.resting = some(2), some(2), some(n)
    if random.random() < 0.8:
        draft.initial.add(random.randrange(n))
        draft.marked.add(random.randrange(n))
    draft.groups = [some(n) for _ in range(random.choice([0, 0, 1, 3]))]
    draft.certain = {pair(n) for _ in range(random.randint(0, 2 * n))}
    if random.random() < 0.3:
        draft.options = {pair(n) for _ in range(random.randint(1, 3))} - draft.certain
    return draft


def without(draft, gone):
    """The draft without a screen: those behind it have the number before theirs."""
    moved = lambda s: s - (s > gone)  # noqa: E731
    states = lambda of: {moved(s) for s in of if s != gone}  # noqa: E731
    steps = lambda of: {(moved(a), moved(b)) for a, b in of if gone not in (a, b)}  # noqa: E731
    draft.names = draft.names[:gone] + draft.names[gone + 1 :]
    draft.initial, draft.marked, draft.resting = map(states, (draft.initial, draft.marked, draft.resting))
    draft.groups = [states(group) for group in draft.groups] if draft.names else []
    draft.certain, draft.options = steps(draft.certain), steps(draft.options)


def added(draft, fresh):
    draft.names.append(fresh)
    return ["add", fresh]


def stepped(draft):
    a, b = pair(draft.n)
    steps = draft.certain | draft.options
    if steps and random.random() < 0.4:
        a, b = random.choice(sorted(steps))
    to = draft.called(b) if random.random() < 0.5 else str(b)
    if (a, b) in steps:
        if random.random() < 0.3:  # only with an option, or no longer
            for steps in draft.certain, draft.options:
                steps ^= {(a, b)}
            return ["turn", a, b]
        draft.certain.discard((a, b))
        draft.options.discard((a, b))
        return ["rub out", a, b]
    isOption = random.random() < 0.1
    (draft.options if isOption else draft.certain).add((a, b))
    return ["draw", a, to, isOption]


def marked(draft):
    name = random.choice(["initial", "forbidden", "resting"])
    states = draft.marked if name == "forbidden" else getattr(draft, name)
    s = random.randrange(draft.n)
    states ^= {s}
    return ["mark", name, s]


def grouped(draft):
    s = random.randrange(draft.n)
    if draft.groups and random.random() < 0.6:
        j = random.randrange(len(draft.groups))
        draft.groups[j] ^= {s}
        return ["group", j, s]
    if len(draft.groups) == MAX_GROUPS:
        return stepped(draft)
    draft.groups.append({s})
    return ["new group", s]


def edit(draft, k, was_text):
    """One edit, done to the draft too. Texts typed one after the other are one edit for undo."""
    fresh = f"new-{k}"
    if draft.n == 0:
        return added(draft, fresh)
    chance = random.random()
    if chance < 0.55:
        return stepped(draft)
    if chance < 0.75:
        return marked(draft)
    if chance < 0.82:
        return grouped(draft)
    if chance < 0.88:
        return added(draft, fresh) if draft.n < LARGEST else stepped(draft)
    if chance < 0.92:
        s = random.randrange(draft.n)
        draft.names[s] = fresh
        return ["rename", s, fresh]
    if chance < 0.96:
        s = random.randrange(draft.n)
        without(draft, s)
        return ["remove", s]
    did = stepped(draft)
    return did if was_text else ["text", draft.text()]


def case(k):
    draft = drawn(LARGEST if k % 50 == 49 else random.choice(SIZES))
    out = {"text": draft.text(), "first": draft.answers(), "edits": []}
    past, future, was_text = [], [], True
    while len(out["edits"]) < EDITS:
        chance = random.random()
        if past and chance < 0.08:
            future.append(draft)
            draft, did = past.pop(), ["undo"]
        elif future and chance < 0.3:
            past.append(draft)
            draft, did = future.pop(), ["redo"]
        else:
            past.append(draft)
            future, draft = [], deepcopy(draft)
            did = edit(draft, len(out["edits"]), was_text)
        was_text = did[0] == "text"
        out["edits"].append([did, draft.answers()])
    out["last"] = draft.text()
    out["names"] = draft.names
    return out


for k in range(COUNT):
    print(json.dumps(case(k)))
