#!/usr/bin/env python3
"""Random tables in all their forms, by tests/expected/spec.py, which shares no code with the library or with the command `shuntberry`.

    python3 tests/command/drafts.py FOLDER SEED COUNT

writes for each table I.table, I.txt, the text that `shuntberry decode` prints, I.expected, what `check` prints, and I.draft: the same table as a person
might write it, with names, comments and spaces, the lines in any order and sets over several of them. Where there are states, I.ordered is the same table
with a line `state NAME` for each, in the order of their numbers.
"""

import random
import sys
from pathlib import Path

sys.path.insert(0, str(Path(__file__).parent.parent / "expected"))
import spec  # noqa: E402


def some(n, share):
    return {s for s in range(n) if random.random() < share}


def table():
    n = random.choice([0, 1, 2, 3, 5, 8, 9, 17, random.randrange(1, 70)])
    share = random.choice([0, 0.5 / max(n, 1), 1 / max(n, 1), 2 / max(n, 1), 0.5])
    groups = [some(n, random.random()) for _ in range(random.choice([0, 0, 1, 2, 5]))] if n else []
    steps = {(a, b) for a in range(n) for b in some(n, share)}
    return spec.Table(n, some(n, 0.2), some(n, 0.1), steps, groups, some(n, 0.3))


NAMES = ["home", "Set-Rate", "hard_limit", "a.b", "x1", "Größe", "initial", "step", "states", "end", "-"]


def pieces(states):
    """A list of states cut into lists that are not empty."""
    states = random.sample(sorted(states), len(states))
    while states:
        cut = random.randrange(1, len(states) + 1)
        yield states[:cut]
        states = states[cut:]


def draft(table, ordered=False):
    named = range(table.n) if ordered else some(table.n, 0.5)
    names = {s: f"{random.choice(NAMES[:-1])}{random.choice(['', '-'])}{s}" for s in named}
    word = lambda s: names[s] if ordered or s in names and random.random() < 0.7 else random.choice(["", "", "0"]) + str(s)
    words = lambda states: random.choice([" ", "  ", "\t"]).join(map(word, states))
    lines = [] if ordered else [f"states {table.n}", *(f"state {s} {name}" for s, name in names.items())]
    for fact, states in [("initial", table.initial), ("forbidden", table.marked), ("resting", table.resting)]:
        lines += [f"{fact} {words(piece)}" for piece in pieces(states)] or [f"{fact} none"]
    for s in range(table.n):
        lines += [f"step {word(s)}{random.choice(['->', ' -> ', ' ->', '→', ' → '])}{words(piece)}" for piece in pieces(table.row(s))]
    random.shuffle(lines)
    in_order = [f"group {words(group) or 'none'}" for group in table.groups], [f"state {name}" for name in names.values()] if ordered else []
    for facts in in_order:  # groups keep their order, and so do states
        places = sorted(random.randrange(len(lines) + 1) for _ in facts)
        for fact, place in reversed(list(zip(facts, places))):
            lines.insert(place, fact)
    end = random.choice(["\n", "\r\n"])
    comment = lambda: random.choice(["", "", " # why: step 0 -> 1", "\t#", "   "])
    lines += [*random.choice([[], [""], ["# end"]]), "end"]
    return "".join(f"{random.choice(['', ' '])}{line}{comment()}{end}" for line in lines)


def main():
    folder, seed, count = Path(sys.argv[1]), int(sys.argv[2]), int(sys.argv[3])
    random.seed(seed)
    for i in range(count):
        drawn = table()
        (folder / f"{i}.table").write_bytes(spec.encode(drawn))
        (folder / f"{i}.txt").write_text(spec.text(drawn))
        (folder / f"{i}.expected").write_text(spec.printed(drawn))
        (folder / f"{i}.draft").write_bytes(draft(drawn).encode())
        if drawn.n:
            (folder / f"{i}.ordered").write_bytes(draft(drawn, ordered=True).encode())


if __name__ == "__main__":
    main()
