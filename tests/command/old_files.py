#!/usr/bin/env python3
"""Files of the old and the new form, written from the specification: sets as lists of states, blocks of bytes.

    old_files.py FOLDER SEED COUNT

writes COUNT tables that the seed gives: NAME.old in the old form, and NAME.new, the same table in the new form with its dead ends resting.
"""
import random
import sys
from pathlib import Path

BLOCK, CONTENT, PRIME, ADDED = 512, 508, 65521, 32768
MOST_STATES, MOST_GROUPS = 512, 64


def set_bytes(n, states):
    return sum(1 << state for state in states).to_bytes((n + 7) // 8, "little")


def blocks(contents):
    """The contents in blocks of site 0."""
    file = b""
    for number, at in enumerate(range(0, len(contents), CONTENT)):
        front = number.to_bytes(2, "little") + contents[at : at + CONTENT].ljust(CONTENT, b"\0")
        check = sum((i + 1) * byte for i, byte in enumerate(front)) % PRIME
        file += front + check.to_bytes(2, "little")
    return file


def file(n, second, sets):
    numbers = n.to_bytes(2, "little") + second.to_bytes(2, "little")
    return blocks(numbers + b"".join(set_bytes(n, states) for states in sets))


def both(n, initial, marked, groups, rows):
    dead = [state for state in range(n) if not rows[state]]
    behind = groups + rows
    return file(n, len(groups), [initial, marked] + behind), file(n, ADDED + len(groups), [initial, marked, dead] + behind)


def draw(rng):
    n = rng.choice([1, 2, 7, 8, 9, 61, 64, 65, 255, 256, 257, MOST_STATES - 1, MOST_STATES, rng.randint(1, MOST_STATES)])
    g = rng.choice([0, 1, 3, MOST_GROUPS, rng.randint(0, MOST_GROUPS)])

    def some(chance):
        return [state for state in range(n) if rng.random() < chance]

    dead = rng.choice([0, 0.1, 0.5, 1])
    rows = [[] if rng.random() < dead else [rng.randrange(n) for _ in range(rng.randint(1, 4))] for _ in range(n)]
    return both(n, some(0.1), some(0.2), [some(0.5) for _ in range(g)], [sorted(set(row)) for row in rows])


def main():
    folder, seed, count = Path(sys.argv[1]), int(sys.argv[2]), int(sys.argv[3])
    rng = random.Random(seed)
    # the specification's E: its one dead end, state 2, is marked, and rests too
    pairs = [both(3, [0], [2], [], [[0], [2], []])]
    pairs += [draw(rng) for _ in range(count - 1)]
    for i, (old, new) in enumerate(pairs):
        (folder / f"{i}.old").write_bytes(old)
        (folder / f"{i}.new").write_bytes(new)


if __name__ == "__main__":
    main()
