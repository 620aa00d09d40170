#!/usr/bin/env python3
"""What examples/edits.c prints for lists of edits on the files of tests/files, and how it ends, worked out here from the files' own bytes, with a
search from the initial states after each edit; for a refused file the text beside it. It ends with 0 where nothing is refused, 2 where something
is, 4 where the table has no states, and 3 on words that are no edits.

  tests/outside/edits.py PROGRAM TABLE..
"""
import random
import subprocess
import sys
from pathlib import Path

from coverage import reached_from, table_in

LARGE = 2**64 + 3  # too large for any number of a computer
NO_EDITS = "", "1", "+", "1+", "+1", "1*2", "1+2+3", "1-2 ", " 1-2", "-1-2", "1--2", "a+b"


def line(states):
    return f"reached {len(states)}: {' '.join(map(str, sorted(states))) or 'none'}\n"


def printed(table, edits):
    """What must be printed, and the status."""
    n, initial, rows = table
    rows = [set(row) for row in rows]
    text, status = line(reached_from(initial, rows)), 0 if n else 4
    for a, sign, b in edits:
        if a >= n or b >= n:
            text, status = f"{text}{a}{sign}{b} refused 27\n", 2
            continue
        (rows[a].add if sign == "+" else rows[a].discard)(b)
        text += f"{a}{sign}{b} {line(reached_from(initial, rows))}"
    return text, status


def lists(table, draw):
    """Lists of edits: none, some at random, all steps of a state removed and drawn again, and numbers that are no states."""
    n, initial, rows = table
    yield []
    state = lambda: draw.randrange(n + 1)
    for count in 1, 5, 20:
        yield [(state(), draw.choice("+-"), state()) for _ in range(count)]
    for a in [s for s in range(n) if rows[s]][:3]:
        steps = sorted(rows[a])[:8]
        yield [(a, "-", b) for b in steps] + [(a, "+", b) for b in steps]
    yield [(LARGE, "+", 0), (0, "-", LARGE), (n, "+", n), (max(n - 1, 0), "+", max(n - 1, 0))]


def run(program, path, words):
    return subprocess.run([program, path, *words], text=True, capture_output=True)


def main():
    program, *tables = sys.argv[1:]
    draw = random.Random(1)
    count = 0
    for path in map(Path, tables):
        expected = path.with_suffix(".expected").read_text()
        refused = expected.startswith("refused")
        table = (0, set(), []) if refused else table_in(path)
        for edits in lists(table, draw):
            words = [f"{a}{sign}{b}" for a, sign, b in edits]
            ran = run(program, path, words)
            text, status = (expected, 2) if refused else printed(table, edits)
            if (ran.stdout, ran.returncode) != (text, status):
                sys.exit(f"edits of {path}, {' '.join(words)}: {ran.stdout!r}, status {ran.returncode}; expected {text!r}, {status}")
            count += 1
    if not count:
        sys.exit("edits: no table was tried")
    for word in NO_EDITS:
        ran = run(program, tables[0], ["0+0", word])
        if (ran.stdout, ran.returncode) != ("", 3):
            sys.exit(f"edits: {word!r} gives {ran.stdout!r}, status {ran.returncode}; expected nothing, 3")
    print(f"the C example of edits: {count} lists on the files of tests/files printed as expected")


main()
