#!/usr/bin/env python3
"""What examples/coverage.c prints for logs on the files of tests/files, and how it ends, worked out here from the files' own bytes; for a refused one
the text beside it. It ends with 0 where all of a log is followed, 1 where it breaks, 2 where something is refused, 4 where there are no entries.

  tests/outside/coverage.py PROGRAM TABLE..
"""
import random
import subprocess
import sys
import tempfile
from pathlib import Path

LONGEST = 32768
ADDED = 32768  # to g, in a file's second number
HEAD_SETS = 3  # initial, marked, resting


def table_in(path):
    """n, the initial states and the rows of a whole file."""
    blocks = path.read_bytes()
    contents = b"".join(blocks[at + 2 : at + 510] for at in range(0, len(blocks), 512))
    if not contents:
        return 0, set(), []
    n, g = int.from_bytes(contents[:2], "little"), int.from_bytes(contents[2:4], "little") - ADDED
    width = (n + 7) // 8
    sets = [int.from_bytes(contents[4 + width * k :][:width], "little") for k in range(HEAD_SETS + g + n)]
    states = lambda bits: {s for s in range(n) if bits >> s & 1}
    return n, states(sets[0]), [states(bits) for bits in sets[HEAD_SETS + g :]]


def reached_from(initial, rows):
    reached, waiting = set(initial), list(initial)
    while waiting:
        for state in rows[waiting.pop()] - reached:
            reached.add(state)
            waiting.append(state)
    return reached


def printed(table, log):
    """What must be printed, and the status."""
    n, initial, rows = table
    if len(log) % 2:
        return "refused 25\n", 2
    if len(log) > LONGEST:
        return "refused 26\n", 2
    entries = [log[at] + 256 * log[at + 1] for at in range(0, len(log), 2)]
    followed, may_come = [], initial
    for entry in entries:
        if entry not in may_come:
            break
        followed.append(entry)
        may_come = rows[entry]
    reached = reached_from(initial, rows)
    percent, remainder = divmod(100 * len(set(followed)), len(reached)) if reached else (0, 0)
    breaks = len(followed) < len(entries)
    broken = f", broken by {entries[len(followed)]}" if breaks else ""
    return (
        f"followed {len(followed)} of {len(entries)} entries{broken}\nseen {len(set(followed))} states\n"
        f"coverage {percent} % remainder {remainder}\n"
    ), 1 if breaks else 0 if entries else 4


def walk(table, most, draw):
    n, initial, rows = table
    states, may_come = [], initial
    while may_come and len(states) < most:
        states.append(draw.choice(sorted(may_come)))
        may_come = rows[states[-1]]
    return states


def logs(table, draw):
    n = table[0]
    whole = walk(table, 50, draw)
    for entries in [], whole, whole[:3], whole + [n], whole + [max(n - 1, 0)], whole[:2] + [65535] + whole, [s + 256 for s in whole], walk(table, LONGEST // 2, draw):
        yield b"".join(entry.to_bytes(2, "little") for entry in entries)
    for length in 1, LONGEST - 1, *range(LONGEST, LONGEST + 6), 100000, 100001:
        yield bytes(length)


def main():
    program, *tables = sys.argv[1:]
    draw = random.Random(1)
    count = 0
    with tempfile.TemporaryDirectory() as folder:
        file = Path(folder) / "log"
        for path in map(Path, tables):
            expected = path.with_suffix(".expected").read_text()
            refused = expected.startswith("refused")
            table = (0, set(), []) if refused else table_in(path)
            for log in logs(table, draw):
                file.write_bytes(log)
                ran = subprocess.run([program, path, file], capture_output=True, text=True)
                text, status = (expected, 2) if refused else printed(table, log)
                if (ran.stdout, ran.returncode) != (text, status):
                    sys.exit(f"coverage of {path}, {len(log)} bytes, {log[:40].hex()}: {ran.stdout!r}, status {ran.returncode}; expected {text!r}, {status}")
                count += 1
    if not count:
        sys.exit("coverage: no table was tried")
    print(f"the C example of coverage: {count} logs on the files of tests/files printed as expected")


if __name__ == "__main__":
    main()
