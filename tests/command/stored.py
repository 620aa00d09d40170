#!/usr/bin/env python3
"""The old files of rust/outside/old-answers.txt, and what `check` must print of each once it is rewritten: what was answered of it before tables had
resting states.

    stored.py FOLDER

writes NAME.old and NAME.expected for each.
"""
import sys
from pathlib import Path

from old_files import blocks

ANSWERS = Path(__file__).resolve().parents[2] / "rust/outside/old-answers.txt"
RELEASE = "512"  # the allowance of a release check


def text(contents, verdict, count, states):
    n, g = (int.from_bytes(contents[at : at + 2], "little") for at in (0, 2))
    listed = "".join(f" {state}" for state in states)
    last = f"invariant {len(states)}:{listed or ' none'}" if verdict == "safe" else f"path{listed}"
    return f"states {n} groups {g}\n{verdict} refinements {count}\n{last}\n"


def main():
    folder, number, contents = Path(sys.argv[1]), -1, b""
    for line in ANSWERS.read_text().splitlines():
        words = line.split()
        if line.startswith("file "):
            number, contents = number + 1, bytes.fromhex(words[1])
            (folder / f"{number}.old").write_bytes(blocks(contents))
        elif words and words[0] == RELEASE:
            (folder / f"{number}.expected").write_text(text(contents, words[1], words[2], words[3:]))


main()
