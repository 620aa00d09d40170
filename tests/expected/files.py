#!/usr/bin/env python3
"""The files of tests/files, and examples/pump.table.

NAME.table is a block file, NAME.expected what `check` prints for it, NAME.txt, where the file is accepted, its text as `shuntberry decode` prints it. The
answers are worked out by spec.py; for tables A to G they are held to the figures of the specification, typed below.
old-NAME.table is a file of the old form, and rewritten-NAME.table what it is rewritten as, for which `check` prints what the old table's rounds
give; where there is none, rewritten-NAME.expected is the refusal of the rewriting.
"""

from keep import TOP, keep
from spec import (
    A, ALL_BUT_ONE, B, BLOCK, CONTENT, CORRIDOR, D, E, F, FULL_BLOCK, G, H, H1, HANG, HANG_ALONE, LARGEST, LAST_HANGS, MAX_FILE, MAX_GROUPS, MAX_STATES,
    NEW_FORM, ONE_FEWER, Table, check, contents, encode, old, printed, read_text, rests, rewritten, sealed, text, two, with_byte,
)

FOLDER, EXAMPLES = TOP / "tests" / "files", TOP / "examples"

# ---- Tables: those of the specification with its figures, and others

# C differs from B only in its allowance, which a file does not hold.
TYPED = {
    "a": (A, "states 3 groups 0\nsafe refinements 0\ninvariant 2: 0 1\n"),
    "b": (B, "states 5 groups 0\nunsafe refinements 3\npath 0 1 2 3\n"),
    "c": (B, "states 5 groups 0\nunsafe refinements 3\npath 0 1 2 3\n"),
    "d": (D, "states 5 groups 3\nunsafe refinements 0\npath 0 1 2 3\n"),
    "e": (E, "states 3 groups 0\nsafe refinements 1\ninvariant 1: 0\n"),
    "f": (F, "states 1 groups 0\nunsafe refinements 0\npath 0\n"),
    "g": (G, "states 1 groups 0\nsafe refinements 0\ninvariant 0: none\n"),
    # An untouched draft, which an editor saves as an empty file.
    "empty": (Table(0, set(), set(), set()), "states 0 groups 0\nsafe refinements 0\ninvariant 0: none\n"),
    # The ninth table of the design: its count is 2 where a new Z replaces the list.
    "ninth": (
        Table(4, {0}, {2}, {(0, 0), (0, 1), (1, 3), (2, 3), (3, 0), (3, 2)}, [{0}]),
        "states 4 groups 1\nunsafe refinements 1\npath 0 1 3 2\n",
    ),
    # Screens without a way out. State 3 of B not marked: as B; resting: safe; marked and resting: as B again.
    "hang": (HANG, "states 5 groups 0\nunsafe refinements 3\npath 0 1 2 3\n"),
    "resting": (rests(HANG, 3), "states 5 groups 0\nsafe refinements 0\ninvariant 5: 0 1 2 3 4\n"),
    "marked-and-resting": (rests(B, 3), "states 5 groups 0\nunsafe refinements 3\npath 0 1 2 3\n"),
    # One at the start; one that is not reached, state 2 of E not marked: as E.
    "hang-at-the-start": (HANG_ALONE, "states 1 groups 0\nunsafe refinements 0\npath 0\n"),
    "resting-at-the-start": (rests(HANG_ALONE, 0), "states 1 groups 0\nsafe refinements 0\ninvariant 1: 0\n"),
    "hang-not-reached": (Table(3, {0}, set(), E.steps), "states 3 groups 0\nsafe refinements 1\ninvariant 1: 0\n"),
    # For states with successors resting means nothing: the answers of A and of B.
    "a-resting": (rests(A, 0, 1, 2), "states 3 groups 0\nsafe refinements 0\ninvariant 2: 0 1\n"),
    "b-resting": (rests(B, 0, 1, 2, 4), "states 5 groups 0\nunsafe refinements 3\npath 0 1 2 3\n"),
    # E without its step 0 -> 0: unsafe where hold leaves out a state without successors.
    "e-held": (Table(3, {0}, {2}, {(1, 2)}, [], {0}), "states 3 groups 0\nsafe refinements 1\ninvariant 1: 0\n"),
}

COMPUTED = {
    "h": H, "h1": H1, "full-block": FULL_BLOCK, "corridor": CORRIDOR, "one-fewer": ONE_FEWER, "all-but-one": ALL_BUT_ONE, "largest": LARGEST,
    "last-hangs": LAST_HANGS, "last-rests": rests(LAST_HANGS, MAX_STATES - 1),
}

# Written in the old form and rewritten: dead ends that are marked, that are reached, that start, and none; one block that becomes two.
OLD = {"d": D, "e": E, "f": F, "g": G, "hang": HANG, "hang-at-the-start": HANG_ALONE, "h": H, "h1": H1, "largest": LARGEST}


# ---- Files that earn a refusal

def refused():
    e, h1 = encode(E), encode(H1)
    content, most = contents(E), NEW_FORM + MAX_GROUPS
    corrupt = with_byte(h1, 100, h1[100] ^ 1)
    return {
        "short": (e[:-1], 11),
        "long": (encode(LARGEST) + bytes(1), 11),
        "too-many-blocks": (encode(LARGEST) + sealed(MAX_FILE // BLOCK, b""), 11),
        "bad-number": (with_byte(e, 0, 1), 12),
        "bad-number-high-byte": (sealed(256, content), 12),
        "bad-number-second-block": (h1[:BLOCK] + sealed(0, h1[BLOCK + 2:-2]), 12),
        "bad-check": (with_byte(e, 510, e[510] + 1), 13),
        "bad-check-high-byte": (with_byte(e, 511, e[511] ^ 1), 13),
        "bad-check-then-bad-number": (corrupt[:BLOCK] + with_byte(h1, BLOCK, 7)[BLOCK:], 13),
        "no-states": (sealed(0, two(0) + content[2:]), 14),
        "no-states-no-groups": (sealed(0, b""), 14),
        "no-states-and-one-group": (sealed(0, two(0) + two(NEW_FORM + 1)), 14),
        "no-states-and-too-many-groups": (sealed(0, two(0) + two(most + 1)), 14),
        "no-states-and-second-greatest": (sealed(0, two(0) + two(65_535)), 14),
        "too-many-states": (sealed(0, two(MAX_STATES + 1) + content[2:]), 14),
        "too-many-states-and-groups": (sealed(0, two(MAX_STATES + 1) + two(most + 1)), 14),
        "too-many-groups": (sealed(0, two(3) + two(most + 1) + content[4:]), 15),
        "second-greatest": (sealed(0, two(3) + two(65_535) + content[4:]), 15),
        "second-too-low": (sealed(0, two(3) + two(NEW_FORM - 1) + content[4:]), 15),
        "second-is-g": (sealed(0, two(3) + two(0) + content[4:]), 15),
        "resting-set-missing": (sealed(0, two(61) + two(NEW_FORM) + contents(old(H))[4:]), 16),
        "block-missing": (h1[:BLOCK], 16),
        "block-extra": (e + sealed(1, b""), 16),
        "state-past-n": (sealed(0, with_byte(content, 4, 0x09)), 17),
        "state-past-n-marked": (sealed(0, with_byte(content, 5, 0x0c)), 17),
        "state-past-n-resting": (sealed(0, with_byte(content, 6, 0x08)), 17),
        "state-past-n-in-a-row": (sealed(0, with_byte(content, 9, 0x80)), 17),
        "filler": (sealed(0, content.ljust(CONTENT - 1, b"\0") + b"\1"), 18),
        "filler-and-state-past-n": (sealed(0, with_byte(content, 4, 0x09) + b"\1"), 17),
    }


def old_refused():
    """In the old form: by `check`, and where it is to be rewritten."""
    e, h1, content = encode(old(E)), encode(old(H1)), contents(old(E))
    return {
        "no-states": (sealed(0, two(0) + two(1)), 14, 14),
        "too-many-states": (sealed(0, two(MAX_STATES + 1) + content[2:]), 14, 14),
        "too-many-groups": (sealed(0, two(3) + two(MAX_GROUPS + 1) + content[4:]), 15, 15),
        "block-missing": (h1[:BLOCK], 15, 16),
        "block-extra": (e + sealed(1, b""), 15, 16),
        "state-past-n": (sealed(0, with_byte(content, 4, 0x09)), 15, 17),
        "filler": (sealed(0, content + b"\1"), 15, 18),
    }


def checked_figures():
    """The specification's figures about the files themselves (Files)."""
    assert contents(old(E)).hex(" ") == "03 00 00 00 01 04 01 04 00"
    assert check(encode(old(E))) == 97
    assert contents(E).hex(" ") == "03 00 00 80 01 04 00 01 04 00"
    assert check(encode(E)) == 3 * 3 + 6 * 128 + 7 * 1 + 8 * 4 + 10 * 1 + 11 * 4
    assert len(contents(H)) == 516 and len(encode(H)) == 2 * BLOCK
    assert len(contents(H1)) == 524 and len(encode(H1)) == 2 * BLOCK
    assert len(contents(old(H))) == 508 == len(contents(FULL_BLOCK)) and len(encode(old(H))) == BLOCK
    assert len(contents(LARGEST)) == 37_060
    assert len(encode(LARGEST)) == 73 * BLOCK == MAX_FILE == len(encode(old(LARGEST)))


def checked_text():
    """A text typed by hand: the ninth table."""
    assert text(TYPED["ninth"][0]) == (
        "states 4\ninitial 0\nforbidden 2\nresting none\ngroup 0\n"
        "step 0 -> 0 1\nstep 1 -> 3\nstep 2 -> 3\nstep 3 -> 0 2\nend\n"
    )


def accepted(name, table):
    """The file of a table that `read` accepts, and its text."""
    yield f"{name}.table", encode(table)
    yield f"{name}.txt", text(table).encode()


def refusal(number):
    return f"refused {number}\n".encode()


def files():
    for name, (table, typed) in TYPED.items():
        assert printed(table) == typed, name
        yield from accepted(name, table)
        yield f"{name}.expected", typed.encode()
    for name, table in COMPUTED.items():
        yield from accepted(name, table)
        yield f"{name}.expected", printed(table).encode()
    for name, table in OLD.items():
        yield f"old-{name}.table", encode(old(table))
        yield f"old-{name}.expected", refusal(15)
        yield from accepted(f"rewritten-{name}", rewritten(old(table)))
        yield f"rewritten-{name}.expected", printed(old(table)).encode()
    for name, (data, number) in refused().items():
        yield f"{name}.table", data
        yield f"{name}.expected", refusal(number)
    for name, (data, by_check, by_rewriting) in old_refused().items():
        yield f"old-{name}.table", data
        yield f"old-{name}.expected", refusal(by_check)
        yield f"rewritten-{name}.expected", refusal(by_rewriting)


def main():
    checked_figures()
    checked_text()
    made = {FOLDER / name: content for name, content in files()}
    pump, _ = read_text((EXAMPLES / "pump.txt").read_text())
    keep({**made, EXAMPLES / "pump.table": encode(pump)}, FOLDER.iterdir())


if __name__ == "__main__":
    main()
