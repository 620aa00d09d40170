#!/usr/bin/env python3
"""What the test programs must print: crates/NAME/stdout of each in PROGRAMS, worked out by spec.py. Those of test_paths and test_windows have makers of
their own."""

import spec
from keep import TOP, keep
from spec import A, B, BLOCK, CONTENT, D, E, F, G, HANG, HANG_ALONE, MAX_FILE, MAX_GROUPS, MAX_STATES, NEW_FORM, Table, rests

H_STEPS = {(0, 59), (59, 0), (58, 60)}
H = Table(61, {0}, {60}, H_STEPS)
H_GROUP = Table(61, {0}, {60}, H_STEPS, [{0, 59}])
NINTH = Table(4, {0}, {2}, {(0, 0), (0, 1), (1, 3), (2, 3), (3, 0), (3, 2)}, [{0}])
DRAFT = Table(0, set(), set(), set())
E_HELD = Table(3, {0}, {2}, {(1, 2)}, [], {0})
# A store is a list of sets: those before the groups, the groups, the rows.
HEAD_SETS, WORDS = len(DRAFT.head()), MAX_STATES // 64
ROWS_FROM = HEAD_SETS + MAX_GROUPS
STORE_SETS = ROWS_FROM + MAX_STATES
STORE_WORDS = STORE_SETS * WORDS

KEPT = ", the rest unchanged"


def answer(table, allowance):
    spec.ALLOWANCE = allowance
    verdict, count, invariant = spec.decide(table)
    if verdict == "safe":
        return f"safe {count} invariant {len(invariant)}:" + "".join(f" {s}" for s in sorted(invariant))
    if verdict == "unsafe":
        return f"unsafe {count} path" + "".join(f" {s}" for s in spec.shortest_path(table))
    return f"undecided {count}"


def test_decide():
    lines = []
    for name, table in [
        ("A", A), ("A, all resting", rests(A, 0, 1, 2)), ("B", B), ("D", D), ("B, 3 resting", rests(B, 3)), ("B, 3 not marked", HANG),
        ("B, 3 not marked, 0 1 2 4 resting", rests(HANG, 0, 1, 2, 4)), ("B, 3 not marked but resting", rests(HANG, 3)),
        ("E", E), ("E, 0 a dead end and resting", E_HELD), ("F", F), ("F, not marked", HANG_ALONE), ("F, not marked but resting", rests(HANG_ALONE, 0)),
        ("G", G), ("draft", DRAFT), ("H", H), ("H with a group", H_GROUP), ("ninth", NINTH),
    ]:
        for allowance in (0, 1, 2, 3, MAX_STATES):
            lines.append(f"{name} {allowance}: {answer(table, allowance)}{KEPT}")
    over = MAX_STATES + 1
    for name, allowance, refusal in [
        ("store one word short", 0, 10), ("store one word short and all else", over, 10),
        ("n 0 g 1", 0, 14), ("n 0 with groups and all else", over, 14), ("state 5 of 0", 0, 17),
        ("n too great", 0, 14), ("n too great and all else", over, 14),
        ("g too great", 0, 15), ("g too great and all else", over, 15),
        ("state 5 of 5", 0, 17), ("state 5 of 5 and all else", over, 17), ("state 5 of 5 resting", 0, 17),
        ("allowance too great", over, 20), ("allowance too great and all else", over, 20),
        ("path buffer one place short", 0, 21),
    ]:
        lines.append(f"{name} {allowance}: refused {refusal}{KEPT}")
    nothing = Table(MAX_STATES, set(), set(), set(), [set() for _ in range(MAX_GROUPS)])
    for name, table, allowance in [
        ("state 5 of 6", Table(6, {5}, set(), set()), MAX_STATES),
        ("state 5 of 6 resting", Table(6, {5}, set(), set(), [], {5}), MAX_STATES),
        ("n and g at their greatest, store of 12 words more", nothing, MAX_STATES),
        ("corridor", spec.LAST_HANGS, MAX_STATES), ("corridor", spec.LAST_HANGS, MAX_STATES - 3),
        ("corridor, the last state resting", rests(spec.LAST_HANGS, MAX_STATES - 1), MAX_STATES),
        ("corridor, the last state marked and resting", rests(spec.CORRIDOR, MAX_STATES - 1), MAX_STATES),
    ]:
        lines.append(f"{name} {allowance}: {answer(table, allowance)}{KEPT}")
    return "".join(line + "\n" for line in lines)


# ---- test_modal: every choice between certain and possible steps (docs/SPECIFICATION.md, Possible steps)

def choices(table, possible):
    """Every choice, the certain steps alone first and all possible steps last."""
    options = sorted(possible - table.steps)
    return [table.steps | {step for i, step in enumerate(options) if bits >> i & 1} for bits in range(2 ** len(options))]


def modal_answer(table, possible):
    stuck = table.states() - {a for a, _ in possible}
    forbidden = table.marked | stuck - table.resting
    # an old table's forbidden states are the marked ones
    chosen = [spec.OldTable(table.n, table.initial, forbidden, steps, table.groups) for steps in choices(table, possible)]
    spec.ALLOWANCE = MAX_STATES
    decisions = [spec.decide(choice) for choice in chosen]
    is_safe = [verdict == "safe" for verdict, _, _ in decisions]
    least, most = 0, -1

    def invariant(at):
        states = decisions[at][2]
        return f"invariant {len(states)}:" + "".join(f" {s}" for s in sorted(states))

    def path(at):
        return "path" + "".join(f" {s}" for s in spec.shortest_path(chosen[at]))

    if all(is_safe):
        return f"safe {invariant(most)}"
    if not any(is_safe):
        return f"unsafe {path(least)}"
    return f"depends {invariant(least)} {path(most)}"


def test_modal():
    def steps(text):
        return {(int(pair[0]), int(pair[1])) for pair in text.split()}

    lines = []
    for name, n, initial, marked, certain, possible in [
        ("E", 3, {0}, {2}, "00 12", "00 12"), ("E with 01", 3, {0}, {2}, "00 12", "00 01 12"),
        ("E, 01 certain", 3, {0}, {2}, "00 01 12", "00 01 12"), ("B with 03", 5, {0}, {3}, "01 12 23 44", "01 03 12 23 44"),
        ("B, 12 possible", 5, {0}, {3}, "01 23 44", "01 12 23 44"), ("no step certain", 2, {0}, set(), "", "01 10"),
        ("a hang behind 01", 2, {0}, set(), "", "01"), ("an initial hang", 2, {0}, set(), "", "11"),
        ("F with 00", 1, {0}, {0}, "", "00"), ("draft", 0, set(), set(), "", ""),
    ]:
        lines.append(f"{name}: {modal_answer(Table(n, initial, marked, steps(certain)), steps(possible))}{KEPT}")
    for name, certain, possible in [("to rest", "01", "01 12"), ("to rest or 3", "01", "01 12 13"), ("to 3", "01 13", "01 12 13")]:
        table = Table(4, {0}, {3}, steps(certain), [{0}, {1}, {2}], {2})
        lines.append(f"{name}: {modal_answer(table, steps(possible))}{KEPT}")
    whole = {(s, s + 1) for s in range(MAX_STATES - 1)}
    cut = whole - {(MAX_STATES - 2, MAX_STATES - 1)}
    for name, certain, possible in [
        ("corridor", whole, whole), ("corridor, the last step possible", cut, whole), ("corridor without its last step", cut, cut),
    ]:
        lines.append(f"{name}: {modal_answer(Table(MAX_STATES, {0}, set(), certain), possible)}{KEPT}")
    for name, refusal in [
        ("n too great and all else", 14), ("n 0 g 1 and all else", 14), ("g too great and all else", 15), ("state 5 of 5 and all else", 17),
        ("state 5 of 5 possible and all else", 17), ("state 5 of 5 possible", 17), ("a certain step not possible and all else", 28),
        ("a certain step not possible", 28), ("a row of none", 17), ("possible steps one word short and all else", 10), ("store one word short", 10),
    ]:
        lines.append(f"{name}: refused {refusal}{KEPT}")
    lines.append(f"three words more: {modal_answer(Table(2, set(), set(), set()), set())}{KEPT}")
    lines.append(f"path buffer one place short: refused 21{KEPT}")
    return "".join(line + "\n" for line in lines)


# ---- test_order: the looks of the first round (docs/SPECIFICATION.md, Rounds)

def order(table):
    z = table.states() - table.forbidden()
    listed = table.groups + [z]
    spot = lambda s: set.intersection(table.states(), *(y for y in listed if s in y))
    cover = lambda x: {t for s in x for t in spot(s)}
    look, expanded = cover(z & table.initial), []
    while look:
        expanded += sorted(look)
        look = cover(z & {t for s in look for t in table.row(s)}) - set(expanded)
    return expanded


# tries: Order.InOrder.first_pass_lem, Order.InOrder.later_pass_lem, Order.InOrder.rising, Order.order_by
# tries: Order.InOrder.each_once, call_first_order::first_order
def test_order():
    alone = lambda n: [{s} for s in range(n)]
    steps = lambda text: {(int(pair[0]), int(pair[1])) for pair in text.split()}
    digits = [
        {s for s in range(MAX_STATES) if s >> b & 1 == digit} for b in range(MAX_GROUPS // 2) for digit in (0, 1)]
    corridor = Table(MAX_STATES, {MAX_STATES - 1}, set(), {(s + 1, s) for s in range(MAX_STATES - 1)}, digits)
    branches = steps("57 53 74 70 71 34 35 43 08 16 61 85")
    groups = alone(10)
    groups[3] = {3, 8}
    lines = [
        f"{name}: expands {len(order(table))}:" + "".join(f" {s}" for s in order(table))
        for name, table in [
            ("A", A), ("A with groups", Table(3, {0}, {2}, A.steps | {(2, 1), (1, 2)}, alone(2))),
            ("branches", Table(10, {5}, {9}, branches, alone(10))),
            ("branches from two", Table(10, {1, 5}, {9}, branches, alone(10))),
            ("branches, 3 with 8", Table(10, {1, 5}, {9}, branches, groups)),
            ("draft", DRAFT), ("G", G), ("nothing initial", Table(3, set(), {2}, steps("01 12"))),
            ("only a forbidden state initial", Table(3, {2}, {2}, steps("01 12"))),
            ("B with groups, 3 not marked", Table(5, {0}, set(), B.steps, alone(4))),
            ("B with groups, 3 not marked but resting", Table(5, {0}, set(), B.steps, alone(4), {3})),
            ("B with groups, 3 marked and resting", Table(5, {0}, {3}, B.steps, alone(4), {3})),
            ("corridor", corridor), ("corridor, state 0 resting", rests(corridor, 0)),
        ]
    ]
    small = Table(3, {0}, {2}, steps("01 12"))
    for name, table, words, n, g in [
        ("corridor, its last digit's groups not counted", corridor, STORE_WORDS, MAX_STATES, MAX_GROUPS - 2),
        ("draft with a group", DRAFT, STORE_WORDS, 0, 1), ("draft with a group too many", DRAFT, STORE_WORDS, 0, MAX_GROUPS + 1),
        ("n 0", small, STORE_WORDS, 0, 0), ("n 0 with a group", small, STORE_WORDS, 0, 1), ("a state too many", small, STORE_WORDS, MAX_STATES + 1, 0),
        ("a group too many", small, STORE_WORDS, 3, MAX_GROUPS + 1), ("state 2 of 2", small, STORE_WORDS, 2, 0),
        ("a group too many and state 2 of 2", small, STORE_WORDS, 2, MAX_GROUPS + 1),
        ("state 3 of 3 resting", rests(DRAFT, 3), STORE_WORDS, 3, 0),
        ("store one word short, n 0", DRAFT, STORE_WORDS - 1, 0, 0),
    ]:
        lines.append(f"{name}: refused {refusal(store_of(table), words, n, g)}")
    return "".join(line + "\n" for line in lines)


# ---- generated tables, by the comment at the head of crates/test_support/src/generated.rt

WORD = 2 ** 32
PLACES = 32 * MAX_STATES


def noise(x):
    y = (x % WORD * 1664525 + 1013904223) % WORD
    return y ^ (y // 65536)


def drawn(t, place):
    return noise(noise(noise(t * PLACES + place)))


def generated(t):
    draw = lambda place: drawn(t, place)
    n = 1 + draw(0) % (MAX_STATES if t % 37 == 0 else 40)
    few = lambda count, at: {draw(at + k) % n for k in range((5 + draw(count) % 13) // 6)}
    place = lambda s: 16 + 16 * s
    fan_out = lambda s: draw(8) % 4 if draw(place(s)) % 4 else 0
    successor = lambda s, d: (s + d % 6) % n if t % 2 else d % n
    table = Table(
        n, few(2, 3), few(5, 6),
        {(s, successor(s, draw(place(s) + 1 + k))) for s in range(n) for k in range(fan_out(s))},
        [{s for s in range(n) if draw(place(s) + 4 + j) % 2 == 0} for j in range(draw(1) % 5)],
    )
    kind = draw(9) % 4
    if kind == 1:
        table.resting = {s for s in range(n) if draw(place(s) + 8) % 2 == 0}
    elif kind > 1:
        table.resting = table.dead_ends()
    return table


# ---- digests of numbers; a set goes in as its words, each as its lower and its upper half

def digest(numbers, start=0):
    for x in numbers:
        start = noise(start + x)
    return start


def halves(states):
    return [sum(1 << s % 32 for s in states if s // 32 == half) for half in range(2 * WORDS)]


# ---- test_agreement

def test_agreement():
    spec.ALLOWANCE = MAX_STATES
    tables, safe, unsafe, taken = 4000, 0, 0, 0
    for t in range(tables):
        table = generated(t)
        verdict, count, invariant = spec.decide(table)
        path = spec.shortest_path(table)
        assert (verdict, path is None) in [("safe", True), ("unsafe", False)]
        if verdict == "safe":
            safe += 1
            numbers = [0, count, len(invariant), 0]
        else:
            unsafe += 1
            numbers = [1, count, 0, len(path) - 1, *path]
        taken = digest(numbers + halves(invariant), taken)
    return (
        f"tables {tables}\nsafe {safe}\nunsafe {unsafe}\n"
        f"same verdict {tables}\nsame length of path {unsafe}\ndigest of all answers {taken}\n"
    )


# ---- test_files: read and write on Python's bytes, and on a store as the list of its sets

def store_of(table):
    rows = [set() for _ in range(MAX_STATES)]
    for a, b in table.steps:
        rows[a].add(b)
    return [*table.head(), *table.groups, *[set()] * (MAX_GROUPS - len(table.groups)), *rows]


def largest():
    words = [WORD * drawn(0, 2 * i) + drawn(0, 2 * i + 1) for i in range(STORE_WORDS)]
    return [{s for s in range(MAX_STATES) if words[WORDS * k + s // 64] >> s % 64 & 1} for k in range(STORE_SETS)]


def used(store, n, g):
    """The sets that are counted: initial, marked, resting, g groups, n rows."""
    return store[:HEAD_SETS + g] + store[ROWS_FROM:][:n]


def refusal(store, words, n, g):
    """The first ground that holds of a store of so many words (docs/SPECIFICATION.md, Refusals), or 0."""
    if words < STORE_WORDS:
        return 10
    if n > MAX_STATES or n == 0 and g > 0:
        return 14
    if g > MAX_GROUPS:
        return 15
    unused = store[HEAD_SETS + g:ROWS_FROM] + store[ROWS_FROM + n:]
    if any(s >= n for states in used(store, n, g) for s in states) or any(unused):
        return 17
    return 0


MAX_SITE = 65_520
FAR_SITES = (65_521, 2 ** 32, 2 ** 64 - 1)


def site_check(block, site):
    """The check of a block of a site: its sum starts from the site."""
    return (site + spec.check(block)) % spec.PRIME


def for_site(block, site):
    return block[:510] + spec.two(site_check(block, site))


def write(store, words, n, g, room, site=0):
    """The file, or the refusal."""
    if words < STORE_WORDS:
        return 10
    if site > MAX_SITE:
        return 24
    if refused := refusal(store, words, n, g):
        return refused
    contents = spec.two(n) + spec.two(NEW_FORM + g) + b"".join(spec.set_bytes(states, n) for states in used(store, n, g))
    file = b"".join(for_site(block, site) for block in spec.blocks(contents)) if n else b""
    return 19 if room < len(file) else file


def number(data):
    return int.from_bytes(data, "little")


def read(data, words, site=0):
    """n, g and the store, or the refusal."""
    if words < STORE_WORDS:
        return 10
    if site > MAX_SITE:
        return 24
    if len(data) == 0:
        return 0, 0, [set()] * STORE_SETS
    if len(data) % BLOCK or len(data) > MAX_FILE:
        return 11
    split = [data[at:at + BLOCK] for at in range(0, len(data), BLOCK)]
    for k, block in enumerate(split):
        if number(block[:2]) != k:
            return 12
        if number(block[510:]) != site_check(block, site):
            return 13
    content = b"".join(block[2:510] for block in split)
    n, second = number(content[:2]), number(content[2:4])
    if not 1 <= n <= MAX_STATES:
        return 14
    if not NEW_FORM <= second <= NEW_FORM + MAX_GROUPS:
        return 15
    g = second - NEW_FORM
    w = (n + 7) // 8
    length = 4 + w * (HEAD_SETS + g + n)
    if len(split) != -(-length // CONTENT):
        return 16
    sets = [{s for s in range(8 * w) if content[at + s // 8] >> s % 8 & 1} for at in range(4, length, w)]
    if any(s >= n for states in sets for s in states):
        return 17
    if any(content[length:]):
        return 18
    nothing = [set()] * MAX_STATES
    return n, g, sets[:HEAD_SETS + g] + nothing[:MAX_GROUPS - g] + sets[HEAD_SETS + g:] + nothing[:MAX_STATES - n]


def digest_store(store, start=0):
    return digest([half for states in store for half in halves(states)], start)


def written(store, words, n, g, room, site=0):
    answer = write(store, words, n, g, room, site)
    said = f"refused {answer}" if isinstance(answer, int) else f"file of {len(answer)}, digest {digest(answer)}"
    return f" from {words} n {n} g {g} into {room}: {said}{KEPT}"


def writes(heading, store, *cases):
    """A line for each case of words, n, g and room."""
    yield heading
    for case in cases:
        yield written(store, *case)


def replace(data, at, value):
    """A byte replaced, and the check of its block set right, unless the byte is one of the check's own."""
    data, block = spec.with_byte(data, at, value), at // 512 * 512
    if at % 512 < 510:
        data = data[:block + 510] + spec.two(spec.check(data[block:block + 510])) + data[block + 512:]
    return data


def what_is_read(data, words, site=0):
    answer = read(data, words, site)
    said = f"refused {answer}" if isinstance(answer, int) else (
        f"n {answer[0]} g {answer[1]}, digest {digest_store(answer[2])}")
    return f" from {len(data)} into {words}: {said}{KEPT}"


def reads(file, *cases):
    """A line for each case of a length, words and bytes replaced; zeros stand behind the file."""
    for length, words, damage in cases:
        data = file.ljust(MAX_FILE + BLOCK, b"\0")
        for at, value in damage.items():
            data = replace(data, at, value)
        yield "".join(f" {at}={value}" for at, value in damage.items()) + what_is_read(data[:length], words)


def round_trip(t):
    """The numbers of the file of one block for site t and of the store that is read back there, either as sevens where the call refuses."""
    table = generated(t)
    n, g, store = table.n, len(table.groups), store_of(table)
    file = write(store, STORE_WORDS, n, g, 512, t)
    if file == 19:
        return [7] * 512 + [7, 0] * STORE_WORDS
    assert write(store, STORE_WORDS, n, g, 512) == spec.encode(table) and read(file, STORE_WORDS, t) == (n, g, store)
    return [*file, *(half for states in store for half in halves(states))]


# The check of E for site 0; the site that E_CHECK is short of the prime gives 0.
E_CHECK = 870


def sites(e):
    yield "write E for a site"
    for words, n, g, site, room in [
        *((STORE_WORDS, 3, 0, site, 512) for site in (0, 1, spec.PRIME - E_CHECK, MAX_SITE, *FAR_SITES)),
        (STORE_WORDS - 1, 3, 0, 65_521, 512), (STORE_WORDS, 0, 1, 65_521, 512), (STORE_WORDS, 0, 65, 65_521, 0), (STORE_WORDS, 3, 0, 65_521, 0),
    ]:
        yield f" site {site}" + written(e, words, n, g, room, site)
    yield "read E at a site"
    for made, length, site, words in [
        *((made, 512, site, STORE_WORDS) for made in (0, 1, MAX_SITE) for site in (0, 1, MAX_SITE, 65_521, 2 ** 32 + 1, 2 ** 64 - 1)),
        (0, 0, 0, STORE_WORDS), (0, 0, MAX_SITE, STORE_WORDS), (0, 0, 65_521, STORE_WORDS), (0, 0, 65_521, STORE_WORDS - 1),
        (0, 511, MAX_SITE, STORE_WORDS), (0, 511, 65_521, STORE_WORDS), (0, 511, 65_521, STORE_WORDS - 1),
    ]:
        file = write(e, STORE_WORDS, 3, 0, 512, made)
        yield f" made for {made} site {site}" + what_is_read(file[:length], words, site)


def test_files():
    e, most = store_of(E), largest()
    more, resting = store_of(Table(4, {0}, {2}, E.steps | {(3, 0)}, [{0}])), store_of(rests(DRAFT, 1, 2))
    full = store_of(Table(60, {0, 8}, {59}, {(0, 59), (31, 32), (59, 59)}, [], {9, 32}))
    h = store_of(Table(61, {0, 8}, {60}, {(0, 60), (31, 32), (60, 60)}, [], {9, 60}))
    e_file, full_file, h_file, h1_file = (
        write(t, STORE_WORDS, n, g, 1024) for t, n, g in ((e, 3, 0), (full, 60, 0), (h, 61, 0), (h, 61, 1)))
    most_file = write(most, STORE_WORDS, MAX_STATES, MAX_GROUPS, MAX_FILE)
    # The figures of docs/SPECIFICATION.md, Files: E in the new form.
    assert e_file[2:12].hex(" ") == "03 00 00 80 01 04 00 01 04 00" and number(e_file[510:]) == E_CHECK
    assert [len(file) for file in (e_file, full_file, h_file, h1_file, most_file)] == [512, 512, 1024, 1024, MAX_FILE]
    trips = 300
    lines = [
        "file of E: " + " ".join(map(str, e_file)),
        *writes("write E", e,
                (STORE_WORDS, 3, 0, MAX_FILE + 48), (STORE_WORDS, 3, 0, 512), (STORE_WORDS, 3, 0, 511), (STORE_WORDS, 3, 0, 0), (STORE_WORDS - 1, 3, 0, 512), (STORE_WORDS - 1, 0, MAX_GROUPS + 1, 511),
                (STORE_WORDS, 0, 0, 512), (STORE_WORDS, MAX_STATES + 1, 0, MAX_FILE), (STORE_WORDS, 0, MAX_GROUPS + 1, 511), (STORE_WORDS, 3, MAX_GROUPS, 512), (STORE_WORDS, 3, MAX_GROUPS + 1, 512),
                (STORE_WORDS, 2, MAX_GROUPS + 1, 511), (STORE_WORDS, 2, 0, 512), (STORE_WORDS, 2, 0, 511)),
        *writes("write a draft", store_of(DRAFT),
                (STORE_WORDS, 0, 0, 0), (STORE_WORDS + 12, 0, 0, 512), (STORE_WORDS - 1, 0, 0, 0), (STORE_WORDS, 0, 1, 512), (STORE_WORDS, 0, MAX_GROUPS + 1, 0)),
        "read E",
        *reads(e_file, (512, STORE_WORDS, {}), (512, STORE_WORDS + 12, {}), (512, STORE_WORDS - 1, {}), (0, STORE_WORDS - 1, {}),
               (0, STORE_WORDS, {}), (511, STORE_WORDS, {}), (513, STORE_WORDS, {}), (511, STORE_WORDS, {0: 1})),
        *reads(e_file, *((512, STORE_WORDS, damage) for damage in (
            {0: 1}, {1: 1}, {0: 1, 510: 97}, {510: 98}, {511: 1}, {2: 0, 510: 97},
            {2: 0}, {2: 0, 5: 0}, {2: 0, 4: 65}, {2: 1, 3: 2}, {3: 2, 5: 0}, {4: 64}, {4: 65}, {5: 0}, {4: 255, 5: 127}, {5: 129}, {5: 255},
            {2: 61, 4: 65}, {2: 61, 5: 0}, {5: 0, 6: 9}, {2: 61}, {2: 61, 13: 128}))),
        *reads(e_file, (1024, STORE_WORDS, {}), (1024, STORE_WORDS, {512: 1}), (1024, STORE_WORDS, {512: 1, 6: 9})),
        *reads(e_file, *((512, STORE_WORDS, damage) for damage in (
            {8: 4}, {6: 9}, {7: 12}, {8: 8}, {11: 128}, {8: 8, 12: 1}, {12: 1}, {509: 128}))),
        *writes("write nothing but 1 and 2 resting", resting, (STORE_WORDS, 3, 0, 512), (STORE_WORDS, 2, 0, 512), (STORE_WORDS, 0, 0, 512)),
        *writes("write E with a group and a step from 3", more, (STORE_WORDS, 4, 0, 512), (STORE_WORDS, 3, 1, 512), (STORE_WORDS, 4, 1, 512)),
        *writes("write a full block", full, (STORE_WORDS, 60, 0, 512), (STORE_WORDS, 60, 0, 511), (STORE_WORDS, 60, 1, 1024), (STORE_WORDS, 60, 1, 1023)),
        "read a full block",
        *reads(full_file, *((512, STORE_WORDS, damage) for damage in ({}, {509: 24}, {29: 16}))),
        *writes("write H", h, (STORE_WORDS, 61, 0, 1024), (STORE_WORDS, 61, 0, 1023), (STORE_WORDS, 61, 1, 1024), (STORE_WORDS, 61, 1, 1023)),
        "read H",
        *reads(h_file, (1024, STORE_WORDS, {}), (512, STORE_WORDS, {}), (1024, STORE_WORDS, {521: 48}), (1024, STORE_WORDS, {522: 1})),
        "read H with a group",
        *reads(h1_file, (1024, STORE_WORDS, {}), (512, STORE_WORDS, {}), *((1024, STORE_WORDS, damage) for damage in (
            {512: 0}, {1023: 255}, {512: 7, 1023: 255}, {0: 9, 1023: 255}, {511: 255, 512: 7},
            {29: 48}, {37: 32}, {529: 48}, {530: 1}, {1021: 1}))),
        *writes("write the largest table", most,
                (STORE_WORDS + 12, MAX_STATES, MAX_GROUPS, MAX_FILE), (STORE_WORDS, MAX_STATES, MAX_GROUPS, MAX_FILE - 1), (STORE_WORDS, MAX_STATES + 1, MAX_GROUPS, MAX_FILE), (STORE_WORDS, MAX_STATES, MAX_GROUPS + 1, MAX_FILE),
                (STORE_WORDS, MAX_STATES, MAX_GROUPS - 1, MAX_FILE), (STORE_WORDS, MAX_STATES - 1, MAX_GROUPS, MAX_FILE)),
        "read the largest table",
        *reads(most_file, (MAX_FILE, STORE_WORDS + 12, {}), (MAX_FILE + 1, STORE_WORDS, {}), (MAX_FILE + BLOCK, STORE_WORDS, {}), (MAX_FILE - BLOCK, STORE_WORDS, {}),
               (MAX_FILE, STORE_WORDS, {4: 65}), (MAX_FILE, STORE_WORDS, {2: 1, 4: 65}), (MAX_FILE, STORE_WORDS, {5: 0})),
        *sites(e),
        f"round trips {trips}, digest {digest(x for t in range(trips) for x in round_trip(t))}",
    ]
    return "".join(line + "\n" for line in lines)


PROGRAMS = {"test_decide": test_decide, "test_modal": test_modal, "test_order": test_order, "test_agreement": test_agreement, "test_files": test_files}

if __name__ == "__main__":
    keep({TOP / "crates" / name / "stdout": text().encode() for name, text in PROGRAMS.items()})
