"""Inputs for calls.c and calls.mjs, by chance from a seed: tables of every kind through every call, files of theirs, whole and damaged, and words that are
refused. Sizes are below 2^32, so that a target of 32 bits can be given them.

usage: cases.py SEED TABLES DAMAGED"""
import random
import sys
from pathlib import Path

sys.path.insert(0, str(Path(__file__).resolve().parents[1] / "expected"))
import spec  # noqa: E402

SET, STORE, PATH, TEXT, POSSIBLE = 8, 4632, 512, 4096, 4096
MOST = 2**32 - 1
WEEK = 10_080


def states(chance, n, few):
    return {s for s in range(n) if chance.random() < few}


def table(chance):
    """Sparse, dense, a corridor, a cycle or a tree, of any size; most small ones small."""
    n = chance.choice([0, 1, 2, 3, chance.randint(1, 12), chance.randint(1, 70), chance.randint(1, 512), 64, 128, 512])
    kind = chance.choice(["sparse", "sparse", "corridor", "cycle", "tree", "dense"])
    if kind == "dense":
        n = min(n, 40)
        steps = {(a, b) for a in range(n) for b in range(n) if chance.random() < 0.4}
    elif kind == "corridor":
        steps = {(s, s + 1) for s in range(n - 1)} | {(s, s) for s in range(n) if chance.random() < 0.1}
    elif kind == "cycle":
        steps = {(s, (s + 1) % n) for s in range(n)}
    elif kind == "tree":
        steps = {((s - 1) // 2, s) for s in range(1, n)}
    else:
        steps = {(a, chance.randrange(n)) for a in range(n) for _ in range(chance.randint(0, 3))}
    marked = states(chance, n, chance.choice([0, 0, 1.5 / max(n, 1), 0.1]))
    initial = states(chance, n, 0.1) | ({0} if n and chance.random() < 0.8 else set())
    resting = states(chance, n, chance.choice([0, 0.5, 1, 1]))
    g = chance.choice([0, 0, 1, 2, 5, 18, 64]) if n else 0
    return spec.Table(n, initial, marked, steps, [states(chance, n, chance.random()) for _ in range(g)], resting)


def sparse(name, length, sets):
    words = {}
    for at, members in sets:
        for s in members:
            words[at + s // 64] = words.get(at + s // 64, 0) | 1 << s % 64
    return " ".join([name, str(length), *(f"{place}:{word}" for place, word in sorted(words.items()))])


def rows(at, n, steps):
    found = {}
    for a, b in steps:
        found.setdefault(a, set()).add(b)
    return [(at + SET * a, row) for a, row in found.items() if a < n]


def store(t, length=STORE):
    sets = [(0, t.initial), (SET, t.marked), (2 * SET, t.resting)]
    sets += [((3 + j) * SET, group) for j, group in enumerate(t.groups)]
    return sparse("store", length, sets + rows(67 * SET, t.n, t.steps))


def file_of(t, site):
    def sealed(block):
        return block[:510] + spec.two((site + spec.check(block)) % spec.PRIME)
    whole = spec.encode(t)
    return b"".join(sealed(whole[k:k + 512]) for k in range(0, len(whole), 512))


def hexadecimal(data):
    return data.hex() or "-"


def log_of(chance, t):
    """A walk, which may be cut, broken or odd in length."""
    at = chance.choice(sorted(t.initial)) if t.initial else 0
    entries = [at]
    for _ in range(chance.randint(0, 60)):
        following = sorted(t.row(entries[-1]))
        if not following:
            break
        entries.append(chance.choice(following))
    data = b"".join(spec.two(entry) for entry in entries)
    return chance.choice([data, data, data[:-1], data + spec.two(chance.randint(0, 600)), b"", b"\1" * 32_770])


def asked(chance, t):
    """Every call on a table, and some with numbers that are refused."""
    n, g = t.n, len(t.groups)
    yield store(t, chance.choice([STORE] * 8 + [STORE - 1, STORE + 5]))
    for allowance in {512, chance.choice([0, 1, 2, 3, 7, 511]), chance.choice([512, 513, MOST])}:
        yield f"decide {n} {g} {allowance} {PATH}"
    yield f"decide {chance.choice([n, n + 1, 513, MOST])} {chance.choice([g, g + 1, 65, MOST])} 512 {chance.choice([PATH, 511, 0])}"
    yield f"shortest_path {n} {g} {chance.choice([PATH, PATH, 600, 511])}"
    yield f"distances {n} {g} {chance.choice([n, n, 512, max(n - 1, 0)])}"
    for k in (chance.randint(0, 5), chance.choice([0, 512, MOST])):
        yield f"within {n} {g} {k}"
    yield f"log {hexadecimal(log_of(chance, t))}"
    yield f"replay {n} {g}"
    possible = t.steps | {(chance.randrange(n), chance.randrange(n)) for _ in range(chance.randint(0, 4)) if n}
    if chance.random() < 0.1 and possible:
        possible.pop()
    yield sparse("possible", chance.choice([POSSIBLE] * 8 + [POSSIBLE - 1]), rows(0, n, possible))
    yield f"decide_modal {n} {g} {chance.choice([PATH, PATH, PATH, 511])}"
    site = chance.choice([0, 0, 1, 7, 65_520])
    yield f"write {n} {g} {chance.choice([site, site, 65_521, MOST])} {chance.choice([37_376, 37_376, 512, 0])}"
    yield f"input {hexadecimal(file_of(t, site))}"
    yield f"read {chance.choice([site, site, site, 0, 65_521, MOST])} {chance.choice([STORE] * 6 + [STORE - 1, STORE + 9])}"
    yield f"check {site} {chance.choice([TEXT] * 6 + [TEXT - 1, TEXT + 9])}"
    if not t.groups:
        yield f"input {hexadecimal(spec.encode(spec.OldTable(n, t.initial, t.marked, t.steps)))}"
        yield f"rewrite {chance.choice([37_376, 37_376, 512])}"
    yield f"open {n} {g}"
    for _ in range(6):
        call = chance.choice(["add_step", "remove_step"])
        a, b = (chance.randrange(n + 1) for _ in range(2))
        if t.steps and call == "remove_step":
            a, b = chance.choice(sorted(t.steps))
        yield f"{call} {n} {g} {a} {chance.choice([b] * 8 + [MOST])}"


def damaged(chance, t):
    """A file with a byte or two changed, cut or longer; half of them with their checks made right again, so that what is behind is reached."""
    site = chance.choice([0, 0, 3])
    data = bytearray(file_of(t, site)) or bytearray(512)
    for _ in range(chance.randint(1, 2)):
        data[chance.randrange(len(data))] = chance.randrange(256)
    data = data[:chance.choice([len(data)] * 4 + [len(data) - 1, len(data) - 512, 1])] + bytes(chance.choice([0] * 6 + [1, 512]))
    if chance.random() < 0.5 and len(data) % 512 == 0:
        for k in range(0, len(data), 512):
            data[k + 510:k + 512] = spec.two((site + spec.check(data[k:k + 512])) % spec.PRIME)
    yield f"input {hexadecimal(bytes(data))}"
    yield f"read {site} {STORE}"
    yield f"check {site} {TEXT}"
    yield "rewrite 37376"


def other(chance):
    """Loads, and minutes of a house."""
    yield (f"generate {chance.randrange(2**32)} {chance.choice([1, 2, 9, 512, chance.randint(1, 512), 0, 513, MOST])} "
           f"{chance.choice([0, 1, 2, 3, 16, 17, MOST])} {chance.choice([STORE, STORE, STORE - 1])}")
    start = lambda: chance.choice([chance.randrange(WEEK), chance.randrange(WEEK), WEEK - 1, WEEK, 65_536])
    length = lambda: chance.choice([1, 60, chance.randint(1, WEEK), WEEK, WEEK + 1, 65_546, 0])
    good = lambda: chance.randrange(WEEK) | chance.randint(1, 600) << 32
    some = chance.choice([0, 1, 2, 5, 32, 33])
    yield " ".join(["windows", *(str(start() | length() << 32 if chance.random() < 0.1 else good()) for _ in range(some))])
    time = chance.choice([0, chance.randrange(2**31), 2**31 - 1, 2**31, MOST])
    days = [str(chance.choice([time // 1440 + chance.randint(0, 9), 0, MOST])) for _ in range(chance.choice([0, 1, 3, 64, 65]))]
    yield " ".join(["closed", *days])
    yield f"next_open {time}"


def main():
    seed, tables, damages = map(int, sys.argv[1:4])
    chance = random.Random(seed)
    print("version")
    for k in range(max(tables, damages)):
        t = table(chance)
        lines = list(asked(chance, t)) if k < tables else []
        lines += list(damaged(chance, t)) if k < damages else []
        print("\n".join(lines + list(other(chance))))


main()
