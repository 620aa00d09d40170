"""Random tables with what the proved archive answers of them, by the Python module, as lines of JSON; what
decide and shortest_path say is also held to tests/expected/spec.py, which shares nothing with either.

    cases.py SEED COUNT
"""
import json
import random
import sys
from pathlib import Path

TOP = Path(__file__).resolve().parents[2]
sys.path[:0] = [str(TOP / "python"), str(TOP / "tests" / "expected")]
sys.dont_write_bytecode = True
import shuntberry  # noqa: E402
import spec  # noqa: E402

SEED, COUNT = map(int, sys.argv[1:])
random.seed(SEED)
SIZES = [1, 2, 3, 5, 8, 13, 40, 63, 64, 65, 130, 511, 512]
MINUTES = 10_080


def some(n, most):
    return sorted(random.sample(range(n), random.randint(0, min(n, most))))


def table(n):
    steps = {s: some(n, random.choice([0, 1, 1, 2, 3])) for s in range(n)}
    groups = [some(n, n) for _ in range(random.choice([0, 0, 1, 3, 64]))]
    return {
        "initial": some(n, 2), "marked": some(n, 1), "resting": some(n, n), "groups": groups, "steps": steps}


def of_spec(n, sets):
    steps = {(a, b) for a, row in sets["steps"].items() for b in row}
    groups = list(map(set, sets["groups"]))
    return spec.Table(n, set(sets["initial"]), set(sets["marked"]), steps, groups, set(sets["resting"]))


def answered(call, *arguments):
    """What a call answers, or the number of its refusal."""
    try:
        return call(*arguments)
    except shuntberry.Refused as refused:
        return {"refused": refused.number}


def fields(value, *names):
    return {name: shown(getattr(value, name)) for name in names}


def shown(value):
    """An answer as JSON has it: a set in order, a verdict by its name, Infinity for never."""
    if isinstance(value, (set, frozenset)):
        return sorted(value)
    if isinstance(value, tuple):
        return [shown(one) for one in value]
    if isinstance(value, shuntberry.Verdict):
        return value.name.lower()
    if isinstance(value, (bytes, bytearray)):
        return value.hex()
    if isinstance(value, shuntberry.Decision):
        return fields(value, "n", "verdict", "count", "invariant", "path", "is_safe")
    if isinstance(value, shuntberry.ModalDecision):
        return fields(value, "n", "verdict", "invariant", "path", "is_safe")
    if isinstance(value, shuntberry.Checked):
        refusal = value.refusal.number if value.refusal else None
        return {"text": value.text, "status": value.status, "is_safe": value.is_safe, "refusal": refusal}
    if isinstance(value, shuntberry.Replay):
        return fields(value, "followed", "seen", "percent", "remainder", "entries")
    return value


def walk(n, sets):
    """A log that follows the table for a while."""
    at, log = random.choice(sets["initial"] or [0]), []
    for _ in range(random.randint(0, 30)):
        log.append(at)
        at = random.choice(sets["steps"][at] or [random.randrange(n + 2)]) if at < n else 0
    return b"".join(state.to_bytes(2, "little") for state in log) + random.choice([b"", b"", b"", b"\0"])


def held(ours, theirs):
    """The archive's decision is the specification's."""
    verdict, count, invariant = spec.decide(theirs)
    path = spec.shortest_path(theirs)
    expected = (verdict, count, sorted(invariant) if verdict == "safe" else None, path)
    found = shown(ours)
    said = (found["verdict"], found["count"], found["invariant"], found["path"])
    assert said == expected, (said, expected)


def case(k):
    n = random.choice(SIZES)
    sets = table(n)
    ours = shuntberry.Table(n, **sets)
    theirs = of_spec(n, sets)
    out = {"n": n, "sets": {**sets, "steps": [[s, row] for s, row in sets["steps"].items()]}, "asked": []}

    def ask(call, *arguments):
        answer = answered(getattr(shuntberry, call), ours, *arguments)
        out["asked"].append([call, [shown(one) for one in arguments], shown(answer)])
        return answer

    decided = ask("decide", shuntberry.MAX_ALLOWANCE)
    if n <= 65:
        held(decided, theirs)
    ask("decide", random.choice([0, 1, 2, 512, 513]))
    ask("shortest_path")
    ask("distances")
    for bound in 0, 1, 2, n, 2**32 - 1:
        ask("within", bound)
    site = random.choice([0, 1, 17, 65_520, 65_521])
    ask("write", site)
    ask("replay", walk(n, sets))
    with_row = lambda row: {*row, *some(n, 2)} if random.random() < 0.99 else some(n, 2)  # noqa: E731
    possible = {s: sorted(with_row(row)) for s, row in sets["steps"].items()}
    out["asked"].append(["decide_modal", [[[s, row] for s, row in possible.items()]],
        shown(answered(shuntberry.decide_modal, ours, possible))])
    out["text"] = spec.text(theirs)
    out["old"] = spec.encode(spec.old(theirs)).hex()
    out["rewritten"] = shuntberry.rewrite(spec.encode(spec.old(theirs))).hex()
    file = bytearray(shuntberry.write(ours, min(site, shuntberry.MAX_SITE)))
    files = [bytes(file), bytes(file[:-512]), bytes(file[:-1])]
    file[random.randrange(len(file))] ^= random.randint(1, 255)
    out["files"] = []
    for data in [*files, bytes(file)]:
        for where in {min(site, shuntberry.MAX_SITE), 3}:
            read = answered(shuntberry.read, data, where)
            refused = read if isinstance(read, dict) else None
            out["files"].append([data.hex(), where, shown(shuntberry.check(data, where)), refused])
    session = shuntberry.Session(ours)
    out["edits"] = [["reachable", 0, 0, shown(session.reachable)]]
    for _ in range(12):
        call, a, b = random.choice(["add_step", "remove_step"]), random.randrange(n + 1), random.randrange(n)
        out["edits"].append([call, a, b, shown(answered(getattr(session, call), a, b))])
    out["edited"] = shuntberry.write(session.table).hex()
    seed, fan_out = random.randrange(2**32), random.randint(0, 17)
    load = answered(shuntberry.generate, seed, n, fan_out)
    out["load"] = [seed, n, fan_out, load if isinstance(load, dict) else shuntberry.write(load).hex()]
    least = 0 if k % 9 == 0 else 1
    window = lambda: [random.randrange(MINUTES + 5), random.randint(least, MINUTES)]  # noqa: E731
    windows = [window() for _ in range(random.choice([0, 1, 2, 5, 32, 33]))]
    days = [random.randrange(400) for _ in range(random.choice([0, 1, 5, 64, 65]))]
    time = random.choice([0, random.randrange(10**6), 2**31 - 1, 2**31])
    weekly = [shuntberry.Window(*one) for one in windows]
    out["open"] = [time, windows, days, answered(shuntberry.next_open, time, weekly, days)]
    return out


for k in range(COUNT):
    print(json.dumps(case(k)))
