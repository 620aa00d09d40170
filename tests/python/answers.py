"""The module's answers on random tables and on the files of tests/files, held to what Python works out from the specification (tests/expected/spec.py,
tests/command/model.py, tests/expected/programs.py), which shares nothing with the library.

    answers.py PREFIX SEED COUNT
"""
import copy
import pickle
import random
import sys
from datetime import datetime, timedelta

from support import TABLES, group, need, refused, same, shuntberry
import drafts
import load
import model
import programs
import spec
from shuntberry import Session, Table, Verdict, Window

SEED, COUNT = int(sys.argv[2]), int(sys.argv[3])
random.seed(SEED)
SITES = [0, 1, 17, shuntberry.MAX_SITE]
LARGEST = 2**64 - 1


def rows(steps):
    found = {}
    for a, b in steps:
        found.setdefault(a, set()).add(b)
    return found


def of(table, names=None):
    """The module's table of one of tests/expected/spec.py."""
    return Table(table.n, initial=table.initial, marked=table.marked, resting=table.resting, groups=table.groups, steps=rows(table.steps), names=names)


def sets(table):
    """What is in a table of the module."""
    return table.n, table.g, table.initial, table.marked, table.resting, table.groups, table.steps


def sets_of(table):
    frozen = frozenset
    return (
        table.n, len(table.groups), frozen(table.initial), frozen(table.marked), frozen(table.resting), tuple(map(frozen, table.groups)),
        {a: frozen(row) for a, row in rows(table.steps).items()})


def decided(table, allowance):
    """Verdict, count, invariant and path."""
    before, spec.ALLOWANCE = spec.ALLOWANCE, allowance
    verdict, count, invariant = spec.decide(table)
    spec.ALLOWANCE = before
    return (
        Verdict[verdict.upper()], count, frozenset(invariant) if verdict == "safe" else None,
        tuple(spec.shortest_path(table)) if verdict == "unsafe" else None)


def answers(table, ours):
    """All that is asked of a table without changing it."""
    for allowance in (0, 1, 2, spec.MAX_STATES):
        found = shuntberry.decide(ours, allowance)
        same((found.verdict, found.count, found.invariant, found.path), decided(table, allowance), "decide", table, allowance)
        same(found.is_safe, found.verdict is Verdict.SAFE and table.n > 0, "is_safe", table)
    path = spec.shortest_path(table)
    same(shuntberry.shortest_path(ours), path if path is None else tuple(path), "shortest path", table)
    away = model.distances(table)
    same(shuntberry.distances(ours), tuple(away.get(s) for s in range(table.n)), "distances", table)
    nearest = min((away[s] for s in table.initial if s in away), default=None)
    for k in (0, 1, 2, 3, table.n, LARGEST):
        same(shuntberry.within(ours, k), nearest is not None and nearest <= k, "within", table, k)


def files(table, ours):
    site = random.choice(SITES)
    file = model.at_site(spec.encode(table), site)
    same(shuntberry.write(ours, site), file, "write", table, site)
    same(sets(shuntberry.read(file, site)), sets_of(table), "read", table, site)
    need(shuntberry.read(bytearray(file), site=site) == ours and hash(shuntberry.read(file, site)) == hash(ours), "read gives another table", table)
    checked = shuntberry.check(file, site)
    text = spec.printed(table)
    status = 4 if table.n == 0 else 0 if "\nsafe" in text else 1
    same((checked.text, checked.status, checked.is_safe, checked.n, checked.refusal), (text, status, status == 0, table.n, None), "check", table)
    same(checked.verdict, Verdict.UNSAFE if status == 1 else Verdict.SAFE, "the verdict of check", table)
    if file:
        damaged(file, site)


def damaged(file, site):
    """A byte changed, or the end cut off."""
    data = bytearray(file)
    if random.random() < 0.5:
        data[random.randrange(len(data))] ^= 1 << random.randrange(8)
    else:
        del data[random.randrange(len(data)):]
    answer = programs.read(bytes(data), programs.STORE_WORDS, site)
    checked = shuntberry.check(data, site)
    if isinstance(answer, int):
        refused(answer, shuntberry.read, data, site)
        same((checked.text, checked.status, checked.is_safe, checked.refusal.number), (f"refused {answer}\n", 2, False, answer), "check", bytes(data))
        refused(answer, lambda: checked.verdict)
        refused(answer, lambda: checked.n)
    else:
        same(shuntberry.read(data, site).n, answer[0], "read of a part", bytes(data))
        need(checked.status == 4 or data != file, "a part is a whole file")


def walks(table, ours):
    for length in (0, 1, 5, 50):
        log, at = [], random.choice(sorted(table.initial) or [0])
        for _ in range(length):
            log.append(at)
            at = random.choice(sorted(table.row(at)) or [0]) if random.random() < 0.95 else random.randrange(65_536)
        followed, seen, reached = model.replayed(table, log)
        percent, remainder = divmod(100 * len(seen), len(reached)) if reached else (0, 0)
        found = shuntberry.replay(ours, b"".join(spec.two(s) for s in log))
        same(found, shuntberry.Replay(followed, len(seen), percent, remainder, length), "replay", table, log)


def edits(table, ours):
    session, steps = Session(ours), set(table.steps)
    same(session.reachable, frozenset(model.reached(table, table.initial)), "open", table)
    for _ in range(12):
        a, b = random.randrange(table.n + 1), random.randrange(table.n + 1)
        adds = random.random() < 0.5
        edit = session.add_step if adds else session.remove_step
        if table.n in (a, b):
            refused(27, edit, a, b)
        else:
            (steps.add if adds else steps.discard)((a, b))
            edit(a, b)
        edited = spec.Table(table.n, table.initial, table.marked, steps, table.groups, table.resting)
        same(session.reachable, frozenset(model.reached(edited, table.initial)), "an edit", edited, a, b)
    same(sets(session.table), sets_of(edited), "the edited table", edited)
    same(sets(ours), sets_of(table), "a session changed the table that it was opened on", table)


def options(table, ours):
    possible = table.steps | {(a, b) for a in range(table.n) for b in drafts.some(table.n, 0.5 / table.n)}
    found = shuntberry.decide_modal(ours, rows(possible))
    verdict, invariant, path = model.modal(table, possible)
    same(
        (found.verdict, found.invariant, found.path),
        (Verdict[verdict.upper()], None if invariant is None else frozenset(invariant), None if path is None else tuple(path)), "modal", table, possible)
    same(found.is_safe, verdict == "safe" and table.n > 0, "is_safe of modal", table, possible)
    if table.steps:
        refused(28, shuntberry.decide_modal, ours, rows(possible - {random.choice(sorted(table.steps))}))


def texts(table, ours):
    written = drafts.draft(table)
    found = Table.from_text(written)
    same(sets(found), sets_of(table), "a text", written)
    for line in written.splitlines():
        words = line.split("#")[0].split()
        if words[:1] == ["state"]:
            same((found.names[int(words[1])], found.state(words[2])), (words[2], int(words[1])), "a name", written)
    same(sets(Table.from_text(spec.text(table))), sets_of(table), "decode's text")


def cuts(table):
    """A text that was cut is no text, wherever that was."""
    written = random.choice([drafts.draft, spec.text])(table)
    for length in {random.randrange(1, len(written)), len(written) - random.randrange(1, 9), len(written) - 1}:
        try:
            Table.from_text(written[:length])
        except shuntberry.Mistakes as mistakes:
            need("the text may be cut" in str(mistakes), mistakes)
        except ValueError as error:  # one word, which may be a file's name
            need(len(written[:length].split()) == 1 and "is the name of a file" in str(error), error)
        else:
            need(False, f"{length} characters are enough of {written!r}")


for i in range(COUNT):
    drawn = drafts.table()
    mine = of(drawn)
    same(sets(mine), sets_of(drawn), "the sets", drawn)
    for ask in (answers, files, walks, edits):
        ask(drawn, mine)
    if drawn.n:
        options(drawn, mine)
    if i % 2 == 0:
        cuts(drawn)
    if i % 10 == 0:
        texts(drawn, mine)
        for copied in (pickle.loads(pickle.dumps(mine)), copy.copy(mine), copy.deepcopy(mine)):
            same(copied, mine, "a copy")
group(f"{COUNT} tables of seed {SEED}")

# ---- the files of tests/files, and the edges

# tries: call_rewrite::rewrite
def rewritten(path):
    """An old file: the new one that is stored beside it, or its refusal."""
    new = path.with_name("rewritten-" + path.name[4:])
    if new.exists():
        same(shuntberry.rewrite(path.read_bytes()), new.read_bytes(), path)
    else:
        refused(int(new.with_suffix(".expected").read_text().split()[1]), shuntberry.rewrite, path.read_bytes())


kinds = {"refused": 0, "accepted": 0}
for path in sorted(TABLES.glob("*.table")):
    text = path.with_suffix(".expected").read_text()
    checked = shuntberry.check(path.read_bytes())
    same(checked.text, text, path)
    if text.startswith("refused"):
        kinds["refused"] += 1
        refused(int(text.split()[1]), Table.from_file, path)
        same(checked.status, 2, path)
    else:
        kinds["accepted"] += 1
        table = Table.from_file(str(path))
        same(sets(table), sets_of(model.table_of(path.with_suffix(".txt").read_text())), path)
        same(shuntberry.write(table), path.read_bytes(), path)
    if path.name.startswith("old-"):
        rewritten(path)
need(min(kinds.values()) > 20, kinds)
for table in (spec.CORRIDOR, spec.LAST_HANGS, spec.LARGEST, spec.ALL_BUT_ONE, spec.ONE_FEWER, programs.DRAFT, spec.F, spec.G):
    for ask in (answers, files, walks, edits):
        ask(table, of(table))
same(of(spec.LARGEST).g, shuntberry.MAX_GROUPS, "all groups")
group("the files of tests/files and the largest tables")

for _ in range(30):
    seed, n, fan_out = random.randrange(2**32), random.choice([1, 2, 61, 256, 512]), random.randrange(17)
    same(shuntberry.write(shuntberry.generate(seed, n, fan_out)), load.file(seed, n, fan_out), "generate", seed, n, fan_out)
same(shuntberry.write(shuntberry.generate(2**32 - 1, 512, 16)), load.file(2**32 - 1, 512, 16), "the greatest seed")

START, MINUTE = datetime(2000, 1, 1), timedelta(minutes=1)
for _ in range(60):
    windows = [Window(random.randrange(10_080), random.choice([1, 60, 600, random.randrange(1, 10_081)])) for _ in range(random.randrange(4))]
    closed = random.sample(range(40), random.randrange(20))
    time = random.randrange(30 * 1440)
    starts = [START + window.start * MINUTE for window in windows]
    in_model = [(start.weekday(), start.hour, start.minute, window.length) for start, window in zip(starts, windows)]
    first = model.next_open(in_model, {(START + timedelta(days=day)).date() for day in closed}, START + time * MINUTE)
    same(shuntberry.next_open(time, windows, closed), None if first is None else (first - START) // MINUTE, "next open", time, windows, closed)
same(shuntberry.next_open(0, [Window(0, 1)]), 0, "minute 0")
same(shuntberry.next_open(2**31 - 1, [Window(0, 10_080)], [2**32 - 1]), 2**31 - 1, "the greatest time and day")
group("loads and open minutes")
