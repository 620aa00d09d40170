#!/usr/bin/env python3
"""What confirm answers of files and reports, right and wrong ones, is what the oracle works out; and a confirm with a mistake in it is found.

    opinions.py CHECK      CHECK is the program check
"""
import random
import re
import types

from trying import CONFIRM, SEED, TABLES, WORK, call, done, is_whole, need
import drawn
import model
import oracle
import spec
import support  # takes CHECK from the words of the call

CHECK_TO_CONFIRM = {support.SAFE: 0, support.UNSAFE: 1, support.REFUSED: 3, support.FAILED: 3, support.NO_RELEASE: 4}
CASES, BY_COMMAND, CHECKED = 6000, 200, 150
source, rng = CONFIRM.read_text(), random.Random(SEED)


def module_of(text):
    made = types.ModuleType("confirm")
    exec(compile(text, "confirm", "exec"), made.__dict__)
    made.statuses = {made.SAFE: 0, made.UNSAFE: 1, made.DRAFT: 4}
    return made


def answer(module, case):
    """The status, and what is said below the two lines."""
    try:
        status, text = module.confirmed(*case)
        return module.statuses[status], text.split("\n", 2)[2]
    except module.NotConfirmed:
        return 3, ""


def expected_of(case):
    return oracle.status(*case), oracle.remark(*case)


def put(name, some):
    (WORK / name).write_bytes(some)
    return WORK / name


def by_command(file, site, report):
    """In each way that a report can be given."""
    words = [["--site", str(site)], [f"--site={site}"]][rng.randrange(2)] if site or rng.random() < 0.3 else []
    table, said = put("table", file), put("report", report)
    match rng.randrange(4):
        case 0 | 1:
            return call(*words, table, "-", input=report)
        case 2:
            return call(*words, "--", table, said)
    return call(*words, table, said)


# ---- the stored files, and what check itself prints

count = 0
for path, expected in support.tables():
    status = CHECK_TO_CONFIRM[support.status_of(expected)]
    remark = oracle.remark(path.read_bytes(), 0, expected.encode())
    run = call(path, path.with_suffix(".expected"))
    need(run.returncode == status and is_whole(run, remark), path, run)
    need(oracle.status(path.read_bytes(), 0, expected.encode()) == status, "the oracle", path)
    checked = support.call(path, under="check")
    need(checked.out.decode() == expected, checked)
    run = call(path, "-", input=checked.out)
    need(run.returncode == status and is_whole(run, remark), path, run)
    need(bool(remark) == (b"whatever else is in it" in checked.err), "check and the oracle", path, checked)
    count += 2
need(count > 150, count)
done("stored files, with what is stored and with what check prints", count)


# ---- cases by chance: a table, its file and report; then one of the two spoilt, or that of another

def cases():
    before = spec.encode(spec.A), spec.printed(spec.A).encode()
    while True:
        table = drawn.table(rng)
        file, report = spec.encode(table), spec.printed(table).encode()
        yield file, 0, report
        site = rng.randrange(spec.PRIME)
        yield model.at_site(file, site), site, report
        yield file, site, report
        released = oracle.released(file, report)
        yield file, 0, released
        yield file, 0, drawn.spoilt_report(table, released, before[1], rng)
        for _ in range(12):
            yield file, 0, drawn.spoilt_report(table, report, before[1], rng)
        for _ in range(8):
            spoilt = drawn.spoilt_file(file, before[0], rng)
            yield spoilt, 0, report
            if other := oracle.table_of(spoilt, 0):
                yield spoilt, 0, spec.printed(other).encode()
                yield spoilt, 0, drawn.other_report(other, rng)
        yield spoilt, 0, drawn.spoilt_report(table, report, before[1], rng)
        before = file, report


confirm, tried = module_of(source), []
for case in cases():
    status, _ = expected = expected_of(case)
    need(oracle.is_true(*case[:2], status), "the oracle", status, *case)
    need(answer(confirm, case) == expected, f"expected {expected}", *case)
    tried.append((case, expected))
    if len(tried) == CASES:
        break
shares = [sum(status == wanted for _, (status, _) in tried) for wanted in (0, 1, 3)]
need(min(shares) > CASES // 20, shares)
done(f"cases by chance, seed {SEED} ({shares[0]} safe, {shares[1]} unsafe, {shares[2]} not confirmed)", len(tried))
for case, (status, remark) in rng.sample(tried, BY_COMMAND):
    run = by_command(*case)
    need(run.returncode == status and is_whole(run, remark), f"expected {status}", run, *case)
done("of these by the command", BY_COMMAND)
for (file, site, _), _ in rng.sample(tried, CHECKED):
    checked = support.call("--site", str(site), put("table", file), under="check")
    run = by_command(file, site, checked.out)
    remark = oracle.remark(file, site, checked.out)
    need(run.returncode == CHECK_TO_CONFIRM[checked.status] and is_whole(run, remark), checked, run, file)
done("files by chance, with what check prints", CHECKED)

# ---- confirm with one mistake in it

MISTAKES = [
    ("the initial states not looked at", "table.initial & ~inside == 0", "True"),
    ("one initial state is enough", "table.initial & ~inside == 0", "table.initial & inside or not table.initial"),
    ("steps out not looked at", "table.rows[state] & ~inside == 0", "True"),
    ("one step that stays is enough", "table.rows[state] & ~inside == 0", "table.rows[state] & inside or not table.rows[state]"),
    ("the last state of the invariant not looked at", "for state in states:\n", "for state in states[:-1]:\n"),
    ("the first state of the invariant not looked at", "for state in states:\n", "for state in states[1:]:\n"),
    ("forbidden states not looked at", "need(not table.is_forbidden(state)", "need(True"),
    ("marked states alone are forbidden", "return hangs or ", "return "),
    ("hangs alone are forbidden", "return hangs or bool(self.marked >> state & 1)", "return hangs"),
    ("resting states hang", " and not self.resting >> state & 1", ""),
    ("a marked state that rests is not forbidden", "bool(self.marked >> state & 1)", "bool(self.marked & ~self.resting & 1 << state)"),
    ("the sets exchanged", "self.initial, self.marked, self.resting =", "self.initial, self.resting, self.marked ="),
    ("the groups taken for rows", "sets[3 + g :]", "sets[3:]"),
    ("the size not looked at", "f\"invariant {len(states)}: ", "f\"invariant {third.split(' ')[1][:-1]}: "),
    ("the invariant need not rise", "a < b for a, b", "True for a, b"),
    ("a state twice", "a < b for a, b", "a <= b for a, b"),
    ("the start of the path not looked at", "need(table.initial >> states[0] & 1", "need(True"),
    ("the steps of the path not looked at", "need(table.rows[a] >> b & 1", "need(True"),
    ("steps taken backward", "table.rows[a] >> b & 1", "table.rows[b] >> a & 1"),
    ("the last step of the path not looked at", "for a, b in zip(states, states[1:]):\n", "for a, b in zip(states[:-1], states[1:-1]):\n"),
    ("the end of the path not looked at", "need(table.is_forbidden(states[-1])", "need(True"),
    ("any state of the path may be the forbidden one", "need(table.is_forbidden(states[-1])", "need(any(map(table.is_forbidden, states))"),
    ("the form not looked at", "text == printed(table, verdict, count, states)", "True"),
    ("the end of the report not looked at", "text == printed(table, verdict, count, states)", "text.startswith(printed(table, verdict, count, states))"),
    ("white space not looked at", "text == printed(table, verdict, count, states)", "text.split() == printed(table, verdict, count, states).split()"),
    ("every other verdict is safe", 'need(verdict in ("safe", "unsafe"), ', "need(True, "),
    ("a negative count", "0 <= count <=", "count <="),
    ("every count", "0 <= count <= table.n", "count >= 0"),
    ("a count that a larger table may have", "0 <= count <= table.n", "0 <= count <= MAX_STATES"),
    ("no count that is the number of states", "0 <= count <= table.n", "0 <= count < table.n"),
    ("the numbers of blocks not looked at", "number(block[:2]) == k", "True"),
    ("the low bytes of the numbers alone", "number(block[:2]) == k", "block[0] == k"),
    ("checks not looked at", "number(block[-2:]) == check % PRIME", "True"),
    ("the site not looked at", "check = site + sum", "check = sum"),
    ("weights from 0", "enumerate(block[:-2], 1)", "enumerate(block[:-2])"),
    ("another modulus", "65_521", "65_536"),
    ("the old form too", "number(joined[2:4]) - NEW_FORM", "number(joined[2:4]) % NEW_FORM"),
    ("the number of blocks not looked at", "len(contents) == -(-length // len(contents[0]))", "True"),
    ("a block too many", "len(contents) == -", "len(contents) >= -"),
    ("one block always more", "-(-length // len(contents[0]))", "length // len(contents[0]) + 1"),
    ("states from n up", "some >> n == 0", "True"),
    ("one state from n up", "some >> n == 0", "some >> n + 1 == 0"),
    ("the filler not looked at", "not any(joined[length:])", "True"),
    ("the last byte of the filler not looked at", "any(joined[length:])", "any(joined[length:-1])"),
    ("one state fewer", "1 <= n <= MAX_STATES", "1 <= n < MAX_STATES"),
    ("a draft is safe", "return DRAFT, ", "return SAFE, "),
    ("every draft", "if not file:", "if len(file) < BLOCK:"),
    ("the sum not looked at", 'need(rest == hashlib.sha256(file).hexdigest().encode("ascii") + b"\\n"', "need(True"),
    ("what follows the sum not looked at", 'rest == hashlib.sha256(file).hexdigest().encode("ascii") + b"\\n"', 'rest.startswith(hashlib.sha256(file).hexdigest().encode("ascii"))'),
    ("a sum of an unsafe table", 'not summed or verdict == "safe" and table.n > 0', "not summed or table.n > 0"),
    ("a sum of a draft", 'not summed or verdict == "safe" and table.n > 0', 'not summed or verdict == "safe"'),
    ("the resting set left out", "width * (3 + g + n)", "width * (2 + g + n)"),
    ("a table without an initial state is not told", 'return "no state is initial"', "pass"),
    ("a table with nothing forbidden is not told", ' else "nothing is forbidden"', " else None"),
    ("marked states alone count as forbidden there", "any(map(self.is_forbidden, range(self.n)))", "self.marked"),
    ("the last state is not looked at there", "range(self.n)))", "range(self.n - 1)))"),
    ("every table is said to be so", "if vacuous else", "if True else"),
]


def typed():
    """Cases that chance seldom gives."""
    for path, expected in support.tables():
        yield path.read_bytes(), 0, expected.encode()
    e, f, full = spec.E, spec.F, spec.FULL_BLOCK
    # the steps 0 1, 1 2 and 2 0; 3 and 4, which is marked, lead to themselves and to each other
    wheel = spec.Table(5, {0}, {4}, {(0, 1), (1, 2), (2, 0), (3, 3), (3, 4), (4, 4), (4, 3)})
    two = spec.Table(2, {0, 1}, set(), set(), [], {0, 1})
    idle = spec.Table(2, set(), set(), set(), [], {0, 1})
    passed = spec.Table(2, {0}, {0}, {(0, 1), (1, 1)})
    for table, safe in [
        (wheel, "0 1 2"), (wheel, "0 1"), (wheel, "0 2"), (wheel, "1 2"), (wheel, "0 1 2 3"), (wheel, "0 1 2 3 4"), (wheel, "0 1 2 4"), (wheel, "2 1 0"), (wheel, "0 1 2 2"),
        (wheel, "none"), (wheel, "3"), (wheel, "0 1 2 5"), (wheel, "-1 0 1 2"), (two, "0"), (two, "1"), (two, "0 1"), (idle, "0 0"), (idle, "0 1"), (idle, "1 0"), (spec.HANG, "0 1 2 3"), (spec.HANG, "0 1 2"), (e, "0 2"),
        (spec.G, "none"), (spec.G, "0"), (passed, "0 1"), (passed, "1"), (full, "none"),
    ]:
        size = 0 if safe == "none" else len(safe.split())
        for said in f"{size}: {safe}", f"{size + 1}: {safe}", f"{size}:  {safe}", f"{size}: {safe} ", f"+{size}: {safe}", f"{size} : {safe}":
            yield spec.encode(table), 0, f"states {table.n} groups 0\nsafe refinements 0\ninvariant {said}\n".encode()
    for table, path in [
        (spec.B, "0 1 2 3"), (spec.B, "1 2 3"), (spec.B, "0 1 2"), (spec.B, "0 3"), (spec.B, "0 2 3"), (spec.B, "0 1 3"), (spec.B, "3"), (spec.B, "3 2 1 0"), (spec.B, "0 1 2 3 4"),
        (spec.HANG, "0 1 2 3"), (spec.HANG, "0 1 2 3 -1"), (spec.HANG, "-5 1 2 3"), (wheel, "3 4"), (wheel, "0 4"), (wheel, "0 1 2 0 1"), (passed, "0"), (passed, "0 1"), (passed, "0 1 1"),
        (f, "0"), (f, "0 0"), (f, "none"), (f, ""), (f, "1"),
    ]:
        yield spec.encode(table), 0, f"states {table.n} groups 0\nunsafe refinements 0\npath {path}\n".encode()
    for verdict in "undecided", "foo", "Safe", "":
        for third in "path 0 1 2", "invariant 3: 0 1 2", "path", "None", "":
            yield spec.encode(wheel), 0, f"states 5 groups 0\n{verdict} refinements 0\n{third}\n".encode()
    for table in wheel, spec.B, spec.CORRIDOR, e:
        file, said = spec.encode(table), spec.printed(table)
        line = oracle.released(file, b"").decode()
        for more in line, line[:-1], line + line, line.upper(), line.replace(" ", "  "), line[:-2] + "\n", line + "\n", " " + line, "\n" + line, "SHA-256 \n", oracle.released(file[:-1], b"").decode():
            yield file, 0, (said + more).encode()
        yield spec.with_byte(file, 510, file[510] ^ 1), 0, (said + line).encode()
        yield file, 0, (line + said).encode()
        for count in "0", "1", table.n, table.n + 1, "512", "513", "-1", "00", "", "1 ":
            yield file, 0, re.sub("refinements [0-9]+", f"refinements {count}", said).encode()
        for more in "\n", " ", "\0", said, "refused 13\n":
            yield file, 0, (said + more).encode()
            yield file, 0, (more + said).encode()
        yield file, 0, said[:-1].encode()
        yield file, 0, said.replace("\n", "\r\n").encode()
        for site in 0, 1, 65_520:
            yield model.at_site(file, site), site, said.encode()
            yield model.at_site(file, site), 2, said.encode()
        yield spec.with_byte(file, 510, file[510] ^ 1), 0, said.encode()
        yield spec.with_byte(file, 511, file[511] ^ 1), 0, said.encode()
    for file in b"", bytes(1), bytes(100), bytes(spec.BLOCK), spec.sealed(0, spec.two(0) + spec.two(spec.NEW_FORM)):
        for site in 0, 65_520:
            yield file, site, b"states 0 groups 0\nsafe refinements 0\ninvariant 0: none\n"
            yield file, site, oracle.released(file, b"states 0 groups 0\nsafe refinements 0\ninvariant 0: none\n")
    said = spec.printed(e).encode()
    yield spec.sealed(256, spec.contents(e)), 0, said
    yield spec.encode(e) + spec.sealed(1, b""), 0, said
    yield spec.encode(full) + spec.sealed(1, b""), 0, spec.printed(full).encode()
    yield spec.sealed(0, spec.contents(e).ljust(spec.CONTENT - 1, b"\0") + b"\1"), 0, said
    yield spec.encode(spec.old(e)), 0, said
    yield spec.sealed(0, spec.two(3) + spec.two(0) + spec.contents(e)[4:]), 0, said
    for place in range(4, 10):  # the state 3 of 3, in each set
        yield spec.sealed(0, spec.with_byte(spec.contents(e), place, spec.contents(e)[place] | 8)), 0, said


def is_found(module, more):
    for case, expected in more:
        try:
            if answer(module, case) != expected:
                return True
        except Exception:  # the command ends with 3 then
            if expected[0] != 3:
                return True
    return False


by_hand = [(case, expected_of(case)) for case in typed()]
for case, expected in by_hand:
    need(answer(confirm, case) == expected, f"expected {expected}", *case)
done("cases by hand", len(by_hand))
for name, right, wrong in MISTAKES:
    need(source.count(right) == 1, f"{name}: {source.count(right)} times in confirm: {right}")
    need(is_found(module_of(source.replace(right, wrong)), by_hand), f"not found: {name}")
done("mistakes in confirm found", len(MISTAKES))
