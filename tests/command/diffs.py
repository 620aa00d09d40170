#!/usr/bin/env python3
"""diff: on files of tests/files and on random tables that were changed, named and renumbered, held to sets of facts; and that what cannot be compared
is never the same."""
import json
import random
import subprocess
from collections import Counter
from dataclasses import replace
from pathlib import Path

import support
from support import FAILED, NO_RELEASE, PROGRAM, REFUSED, SAFE, TABLES, TOP, WORK, call, gives, group, need, status_of, tables
import drafts
import model
import spec
from model import screen

SEED = random.randrange(2**30)
random.seed(SEED)
SAME, DIFFERENT = SAFE, NO_RELEASE


def identities(old, names, new, others):
    """What each screen of the two is, by a word that both have for the same one."""
    both = set(names.values()) & set(others.values())
    left = lambda table, names: {s for s in range(table.n) if names.get(s) not in both}
    numbers = left(old, names) & left(new, others)

    def of(side, table, names):
        return {s: names[s] if names.get(s) in both else s if s in numbers else (side, s) for s in range(table.n)}

    return of("old", old, names), of("new", new, others)


def facts(table, possible, names, is_):
    """(its place in the order, the fact by identities, the line)"""
    said = lambda s: screen(s, names)
    dead = table.dead_ends() - table.resting - {a for a, _ in possible}
    sets = [("state", table.states()), ("initial", table.initial), ("forbidden", table.marked), ("resting", table.resting), ("hang", dead)]
    for word, states in sets:
        for s in sorted(states):
            yield word, is_[s], f"{word} {said(s)}"
    for states in table.groups:
        yield "group", frozenset(is_[s] for s in states), "group " + (", ".join(map(said, sorted(states))) or "none")
    for word, steps in [("step", table.steps), ("possible", possible)]:
        for a, b in sorted(steps):
            yield word, (is_[a], is_[b]), f"{word} {said(a)} -> {said(b)}"


ORDER = ["state", "initial", "forbidden", "resting", "hang", "group", "step", "possible"]


def differing(old, names, new, others, possible=frozenset(), possible_new=frozenset()):
    """The lines between the verdicts and the last one, and that."""
    known = names is not None and others is not None
    a, b = names or {}, others or {}
    is_old, is_new = identities(old, a if known else {}, new, b if known else {})
    old_facts, new_facts = list(facts(old, possible, a, is_old)), list(facts(new, possible_new, b, is_new))
    count = lambda those: Counter((word, fact) for word, fact, _ in those)
    lines, number = [], Counter()
    where = {fact: s for s, fact in is_new.items()}
    for s in range(old.n):
        is_ = where.get(is_old[s])
        if is_ is not None and is_ != s:
            lines.append(f"~ state {s} {a[s]} is now {is_}")
            number["renumbered"] += 1
    for s in range(old.n):
        if known and where.get(is_old[s]) == s and a.get(s) != b.get(s):
            lines.append(f"~ state {screen(s, a)} is now " + (f"named {b[s]}" if s in b else "without a name"))
            number["renamed"] += 1
    for word in ORDER:
        for sign, those, others_count, kind in ("-", old_facts, count(new_facts), "removed"), ("+", new_facts, count(old_facts), "added"):
            for _, fact, line in (entry for entry in those if entry[0] == word):
                others_count[word, fact] -= 1
                if others_count[word, fact] < 0:
                    lines.append(f"{sign} {line}")
                    number[kind] += 1
    shared = count(old_facts) & count(new_facts)

    def order(those):
        left = Counter(shared)
        for word, fact, _ in those:
            left[word, fact] -= 1
            if word == "group" and left[word, fact] >= 0:
                yield fact

    moved = list(order(old_facts)) != list(order(new_facts))
    lines += ["~ groups in another order"] if moved else []
    if (old, possible) == (new, possible_new) and number:
        lines.append("only names differ: by number the tables are the same, and so are logs")
    elif number["renumbered"]:
        lines.append("renumbered: logs go by number, so that a log of the old table is none of the new one")
    if (names is None) != (others is None):
        lines.append("compared by number: the names of the " + ("old table are not known (--old-names TEXT)" if names is None else "new table are not known (--names TEXT)"))
    parts = [f"{number[kind]} {kind}" for kind in ("removed", "added", "renumbered", "renamed") if number[kind]] + ["groups reordered"] * moved
    return lines, "different: " + ", ".join(parts) if parts else "the same"


def verdict(table, possible=frozenset()):
    if not table.n:
        return "draft"
    if not possible:
        return spec.printed(table).split()[4]
    certain = replace(table, resting=table.resting | {a for a, _ in possible})
    every = replace(table, steps=table.steps | possible)
    reaches = [model.reached(choice, choice.initial) & (every.forbidden()) for choice in (certain, every)]
    return {(False, False): "safe", (True, True): "unsafe", (False, True): "depends"}[bool(reaches[0]), bool(reaches[1])]


def expected(old, names, new, others, possible=frozenset(), possible_new=frozenset()):
    lines, last = differing(old, names, new, others, possible, possible_new)
    head = lambda word, table, more: f"{word}: {verdict(table, more)}{vacuous(table, more)}, states {table.n} groups {len(table.groups)}"
    is_same = last == "the same" and old.n
    return "\n".join([head("old", old, possible), head("new", new, possible_new), *lines, last]) + "\n", SAME if is_same else DIFFERENT


def vacuous(table, possible=frozenset()):
    """Why it says little that a table is safe, as it stands behind that word."""
    if verdict(table, possible) != "safe" or table.initial and replace(table, steps=table.steps | possible).forbidden():
        return ""
    return " (nothing is forbidden)" if table.initial else " (no state is initial)"


def said(out):
    """What is said on standard error: nothing but that there was nothing to compare."""
    return "^diff: both tables have no states, so that nothing was compared" if out.startswith("old: draft, states 0 groups 0\nnew: draft") else None


def put(name, table, names=None, possible=()):
    """Its file, or its text where it has names."""
    if names is None:
        (WORK / f"{name}.table").write_bytes(spec.encode(table))
        return WORK / f"{name}.table"
    more = "".join(f"state {s} {word}\n" for s, word in names.items()) + "".join(f"possible {a} -> {b}\n" for a, b in sorted(possible))
    (WORK / f"{name}.txt").write_text(spec.longer(spec.text(table), more))
    return WORK / f"{name}.txt"


def changed(table):
    """A table that differs in a few things, often in none."""
    flip = lambda states: states ^ ({random.randrange(table.n)} if table.n and random.random() < 0.3 else set())
    steps = set(table.steps)
    for _ in range(random.choice([0, 0, 1, 3]) if table.n else 0):
        steps ^= {(random.randrange(table.n), random.randrange(table.n))}
    groups = list(table.groups)
    change = random.choice(["", "", "shuffle", "drop", "add"])
    if change == "shuffle":
        random.shuffle(groups)
    if change == "drop" and groups:
        groups.pop(random.randrange(len(groups)))
    if change == "add" and table.n:
        groups.insert(random.randrange(len(groups) + 1), drafts.some(table.n, 0.5))
    return spec.Table(table.n, flip(table.initial), flip(table.marked), steps, groups, flip(table.resting))


def moved(table, number):
    """The table with other numbers."""
    move = lambda states: {number[s] for s in states}
    return spec.Table(table.n, move(table.initial), move(table.marked), {(number[a], number[b]) for a, b in table.steps}, [move(group) for group in table.groups], move(table.resting))


def retold(found):
    """The lines that say what an object of JSON says, but for whose names are not known: an object and its text say the same."""
    said = lambda side: lambda s: screen(s, {int(number): name for number, name in found[side].get("names", {}).items()})
    head = lambda side, is_: f"{side}: {is_['verdict']}{VACUOUS[is_.get('why', '').split(',')[0]]}, states {is_['states']} groups {is_['groups']}"
    lines = [head(side, found[side]) for side in ("old", "new")]
    for moved in found["renumbered"]:
        need(moved["name"] == found["old"]["names"][str(moved["old"])] == found["new"]["names"][str(moved["new"])], "a name of another state", found)
        lines.append(f"~ state {said('old')(moved['old'])} is now {moved['new']}")
    for state, was, is_ in map(dict.values, found["renamed"]):
        need(found["old"].get("names", {}).get(str(state)) == was and found["new"].get("names", {}).get(str(state)) == is_, "a name that the state has not", found)
        lines.append(f"~ state {said('old')(state)} is now " + (f"named {is_}" if is_ is not None else "without a name"))
    for kind, word in zip(KINDS, ORDER):
        for sign, side, facts in ("-", "old", found["removed"]), ("+", "new", found["added"]):
            is_ = said(side)
            shown = {"groups": lambda states: ", ".join(map(is_, states)) or "none", "steps": lambda step: " -> ".join(map(is_, step))}
            shown["possible"] = shown["steps"]
            lines += [f"{sign} {word} {shown.get(kind, is_)(fact)}" for fact in facts[kind]]
    lines += ["~ groups in another order"] * found["reordered"]
    if found["only_names"]:
        lines.append("only names differ: by number the tables are the same, and so are logs")
    elif found["renumbered"]:
        lines.append("renumbered: logs go by number, so that a log of the old table is none of the new one")
    return lines


KINDS = ["states", "initial", "forbidden", "resting", "hangs", "groups", "steps", "possible"]
VACUOUS = {"": "", "nothing in the table is forbidden": " (nothing is forbidden)", "the table has no initial state": " (no state is initial)"}


def says(out, status, *words):
    """diff gives these lines, and as JSON the same."""
    gives(status, out, "diff", *words, err=said(out))
    found = json.loads(gives(status, None, "diff", "--json", *words, err=said(out)).out)
    *lines, last = out.splitlines()
    by_number = [line for line in lines if line.startswith("compared by number: ")]
    need(retold(found) + by_number == lines, "JSON does not say what the text says", retold(found), lines)
    need(found["same"] == (last == "the same"), found, last)
    need(found["by_name"] == ("--text" in words or "--old-names" in words and "--names" in words), "how they were compared", found)
    return found


# ---- files by themselves, and beside others

files = [(path, model.table_of(path.with_suffix(".txt").read_text())) for path, said in tables() if status_of(said) != REFUSED]
files = [(path, table) for path, table in files if len(table.steps) < 4000]
for path, table in files:
    out, status = expected(table, None, table, None)
    says(out, status, path, path)
    need((status == SAME) == (table.n > 0), out)
for (a, old), (b, new) in zip(files, files[1:]):
    out, status = expected(old, None, new, None)
    says(out, status, a, b)
group("diff of files of tests/files")

# ---- tables by chance: by number, by names, with possible steps

same, is_vacuous = 0, set()
for i in range(150):
    old = drafts.table()
    new = changed(old) if random.random() < 0.8 else drafts.table()
    a, b = put("a", old), put("b", new)
    out, status = expected(old, None, new, None)
    says(out, status, a, b)
    same += status == SAME
    names = {s: f"screen-{s}" for s in range(old.n) if random.random() < 0.8}
    number = list(range(new.n))
    if random.random() < 0.6:
        random.shuffle(number)
    new = moved(new, number)
    others = {number[s]: name if random.random() < 0.9 else f"other-{s}" for s, name in names.items() if s < new.n}
    text_a, text_b, b = put("a", old, names), put("b", new, others), put("b", new)
    out, status = expected(old, names, new, others)
    says(out, status, "--old-names", text_a, "--names", text_b, a, b)
    found = says(out, status, "--text", text_a, text_b)
    for side, table in (found["old"], old), (found["new"], new):
        need(side.get("vacuous") == (bool(vacuous(table)) if side["verdict"] == "safe" else None) and ("why" in side) == bool(vacuous(table)), side)
        is_vacuous.add(side.get("why", "").split(",")[0])
    gives(SAME if new.n else DIFFERENT, None, "diff", "--text", text_b, text_b, err=None if new.n else "nothing was compared")
    out, status = expected(old, names, new, None)  # the names of one alone
    says(out, status, "--old-names", text_a, a, b)
    out, status = expected(old, None, new, others)
    says(out, status, "--names", text_b, a, b)
    if old.n:
        those = lambda table: {(random.randrange(table.n), random.randrange(table.n)) for _ in range(3)} - table.steps if table.n else set()
        possible, more = those(old), those(new)
        out, status = expected(old, names, new, others, possible, more)
        says(out, status, "--text", put("a", old, names, possible), put("b", new, others, more))
need(same > 5, same)
need(is_vacuous == {"", "nothing in the table is forbidden", "the table has no initial state"}, "no table is vacuous, or not for both reasons", is_vacuous)
group(f"diff of tables by chance, seed {SEED}")

# ---- two screens that exchanged their names, in the same table and with their steps

OLD = "states 4\nstate 1 home\nstate 2 menu\ninitial 0\nforbidden 3\nstep 0 -> home\nstep home -> 0 menu\nstep menu -> home\nstep 3 -> 0\nend\n"
exchanged = OLD.replace("state 1 home\nstate 2 menu", "state 1 menu\nstate 2 home")
old, moved_too, names_alone = WORK / "old.txt", WORK / "moved.txt", WORK / "names.txt"
old.write_text(OLD)
moved_too.write_text(exchanged)
names_alone.write_text("".join(line if line.startswith("state") else line.replace("home", "1").replace("menu", "2") for line in exchanged.splitlines(keepends=True)))
of = {path: path.with_suffix(".table") for path in (old, moved_too, names_alone)}
for text, file in of.items():
    gives(SAFE, None, "encode", text, "-o", file)
need(of[old].read_bytes() == of[names_alone].read_bytes() != of[moved_too].read_bytes(), "other tables than were meant")
head = "old: safe, states 4 groups 0\nnew: safe, states 4 groups 0\n"
both = "~ state 1 home is now 2\n~ state 2 menu is now 1\n"
out = head + both + "renumbered: logs go by number, so that a log of the old table is none of the new one\ndifferent: 2 renumbered\n"
says(out, DIFFERENT, "--text", old, moved_too)
says(out, DIFFERENT, "--old-names", old, "--names", moved_too, of[old], of[moved_too])
steps = "- step 0 -> 1 home\n- step 1 home -> 0\n+ step 0 -> 1 menu\n+ step 1 menu -> 0\n"
out = head + both + steps + "only names differ: by number the tables are the same, and so are logs\ndifferent: 2 removed, 2 added, 2 renumbered\n"
found = says(out, DIFFERENT, "--text", old, names_alone)
need(found["removed"]["steps"] == found["added"]["steps"] and found["old"]["names"]["1"] == "home" and found["new"]["names"]["1"] == "menu", "steps of one number, and no names", found)
says(out, DIFFERENT, "--old-names", old, "--names", names_alone, of[old], of[names_alone])
# without the names of both that cannot be seen, and is not told as if it could
says(head + "the same\n", SAME, of[old], of[names_alone])
note = "compared by number: the names of the {} table are not known ({} TEXT)\n".format
says(head + note("new", "--names") + "the same\n", SAME, "--old-names", old, of[old], of[names_alone])
says(head + note("old", "--old-names") + "the same\n", SAME, "--names", names_alone, of[old], of[names_alone])
group("diff of screens that exchanged their names")

# ---- the page's example

page = (TOP / "man/shuntberry.1").read_text().replace("\\-", "-")
old, new = WORK / "old.txt", WORK / "new.txt"
old.write_text("states 3\nstate 1 menu\nstate 2 over-limit\ninitial 0\nforbidden 2\nstep 0 -> 1\nstep 1 -> 0\nend\n")
new.write_text("states 3\nstate 1 home\nstate 2 over-limit\ninitial 0\nforbidden 2\nstep 0 -> 1\nstep 1 -> 2\nend\n")
need(f".EX\n{gives(DIFFERENT, None, 'diff', '--text', old, new).out.decode()}.EE\n" in page, "the manual page has another example of diff", call("diff", "--text", old, new))

# ---- what cannot be compared is never the same

A, E, BAD = TABLES / "a.table", TABLES / "e.table", TABLES / "bad-check.table"
TEXT = TABLES / "a.txt"
cut = WORK / "cut.txt"
cut.write_text(TEXT.read_text()[:-4])
short = WORK / "short.table"
short.write_bytes(A.read_bytes()[:511])
for words, err in [
    ((A, BAD), "refused 13"), ((BAD, A), "refused 13"), ((BAD, BAD), "refused 13"), ((A, short), "refused 11"), ((short, short), "refused 11"),
    ((A, TEXT), "refused 11"), (("--text", TEXT, A), "a.table: this looks like a table's file: leave out --text\n$"), (("--text", cut, cut), "may be cut"), (("--text", TEXT, cut), "may be cut"),
    ((A, WORK / "missing"), "could not be read"), ((WORK / "missing", WORK / "missing"), "could not be read"), ((A, "/"), "could not be read"),
    (("--site", "7", A, A), "refused 13"), (("--site", "65521", A, A), "from 0 to 65520"),
    (("--names", TABLES / "e.txt", A, A), "another table"), (("--old-names", TABLES / "e.txt", A, A), "another table"), (("--names", cut, A, A), "may be cut"),
    (("--text", "--names", TEXT, TEXT, TEXT), "--text and --names"), (("--text", "--old-names", TEXT, TEXT, TEXT), "--text and --old-names"), (("--text", "--site", "0", TEXT, TEXT), "--text and --site"),
    ((A,), "usage: shuntberry diff"), ((), "usage: shuntberry diff"), ((A, A, A), "usage: shuntberry diff"), (("--frob", A, A), "usage: shuntberry diff"),
]:
    for more in (), ("--json",):
        gives(FAILED, "", "diff", *more, *words, err=err)
need(b"\n" not in gives(FAILED, "", "diff", A, WORK / "two\nlines", err="could not be read").err.rstrip(b"\n"), "a name over two lines")
for words in (A, A), (A, E), ("--json", A, A):
    with open("/dev/full", "wb") as full:
        gives(FAILED, None, "diff", *words, stdout=full, err="could not be written")
    run = subprocess.run(["/bin/bash", "-c", '"$0" diff "$@" >&-', PROGRAM, *words], stderr=subprocess.PIPE, stdin=subprocess.DEVNULL, timeout=60)
    need(run.returncode == FAILED and b"closed" in run.stderr, words, run)
# a draft beside a draft: no word of safe, and no status that says that something was compared
nothing = WORK / "nothing.table"
nothing.write_bytes(b"")
gives(DIFFERENT, "old: draft, states 0 groups 0\nnew: draft, states 0 groups 0\nthe same\n", "diff", nothing, nothing, err="both tables have no states, so that nothing was compared")
need(gives(DIFFERENT, None, "diff", A, nothing).out.splitlines()[1] == b"new: draft, states 0 groups 0", "no draft")
# unsafe tables that are the same end with 0, and say what they are
need(gives(SAME, None, "diff", TABLES / "b.table", TABLES / "b.table").out.startswith(b"old: unsafe"), "no verdict")

# ---- names that do not fit: the first thing that differs

other = WORK / "other.txt"
other.write_text(spec.longer(TEXT.read_text(), "state 1 menu\nstep 0 -> 2\n"))
for command in "check", "inspect":
    gives(REFUSED, "", command, "--names", other, A, err=r"another table, .*: the text has 'step 0 -> 2', and the file has not\n$")
other.write_text(TEXT.read_text().replace("step 0 -> 1\n", ""))
gives(REFUSED, "", "check", "--names", other, A, err=r"another table, .*: the text has 'hang 0', and the file has not\n$")
other.write_text(TEXT.read_text().replace("states 3", "states 4\nstate 3 new-one"))
gives(REFUSED, "", "check", "--names", other, A, err=r"another table, .*: the text has 'state 3 new-one', and the file has not\n$")
group("what cannot be compared")
