#!/usr/bin/env python3
"""inspect, within, replay, options and next-open: on every file of tests/files, and on random tables, logs and houses, held to model.py."""
import json
import random
import re
import resource
from datetime import date, datetime, timedelta

import support
from support import FAILED, NO_RELEASE, REFUSED, SAFE, TABLES, TOP, UNSAFE, WORK, call, gives, group, need, status_of, tables
import drafts
import model
import spec
from model import screen

SEED = random.randrange(2**30)
random.seed(SEED)
EVERY = []  # (table, the words that name its file)
for path, expected in tables():
    if status_of(expected) != REFUSED:
        EVERY.append((model.table_of(path.with_suffix(".txt").read_text()), path))
for i in range(40):
    table, path = drafts.table(), WORK / f"{i}.table"
    path.write_bytes(spec.encode(table))
    EVERY.append((table, path))
E = TABLES / "e.table"


def head(table):
    return f"states {table.n} groups {len(table.groups)}\n"


def joined(numbers):
    return " ".join(map(str, numbers))


def named(table):
    """A text of the table with names for some states, and these."""
    names = {s: f"screen-{s}" for s in range(table.n) if random.random() < 0.7}
    text = spec.longer(spec.text(table), "".join(f"state {s} {name}\n" for s, name in names.items()))
    path = WORK / "named.txt"
    path.write_text(text)
    return path, names


def below(names, states):
    return "".join(f"state {s} {names[s]}\n" for s in dict.fromkeys(states) if s in names)


# ---- inspect

def inspected(table, names):
    reachable, away = model.reached(table, table.initial), model.distances(table)
    hangs = table.dead_ends() - table.resting
    said = head(table)
    for s in range(table.n):
        words = [word for word, states in [("initial", table.initial), ("marked", table.marked), ("resting", table.resting), ("hang", hangs)] if s in states]
        groups = [j for j, states in enumerate(table.groups) if s in states]
        words += [f"groups {joined(groups)}"] if groups else []
        words += ["reachable" if s in reachable else "not reachable", f"distance {away.get(s, 'never')}"]
        said += f"state {screen(s, names)}: {', '.join(words)}\n"
    look = model.remarks(table, names)
    said += "".join(f"look at: {words}\n" for words in look) or "look at nothing in particular\n"
    wrong = model.repairs(table, names)[0] if reachable & table.forbidden() else []
    return said + "".join(f"{line}\n" for line in wrong)


def inspected_object(table, names):
    reachable, away = model.reached(table, table.initial), model.distances(table)
    screens = [
        {"state": s} | ({"name": names[s]} if s in names else {}) | {
            "initial": s in table.initial, "marked": s in table.marked, "resting": s in table.resting, "hang": s in table.dead_ends() - table.resting,
            "groups": [j for j, states in enumerate(table.groups) if s in states], "reachable": s in reachable, "distance": away.get(s),
        } for s in range(table.n)
    ]
    wrong = model.repairs(table, names)[1] if reachable & table.forbidden() else {}
    return {"states": table.n, "groups": len(table.groups), "screens": screens} | wrong


for table, path in EVERY:
    gives(SAFE, inspected(table, {}), "inspect", path)
    text, names = named(table)
    expected = inspected(table, names)
    gives(SAFE, expected, "inspect", "--names", text, path)
    gives(SAFE, expected, "inspect", "--text", input=text.read_bytes())
    found = json.loads(gives(SAFE, None, "inspect", "--json", "--text", text).out)
    look = found.pop("look_at")
    need(found == inspected_object(table, names), path, found)
    need(len(look) == max(expected.count("look at: "), 0), look)
SINGLE = {bool(model.repairs(table, {})[1]["rub_out"]) for table, _ in EVERY if model.reached(table, table.initial) & table.forbidden()}
need(SINGLE == {True, False}, "of no table a single step can be rubbed out, or of each", SINGLE)
# a step less may be a hang more, and no repair; a second way leaves no single step; the cheapest stands first
for steps, expected in [
    ("step 0 -> 1\nstep 1 -> 2\nstep 2 -> 2\n", ["no single step of the path, rubbed out, does it"]),
    ("forbidden 0\nstep 0 -> 1\nstep 1 -> 1\nstep 2 -> 2\n", ["no single step of the path, rubbed out, does it"]),  # a session starts there: there is none
    ("step 0 -> 1 3\nstep 1 -> 2\nstep 2 -> 2\nstep 3 -> 2 3\n", ["no single step of the path, rubbed out, does it"]),
    ("step 0 -> 0 1\nstep 1 -> 1 2\nstep 2 -> 2\n", [
        "rub out 1 -> 2, and no forbidden screen can be reached; all others still can", "rub out 0 -> 1, and no forbidden screen can be reached; 1 other cannot either"]),
]:
    given = call("inspect", "--text", input=f"states 4\ninitial 0\nforbidden 2\nresting 3\n{steps}end\n".encode())
    need([line for line in given.out.decode().splitlines() if "rub out" in line or "rubbed out" in line] == expected, expected, given)
# a path that ends in a hang: what is reached if it rests, typed here from what a reader should be told
MAY = "only if a session may end on this screen"
RESTS = [
    ("initial 0\nforbidden 3\nstep 0 -> 1\nstep 3 -> 3\n", f"mark 1 as resting, {MAY}: then no forbidden screen can be reached", {"state": 1, "path": None, "nothing_forbidden": False}),
    ("initial 0 2\nforbidden 3\nstep 0 -> 1\nstep 3 -> 0\nstate 1 left\nstate 2 right\n", f"mark 2 right as resting, {MAY}: that alone does not do it, by 0 -> 1 left, a hang: no step leads out, and it is not resting", {"state": 2, "path": [0, 1], "ends_in": "hang"}),
    ("initial 0\nforbidden 3\nstep 0 -> 1 2\nstep 2 -> 3\nstep 3 -> 0\n", f"mark 1 as resting, {MAY}: that alone does not do it, by 0 -> 2 -> 3, forbidden since it is marked", {"state": 1, "path": [0, 2, 3], "ends_in": "marked"}),
    ("initial 0\nforbidden none\nresting 3\nstep 0 -> 1\nstep 2 -> 0\n", f"mark 1 as resting, {MAY}: then nothing in the table is forbidden, so mark what must not be reached", {"state": 1, "path": None, "nothing_forbidden": True}),
    ("initial 0\nforbidden 2\nresting 1 3\nstep 0 -> 1\nstep 1 -> 2\n", None, None),  # marked, and without a step too: resting changes nothing
]
for lines, expected, found in RESTS:
    text = f"states 4\n{lines}end\n".encode()
    said = {"inspect": call("inspect", "--text", input=text).out, "check": gives(UNSAFE, None, "check", "--explain", "--text", input=text, err="reached: ").err}
    for command, words in said.items():
        lines = [line.removeprefix("check: ") for line in words.decode().splitlines()]
        need([line for line in lines if "mark " in line] == [expected] * bool(expected), expected, command, words)
        need(not re.search(r"\bsafe\b", "\n".join(line for line in lines if "mark " in line or "rub out" in line)), "a repair says safe", words)
    for command in "inspect", "check":
        got = json.loads(call(command, "--json", "--text", input=text).out)
        need(got["mark_resting"] == found, command, got)
        need(command == "inspect" or {int(s) for s in got.get("names", {})} >= {s for s in (found or {}).get("path") or [] if f"state {s} ".encode() in text}, "names", got)
SEEN = [found for table, _ in EVERY if model.reached(table, table.initial) & table.forbidden() for found in [model.repairs(table, {})[1]["mark_resting"]]]
need({(bool(found), bool(found and found["path"])) for found in SEEN} == {(False, False), (True, False), (True, True)}, "no table by chance ends in a hang, or each does", SEEN)
# the examples of the manual page
page = (TOP / "man/shuntberry.1").read_text().replace("\\-", "-").replace("\\(aq", "'")
example = WORK / "example.txt"
example.write_text(spec.longer((TABLES / "e.txt").read_text(), "state 0 home\nstate 2 over-limit\n"))
log = WORK / "log"
log.write_bytes(b"\0\0\1\0\4\0")
for words in ("inspect", "--text", example), ("replay", TABLES / "b.table", log), ("check", E), ("check", TABLES / "b.table"), ("check", TABLES / "bad-check.table"):
    need(f".EX\n{call(*words).out.decode()}.EE\n" in page, "the manual page has another example of", *words)
gives(REFUSED, "", "inspect", TABLES / "bad-check.table", err="^inspect: .*refused 13")
gives(FAILED, "", "inspect", err="standard input is empty")
group(f"inspect, seed {SEED}")

# ---- within

for table, path in EVERY:
    shortest = spec.shortest_path(table)
    d = len(shortest) - 1 if shortest else None
    for k in sorted({0, 1, 2, 511, 65535, 2**64 - 1, *([d - 1, d, d + 1] if d else [])}):
        yes = d is not None and d <= k
        said = head(table) + f"within {k} " + (f"yes\npath {joined(shortest)}\n" if yes else "no\n")
        gives(UNSAFE if yes else NO_RELEASE, said, "within", str(k), path)
    text, names = named(table)
    k, yes = (d, True) if d is not None else (600, False)
    said = head(table) + f"within {k} " + (f"yes\npath {joined(shortest)}\n{below(names, shortest)}" if yes else "no\n")
    gives(UNSAFE if yes else NO_RELEASE, said, "within", str(k), "--text", text)
    found = json.loads(gives(UNSAFE if yes else NO_RELEASE, None, "within", "--json", "--names", text, str(k), path).out)
    listed = {"names": {str(s): names[s] for s in shortest or [] if s in names}} if names else {}
    need(found == {"states": table.n, "groups": len(table.groups), "steps": k, "within": yes, "path": shortest or []} | listed, found)
for words in (), ("x", E), ("-1", E), ("", E), ("3", E, E), (str(2**64), E):
    gives(FAILED, "", "within", *words, err="usage: shuntberry within")
gives(REFUSED, "", "within", "3", TABLES / "bad-check.table", err="refused 13")
group("within")

# ---- replay

def replayed(table, entries, names):
    followed, seen, reachable = model.replayed(table, entries)
    said = head(table) + f"entries {len(entries)} followed {followed}\n"
    breaks = None
    shown = [at for at in range(len(entries)) if entries[at] in table.forbidden()]
    if shown:
        said += f"entry {shown[0] + 1} is forbidden: {screen(entries[shown[0]], names)}\n"
    if followed < len(entries):
        entry = entries[followed]
        if entry >= table.n:
            why = "there is no such state"
        elif not followed:
            why = "it is not initial"
        else:
            why = f"no step leads there from {screen(entries[followed - 1], names)}"
        said += f"entry {followed + 1} breaks the walk: {screen(entry, names)}: {why}\n"
        breaks = {"entry": followed + 1, "state": entry, "why": why}
    percent, remainder = divmod(100 * len(seen), len(reachable)) if reachable else (0, 0)
    left = sorted(reachable - seen)
    said += f"coverage {percent} percent remainder {remainder}: {len(seen)} of {len(reachable)}\n"
    said += f"not seen {len(left)}: {', '.join(screen(s, names) for s in left) or 'none'}\n"
    found = {
        "states": table.n, "groups": len(table.groups), "entries": len(entries), "followed": followed,
        "forbidden": shown[0] + 1 if shown else None, "breaks": breaks, "seen": len(seen),
        "reachable": len(reachable), "percent": percent, "remainder": remainder, "not_seen": left,
    }
    return said, found | ({"names": {str(s): name for s, name in names.items()}} if names else {})


def walk(table):
    """A log that mostly obeys."""
    entries = random.sample(sorted(table.initial), 1) if table.initial and random.random() < 0.9 else []
    while len(entries) < random.choice([1, 5, 30, 200]):
        row = sorted(table.row(entries[-1])) if entries and entries[-1] < table.n else []
        entries.append(random.choice(row) if row and random.random() < 0.97 else random.choice([0, 1, 7, 600, 65535, max(table.n - 1, 0)]))
    return entries


log = WORK / "log"
statuses = set()
for table, path in EVERY:
    for entries in [], walk(table), walk(table):
        log.write_bytes(b"".join(map(spec.two, entries)))
        text, names = named(table)
        said, found = replayed(table, entries, names)
        status = UNSAFE if found["forbidden"] else NO_RELEASE if found["breaks"] or not entries else SAFE
        statuses.add(status)
        err = None if entries else f"^replay: {log}: the log has no entries\n$"
        gives(status, replayed(table, entries, {})[0], "replay", path, log, err=err)
        gives(status, said, "replay", "--text", text, log, err=err)
        need(json.loads(gives(status, None, "replay", "--json", "--names", text, path, log, err=err).out) == found, found)
        words = " ".join(names.get(s, str(s)) if random.random() < 0.8 else str(s) for s in entries)
        log.write_text(words.replace(" ", "\n", 1) + " # as the nurse said\nend\n")
        gives(status, said, "replay", "--text", "--text-log", text, log, err=err)
need(statuses == {SAFE, UNSAFE, NO_RELEASE}, "no walk breaks off or shows a forbidden screen, or each does", statuses)
# the pump was there: that the walk also breaks off, before or behind it, makes it no better
for entries, status in ("0 1 2 3", UNSAFE), ("0 3", UNSAFE), ("3", UNSAFE), ("600 3", UNSAFE), ("3 600", UNSAFE), ("0 1 2", SAFE), ("0 2", NO_RELEASE), ("", NO_RELEASE):
    log.write_text(f"{entries}\nend\n")
    gives(status, None, "replay", "--text-log", TABLES / "b.table", log, err=None if entries else "the log has no entries")
log.write_bytes(b"\0\0\1")
gives(REFUSED, "", "replay", E, log, err=f"{log}: refused 25")
log.write_text("0 1\n")
gives(NO_RELEASE, None, "replay", E, log, err="looks like a text, which --text-log reads")
for words in "0 1 #\n", "größe 1\r\n", "größe 12\r\n", "\ufeff0 1\n", "0\t1":
    log.write_bytes(words.encode())
    odd = log.stat().st_size % 2
    gives(REFUSED if odd else NO_RELEASE, "" if odd else None, "replay", E, log, err="looks like a text, which --text-log reads")
log.write_text("0 70000\nend\n")
gives(REFUSED, "", "replay", "--text-log", E, log, err="'70000' is too large")
for length, number in (32768, None), (32769, 25), (32770, 26), (40001, 25):
    log.write_bytes(bytes(length))
    gives(REFUSED if number else SAFE, "" if number else None, "replay", E, log, err=f"refused {number}" if number else None)
log.write_text("0 nowhere\n-1 end\nend\n")
given = gives(REFUSED, "", "replay", "--text-log", E, log, err="3 of its words are no screens")
need(all(f"{log}:{said}".encode() in given.err for said in ("1: 'nowhere'", "2: '-1'", "2: 'end'")), given)
for whole in "0\nend\n", "0 0 0\r\nend\r\n", "# end\n0 # end\n end # of it\n":
    log.write_text(whole, newline="")
    gives(SAFE, None, "replay", "--text-log", E, log)
    for cut in range(len(whole)):
        log.write_text(whole[:cut], newline="")
        gives(REFUSED, "", "replay", "--text-log", E, log, err=f"(?m)^{log}:[0-9]+: the text may be cut: ")
    log.write_text(whole + "0\n", newline="")
    gives(REFUSED, "", "replay", "--text-log", E, log, err="goes on behind its 'end'")
# a text of more entries than a log may have is refused as the log is, and costs no more than its bytes,
# whatever else is in it
def little():
    resource.setrlimit(resource.RLIMIT_AS, (96 << 20, 96 << 20))


many, MOST = 16384, 16 << 20
END = "end\n"
FILLED = MOST - len(END)
names = WORK / "many.txt"
names.write_text("states 512\ninitial 0\nforbidden none\nstep 511 -> 0\n" + "".join(f"state {s} s{s}\n" for s in range(512)) + END)
log.write_text("0\n" * many + END)
gives(SAFE, None, "replay", "--text-log", E, log).out.index(b"entries 16384 ")
for words in "0\n" * (many + 1), "0 " * 515 + "\n" + "0\n" * many, "0\n" * (FILLED // 2), ("0 " * 500 + "\n") * (FILLED // 1001), "0\n" * (many + 1) + "nowhere\n" * 100:
    log.write_text(words + END)
    gives(REFUSED, "", "replay", "--text-log", E, log, err=f"^replay: {log}: refused 26: ", preexec_fn=little)
log.write_text("s511\n" * (FILLED // 5) + END)
gives(REFUSED, "", "replay", "--text", "--text-log", names, log, err="refused 26", preexec_fn=little)
log.write_text(("->" * 515 + "\n") * (FILLED // 1031) + END)
gives(REFUSED, "", "replay", "--text-log", E, log, err="16480 of its words are no screens", preexec_fn=little)
log.write_text("0\n" * (MOST // 2) + "0")
gives(FAILED, "", "replay", "--text-log", E, log, err="longer than 16777216 bytes", preexec_fn=little)
for words in (), (E,), (E, log, log):
    gives(FAILED, "", "replay", *words, err="usage: shuntberry replay")
gives(FAILED, "", "replay", E, WORK / "missing", err="No such file")
group("replay")

# ---- options

def optional(table):
    """The steps of a table and some more."""
    more = {(a, b) for a in range(table.n) for b in drafts.some(table.n, 0.7 / max(table.n, 1))}
    return table.steps | more


def vacuous(table, possible):
    """Why it says little that a table with possible steps is safe: a state that has such steps alone is no hang."""
    forbidden = table.marked | set(range(table.n)) - table.resting - {a for a, _ in possible}
    if not table.n or table.initial and forbidden:
        return None
    why = "nothing in the table is forbidden" if table.initial else "the table has no initial state"
    return f"{why}, so that it is safe whatever else is in it"


def modal_said(table, possible, names):
    verdict, invariant, path = model.modal(table, possible)
    said, found = head(table) + f"{verdict}\n", {"verdict": verdict if table.n else "draft", "states": table.n, "groups": len(table.groups)}
    why = vacuous(table, possible)
    if found["verdict"] == "safe":
        found |= {"vacuous": True, "why": why} if why else {"vacuous": False}
    if invariant is not None:
        said += "with the certain steps alone:\n" * (verdict == "depends")
        said += f"invariant {len(invariant)}: {spec.listing(sorted(invariant))}\n"
        found["invariant"] = sorted(invariant)
    if path is not None:
        said += "with every possible step:\n" * (verdict == "depends")
        said += f"path {joined(path)}\n"
        found["path"] = path
        found["ends_in"] = "marked" if path[-1] in table.marked else "hang"
    states = [*(path or []), *sorted(invariant or [])]
    if names:
        found["names"] = {str(s): names[s] for s in states if s in names}
    status = NO_RELEASE if not table.n or verdict == "depends" else UNSAFE if verdict == "unsafe" else SAFE
    err = model.why_unsafe(table, path[-1], names) if path is not None else why and f"{why}; release declines such a table"
    if not table.n:
        err = "the table has no states, so that nothing is to be released: an empty input is a draft"
    lines = [err] if err else []
    leading = {a for a, _ in table.steps}
    unfinished = sorted({a for a, _ in possible} - leading - table.resting - table.marked)
    if unfinished and verdict != "unsafe":
        shown = ", ".join(model.screen(s, names) for s in unfinished)
        lines.append(f"without possible steps these are hangs, which are not looked at here: {shown}; check the table of each pump too")
    remarks.add((verdict, bool(unfinished)))
    return status, said + below(names, states), found, "^" + re.escape("".join(f"options: {line}\n" for line in lines)) + r"\Z"


seen, reasons, remarks = set(), set(), set()
for table, path in EVERY:
    if table.n > 100:
        continue
    for possible in table.steps, optional(table), optional(table), optional(table):
        other = WORK / "possible.table"
        other.write_bytes(spec.encode(spec.Table(table.n, table.initial, table.marked, possible, table.groups, table.resting)))
        status, said, found, err = modal_said(table, possible, {})
        gives(status, said, "options", path, "--possible", other, err=err)
        need(json.loads(gives(status, None, "options", "--json", "--possible", other, path, err=err).out) == found, found)
        text, names = named(table)
        status, said, found, err = modal_said(table, possible, names)
        gives(status, said, "options", path, "--names", text, f"--possible={other}", err=err)
        text.write_text(spec.longer(text.read_text(), "".join(f"possible {a} -> {b}\n" for a, b in possible - table.steps)))
        gives(status, said, "options", "--text", text, err=err)
        seen.add(found["verdict"])
        reasons.add(found.get("why"))
        missing = sorted(table.steps)
        if missing:
            fewer = spec.Table(table.n, table.initial, table.marked, possible - {random.choice(missing)}, table.groups, table.resting)
            other.write_bytes(spec.encode(fewer))
            gives(REFUSED, "", "options", path, "--possible", other, err="refused 28")
need(seen - {"draft"} == {"safe", "unsafe", "depends"} and len(reasons) == 3, seen, reasons)
need({("safe", True), ("safe", False), ("depends", True), ("unsafe", True)} <= remarks, remarks)
gives(REFUSED, "", "options", TABLES / "a.table", "--possible", TABLES / "b.table", err="not the same table but for their steps")
gives(REFUSED, "", "options", TABLES / "resting.table", "--possible", TABLES / "hang.table", err="not the same table but for their steps")
gives(REFUSED, "", "options", E, "--possible", TABLES / "bad-check.table", err="bad-check.table: refused 13")
for words in (E,), ("--text", "--possible", E, E), ("--possible", E, E, E), ("--text", "--site", "0", E):
    gives(FAILED, "", "options", *words, err="usage: shuntberry options")
text = WORK / "possible.txt"
text.write_text("states 3\ninitial 0\nforbidden 2\nstep 0 -> 0\nstep 1 -> 2\npossible 0 -> 1\nend\n")
gives(NO_RELEASE, "states 3 groups 0\ndepends\nwith the certain steps alone:\ninvariant 1: 0\nwith every possible step:\npath 0 1 2\n", "options", "--text", text,
      err="^options: the path ends in 2, forbidden since it is marked\n$")
for command in "check", "inspect", "decode":
    gives(REFUSED, None, command, "--text", text, err="possible steps are for the command options alone")
group("options")

# ---- next-open

house = WORK / "house"
at = lambda moment: moment.strftime("%Y-%m-%dT%H:%M")


def length_of(minutes):
    days, rest = divmod(minutes, 1440)
    hours, left = divmod(rest, 60)
    return random.choice([f"{minutes}m", "".join(f"{count}{unit}" for count, unit in [(days, "d"), (hours, "h"), (left, "m")] if count)])


ALWAYS = "until never: from then on some window is always open\n"
written = lambda moment: f"{moment:%Y-%m-%d %H:%M} {model.DAYS[moment.weekday()]}"
seen = set()
for _ in range(150):
    windows = [(random.randrange(7), random.randrange(24), random.choice([0, 1, 30, 59]), random.choice([1, 30, 60, 360, 1440, 4000, 10080])) for _ in range(random.choice([0, 1, 1, 2, 5]))]
    windows = list(dict.fromkeys(windows))
    moment = datetime(random.choice([2000, 2024, 2026, 2100, 2400]), 1, 1) + timedelta(minutes=random.randrange(366 * 1440))
    closed = {moment.date() + timedelta(days=random.randrange(0, 12)) for _ in range(random.choice([0, 1, 5, 20]))}
    lines = [f"window {model.DAYS[day]} {hour:02}:{minute:02} for {length_of(length)}" for day, hour, minute, length in windows] or ["window none"]
    lines += [f"closed {day}" for day in closed]
    random.shuffle(lines)
    house.write_text("\n".join([*lines, "end\n"]))
    found = model.next_open(windows, closed, moment)
    closes = found and model.closes(windows, closed, found)
    said = "never\n" if found is None else f"open {written(found)}\n" + (f"until {written(closes)}\n" if closes else ALWAYS)
    gives(SAFE, said, "next-open", house, "--at", at(moment))
    gives(SAFE, said, "next-open", f"--at={moment:%Y-%m-%d %H:%M}", house)
    object = {"at": at(moment), "open": None}
    if found is not None:
        minute = (found - datetime(2000, 1, 1)) // timedelta(minutes=1)
        object |= {"open": at(found), "weekday": model.DAYS[found.weekday()], "minute": minute, "until": closes and at(closes)}
    seen.add("never" if found is None else "until" if closes else "always")
    need(json.loads(call("next-open", "--json", "--at", at(moment), house).out) == object, object)
house.write_text("window monday 22:00 for 6h\nclosed 2026-12-28\nend\n")
need(seen == {"never", "until", "always"}, seen)
gives(SAFE, "open 2026-12-29 00:00 tuesday\nuntil 2026-12-29 04:00 tuesday\n", "next-open", house, "--at", "2026-12-28T13:05")
gives(SAFE, "open 2000-01-03 22:00 monday\nuntil 2000-01-04 04:00 tuesday\n", "next-open", house, "--at", "2000-01-01T00:00")
# open until a closed day, through windows that meet, and up to the last time that can be asked
house.write_text("window monday 22:00 for 2h\nwindow tuesday 00:00 for 1d\nwindow wednesday 00:00 for 10m\nclosed 2027-01-06\nend\n")
gives(SAFE, "open 2026-12-28 23:59 monday\nuntil 2026-12-30 00:10 wednesday\n", "next-open", house, "--at", "2026-12-28T23:59")
gives(SAFE, "open 2027-01-04 22:00 monday\nuntil 2027-01-06 00:00 wednesday\n", "next-open", house, "--at", "2027-01-01T00:00")
house.write_text("window monday 00:00 for 7d\nclosed 2031-05-01\nend\n")
gives(SAFE, "open 2026-12-28 13:05 monday\nuntil 2031-05-01 00:00 thursday\n", "next-open", house, "--at", "2026-12-28T13:05")
gives(SAFE, "open 2031-05-02 00:00 friday\n" + ALWAYS, "next-open", house, "--at", "2031-05-01T00:00")
house.write_text("window monday 00:00 for 7d\nclosed 9999-05-01\nend\n")
given = gives(SAFE, f"open {written(datetime(6083, 1, 23, 2, 7))}\n", "next-open", house, "--at", "6083-01-23T02:07")  # when that ends cannot be asked
need("until" not in json.loads(call("next-open", "--json", house, "--at", "6083-01-23T02:07").out), given)
house.write_text("window monday 22:00 for 6h\nclosed 2026-12-28\nend\n")
gives(REFUSED, "", "next-open", house, "--at", "9999-12-31T23:59", err="refused 31")
gives(FAILED, "", "next-open", house, err="expected --at DATE-TIME")
for word in "2026-12-24", "13:05", "1999-12-31T23:59", "2026-02-29T00:00", "2100-02-29T00:00", "2026-13-01T00:00", "2026-00-01T00:00", "2026-04-31T00:00", "2026-12-24T24:00", \
    "2026-12-24T13:60", "2026-12-24T13:05Z", "2026-12-24T13:05+01:00", "26-12-24T13:05", "2026-12-24T1:05", "", "now", "2026-12-24t13:05":
    gives(FAILED, "", "next-open", house, "--at", word, err="is no time: expected")
gives(FAILED, "", "next-open", house, "--at", "2026-12-24", err="; its hour and minute are missing")
gives(FAILED, "", "next-open", house, "--at", "2026-12-24T9:05", err="; it is written 09:05")
for text, line, reason in [
    ("", 1, "window none"), ("closed 2026-12-25\n", 2, "no line says when it is open"), ("window none\nwindow monday 22:00 for 6h\n", 2, "goes with no other window, and line 1 says none"),
    ("window monday 22:00 for 6h\nwindow none\n", 2, "goes with no other window, and line 1 is one"), ("window monday 22:00\n", 1, "a window is written"),
    ("window Monday 22:00 for 6h\n", 1, "no day of the week: it is written in lower case, monday"), ("window monday :30 for 6h\n", 1, "its hour is missing"),
    ("window monday 24:00 for 6h\n", 1, "no time"), ("window monday 22:00 for 0h\n", 1, "no length"),
    ("window monday 22:00 for 169h\n", 1, "no length"), ("window monday 22:00 for 6\n", 1, "no length"), ("window monday 22:00 for 30m6h\n", 1, "no length"),
    ("window monday 22:00 for 6h 30m\n", 1, "a window is written"), ("window none\nclosed 2026-02-30\n", 2, "no date"), ("window none\nclosed tomorrow\n", 2, "no date"),
    ("window none\nclosed 2026-12-25\nclosed 2026-12-25\n", 3, "line 2 already"), ("open monday\nwindow none\n", 1, "begins with window or closed"),
    ("window none\n# \u202e\n", 2, "cannot be seen"), ("".join(f"window monday 22:00 for {m}m\n" for m in range(1, 34)), 33, "at most 32"),
    ("window none\n" + "".join(f"closed {date(2026, 1, 1) + timedelta(days=d)}\n" for d in range(65)), 66, "at most 64"),
]:
    house.write_text(text + "end\n")
    given = gives(REFUSED, "", "next-open", house, "--at", "2026-12-24T13:05", err=reason)
    need(f"{house}:{line}: ".encode() in given.err and given.err.count(b"\n") == 2, given)
gives(SAFE, "never\n", "next-open", "/dev/stdin", "--at", "2026-12-24T13:05", input=b"window none\nend\n")
# a cut behind the first line once opened a closed day
whole = "window monday 22:00 for 6h\nclosed 2026-12-28\nend\n"
for cut in range(len(whole)):
    house.write_text(whole[:cut])
    gives(REFUSED, "", "next-open", house, "--at", "2026-12-28T13:05", err=f"(?m)^{house}:[0-9]+: the text may be cut: ")
house.write_text(whole + "closed 2026-12-29\n")
gives(REFUSED, "", "next-open", house, "--at", "2026-12-28T13:05", err=f"^{house}:4: the text goes on behind its 'end'")
group("next-open")
