"""What the commands must answer, worked out from the specification's text on Python's sets, and sharing nothing with the program."""
import re
from datetime import datetime, timedelta

import spec


def numbers(words):
    return set() if words == ["none"] else {int(word) for word in words}


def table_of(text):
    """The table of a text as `decode` prints it."""
    lines = [line.split() for line in spec.before_end(text).splitlines()]
    of = lambda fact: set().union(*(numbers(words[1:]) for words in lines if words[0] == fact))
    groups = [numbers(words[1:]) for words in lines if words[0] == "group"]
    steps = {(int(words[1]), int(b)) for words in lines if words[0] == "step" for b in words[3:]}
    return spec.Table(int(lines[0][1]), of("initial"), of("forbidden"), steps, groups, of("resting"))


def printed_within(table, allowance):
    """What a draft check prints."""
    before, spec.ALLOWANCE = spec.ALLOWANCE, allowance
    verdict, count, _ = spec.decide(table)
    spec.ALLOWANCE = before
    if verdict != "undecided":
        return spec.printed(table)
    return f"states {table.n} groups {len(table.groups)}\nundecided refinements {count}\n"


def at_site(file, site):
    """A file of site 0 as one of another site: only the checks are others."""
    made = b""
    for at in range(0, len(file), spec.BLOCK):
        body = file[at : at + spec.BLOCK - 2]
        made += body + spec.two((spec.check(body) + site) % spec.PRIME)
    return made


def reached(table, states):
    after, found, left = {}, set(states), list(states)
    for a, b in table.steps:
        after.setdefault(a, set()).add(b)
    while left:
        new = after.get(left.pop(), set()) - found
        found |= new
        left += new
    return found


def distances(table):
    """The distance of each state that reaches a forbidden one."""
    found, layer, away = {}, table.forbidden(), 0
    while layer:
        found |= dict.fromkeys(layer, away)
        layer, away = {a for a, b in table.steps if b in layer} - set(found), away + 1
    return found


def screen(s, names):
    """A state by its number, and its name if it has one."""
    return f"{s} {names[s]}" if s in names else str(s)


def why_unsafe(table, last, names):
    """Why a path ends in a state: a mark goes before a hang."""
    return f"the path ends in {screen(last, names)}, {END[last in table.marked]}"


END = {True: "forbidden since it is marked", False: "a hang: no step leads out, and it is not resting"}


def way_to(state, initial, steps):
    """The smallest of the shortest paths to a state, by its distances; none where there is no path."""
    away, layer = {state: 0}, {state}
    while layer and not layer & initial:
        layer = {a for a, b in steps if b in layer} - set(away)
        away |= dict.fromkeys(layer, max(away.values()) + 1)
    if not layer:
        return None
    path = [min(layer & initial)]
    while path[-1] != state:
        path.append(min(b for a, b in steps if a == path[-1] and away.get(b) == away[a] - 1))
    return path


def rub_out(table):
    """Each step of the path without which nothing forbidden can be reached, and how many others then cannot either; those that cost least first."""
    path, found = spec.shortest_path(table), []
    before = reached(table, table.initial) - table.forbidden()
    for step in zip(path, path[1:]):
        less = spec.Table(table.n, table.initial, table.marked, table.steps - {step}, table.groups, table.resting)
        after = reached(less, table.initial)
        if not after & less.forbidden():
            found.append((*step, len(before - after)))
    return sorted(found, key=lambda found: found[2])


def rested(table, names):
    """What is said of marking the end of the path as resting, if it is a hang: a line, and as JSON."""
    state = spec.shortest_path(table)[-1]
    if state in table.marked:
        return [], None
    then = spec.Table(table.n, table.initial, table.marked, table.steps, table.groups, table.resting | {state})
    line, found = f"mark {screen(state, names)} as resting, only if a session may end on this screen", {"state": state}
    if reached(then, then.initial) & then.forbidden():
        way = spec.shortest_path(then)
        end = END[way[-1] in then.marked]
        return [f"{line}: that alone does not do it, by {' -> '.join(screen(s, names) for s in way)}, {end}"], found | {"path": way, "ends_in": "marked" if way[-1] in then.marked else "hang"}
    if then.forbidden():
        return [f"{line}: then no forbidden screen can be reached"], found | {"path": None, "nothing_forbidden": False}
    return [f"{line}: then nothing in the table is forbidden, so mark what must not be reached"], found | {"path": None, "nothing_forbidden": True}


REPAIRS = {}


def repairs(table, names):
    """What is wrong with an unsafe table: a line each, and as JSON."""
    if id(table) not in REPAIRS:
        ways = [way_to(state, table.initial, table.steps) for state in sorted(table.forbidden())]
        REPAIRS[id(table)] = table, [way for way in ways if way], rub_out(table)
    _, ways, steps = REPAIRS[id(table)]
    arrows = lambda states: " -> ".join(screen(s, names) for s in states)
    lost = lambda count: "; all others still can" if not count else f"; {count} other{'s' * (count > 1)} cannot either"
    lines = [f"reached: {arrows(way)}, {END[way[-1] in table.marked]}" for way in ways]
    lines += [f"rub out {arrows(step)}, and no forbidden screen can be reached{lost(count)}" for *step, count in steps]
    lines += [] if steps else ["no single step of the path, rubbed out, does it"]
    rest, resting = rested(table, names)
    lines += rest
    found = {"mark_resting": resting, "reached": [{"ends_in": "marked" if way[-1] in table.marked else "hang", "path": way} for way in ways]}
    return lines, found | {"rub_out": [dict(zip(("from", "to", "lost"), step)) for step in steps]}


def remarks(table, names):
    """What a reviewer should look at, a sentence each."""
    reachable, hangs, look = reached(table, table.initial), table.dead_ends() - table.resting, []
    if not table.n:
        look.append("the table has no states: an untouched draft")
    elif not table.initial:
        look.append("no state is initial, so that the table is safe whatever else is in it")
    if table.n and not table.forbidden():
        look.append("nothing is forbidden, so that the table is safe whatever else is in it")
    if table.forbidden() and not table.marked:
        look.append("no state is marked as forbidden: only hangs are")
    for words, states in [
        ("forbidden screens that can be reached", table.forbidden() & reachable), ("hangs, which have no way out and do not rest", hangs),
        ("screens that no session reaches", table.states() - reachable - table.forbidden()),
    ]:
        if states:
            look.append(f"{words}: {', '.join(screen(s, names) for s in sorted(states))}")
    return look


def replayed(table, entries):
    """How many entries are followed, the states that they hold, and all that can be reached."""
    followed = []
    for entry in entries:
        allowed = table.row(followed[-1]) if followed else table.initial
        if entry not in allowed:
            break
        followed.append(entry)
    return len(followed), set(followed), reached(table, table.initial)


def modal(table, possible):
    """Verdict, invariant and path of a table with possible steps; forbidden are the same states for every choice."""
    forbidden = table.marked | {s for s in range(table.n) if s not in table.resting and not any(a == s for a, _ in possible)}
    # every state rests and just those are marked, so that the rounds take these for the forbidden ones
    choice = lambda steps: spec.Table(table.n, table.initial, forbidden, steps, table.groups, set(range(table.n)))
    least, most = choice(table.steps), choice(possible)
    if spec.decide(most)[0] == "safe":
        return "safe", spec.decide(most)[2], None
    if spec.decide(least)[0] == "unsafe":
        return "unsafe", None, spec.shortest_path(least)
    return "depends", spec.decide(least)[2], spec.shortest_path(most)


DAYS = ["monday", "tuesday", "wednesday", "thursday", "friday", "saturday", "sunday"]


def next_open(windows, closed, at):
    """The first open minute, looked at one by one: (weekday, hour, minute, length) of windows, dates of closed days."""
    if not windows:
        return None
    moment = at
    while True:
        if moment.date() not in closed and any(is_in(window, moment) for window in windows):
            return moment
        moment += timedelta(minutes=1)


def closes(windows, closed, opened):
    """The first minute from one on that is not open; none if there is no such. It is looked for one by one for a week, and on closed days: only such a day closes later."""
    is_open = lambda moment: moment.date() not in closed and any(is_in(window, moment) for window in windows)
    week = (opened + timedelta(minutes=minute) for minute in range(7 * 1440))
    days = (datetime(day.year, day.month, day.day) for day in sorted(closed))
    return next((moment for moment in week if not is_open(moment)), next((day for day in days if day > opened), None))


def is_in(window, moment):
    weekday, hour, minute, length = window
    start = datetime(2000, 1, 3, hour, minute) + timedelta(days=weekday)  # a Monday
    return (moment - start) % timedelta(weeks=1) < timedelta(minutes=length)
