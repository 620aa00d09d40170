"""What is wrong raises: numbers that C cannot hold, which are never cut, those that the library refuses, and things of wrong types. And no answer is true or false.

    wrong.py PREFIX
"""
import os
import tempfile
from array import array
from pathlib import Path

from support import PREFIX, group, need, raises, refused, same, shuntberry
from shuntberry import Refused, Session, Table, Verdict, Window

SIZE, WORD = 2**64, 2**32
E = dict(initial=[0], marked=[2], steps={0: [0], 1: [2]})
table = Table(3, **E)
file = shuntberry.write(table)
draft = Table(0, initial=[], marked=[], steps={})
unsafe = Table(1, initial=[0], marked=[0], steps={})
window = Window(540, 120)
session = Session(table)

# ---- numbers, by the calls that take one and the greatest that C holds: just past it and far past it, where a cut one would do

NUMBERS = {
    "n": (SIZE, lambda n: Table(n, **E)), "allowance": (SIZE, lambda k: shuntberry.decide(table, k)), "k": (SIZE, lambda k: shuntberry.within(table, k)),
    "site of read": (SIZE, lambda s: shuntberry.read(file, s)), "site of write": (SIZE, lambda s: shuntberry.write(table, s)),
    "site of check": (SIZE, lambda s: shuntberry.check(file, s)), "seed": (WORD, lambda s: shuntberry.generate(s, 3, 1)),
    "n of a load": (SIZE, lambda n: shuntberry.generate(1, n, 1)), "fan-out": (SIZE, lambda f: shuntberry.generate(1, 3, f)),
    "source": (SIZE, lambda s: session.add_step(s, 0)), "target": (SIZE, lambda s: session.remove_step(0, s)),
    "time": (SIZE, lambda t: shuntberry.next_open(t, [window])), "day": (WORD, lambda d: shuntberry.next_open(0, [window], [d])),
}
for what, (limit, call) in NUMBERS.items():
    call.__name__ = what
    for number in (-1, -limit, limit, limit + 3, 3 * limit + 1, 2**200):
        raises(OverflowError, str(number), call, number)
    for none in (1.0, "1", None, True, False, [1], b"1", 1 + 0j):
        if not (isinstance(none, str) and what in ("source", "target")):
            raises(TypeError, "whole number", call, none)
for bad, words in ((-1, "negative"), (1.5, "whole number"), ("1", "whole number"), (True, "whole number"), (None, "whole number")):
    for wrong in (Window(bad, 1), Window(1, bad)):
        raises(OverflowError if bad == -1 else TypeError, words, shuntberry.next_open, 0, [wrong])
for words, call in {
    "site is -1: it goes from 0 to 65520": lambda: shuntberry.write(table, site=-1), "site is -2: it goes from 0 to 65520": lambda: shuntberry.read(file, site=-2),
    "allowance is -1: it goes from 0 to 512": lambda: shuntberry.decide(table, -1), "n is -1: it goes from 0 to 512": lambda: Table(-1, initial=[], marked=[], steps={}),
    "fan_out is -1: it goes from 0 to 16": lambda: shuntberry.generate(1, 3, -1), "time is -1: it goes from 0 to 2147483647": lambda: shuntberry.next_open(-1, []),
    "source is -1: it goes from 0 to 511": lambda: session.add_step(-1, 0), "target is -1: it goes from 0 to 511": lambda: session.add_step(0, -1),
}.items():
    raises(OverflowError, words, call)
group("numbers that C cannot hold")

# ---- what the library refuses

for number, call in {
    14: lambda: Table(513, initial=[], marked=[], steps={}), 15: lambda: Table(3, groups=[[]] * 65, **E), 17: lambda: Table(3, initial=[3], marked=[], steps={}),
    20: lambda: shuntberry.decide(table, 513), 22: lambda: shuntberry.generate(1, 3, 17), 24: lambda: shuntberry.read(file, 65_521),
    25: lambda: shuntberry.replay(table, b"\0"), 26: lambda: shuntberry.replay(table, bytes(32_770)), 27: lambda: session.add_step(0, 3),
    28: lambda: shuntberry.decide_modal(table, {}), 29: lambda: shuntberry.next_open(0, [Window(10_080, 1)]),
    30: lambda: shuntberry.next_open(0, [window] * 33), 31: lambda: shuntberry.next_open(2**31, [window]),
    11: lambda: shuntberry.read(file[:-1]), 12: lambda: shuntberry.read(file + file), 13: lambda: shuntberry.read(file, 1), 16: lambda: shuntberry.read(file + b"\1\0" + bytes(508) + b"\1\0"),
}.items():
    refused(number, call)
for n in (600, SIZE - 1):
    refused(14, Table, n, initial=[], marked=[], steps={})
refused(14, Table, 0, initial=[], marked=[], steps={}, groups=[[]])
refused(14, Table, 513, initial=[], marked=[], steps={}, groups=[[]] * 65)
refused(14, shuntberry.generate, 1, 0, 1)
refused(14, shuntberry.generate, 1, 513, 17)
refused(15, Table, 3, groups=[[0]] * 600, **E)
for part in (dict(initial=[511]), dict(marked=[3]), dict(resting=[3]), dict(groups=[[0], [3]]), dict(steps={0: [3]}), dict(steps={3: [0]})):
    refused(17, Table, 3, **{**E, **part})
refused(17, shuntberry.decide_modal, table, {0: [0], 1: [2, 3]})
refused(17, shuntberry.decide_modal, table, {0: [0], 1: [2], 3: [0]})
for allowance in (513, SIZE - 1):
    refused(20, shuntberry.decide, table, allowance)
for site in (65_521, SIZE - 1):
    refused(24, shuntberry.write, table, site)
    refused(24, shuntberry.check, file, site)
    refused(24, shuntberry.read, b"", site)
for state in (3, 512, SIZE - 1):
    refused(27, session.add_step, state, 0)
    refused(27, session.remove_step, 0, state)
same((session.reachable, session.table), (frozenset([0]), table), "a refused edit changes something")
refused(25, shuntberry.replay, table, bytes(32_771))
for wrong in (Window(0, 0), Window(0, 10_081), Window(WORD + 540, 120), Window(540, WORD + 120), Window(2**100, 1)):
    refused(29, shuntberry.next_open, 0, [window, wrong])
refused(30, shuntberry.next_open, 0, [Window(0, 0)] * 33)
refused(30, shuntberry.next_open, 0, [window], range(65))
refused(31, shuntberry.next_open, SIZE - 1, [Window(0, 0)] * 33)
group("what the library refuses")

# ---- what no set has room for, names, and things of wrong types

for state in (512, -1, SIZE, 2**200):
    for part in (dict(initial=[state]), dict(marked=[state]), dict(resting={state}), dict(groups=[[state]]), dict(steps={0: [state]}), dict(steps={state: [0]})):
        raises(ValueError, str(state), Table, 3, **{**E, **part})
    raises(ValueError, str(state), shuntberry.decide_modal, table, {0: [state]})
    raises(ValueError, str(state), table.successors, state)
raises(ValueError, "no state 3", table.successors, 3)
for part in (dict(initial="0"), dict(marked=b"\2"), dict(resting=0), dict(groups=[0]), dict(groups="0"), dict(steps={0: 0}), dict(steps={0: "0"})):
    kind = TypeError
    try:
        Table(3, **{**E, **part})
    except (TypeError, ValueError):
        kind = None
    need(kind is None, part)
raises(TypeError, "write ['home']", Table, 3, **{**E, "initial": "home"})
for part in ("initial", "marked", "resting"):
    raises(TypeError, f"{part} is a list or set of states, not of type int: write [0]", Table, 3, **{**E, part: 0})
raises(TypeError, "the steps of state 1 is a list or set of states, not of type int: write [2]", Table, 3, **{**E, "steps": {1: 2}})
raises(TypeError, "group 1 is a list or set of states, not of type int: write [0]", Table, 3, **E, groups=[[0], 0])
raises(TypeError, "groups is a list of groups, not of type int", Table, 3, **E, groups=0)
raises(TypeError, "successors of each state", Table, 3, **{**E, "steps": [(0, 0)]})
for forgotten in E:
    raises(TypeError, forgotten, Table, 3, **{part: given for part, given in E.items() if part != forgotten})
for state in (True, 0.0, None, b"0"):
    raises(TypeError, "whole number", Table, 3, **{**E, "initial": [state]})
raises(ValueError, "no state is named 'home': this table knows no names", table.state, "home")
named = Table(3, **E, names={0: "home", 2: "over"})
raises(ValueError, "no state is named 'hom'", named.state, "hom")
raises(ValueError, "no state is named 'x'", Session(named).add_step, "home", "x")
raises(ValueError, "twice", Table, 3, initial=[], marked=[], steps={0: [0], "home": [1]}, names={0: "home"})
raises(ValueError, "two states", Table, 3, **E, names={0: "home", 1: "home"})
raises(ValueError, "there is none", Table, 3, **E, names={3: "home"})
raises(ValueError, "empty", Table, 3, **E, names={0: ""})
raises(TypeError, "text", Table, 3, **E, names={0: 1})
raises(TypeError, "whole number", Table, 3, **E, names={"home": "0"})
need(Session(named).add_step("home", "over") == {0, 2} and named == table, "names make a difference")
BYTES = {"read": shuntberry.read, "check": shuntberry.check, "rewrite": shuntberry.rewrite, "replay": lambda log: shuntberry.replay(table, log)}
for what, call in BYTES.items():
    call = (lambda given: lambda data: given(data))(call)
    call.__name__ = what
    for none in (None, 0, 512, "", "0", [0], [], {}, (), True, object()):
        raises(TypeError, "is bytes", call, none)
    raises(TypeError, "items of 2 bytes", call, array("H", [0, 0]))
TABLES = (
    shuntberry.decide, shuntberry.shortest_path, shuntberry.distances, shuntberry.write, Session, lambda t: shuntberry.within(t, 1),
    lambda t: shuntberry.replay(t, b""), lambda t: shuntberry.decide_modal(t, {}))
for call in TABLES:
    for none in (None, file, 3, "e.table", session, shuntberry.decide(table)):
        raises(TypeError, "a Table is asked about", call, none)
raises(TypeError, "a Window is meant", shuntberry.next_open, 0, [(540, 120)])
need(shuntberry.replay(table, array("B", [0] * 4)).followed == 2 and shuntberry.replay(table, memoryview(bytes(8))[::2]).followed == 2, "other bytes")
kept = bytearray(file)
shuntberry.read(kept)
need(kept == file, "the bytes that were lent are changed")
group("wrong types, names, and states without room")

# ---- no answer is true or false, nor is it one without states

ANSWERS = [
    shuntberry.decide(table), shuntberry.decide(unsafe), shuntberry.check(file), shuntberry.check(b"cut"), shuntberry.replay(table, b""),
    shuntberry.decide_modal(table, table.steps)]
for answer in ANSWERS:
    raises(TypeError, "neither true nor false", bool, answer)
    raises(TypeError, "neither true nor false", lambda given: not given, answer)
    try:
        answer.verdict = Verdict.SAFE
    except AttributeError:
        continue
    need(False, f"{answer} can be changed")
for verdict in Verdict:
    raises(TypeError, "neither true nor false", bool, verdict)
    for other in (0, 1, "safe", "SAFE", None, True, table, shuntberry.decide(table)):
        raises(TypeError, "a Verdict alone", lambda a, b: a == b, verdict, other)
        raises(TypeError, "a Verdict alone", lambda a, b: a != b, verdict, other)
        raises(TypeError, "a Verdict alone", lambda a, b: b != a, verdict, other)
    need(sum(verdict == other for other in Verdict) == 1 and {verdict: 1}[verdict] == 1, verdict)
for answer in (shuntberry.decide(draft), shuntberry.check(b""), shuntberry.decide_modal(draft, {})):
    need(answer.verdict is Verdict.SAFE and not answer.is_safe and answer.n == 0, "a draft is something to release", answer)
need(not shuntberry.decide(unsafe).is_safe and not shuntberry.decide(table, 0).is_safe, "unsafe or undecided is safe")
same((shuntberry.write(draft), shuntberry.distances(draft), Session(draft).reachable), (b"", (), frozenset()), "a draft")
same((Refused(13) == Refused(13), Refused(13) == Refused(14), str(Refused(99))), (True, False, "refused 99: no ground that this version of the module knows"), "Refused")
for why in shuntberry.Forbidden:
    raises(TypeError, "neither true nor false", bool, why)
for state in (3, -1, 512):
    raises(ValueError, f"no state {state}", table.why_forbidden, state)
raises(ValueError, "no state is named", table.why_forbidden, "home")
same((named.why_forbidden("over"), named.why_forbidden(1)), (shuntberry.Forbidden.MARKED, shuntberry.Forbidden.NOT), "why, by a name")
group("answers are no truths")

# ---- files and texts that cannot be read

with tempfile.TemporaryDirectory() as work:
    raises(FileNotFoundError, "none", Table.from_file, Path(work, "none"))
    raises(IsADirectoryError, "", Table.from_file, work)
    Path(work, "long").write_bytes(file * 5000)
    refused(11, Table.from_file, Path(work, "long"))
    Path(work, "empty").write_bytes(b"")
    need(not shuntberry.decide(Table.from_file(Path(work, "empty"))).is_safe, "an empty file is something to release")

    def command(text):
        """A program that is not shuntberry."""
        path = Path(work, "command")
        path.write_text("#!/bin/sh\n" + text)
        path.chmod(0o755)
        return path

    TEXT = "states 1\nstate 0 home\ninitial 0\nforbidden none\nstep 0 -> 0\nend\n"
    need(shuntberry.decide(Table.from_text(TEXT)).is_safe, "a text")
    error = raises(shuntberry.Mistakes, ":2: ", Table.from_text, "states 1\ninitial 1\nforbidden none\nend\n")
    need(isinstance(error, ValueError), "mistakes")
    raises(OSError, "empty", Table.from_text, "")
    for length in range(1, len(TEXT)):
        cut = TEXT[:length]
        if len(cut.split()) == 1:  # which may be a file's name
            raises(ValueError, "is the name of a file", Table.from_text, cut)
        else:
            raises(shuntberry.Mistakes, "the text may be cut", Table.from_text, cut)
    for behind in ("\n", " ", "#", "end\n", TEXT):
        raises(shuntberry.Mistakes, "goes on behind its 'end'", Table.from_text, TEXT + behind)
    raises(UnicodeEncodeError, "", Table.from_text, "states 1\n\ud800")
    Path(work, "my pump.txt").write_text(TEXT)
    for name in ("pump.txt", "/etc/hostname", str(Path(work, "my pump.txt")), "x"):
        raises(ValueError, f"{name!r} is the name of a file: Table.from_text(Path({name!r}).read_text())", Table.from_text, name)
    for none in (None, b"states 0", 0):
        raises(TypeError, "a text is a str", Table.from_text, none)
    raises(FileNotFoundError, "", Table.from_text, TEXT, command=Path(work, "no command"))
    # the command itself, but that not all of the names arrive
    real = f"'{PREFIX}/bin/shuntberry' \"$@\""
    cuts = [f'if [ "$1" = encode ]; then {real}; else {real} | head -c -{count}; fi' for count in (1, 4, 5, 56)]
    for wrong in ("exit 0", "cat", "exit 1", "exit 3", "exit 4", "exit 127", "kill -9 $$", "kill -15 $$", "cat >/dev/null; echo safe", *cuts):
        try:
            given = Table.from_text(TEXT, command=command(wrong))
        except (OSError, Refused):
            need(True)
        else:
            need(False, f"a command that is {wrong!r} gives {given}")
    raises(shuntberry.Mistakes, "so", Table.from_text, TEXT, command=command("cat >/dev/null; echo so >&2; exit 2"))
group("files and texts that cannot be read")
