"""The calls, on tables."""
from __future__ import annotations

import ctypes
import threading
from dataclasses import dataclass
from typing import Any, FrozenSet, Iterable, List, Optional, Tuple

from ._answers import Checked, Decision, ModalDecision, Replay, Verdict, checked_of, verdict_of
from ._library import call, fitting, whole
from ._raw import CHECK_TEXT, FILE_BYTES, MAX_ALLOWANCE, NO_MINUTE, PATH_PLACES, POSSIBLE_WORDS, UNREACHABLE, Session as RawSession, Set as StateSet
from ._refusals import UnknownAnswer
from ._tables import Bytes, State, Steps, Store, Table, accepted, lent, states_in

__all__ = [
    "Session", "Window", "check", "decide", "decide_modal", "distances", "generate", "next_open", "read", "replay", "rewrite", "shortest_path",
    "within", "write"]

Path = ctypes.c_uint16 * PATH_PLACES
Possible = ctypes.c_uint64 * POSSIBLE_WORDS


def of_table(table: Table) -> Tuple[Any, int, int]:
    """The store of a table, n and g, as the calls take them."""
    if not isinstance(table, Table):
        raise TypeError(f"a Table is asked about, not something of type {type(table).__name__}: read(data) makes one of a file's bytes")
    return table._store, table._n, table._g


def is_yes(number: int) -> bool:
    """Whether a number says yes. Only 1 and 0 say anything."""
    if number not in (0, 1):
        raise UnknownAnswer(f"the library answered with {number} where 1 is yes and 0 is no")
    return number == 1


def front(buffer: Any, length: int) -> List[int]:
    """The first places of a buffer, which the call filled."""
    if not 0 <= length <= len(buffer):
        raise UnknownAnswer(f"the library says that it filled {length} places of {len(buffer)}")
    return list(buffer[:length])


def states_of(path: Any, steps: int) -> Tuple[int, ...]:
    """The states of a path at the front of its buffer."""
    return tuple(front(path, steps + 1))


def decide(table: Table, allowance: int = MAX_ALLOWANCE) -> Decision:
    """Decides whether a forbidden state can be reached, with at most `allowance` refinements. A release check has MAX_ALLOWANCE of them, which are
    always enough; with fewer the verdict may be UNDECIDED.

    >>> table = Table(3, initial=[0], marked=[2], steps={0: [0], 1: [2]})
    >>> decision = decide(table)
    >>> decision.is_safe, decision.count, decision.invariant
    (True, 1, frozenset({0}))
    >>> decide(table, allowance=0).verdict
    <Verdict.UNDECIDED: 2>

    With a step 0 → 1 it can:

    >>> decision = decide(Table(3, initial=[0], marked=[2], steps={0: [0, 1], 1: [2]}))
    >>> decision.verdict, decision.path
    (<Verdict.UNSAFE: 1>, (0, 1, 2))

    `allowance` goes from 0 to MAX_ALLOWANCE.
    """
    path = Path()
    found = call("decide", *of_table(table), allowance, path)
    accepted(found.refusal)
    verdict = verdict_of(found.verdict, Verdict.SAFE, Verdict.UNSAFE, Verdict.UNDECIDED)
    return Decision(
        table.n, verdict, found.count,
        states_in(found.invariant) if verdict is Verdict.SAFE else None,
        states_of(path, found.steps) if verdict is Verdict.UNSAFE else None,
    )


def check(data: Bytes, site: int = 0) -> Checked:
    """A release check of a file's bytes at a site: what the command check prints of them, and the status with which it ends.

    >>> checked = check(write(Table(3, initial=[0], marked=[2], steps={0: [0], 1: [2]})))
    >>> checked.is_safe, checked.status
    (True, 0)
    >>> print(checked.text, end="")
    states 3 groups 0
    safe refinements 1
    invariant 1: 0

    A file that is refused is an answer; it has no verdict. No bytes are an untouched draft, which is nothing to release:

    >>> cut = check(b"cut")
    >>> cut.text, cut.status, cut.refusal
    ('refused 11\\n', 2, Refused(11))
    >>> check(b"").verdict, check(b"").status, check(b"").is_safe
    (<Verdict.SAFE: 0>, 4, False)

    `site` goes from 0 to MAX_SITE.
    """
    text = (ctypes.c_uint8 * CHECK_TEXT)()
    found = call("check", lent(data, "a file"), site, text)
    accepted(found.refusal)
    return checked_of(bytes(front(text, found.length)).decode("ascii"), found.n, found.file_refusal, found.verdict)


def shortest_path(table: Table) -> Optional[Tuple[int, ...]]:
    """The path that decide gives, without the rounds: the smallest of the shortest ones from an initial to a forbidden state, or None.

    >>> shortest_path(Table(4, initial=[0, 1], marked=[3], steps={0: [2], 1: [2], 2: [3]}))
    (0, 2, 3)
    """
    path = Path()
    found = call("shortest_path", *of_table(table), path)
    accepted(found.refusal)
    return states_of(path, found.steps) if is_yes(found.found) else None


def distances(table: Table) -> Tuple[Optional[int], ...]:
    """For each state the number of steps to the nearest forbidden one, None where none can be reached.

    >>> distances(Table(4, initial=[0], marked=[2], resting=[3], steps={0: [1], 1: [2]}))
    (2, 1, 0, None)
    """
    store, n, g = of_table(table)
    places = (ctypes.c_uint16 * n)()
    accepted(call("distances", store, n, g, places))
    return tuple(None if steps == UNREACHABLE else steps for steps in places)


def within(table: Table, k: int) -> bool:
    """Whether there is a path of at most `k` steps from an initial to a forbidden state.

    >>> table = Table(3, initial=[0], marked=[2], steps={0: [1], 1: [2]})
    >>> within(table, 1), within(table, 2)
    (False, True)
    """
    found = call("within", *of_table(table), k)
    accepted(found.refusal)
    return is_yes(found.within)


def write(table: Table, site: int = 0) -> bytes:
    """The bytes of the table's file for a site; none for a draft.

    >>> table = generate(7, 3, 2)
    >>> file = write(table, site=17)
    >>> len(file), read(file, site=17) == table
    (512, True)
    >>> read(file, site=18)
    Traceback (most recent call last):
        ...
    shuntberry.Refused: refused 13: ...

    `site` goes from 0 to MAX_SITE.
    """
    return written("write", *of_table(table), site)


def rewrite(data: Bytes) -> bytes:
    """The file of today's form for one of site 0 of the form before version 4: the same table with its dead ends, and no other state, resting.

    >>> rewrite(write(generate(7, 3, 2)))
    Traceback (most recent call last):
        ...
    shuntberry.Refused: refused 15: ...
    """
    return written("rewrite", lent(data, "a file"))


def written(name: str, *arguments: Any) -> bytes:
    """The file that a call writes."""
    output = (ctypes.c_uint8 * FILE_BYTES)()
    found = call(name, *arguments, output)
    accepted(found.refusal)
    return bytes(front(output, found.length))


#: The table in the bytes of a file: the library's name for it.
read = Table.from_bytes


def generate(seed: int, n: int, fan_out: int) -> Table:
    """The table that a seed gives: `n` states, of which 0 is initial and n - 1 marked, each with up to `fan_out` successors.

    >>> generate(7, 3, 2).steps
    {0: frozenset({0, 1}), 1: frozenset({1, 2}), 2: frozenset({1, 2})}

    `n` goes from 1 to MAX_STATES, `fan_out` from 0 to MAX_FAN_OUT.
    """
    store = Store()
    accepted(call("generate", seed, n, fan_out, store))
    return Table._of_store(whole(n, "n"), 0, store, None)


def replay(table: Table, log: Bytes) -> Replay:
    """Walks a pump's log through the table: a list of state numbers of two bytes each, low byte first. The first entry must be initial, each later
    one a successor of the entry before.

    >>> table = Table(3, initial=[0], marked=[], steps={0: [1], 1: [0, 2], 2: [2]})
    >>> log = b"".join(state.to_bytes(2, "little") for state in [0, 1, 0, 2])
    >>> replay(table, log)
    Replay(followed=3, seen=2, percent=66, remainder=2, entries=4)

    A log has whole entries, and MAX_LOG bytes at most.
    """
    array = lent(log, "a log")
    found = call("replay", *of_table(table), array)
    accepted(found.refusal)
    return Replay(found.followed, found.seen, found.percent, found.remainder, len(array) // 2)


class Session:
    """Steps drawn and rubbed out in a copy of a table, with the states that can be reached (`reachable`) kept throughout. A refused edit changes nothing.
    Several threads may edit one session: one edit is made at a time.

    >>> session = Session(Table(4, initial=[0], marked=[], steps={0: [1], 2: [3]}))
    >>> session.reachable
    frozenset({0, 1})
    >>> session.add_step(1, 2)
    frozenset({0, 1, 2, 3})
    >>> session.remove_step(0, 1)
    frozenset({0})
    >>> session.add_step(0, 4)
    Traceback (most recent call last):
        ...
    shuntberry.Refused: refused 27: ...

    Any edit may change the verdict: `table` is the table to decide again.

    >>> session.table.steps
    {1: frozenset({2}), 2: frozenset({3})}
    """

    __slots__ = ("_opened", "_store", "_reachable", "_lock")

    def __init__(self, table: Table) -> None:
        store, n, g = of_table(table)
        self._opened = table
        self._store = Store.from_buffer_copy(store)
        self._lock = threading.Lock()
        self._reachable = StateSet()
        self._take(call("open", self._store, n, g))

    def _take(self, session: RawSession) -> FrozenSet[int]:
        accepted(session.refusal)
        self._reachable = session.reachable
        return states_in(self._reachable.words)

    def _edit(self, name: str, source: State, target: State) -> FrozenSet[int]:
        table = self._opened
        ends = table.state(source), table.state(target)
        with self._lock:
            return self._take(call(name, self._store, table.n, table.g, self._reachable, *ends))

    def add_step(self, source: State, target: State) -> FrozenSet[int]:
        """Adds a step, and gives the states that can be reached then; nothing changes if it exists. Refused with 27."""
        return self._edit("add_step", source, target)

    def remove_step(self, source: State, target: State) -> FrozenSet[int]:
        """Removes a step, and gives the states that can be reached then; nothing changes if there is none. Refused with 27."""
        return self._edit("remove_step", source, target)

    @property
    def reachable(self) -> FrozenSet[int]:
        """The states that can be reached from the initial ones, these included."""
        with self._lock:
            return states_in(self._reachable.words)

    @property
    def table(self) -> Table:
        """The table as edited so far."""
        table = self._opened
        with self._lock:
            return Table._of_store(table.n, table.g, Store.from_buffer_copy(self._store), table.names)


def decide_modal(table: Table, possible: Steps) -> ModalDecision:
    """Decides a table some of whose steps exist only on pumps with an option bought, for every choice between them. The steps of the table are the
    certain ones; `possible` has those that are possible, with each certain one among them, else it is refused with 28. A hang is here a state without
    possible steps: for decide a state without certain ones is, so release each pump's own table, decided by itself, and not the family.

    >>> table = Table(3, initial=[0], marked=[2], steps={0: [0], 1: [2]})
    >>> decision = decide_modal(table, {0: [0, 1], 1: [2]})
    >>> decision.verdict, decision.invariant, decision.path
    (<Verdict.DEPENDS: 3>, frozenset({0}), (0, 1, 2))
    >>> decide_modal(table, table.steps).is_safe
    True
    """
    store, n, g = of_table(table)
    path = Path()
    found = call("decide_modal", store, n, g, Possible.from_buffer_copy(table._rows(possible)), path)
    accepted(found.refusal)
    verdict = verdict_of(found.verdict, Verdict.SAFE, Verdict.UNSAFE, Verdict.DEPENDS)
    return ModalDecision(
        n, verdict,
        None if verdict is Verdict.UNSAFE else states_in(found.invariant),
        None if verdict is Verdict.SAFE else states_of(path, found.steps),
    )


@dataclass(frozen=True)
class Window:
    """A weekly window of `length` minutes, from minute `start` of the week on. Weeks begin on Saturday at 00:00."""

    start: int
    length: int


def packed(window: Window) -> int:
    """A window as the library takes it, in two halves of 32 bits. A number that does not fit is given as the greatest that does, which is refused."""
    if not isinstance(window, Window):
        raise TypeError(f"a Window is meant, not something of type {type(window).__name__}")
    start, length = whole(window.start, "the start of a window"), whole(window.length, "the length of a window")
    if start < 0 or length < 0:
        raise OverflowError(f"a window has neither a negative start nor a negative length: {window}")
    most = (1 << 32) - 1
    return min(start, most) | min(length, most) << 32


def next_open(time: int, windows: Iterable[Window], closed_days: Iterable[int] = ()) -> Optional[int]:
    """The first minute at or after `time` that lies in one of the windows and not on a closed day; None, which is never, if there is no window. (Minute
    0 is one: ask whether it `is None`.) Time is whole minutes since 1 January 2000, 00:00, a Saturday, and days are counted from that one as 0.

    >>> windows = [Window(540, 120), Window(3 * 1440 + 1320, 240)]    # Saturdays from 09:00 to 11:00, Tuesdays from 22:00 to Wednesdays 02:00
    >>> next_open(600, windows)
    600
    >>> next_open(660, windows, closed_days=[3])
    5760
    >>> next_open(660, []) is None
    True

    As dates:

    >>> from datetime import datetime, timedelta
    >>> start = datetime(2000, 1, 1)
    >>> print(start + timedelta(minutes=next_open((datetime(2026, 3, 1) - start) // timedelta(minutes=1), windows)))
    2026-03-03 22:00:00

    `time` goes from 0 to MAX_TIME, and there may be MAX_WINDOWS windows and MAX_DAYS closed days.
    """
    numbers = [packed(window) for window in windows]
    days = [fitting(day, ctypes.c_uint32, "a closed day") for day in closed_days]
    found = call("next_open", time, (ctypes.c_uint64 * len(numbers))(*numbers), (ctypes.c_uint32 * len(days))(*days))
    accepted(found.refusal)
    if is_yes(found.never):
        return None
    if found.minute == NO_MINUTE:
        raise UnknownAnswer("the library names no minute, and does not say never")
    minute: int = found.minute
    return minute
