"""What the calls answer. No answer is true or false by itself: a verdict that is tested as a yes or no would be a wrong one."""
from __future__ import annotations

import enum
from dataclasses import dataclass, field
from typing import FrozenSet, NoReturn, Optional, Tuple

from . import _raw
from ._refusals import Refused, UnknownAnswer

__all__ = ["Answer", "Checked", "Decision", "Forbidden", "ModalDecision", "Replay", "Verdict"]


class Verdict(enum.Enum):
    """What a decision says. Look at `is_safe` of the answer first: the verdict of a table without states, such as an empty file gives, is SAFE too. A verdict
    is compared with another verdict, and with nothing else.

    >>> Verdict.SAFE is Verdict.SAFE
    True
    >>> bool(Verdict.UNSAFE)
    Traceback (most recent call last):
        ...
    TypeError: a verdict is neither true nor false: look at is_safe of the answer
    >>> Verdict.UNSAFE != "unsafe"
    Traceback (most recent call last):
        ...
    TypeError: a verdict is compared with a Verdict alone, not with 'unsafe'
    """

    SAFE = _raw.SAFE  #: no forbidden state can be reached from an initial one; also if there are no states at all
    UNSAFE = _raw.UNSAFE  #: one can
    UNDECIDED = _raw.UNDECIDED  #: the allowance was used up before either was known (decide)
    DEPENDS = _raw.DEPENDS  #: safe with the certain steps alone, unsafe with all possible ones (decide_modal)

    def __bool__(self) -> NoReturn:
        raise TypeError("a verdict is neither true nor false: look at is_safe of the answer")

    def __eq__(self, other: object) -> bool:
        if not isinstance(other, Verdict):
            raise TypeError(f"a verdict is compared with a Verdict alone, not with {other!r}")
        return self is other

    def __ne__(self, other: object) -> bool:
        return not self == other

    __hash__ = enum.Enum.__hash__


class Forbidden(enum.Enum):
    """Why a state is forbidden, or that it is not: what `Table.why_forbidden` answers. It is compared with another one, and is neither true nor false.

    >>> bool(Forbidden.NOT)
    Traceback (most recent call last):
        ...
    TypeError: why a state is forbidden is neither true nor false: compare it with Forbidden.NOT, MARKED or HANG
    """

    NOT = _raw.FORBIDDEN_NOT  #: it is not forbidden
    MARKED = _raw.FORBIDDEN_MARKED  #: it is marked, whether it is a hang too or not
    HANG = _raw.FORBIDDEN_HANG  #: it is a hang: it has no step, and is not resting

    def __bool__(self) -> NoReturn:
        raise TypeError("why a state is forbidden is neither true nor false: compare it with Forbidden.NOT, MARKED or HANG")


def verdict_of(number: int, *known: Verdict) -> Verdict:
    """The verdict of a number, if the call knows it."""
    for verdict in known:
        if verdict.value == number:
            return verdict
    raise UnknownAnswer(f"the library answered with the verdict {number}, which this version of the module does not know")


class Answer:
    """Of an answer its fields are looked at; that there is one says nothing."""

    def __bool__(self) -> NoReturn:
        raise TypeError(f"an answer ({type(self).__name__}) is neither true nor false: look at its fields")


class Judged(Answer):
    """An answer with a verdict on a table."""

    n: int
    verdict: Verdict

    @property
    def is_safe(self) -> bool:
        """Whether the verdict is safe, and the table has states: one without any, an untouched draft, is nothing to release. A table in which nothing is
        initial or nothing is forbidden is safe too: `Table.is_vacuous`."""
        return self.verdict is Verdict.SAFE and self.n > 0


@dataclass(frozen=True)
class Decision(Judged):
    """What decide answers."""

    n: int  #: the table's number of states
    verdict: Verdict  #: SAFE, UNSAFE or UNDECIDED
    count: int  #: the number of refinements made
    invariant: Optional[FrozenSet[int]]  #: if safe, a set with the initial states, the successors of each of its own, and no forbidden state
    path: Optional[Tuple[int, ...]]  #: if unsafe, the smallest of the shortest paths from an initial to a forbidden state


@dataclass(frozen=True)
class ModalDecision(Judged):
    """What decide_modal answers of all choices between the certain and the possible steps."""

    n: int  #: the table's number of states
    verdict: Verdict  #: SAFE or UNSAFE if every choice is, else DEPENDS
    invariant: Optional[FrozenSet[int]]  #: if safe, that of the possible steps, so one of every choice; if it depends, that of the certain steps
    path: Optional[Tuple[int, ...]]  #: if unsafe, that of the certain steps, so one of every choice; if it depends, that of the possible steps


@dataclass(frozen=True)
class Checked(Answer):
    """What check answers of the bytes of a file. A file that is refused has no verdict, and to ask for it raises the refusal."""

    text: str  #: what the command check prints
    refusal: Optional[Refused]  #: why the file is refused, or None
    _n: int = field(repr=False)
    _verdict: int = field(repr=False)

    @property
    def verdict(self) -> Verdict:
        """SAFE or UNSAFE."""
        self._need_file()
        return verdict_of(self._verdict, Verdict.SAFE, Verdict.UNSAFE)

    @property
    def n(self) -> int:
        """The table's number of states."""
        self._need_file()
        return self._n

    def _need_file(self) -> None:
        if self.refusal is not None:
            raise Refused(self.refusal.number)

    @property
    def status(self) -> int:
        """How the command check ends: 0 for safe, 1 for unsafe, 2 for refused, 4 for a table without states."""
        if self.refusal is not None:
            return 2
        if self.verdict is Verdict.UNSAFE:
            return 1
        return 0 if self._n > 0 else 4

    @property
    def is_safe(self) -> bool:
        """Whether the file was accepted, the verdict is safe and the table has states. A table in which nothing is initial or nothing is forbidden is safe
        too: ask `Table.is_vacuous` of the same bytes before they are released."""
        return self.status == 0


def checked_of(text: str, n: int, file_refusal: int, verdict: int) -> Checked:
    """The answer of check, whose fields must fit each other."""
    if file_refusal == _raw.ACCEPTED:
        verdict_of(verdict, Verdict.SAFE, Verdict.UNSAFE)
        return Checked(text, None, n, verdict)
    if verdict != _raw.NO_VERDICT:
        raise UnknownAnswer(f"the library refused a file with {file_refusal} and gave the verdict {verdict} beside it")
    return Checked(text, Refused(file_refusal), n, verdict)


@dataclass(frozen=True)
class Replay(Answer):
    """What replay answers of a pump's log."""

    followed: int  #: the entries before the first that breaks the walk; all of them if none does
    seen: int  #: the different states that those hold
    percent: int  #: 100 times `seen`, divided by the number of states that can be reached; 0 if there are none
    remainder: int  #: what that division leaves; 0 if there are none
    entries: int  #: the entries of the log
