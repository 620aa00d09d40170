"""A dialogue table: its sets out of Python's, out of a file and out of a text."""
from __future__ import annotations

import ctypes
import os
import shutil
import subprocess
from pathlib import Path
from types import MappingProxyType
from typing import Any, Dict, FrozenSet, Iterable, List, Mapping, Optional, Tuple, Type, Union

from ._answers import Forbidden
from ._library import call, prefix, whole
from ._raw import ACCEPTED, FILE_BYTES, HEAD_SETS, MAX_GROUPS, MAX_STATES, SET_WORDS, STORE_WORDS
from ._refusals import Mistakes, Refused, UnknownAnswer

#: A state by its number, or by its name where the table knows names.
State = Union[int, str]
#: The successors of each state that has some.
Steps = Mapping[State, Iterable[State]]
Bytes = Union[bytes, bytearray, memoryview]

SET_BYTES = 8 * SET_WORDS
FIRST_ROW = HEAD_SETS + MAX_GROUPS
Store = ctypes.c_uint64 * STORE_WORDS


def accepted(refusal: int) -> None:
    """Raises the refusal of a call, if its number is one."""
    if refusal != ACCEPTED:
        raise Refused(refusal)


def lent(data: Any, what: str) -> Any:
    """The bytes as an array of just their length. A number, a text or None has none, and is no empty file."""
    try:
        view = memoryview(data)
    except TypeError:
        raise TypeError(f"{what} is bytes, not of type {type(data).__name__}") from None
    if view.itemsize != 1:  # as in an array of numbers, which need not be laid out as the library reads them
        raise TypeError(f"{what} is bytes, not items of {view.itemsize} bytes each")
    copied = view.tobytes()
    return (ctypes.c_uint8 * len(copied)).from_buffer_copy(copied)


def states_in(words: Iterable[int]) -> FrozenSet[int]:
    """The states of a set: state s is the bit of value 2^(s % 64) in word s / 64."""
    bits = sum(word << 64 * i for i, word in enumerate(words))
    return frozenset(s for s in range(bits.bit_length()) if bits >> s & 1)


class Table:
    """A table of `n` states, numbered from 0: where a session starts (`initial`), which states are marked forbidden (`marked`), which may lead
    nowhere (`resting`), the drafter's `groups`, and the `steps`. It never changes; a `Session` edits a copy.

    A state is forbidden if it is marked, or if it has no step and is not resting.

    >>> table = Table(3, initial=[0], marked=[2], steps={0: [0], 1: [2]})
    >>> table
    <Table of 3 states, 0 groups>
    >>> table.successors(1)
    frozenset({2})

    With names a state may be named wherever one is meant:

    >>> named = Table(3, initial=["home"], marked=["over"], steps={"home": ["home"], 1: ["over"]}, names={0: "home", 2: "over"})
    >>> named == table
    True
    >>> named.state("over")
    2

    `initial`, `marked` and `steps` must not be forgotten, since without one of them a table could be safe that should not be. What the library refuses
    is refused at once:

    >>> Table(3, initial=[3], marked=[], steps={})
    Traceback (most recent call last):
        ...
    shuntberry.Refused: refused 17: ...
    """

    __slots__ = ("_n", "_g", "_store", "_names")

    def __init__(
        self,
        n: int,
        *,
        initial: Iterable[State],
        marked: Iterable[State],
        steps: Steps,
        resting: Iterable[State] = (),
        groups: Iterable[Iterable[State]] = (),
        names: Optional[Mapping[int, str]] = None,
    ) -> None:
        if not isinstance(groups, Iterable):
            raise TypeError(f"groups is a list of groups, not of type {type(groups).__name__}: write [[0, 1], [2]]")
        listed = list(groups)
        self._hold(whole(n, "n"), len(listed), Store(), names)
        sets = [self._bits(states, what) for what, states in (("initial", initial), ("marked", marked), ("resting", resting))]
        sets += [self._bits(states, f"group {j}") for j, states in enumerate(listed)]
        sets += [bytes(SET_BYTES)] * (FIRST_ROW - len(sets))
        self._hold(self._n, self._g, Store.from_buffer_copy(b"".join(sets) + self._rows(steps)), names)

    # ---- from elsewhere

    @classmethod
    def from_bytes(cls, data: Bytes, site: int = 0, names: Optional[Mapping[int, str]] = None) -> Table:
        """The table in the bytes of a file that was made for a site. No bytes are an untouched draft, a table without states: so a read that
        failed must not be passed on as one of no bytes.

        >>> Table.from_bytes(b"")
        <Table of 0 states, 0 groups>
        """
        store = Store()
        found = call("read", lent(data, "a file"), site, store)
        accepted(found.refusal)
        return cls._of_store(found.n, found.g, store, names)

    @classmethod
    def from_file(cls, path: Union[str, os.PathLike[str]], site: int = 0, names: Optional[Mapping[int, str]] = None) -> Table:
        """The table in a file; OSError where it cannot be read. A file that is too long is refused, however long it is."""
        with open(path, "rb") as file:
            return cls.from_bytes(file.read(FILE_BYTES + 1), site, names)

    @classmethod
    def from_text(cls, text: str, command: Union[None, str, os.PathLike[str]] = None) -> Table:
        """The table of a text, which is given itself and not by its name, with its names, by the command shuntberry: the one that stands with this module, else that in PATH, or `command`.
        Mistakes in the text are raised as `Mistakes`, with their lines, also that it was cut: nothing stands behind the line `end`. FileNotFoundError
        where there is no such command.

        >>> pump = Table.from_text('''
        ...     states 3
        ...     state 0 home
        ...     state 2 over-hard-limit
        ...     initial home
        ...     forbidden over-hard-limit
        ...     step home -> home
        ...     step 1 -> over-hard-limit
        ...     end
        ... ''')
        >>> pump.names[2], pump.marked
        ('over-hard-limit', frozenset({2}))
        """
        if not isinstance(text, str):
            raise TypeError(f"a text is a str, not of type {type(text).__name__}")
        if len(text.split()) == 1 or "\n" not in text and os.path.exists(text):
            raise ValueError(f"a text is given itself, and {text!r} is the name of a file: Table.from_text(Path({text!r}).read_text())")
        program = the_command() if command is None else os.fspath(command)
        file = answer_of([program, "encode"], text)
        facts = answer_of([program, "decode", "--text"], text).decode().split("\n")
        named = (fact.split() for fact in facts if fact.startswith("state "))
        table = cls.from_bytes(file, 0, {int(number): name for _, number, name in named})
        if [facts[0], *facts[-2:]] != [f"states {table.n}", "end", ""]:  # as of a program of that name that prints nothing, and ends well
            raise OSError(f"{program} is not the command shuntberry: its file has {table.n} states, and its text begins {facts[0]!r} and ends {facts[-2:]}")
        return table

    @classmethod
    def _of_store(cls, n: int, g: int, store: Any, names: Optional[Mapping[int, str]]) -> Table:
        table = cls.__new__(cls)
        table._hold(n, g, store, names)
        return table

    def _hold(self, n: int, g: int, store: Any, names: Optional[Mapping[int, str]]) -> None:
        """Takes a store that the library accepts as a table of n states and g groups."""
        accepted(call("within", store, n, g, 0).refusal)
        if n > MAX_STATES or g > MAX_GROUPS:
            raise UnknownAnswer(f"the library accepted {n} states and {g} groups")
        self._n, self._g, self._store = n, g, store
        self._names = checked_names(names, n)

    def _bits(self, states: Iterable[State], what: str) -> bytes:
        """A set as its bytes in a store."""
        if isinstance(states, (str, bytes, bytearray, memoryview)):
            raise TypeError(f"{what} is a list or set of states, not a text or bytes: write [{states!r}]")
        if not isinstance(states, Iterable):
            raise TypeError(f"{what} is a list or set of states, not of type {type(states).__name__}: write [{states!r}]")
        bits = 0
        for state in states:
            bits |= 1 << self._place(state, what)
        return bits.to_bytes(SET_BYTES, "little")

    def _place(self, state: State, what: str) -> int:
        """The number of a state that a set has room for."""
        number = self.state(state)
        if not 0 <= number < MAX_STATES:
            raise ValueError(f"{what} has the state {number}, and there is room for 0 to {MAX_STATES - 1}")
        return number

    def _rows(self, steps: Steps) -> bytes:
        """The rows of successors, as their bytes in a store."""
        if not isinstance(steps, Mapping):
            raise TypeError(f"steps have the successors of each state, as {{0: [0, 1]}}, and are not of type {type(steps).__name__}")
        rows: List[bytes] = [bytes(SET_BYTES)] * MAX_STATES
        for state, successors in steps.items():
            at = self._place(state, "steps")
            if any(rows[at]):
                raise ValueError(f"steps have state {at} twice, by its number and by its name")
            rows[at] = self._bits(successors, f"the steps of state {at}")
        return b"".join(rows)

    # ---- what is in it

    @property
    def n(self) -> int:
        """The number of states."""
        return self._n

    @property
    def g(self) -> int:
        """The number of groups."""
        return self._g

    @property
    def names(self) -> Mapping[int, str]:
        """The names of the states that have one, by their numbers. A file holds none."""
        return MappingProxyType(self._names)

    def state(self, state: State) -> int:
        """The number of a state that is given by it or by its name; ValueError for a name that the table does not know."""
        if not isinstance(state, str):
            return whole(state, "a state")
        for number, name in self._names.items():
            if name == state:
                return number
        raise ValueError(f"no state is named {state!r}" + ("" if self._names else ": this table knows no names"))

    def _set(self, place: int) -> FrozenSet[int]:
        return states_in(self._store[SET_WORDS * place : SET_WORDS * (place + 1)])

    @property
    def initial(self) -> FrozenSet[int]:
        """The states in which a session starts."""
        return self._set(0)

    @property
    def marked(self) -> FrozenSet[int]:
        """The states that are forbidden whatever they lead to. They are not all that is forbidden: a hang is, too."""
        return self._set(1)

    @property
    def resting(self) -> FrozenSet[int]:
        """The states that may lead nowhere."""
        return self._set(2)

    @property
    def groups(self) -> Tuple[FrozenSet[int], ...]:
        """The groups."""
        return tuple(self._set(HEAD_SETS + j) for j in range(self._g))

    def successors(self, state: State) -> FrozenSet[int]:
        """The states to which a step leads from a state."""
        number = self.state(state)
        if not 0 <= number < self._n:
            raise ValueError(f"there is no state {number}: the table has {self._n}")
        return self._set(FIRST_ROW + number)

    def why_forbidden(self, state: State) -> Forbidden:
        """Why a state is forbidden, if it is; ValueError for a state that the table does not have.

        >>> table = Table(4, initial=[0], marked=[1], resting=[3], steps={0: [1]})
        >>> [table.why_forbidden(s).name for s in range(4)]
        ['NOT', 'MARKED', 'HANG', 'NOT']
        """
        number, successors = self.state(state), self.successors(state)
        if number in self.marked:
            return Forbidden.MARKED
        return Forbidden.NOT if successors or number in self.resting else Forbidden.HANG

    @property
    def is_vacuous(self) -> bool:
        """Whether no state is initial or none is forbidden, so that the table is safe whatever else is in it: release no such table. One without states is
        vacuous, too. Beside decide_modal ask the table of all possible steps, since a state that has one is no hang there.

        >>> Table(2, initial=[0], marked=[], steps={0: [1], 1: [0]}).is_vacuous     # nobody said what is forbidden, and no state is a hang
        True
        """
        return not self.initial or all(self.why_forbidden(state) is Forbidden.NOT for state in range(self._n))

    @property
    def steps(self) -> Dict[int, FrozenSet[int]]:
        """The successors of each state that has some."""
        return {s: row for s in range(self._n) for row in [self._set(FIRST_ROW + s)] if row}

    def __eq__(self, other: object) -> bool:
        """Whether two tables have the same sets. Names make no difference."""
        if not isinstance(other, Table):
            return NotImplemented
        return (self._n, self._g, bytes(self._store)) == (other._n, other._g, bytes(other._store))

    def __hash__(self) -> int:
        return hash((self._n, self._g, bytes(self._store)))

    def __reduce__(self) -> Tuple[Any, ...]:
        """For copies and other processes: what comes out of it is accepted by the library anew."""
        return table_of, (type(self), self._n, self._g, bytes(self._store), dict(self._names))

    def __repr__(self) -> str:
        return f"<Table of {self._n} states, {self._g} groups>"


def table_of(kind: Type[Table], n: int, g: int, store: bytes, names: Mapping[int, str]) -> Table:
    """The table of a store's bytes."""
    return kind._of_store(n, g, Store.from_buffer_copy(store), names)


def checked_names(names: Optional[Mapping[int, str]], n: int) -> Dict[int, str]:
    """Names that stand for one state each."""
    kept: Dict[int, str] = {}
    for key, name in (names or {}).items():
        number = whole(key, "the number of a named state")
        if not isinstance(name, str):
            raise TypeError(f"the name of state {number} is a text, not of type {type(name).__name__}")
        if not 0 <= number < n:
            raise ValueError(f"state {number} is named {name!r}, and there is none: the table has {n}")
        if not name or name in kept.values():
            raise ValueError(f"two states are named {name!r}" if name else f"the name of state {number} is empty")
        kept[number] = name
    return kept


# ---- the command, for texts


def the_command() -> str:
    """The command shuntberry that stands with this module, else that in PATH."""
    top = prefix()
    ours: Optional[Path] = top / "bin" / "shuntberry" if top is not None else None
    found = str(ours) if ours is not None and ours.exists() else shutil.which("shuntberry")
    if found is None:
        raise FileNotFoundError("the command shuntberry, which reads texts, is not installed: it is in bin of Shuntberry's archive, and in the Debian package")
    return found


def answer_of(words: List[str], text: str) -> bytes:
    """What the command prints of a text. Only where it ends with 0 is that whole."""
    ran = subprocess.run(words, input=text.encode(), stdout=subprocess.PIPE, stderr=subprocess.PIPE, check=False)
    if ran.returncode == 0:
        return ran.stdout
    said = ran.stderr.decode(errors="replace").strip()
    if ran.returncode == 2:
        raise Mistakes(said)
    raise OSError(f"{' '.join(words)} ended with {ran.returncode}: {said or 'it does not say why'}")
