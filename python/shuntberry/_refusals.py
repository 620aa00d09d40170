"""The exceptions of the calls."""
from __future__ import annotations

from ._raw import Refusal


class Refused(Exception):
    """A call that the library refused, by the number of its ground.

    >>> refused = Refused(14)
    >>> refused.number == Refusal.STATES
    True
    >>> Refusal.SITE == 24, Refused(24).ground == Refusal.SITE.ground
    (True, True)
    >>> print(refused)
    refused 14: ...
    """

    __module__ = "shuntberry"

    def __init__(self, number: int) -> None:
        super().__init__(number)
        self.number = number

    @property
    def ground(self) -> str:
        """The ground in words."""
        return next((refusal.ground for refusal in Refusal if refusal == self.number), "no ground that this version of the module knows")

    def __str__(self) -> str:
        return f"refused {int(self.number)}: {self.ground}"

    def __eq__(self, other: object) -> bool:
        return isinstance(other, Refused) and self.number == other.number

    def __hash__(self) -> int:
        return hash(self.number)


class UnknownAnswer(RuntimeError):
    """The library accepted a call, and then answered with something that this version of the module does not know. The proved library never does."""

    __module__ = "shuntberry"


class Mistakes(ValueError):
    """A text of a table has mistakes: each with its line, as the command says them."""

    __module__ = "shuntberry"
