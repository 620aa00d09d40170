"""What the refusals of the library are members of."""
from __future__ import annotations

import enum


class Ground(enum.IntEnum):
    """A number with its words."""

    ground: str

    def __new__(cls, number: int, ground: str) -> Ground:
        refusal = int.__new__(cls, number)
        refusal._value_ = number
        refusal.ground = ground
        return refusal
