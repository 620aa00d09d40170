"""Is a forbidden state of a dialogue table reachable, and by which steps? The proved library Shuntberry from Python.

>>> import shuntberry
>>> table = shuntberry.Table(3, initial=[0], marked=[2], steps={0: [0], 1: [2]})
>>> shuntberry.decide(table).is_safe
True

A call that the library refuses raises `Refused`, with number and ground. A number that the library's C types cannot hold raises OverflowError, something of
a wrong type TypeError, a state that no set has room for ValueError: nothing is cut, and nothing that went wrong looks like an answer. An answer is neither
true nor false: look at its `is_safe`. That is false for a table without states, such as an empty file gives, whose `verdict` is `Verdict.SAFE` all the same. It is
true for one in which nothing is initial or nothing is forbidden: release no table that `is_vacuous`.

Tables never change, and calls may be made from several threads at once; they let other threads run meanwhile. A thread needs the stack that the header
names.
"""
from . import _answers, _calls
from ._answers import *  # noqa: F403
from ._calls import *  # noqa: F403
from ._library import LIBRARY
from ._raw import (
    FILE_BYTES, MAX_ALLOWANCE, MAX_DAYS, MAX_FAN_OUT, MAX_GROUPS, MAX_LOG, MAX_SITE, MAX_STATES, MAX_TIME, MAX_WINDOWS, Refusal)
from ._refusals import Mistakes, Refused, UnknownAnswer
from ._tables import State, Steps, Table
from ._version import __version__

__all__ = [
    "FILE_BYTES", "LIBRARY", "MAX_ALLOWANCE", "MAX_DAYS", "MAX_FAN_OUT", "MAX_GROUPS", "MAX_LOG", "MAX_SITE", "MAX_STATES", "MAX_TIME", "MAX_WINDOWS",
    "Mistakes", "Refusal", "Refused", "UnknownAnswer",
    "State", "Steps", "Table",
    "__version__",
]
__all__ += _answers.__all__
__all__ += _calls.__all__
