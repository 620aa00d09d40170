"""Generated from shuntberry.h, which has a comment for each call: do not edit. Constants, structs, calls and refusals."""
from __future__ import annotations

from ctypes import POINTER, Structure, c_size_t, c_uint8, c_uint16, c_uint32, c_uint64
from typing import Any, Dict, List, Tuple

from ._ground import Ground

# ---- Sizes

MAX_STATES = 512  #: the greatest n
MAX_GROUPS = 64  #: the greatest g
MAX_ALLOWANCE = 512  #: the greatest allowance, and that of a release check
SET_WORDS = 8  #: words of a set
HEAD_SETS = 3  #: sets that stand before the groups: initial, marked and resting
STORE_WORDS = 4632  #: the least length of a store, in words
PATH_PLACES = 512  #: the least length of a path buffer, in 16-bit places
UNREACHABLE = 65535  #: the distance of a state from which no forbidden state can be reached
BLOCK_BYTES = 512  #: a file is whole blocks of this many bytes
FILE_BYTES = 37376  #: the length of the largest file, 73 blocks
CHECK_TEXT = 4096  #: the least length of the buffer for the text of a file, in bytes (check)
MAX_SITE = 65520  #: the greatest site number
MAX_FAN_OUT = 16  #: the greatest fan-out of a generated table
MAX_LOG = 32768  #: the greatest length of a pump's log, in bytes: 16,384 entries
POSSIBLE_WORDS = 4096  #: the least length of a buffer of possible steps, in words
MAX_TIME = 2147483647  #: the greatest time, in minutes: 2^31 - 1
MAX_WINDOWS = 32  #: the greatest number of windows
MAX_DAYS = 64  #: the greatest number of closed days

# ---- Where the sets stand in a store, as the index of their first word

INITIAL = 0  #: the initial set
MARKED = 8  #: the marked set: states that are forbidden, whether they are resting or not
RESTING = 16  #: the resting set: states that may lead nowhere

# ---- Refusal numbers

ACCEPTED = 0  #: the call was not refused

# ---- Verdicts

SAFE = 0  #: no forbidden state can be reached from an initial one (decide modal: in no choice)
UNSAFE = 1  #: one can be reached: the path buffer shows how (decide modal: in every choice)
UNDECIDED = 2  #: the allowance was used up before either was known (decide)
DEPENDS = 3  #: none can be reached with the certain steps alone, one can with all possible steps: the path buffer shows how (decide modal)

# ---- What a refused call has in place of an answer

NO_VERDICT = 255  #: for a verdict (decide, decide modal)
NO_ANSWER = 255  #: for a yes or no, 1 or 0: found, within, never
NO_TABLE = 65535  #: for n and g (read). Every call that takes n refuses this one, with 14 unless 10 or 24 comes first
NO_MINUTE = 4294967295  #: for the minute (next open), also if no minute is ever open: later than any that the call gives

# ---- Why a state is forbidden

FORBIDDEN_NOT = 0  #: it is not forbidden
FORBIDDEN_MARKED = 1  #: it is marked, whether it is a hang too or not
FORBIDDEN_HANG = 2  #: it is a hang: it has no successor, and is not resting

# ---- The structs


class Checked(Structure):
    """What shuntberry_check answers."""

    _fields_ = [
        ("length", c_size_t),  # bytes of text at the front of the buffer; of a refused call 0
        ("n", c_size_t),  # the table's number of states; SHUNTBERRY_NO_TABLE where the file or the call is refused
        ("refusal", c_uint32),  # 0, or the number of the refusal of the call itself
        ("file_refusal", c_uint32),  # 0, or the number with which the file is refused; that is an answer, and the text says so
        ("verdict", c_uint32),  # SHUNTBERRY_SAFE or SHUNTBERRY_UNSAFE; SHUNTBERRY_NO_VERDICT where the file or the call is refused
        ("reserved", c_uint32),  # 0
    ]


class Decision(Structure):
    """What shuntberry_decide answers."""

    _fields_ = [
        ("invariant", c_uint64 * 8),  # if safe, a set with the initial states, the successors of each of its states, and no forbidden state; else empty
        ("refusal", c_uint32),  # 0, or the number of the refusal
        ("verdict", c_uint32),  # SHUNTBERRY_SAFE, SHUNTBERRY_UNSAFE or SHUNTBERRY_UNDECIDED; of a refused call SHUNTBERRY_NO_VERDICT
        ("count", c_uint32),  # the number of refinements made
        ("size", c_uint32),  # the number of states in the invariant
        ("steps", c_uint32),  # if unsafe, the number of steps of the path; else 0
        ("reserved", c_uint32),  # 0
    ]


class Shortest(Structure):
    """What shuntberry_shortest_path answers."""

    _fields_ = [
        ("refusal", c_uint32),  # 0, or the number of the refusal
        ("found", c_uint32),  # 1 if there is a path, 0 if there is none; of a refused call SHUNTBERRY_NO_ANSWER
        ("steps", c_uint32),  # the number of its steps, 0 if there is none
    ]


class Within(Structure):
    """What shuntberry_within answers."""

    _fields_ = [
        ("refusal", c_uint32),  # 0, or the number of the refusal
        ("within", c_uint32),  # 1 if there is a path of at most k steps, 0 if there is none; of a refused call SHUNTBERRY_NO_ANSWER
    ]


class Table(Structure):
    """What shuntberry_read answers."""

    _fields_ = [
        ("refusal", c_uint32),  # 0, or the number of the refusal
        ("n", c_uint32),  # the table's number of states; of a refused call SHUNTBERRY_NO_TABLE, so do not use it as the bound of a loop then
        ("g", c_uint32),  # the table's number of groups; of a refused call SHUNTBERRY_NO_TABLE
    ]


class File(Structure):
    """What shuntberry_write answers."""

    _fields_ = [
        ("refusal", c_uint32),  # 0, or the number of the refusal
        ("length", c_uint32),  # the length of the file in bytes, a multiple of 512; 0 for a draft, and of a refused call
    ]


class Replay(Structure):
    """What shuntberry_replay answers."""

    _fields_ = [
        ("refusal", c_uint32),  # 0, or the number of the refusal
        ("followed", c_uint32),  # the number of entries before the first that breaks the walk; all of them if none does
        ("seen", c_uint32),  # the number of different states that those hold
        ("percent", c_uint32),  # 100 times `seen`, divided by the number of states that can be reached; 0 if there are none
        ("remainder", c_uint32),  # what that division leaves; 0 if there are none
    ]


class Set(Structure):
    """A set of states. It is passed and returned by value: no call keeps or changes the caller's own."""

    _fields_ = [
        ("words", c_uint64 * 8),
    ]


class Session(Structure):
    """What the three calls of a session answer, by value."""

    _fields_ = [
        ("reachable", Set),  # the set after the call; of a refused edit the set that it was given, of a refused opening the empty one
        ("refusal", c_uint32),  # 0, or the number of the refusal
        ("reserved", c_uint32),  # 0
    ]


class Modal(Structure):
    """What shuntberry_decide_modal answers."""

    _fields_ = [
        ("invariant", c_uint64 * 8),  # if safe, that of a release check on the possible steps, which is an invariant of every choice; if it depends, that on the certain steps; else empty
        ("refusal", c_uint32),  # 0, or the number of the refusal
        ("verdict", c_uint32),  # SHUNTBERRY_SAFE, SHUNTBERRY_UNSAFE or SHUNTBERRY_DEPENDS; of a refused call SHUNTBERRY_NO_VERDICT
        ("size", c_uint32),  # the number of states in the invariant
        ("steps", c_uint32),  # if unsafe or if it depends, the number of steps of the path; else 0
    ]


class Minute(Structure):
    """What shuntberry_next_open answers."""

    _fields_ = [
        ("refusal", c_uint32),  # 0, or the number of the refusal
        ("never", c_uint32),  # 1 if there is no window, so that no minute is ever open; else 0; of a refused call SHUNTBERRY_NO_ANSWER
        ("minute", c_uint32),  # the first open minute; SHUNTBERRY_NO_MINUTE if there is none, or if the call is refused
    ]


#: What each call answers, and its parameters.
CALLS: Dict[str, Tuple[Any, List[Tuple[str, Any]]]] = {
    "version": (c_uint32, [
    ]),
    "check": (Checked, [
        ("input", POINTER(c_uint8)),
        ("input_len", c_size_t),
        ("site", c_size_t),
        ("text", POINTER(c_uint8)),
        ("text_len", c_size_t),
    ]),
    "decide": (Decision, [
        ("store", POINTER(c_uint64)),
        ("store_len", c_size_t),
        ("n", c_size_t),
        ("g", c_size_t),
        ("allowance", c_size_t),
        ("path", POINTER(c_uint16)),
        ("path_len", c_size_t),
    ]),
    "shortest_path": (Shortest, [
        ("store", POINTER(c_uint64)),
        ("store_len", c_size_t),
        ("n", c_size_t),
        ("g", c_size_t),
        ("path", POINTER(c_uint16)),
        ("path_len", c_size_t),
    ]),
    "distances": (c_uint32, [
        ("store", POINTER(c_uint64)),
        ("store_len", c_size_t),
        ("n", c_size_t),
        ("g", c_size_t),
        ("distances", POINTER(c_uint16)),
        ("distances_len", c_size_t),
    ]),
    "within": (Within, [
        ("store", POINTER(c_uint64)),
        ("store_len", c_size_t),
        ("n", c_size_t),
        ("g", c_size_t),
        ("k", c_size_t),
    ]),
    "read": (Table, [
        ("input", POINTER(c_uint8)),
        ("input_len", c_size_t),
        ("site", c_size_t),
        ("store", POINTER(c_uint64)),
        ("store_len", c_size_t),
    ]),
    "write": (File, [
        ("store", POINTER(c_uint64)),
        ("store_len", c_size_t),
        ("n", c_size_t),
        ("g", c_size_t),
        ("site", c_size_t),
        ("output", POINTER(c_uint8)),
        ("output_len", c_size_t),
    ]),
    "rewrite": (File, [
        ("input", POINTER(c_uint8)),
        ("input_len", c_size_t),
        ("output", POINTER(c_uint8)),
        ("output_len", c_size_t),
    ]),
    "generate": (c_uint32, [
        ("seed", c_uint32),
        ("n", c_size_t),
        ("fan_out", c_size_t),
        ("store", POINTER(c_uint64)),
        ("store_len", c_size_t),
    ]),
    "replay": (Replay, [
        ("store", POINTER(c_uint64)),
        ("store_len", c_size_t),
        ("n", c_size_t),
        ("g", c_size_t),
        ("log", POINTER(c_uint8)),
        ("log_len", c_size_t),
    ]),
    "open": (Session, [
        ("store", POINTER(c_uint64)),
        ("store_len", c_size_t),
        ("n", c_size_t),
        ("g", c_size_t),
    ]),
    "add_step": (Session, [
        ("store", POINTER(c_uint64)),
        ("store_len", c_size_t),
        ("n", c_size_t),
        ("g", c_size_t),
        ("reachable", Set),
        ("from", c_size_t),
        ("to", c_size_t),
    ]),
    "remove_step": (Session, [
        ("store", POINTER(c_uint64)),
        ("store_len", c_size_t),
        ("n", c_size_t),
        ("g", c_size_t),
        ("reachable", Set),
        ("from", c_size_t),
        ("to", c_size_t),
    ]),
    "decide_modal": (Modal, [
        ("store", POINTER(c_uint64)),
        ("store_len", c_size_t),
        ("n", c_size_t),
        ("g", c_size_t),
        ("possible", POINTER(c_uint64)),
        ("possible_len", c_size_t),
        ("path", POINTER(c_uint16)),
        ("path_len", c_size_t),
    ]),
    "next_open": (Minute, [
        ("time", c_size_t),
        ("windows", POINTER(c_uint64)),
        ("windows_len", c_size_t),
        ("closed_days", POINTER(c_uint32)),
        ("closed_days_len", c_size_t),
    ]),
}


class Refusal(Ground):
    """The ground of a refusal: the header's name and number, with its words."""

    __module__ = "shuntberry"

    STORE_SHORT = 10, "the store has under 4,632 words, or the possible steps under 4,096"
    INPUT_LENGTH = 11, "the input's length is no multiple of 512, or over 37,376"
    BLOCK_NUMBER = 12, "a block does not hold its own number"
    BLOCK_CHECK = 13, "a block's stored check is not its check for the site"
    STATES = 14, "n is over 512, or 0 with groups, in a block or in a load"
    GROUPS = 15, "g is over 64, or a file's second number is not g + 32,768, as in the old form"
    BLOCK_COUNT = 16, "the number of blocks is not that of a file with this n and g"
    STRAY_BIT = 17, "a set, the resting one included, holds a state from n up, or a word of an unused group or row is not 0, also of the possible steps"
    FILLER = 18, "a filler byte is not 0"
    OUTPUT_SHORT = 19, "the output is shorter than the file, or in check under 4,096 bytes"
    ALLOWANCE = 20, "the allowance is over 512"
    PATH_SHORT = 21, "the path buffer has under 512 places"
    FAN_OUT = 22, "the fan-out is over 16"
    DISTANCES_SHORT = 23, "the distance buffer has fewer than n places"
    SITE = 24, "the site is over 65,520"
    LOG_ODD = 25, "the log's length is odd"
    LOG_LONG = 26, "the log has over 32,768 bytes"
    STEP_STATE = 27, "a state number of an edit is n or more"
    NOT_POSSIBLE = 28, "a certain step is not possible"
    WINDOW_RANGE = 29, "a window starts past minute 10,079 of the week, or is 0 or over 10,080 minutes long"
    TOO_MANY = 30, "there are over 32 windows or over 64 closed days"
    TIME = 31, "the time is over 2^31 - 1"
