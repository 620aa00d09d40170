"""The shared library: where it is found, and its calls.

Numbers go to it through `call` alone, which takes none that its C type cannot hold: ctypes would cut it.
"""
from __future__ import annotations

import ctypes
import operator
import os
import sys
from ctypes import POINTER, c_size_t, c_uint32
from pathlib import Path
from typing import Any, Callable, Dict, Iterator, List, Optional, Tuple

from ._raw import CALLS, MAX_ALLOWANCE, MAX_FAN_OUT, MAX_SITE, MAX_STATES, MAX_TIME
from ._version import __version__

MAJOR = __version__.split(".")[0]
#: The library's name where it is no ELF file. Such a file has no versions of symbols: there it is asked for its own alone.
ELSEWHERE = {"win32": "shuntberry.dll", "darwin": "libshuntberry.dylib"}
IS_ELF = sys.platform not in ELSEWHERE
FILE_NAME = ELSEWHERE.get(sys.platform, f"libshuntberry.so.{MAJOR}")
#: The version under which a library of this major exports its calls.
SYMBOL_VERSION = f"SHUNTBERRY_{MAJOR}"
#: Names a library where none is found beside the module or by the system's loader.
VARIABLE = "SHUNTBERRY_LIBRARY"

# ---- Numbers that C can hold

NUMBERS = (c_size_t, c_uint32)
#: The greatest number of a parameter, where there is one: what a number is told of that C cannot hold.
GREATEST = {
    "site": MAX_SITE, "n": MAX_STATES, "allowance": MAX_ALLOWANCE, "fan_out": MAX_FAN_OUT, "time": MAX_TIME, "source": MAX_STATES - 1, "target": MAX_STATES - 1}
#: The parameters that have another name here, since Python has the header's for itself.
NAMED = {"from": "source", "to": "target"}


def whole(value: object, what: str) -> int:
    """The whole number that a value is. A bool is none: a yes or no in a number's place is a mistake."""
    if isinstance(value, bool):
        raise TypeError(f"{what} is a whole number, not {value}")
    try:
        return operator.index(value)  # type: ignore[arg-type]
    except TypeError:
        raise TypeError(f"{what} is a whole number, not of type {type(value).__name__}") from None


def fitting(value: object, kind: Any, what: str) -> int:
    """A number that a C type holds; ctypes would cut any other."""
    number, greatest = whole(value, what), (1 << 8 * ctypes.sizeof(kind)) - 1
    if not 0 <= number <= greatest:
        raise OverflowError(f"{what} is {number}: it goes from 0 to {GREATEST.get(what, greatest)}")
    return number


# ---- Where it is


def prefix() -> Optional[Path]:
    """The folder in which bin, lib and share stand, where the module is in such a one: that of the archive, or a prefix."""
    package = Path(__file__).resolve().parent
    layout = Path("share", "shuntberry", "python", package.name)
    above = len(layout.parts) - 1
    return package.parents[above] if package.parts[-len(layout.parts):] == layout.parts else None


def beside() -> Iterator[Path]:
    """Where the library stands that came with the module: in its own folder, or in lib of the archive's."""
    yield Path(__file__).resolve().with_name(FILE_NAME)
    top = prefix()
    if top is not None:
        yield top / "lib" / FILE_NAME


def opened(name: str) -> ctypes.CDLL:
    return ctypes.CDLL(name, mode=getattr(os, "RTLD_NOW", 0) | getattr(os, "RTLD_LOCAL", 0))  # Windows has neither


def found() -> Tuple[ctypes.CDLL, str]:
    """The library and its name. One that stands beside the module and cannot be loaded is an error: no other is taken in its place."""
    for path in beside():
        if os.path.lexists(path):
            try:
                return opened(str(path)), str(path)
            except OSError as error:
                raise ImportError(f"shuntberry: {path} came with this module and cannot be loaded: {error}. Install Shuntberry anew") from error
    try:
        return opened(FILE_NAME), FILE_NAME
    except OSError as error:
        missing = error
    named = os.environ.get(VARIABLE)
    if not named:
        raise ImportError(
            f"shuntberry: no {FILE_NAME}, neither beside the module nor where the system looks ({missing}): install it, or name it in {VARIABLE}")
    try:
        return opened(os.path.abspath(named)), named
    except OSError as error:
        raise ImportError(f"shuntberry: {VARIABLE} names {named}, which cannot be loaded: {error}") from error


# ---- The calls of the one that was found


def versioned(library: ctypes.CDLL) -> Callable[[str], Optional[int]]:
    """Where an ELF library has a symbol of this major."""
    try:
        look_up = ctypes.CDLL(None).dlvsym
    except AttributeError:
        raise ImportError("shuntberry: it takes the GNU C library, and this Python runs on another") from None
    look_up.argtypes, look_up.restype = [ctypes.c_void_p, ctypes.c_char_p, ctypes.c_char_p], ctypes.c_void_p

    def address_of(symbol: str) -> Optional[int]:
        address: Optional[int] = look_up(library._handle, symbol.encode(), SYMBOL_VERSION.encode())
        return address

    return address_of


def unversioned(library: ctypes.CDLL) -> Callable[[str], Optional[int]]:
    """Where any other library has a symbol."""
    return lambda symbol: ctypes.cast(getattr(library, symbol), ctypes.c_void_p).value if hasattr(library, symbol) else None


def addresses(library: ctypes.CDLL, name: str) -> Iterator[Tuple[str, int]]:
    """Where each call stands that the library exports under this major; one that lacks a call is another version."""
    look_up = versioned(library) if IS_ELF else unversioned(library)
    for call_name in CALLS:
        address = look_up(f"shuntberry_{call_name}")
        if not address:
            raise ImportError(
                f"shuntberry: {name} has no shuntberry_{call_name} of version {MAJOR}: this module is {__version__}, and takes the library of its version")
        yield call_name, address


def bound(library: ctypes.CDLL, name: str) -> Dict[str, Callable[..., Any]]:
    """The calls as functions. They let other threads run meanwhile."""
    functions: Dict[str, Callable[..., Any]] = {}
    for call_name, address in addresses(library, name):
        answer, parameters = CALLS[call_name]
        functions[call_name] = ctypes.CFUNCTYPE(answer, *(kind for _, kind in parameters))(address)
    return functions


def of_this_version(functions: Dict[str, Callable[..., Any]], name: str) -> Dict[str, Callable[..., Any]]:
    """The calls, if the library says the number of this module. Its file and its symbols may have that of another."""
    found = functions["version"]()
    if found != int(MAJOR):
        raise ImportError(f"shuntberry: {name} is of version {found}: this module is {__version__}, and takes the library of its version")
    return functions


class Symbol(ctypes.Structure):
    """What dladdr says of an address."""

    _fields_ = [("file", ctypes.c_char_p), ("base", ctypes.c_void_p), ("name", ctypes.c_char_p), ("address", ctypes.c_void_p)]


def file_of(library: ctypes.CDLL, name: str) -> str:
    """The file that the calls are from: the loader looks for a name without a folder in many."""
    files = {file_on_windows(library)} if sys.platform == "win32" else {file_at(address) for _, address in addresses(library, name)}
    if None in files:
        raise ImportError(f"shuntberry: the system does not say which file {name} is")
    if len(files) != 1:
        raise ImportError(f"shuntberry: the calls of {name} are from several files: {', '.join(sorted(map(str, files)))}")
    return os.path.abspath(str(files.pop()))


def file_at(address: int) -> Optional[str]:
    look_up = ctypes.CDLL(None).dladdr
    look_up.argtypes, look_up.restype = [ctypes.c_void_p, POINTER(Symbol)], ctypes.c_int
    symbol = Symbol()
    return os.fsdecode(symbol.file) if look_up(address, ctypes.byref(symbol)) and symbol.file else None


def file_on_windows(library: ctypes.CDLL) -> Optional[str]:
    look_up = getattr(ctypes, "WinDLL")("kernel32").GetModuleFileNameW
    look_up.argtypes, look_up.restype = [ctypes.c_void_p, ctypes.c_wchar_p, c_uint32], c_uint32
    said = ctypes.create_unicode_buffer(1 << 15)  # no name is longer
    return said.value if 0 < look_up(library._handle, said, len(said)) < len(said) else None


_LIBRARY, _NAME = found()
_FUNCTIONS = of_this_version(bound(_LIBRARY, _NAME), _NAME)
#: The file that was loaded.
LIBRARY = file_of(_LIBRARY, _NAME)


def call(name: str, *arguments: Any) -> Any:
    """What a call answers. A buffer goes in as an array, and its length with it."""
    _, parameters = CALLS[name]
    given: List[Any] = []
    for argument in arguments:
        what, kind = parameters[len(given)]
        if kind in NUMBERS:
            given.append(fitting(argument, kind, NAMED.get(what, what)))
        elif isinstance(argument, ctypes.Array):
            given += [argument, len(argument)]
        else:
            given.append(argument)
    return _FUNCTIONS[name](*given)
