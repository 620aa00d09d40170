"""What the tests of the Python module share: the module as ./dist lays it out in the folder that the first word names, and how a test fails."""
import sys
from pathlib import Path

TOP = Path(__file__).resolve().parents[2]
PREFIX = Path(sys.argv[1]).resolve()
PACKAGE = PREFIX / "share" / "shuntberry" / "python"
TABLES = TOP / "tests" / "files"
sys.path[:0] = [str(PACKAGE), str(TOP / "tests" / "expected"), str(TOP / "tests" / "command")]
import shuntberry  # noqa: E402

count = 0


def need(holds, *said):
    global count
    count += 1
    if not holds:
        raise SystemExit("tests/python: " + "\n".join(map(str, said)))


def same(found, expected, *what):
    need(type(found) is type(expected) and found == expected, *what, f"found {found!r}", f"expected {expected!r}")


def raises(kind, words, call, *arguments, **named):
    """A call raises just this kind of exception, which says the words."""
    try:
        given = call(*arguments, **named)
    except Exception as error:
        need(type(error) is kind, f"{call.__name__}{arguments}{named}: expected {kind.__name__}", f"found {error!r}")
        need(words in str(error), f"{call.__name__}{arguments}{named}: expected {words!r}", f"found {error}")
        return error
    need(False, f"{call.__name__}{arguments}{named}: expected {kind.__name__}, given {given!r}")


def refused(number, call, *arguments, **named):
    error = raises(shuntberry.Refused, f"refused {number}: ", call, *arguments, **named)
    need(error.number == number and error.ground, "no ground")


def group(what):
    """Says that a group is done."""
    global count
    print(f"python: {what}: {count} facts as expected", flush=True)
    count = 0
