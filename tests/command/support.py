"""What the tests of the command share: calls, what they must give, and the files of tests/files."""
import atexit
import os
import re
import shutil
import subprocess
import sys
import tempfile
from pathlib import Path

TOP = Path(__file__).resolve().parents[2]
TABLES = TOP / "tests" / "files"
sys.path.insert(0, str(TOP / "tests" / "expected"))
sys.path.insert(0, str(Path(__file__).parent))
PROGRAM = sys.argv[1]
SAFE, UNSAFE, REFUSED, FAILED, NO_RELEASE = range(5)
WORK = Path(tempfile.mkdtemp(prefix="command."))
atexit.register(shutil.rmtree, WORK)
count = 0


class Given:
    """What a call gave."""

    def __init__(self, words, run):
        self.words, self.status = words, run.returncode
        self.out, self.err = run.stdout or b"", run.stderr or b""

    def __str__(self):
        return f"{self.words}: status {self.status}\n{self.out[:2000]!r}\n{self.err[:2000]!r}"


def call(*words, under="shuntberry", **how):
    """Calls the program, under a name, on no input unless one is given."""
    global count
    count += 1
    if "stdin" not in how and "input" not in how:
        how["stdin"] = subprocess.DEVNULL
    if "stdout" not in how:
        how["stdout"] = subprocess.PIPE
    run = subprocess.run([under, *map(os.fspath, words)], executable=PROGRAM, stderr=subprocess.PIPE, timeout=60, **how)
    return Given([under, *words], run)


def need(holds, *said):
    if not holds:
        raise SystemExit("tests/command: " + "\n".join(map(str, said)))


def gives(status, out, *words, err=None, **how):
    """A call ends with a status, any if that is None, prints just this, and says on standard error what is looked for; nothing where that is None."""
    given = call(*words, **how)
    expected = out.encode() if isinstance(out, str) else out
    need(status in (None, given.status), f"expected status {status}", given)
    need(expected is None or given.out == expected, f"expected {expected!r}", given)
    if err is None:
        need(not given.err, "expected nothing on standard error", given)
    else:
        need(re.search(err, given.err.decode(errors="replace")), f"expected {err!r} on standard error", given)
    return given


def group(what):
    """Says that a group is done, and how many calls it had."""
    global count
    print(f"command: {what}: {count} calls as expected", flush=True)
    count = 0


def some(folder, pattern):
    """The files that match, of which there must be some: a loop over none tries nothing."""
    found = sorted(folder.glob(pattern))
    need(found, f"no {pattern} in {folder}")
    return found


def tables():
    """The files of tests/files, with what check prints of each."""
    for path in some(TABLES, "*.table"):
        yield path, path.with_suffix(".expected").read_text()


def status_of(expected):
    """The status that a text of check calls for."""
    first, second = (expected.splitlines() + [""])[:2]
    if first.startswith("refused"):
        return REFUSED
    if first.startswith("states 0 "):
        return NO_RELEASE
    return {"safe": SAFE, "unsafe": UNSAFE, "undecided": NO_RELEASE}[second.split()[0]]


DRAFT = "no states"
