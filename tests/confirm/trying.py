"""What the tests of confirm share: the folders to find things in, and calls of the command."""
import atexit
import os
import random
import shutil
import subprocess
import sys
import tempfile
from pathlib import Path

TOP = Path(__file__).resolve().parents[2]
CONFIRM, TABLES = TOP / "confirm", TOP / "tests" / "files"
sys.path[:0] = [str(TOP / "tests/expected"), str(TOP / "tests/command"), str(Path(__file__).parent)]
WORK = Path(tempfile.mkdtemp(prefix="confirm."))
atexit.register(shutil.rmtree, WORK)
SEED = int(os.environ.get("SEED") or random.randrange(10**6))  # SEED=N tests/confirm/run does the same again
TEXTS = {0: b"confirmed safe: ", 1: b"confirmed unsafe: ", 4: b"confirmed draft: "}


def need(holds, *said):
    if not holds:
        raise SystemExit(f"tests/confirm: SEED={SEED}: " + "\n".join(map(str, said)))


def done(what, count):
    print(f"confirm: {what}: {count} as expected", flush=True)


def call(*words, program=(CONFIRM,), **how):
    how = {"stdout": subprocess.PIPE, "stderr": subprocess.PIPE, "timeout": 60} | ({} if "input" in how else {"stdin": subprocess.DEVNULL}) | how
    return subprocess.run([*program, *words], **how)


def is_whole(run, remark=""):
    """Whether a call that ended by itself printed what its status says, the remark where there is one, and nothing else."""
    if run.returncode in TEXTS:
        first, second, *rest = run.stdout.split(b"\n")
        smallest = b"; that the path is the smallest" if run.returncode == 1 else b""
        return first.startswith(TEXTS[run.returncode]) and second == b"not confirmed: the count of refinements" + smallest and b"\n".join(rest) == remark.encode() and not run.stderr
    return run.returncode == 3 and not run.stdout and run.stderr.startswith(b"confirm: not confirmed: ")
