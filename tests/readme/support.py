"""The blocks of README.md, and the table of examples/pump.txt with what is true of it, worked out by tests/expected/spec.py and tests/command/model.py."""
import os
import re
import subprocess
import sys
from dataclasses import replace
from pathlib import Path

TOP = Path(__file__).resolve().parents[2]
README = (TOP / "README.md").read_text()
sys.path[:0] = [str(TOP / "tests" / "expected"), str(TOP / "tests" / "command")]
import model  # noqa: E402
import spec  # noqa: E402


def fail(why):
    sys.exit(f"{Path(sys.argv[0]).name}: {why}")


def need(holds, why):
    holds or fail(why)


def same(found, expected, what):
    need(found == expected, f"{what}:\n  found    {found!r}\n  expected {expected!r}")


def blocks(language):
    return [found.group(1) for found in re.finditer(rf"^```{language}\n(.*?)^```$", README, re.M | re.S)]


def ten_lines(language):
    """The one block of a language, of at most ten lines."""
    found = blocks(language)
    need(len(found) == 1, f"README.md has {len(found)} blocks of {language}")
    need(len(found[0].splitlines()) <= 10, f"the lines of {language} are more than ten")
    return found[0]


PUMP, NAMES = spec.read_text((TOP / "examples" / "pump.txt").read_text())
STATE = {name: state for state, name in NAMES.items()}
DRAWN = (STATE["running"], STATE["over-hard-limit"])
EDITED = replace(PUMP, steps=PUMP.steps | {DRAWN})
PATH = spec.shortest_path(EDITED)
same((spec.decide(PUMP)[0], spec.decide(EDITED)[0]), ("safe", "unsafe"), "examples/pump.txt before and after the step is drawn")


def run(words, status=0, folder=None, **options):
    """What a command prints, where it ends with this status."""
    ended = subprocess.run(words, cwd=folder, stdout=subprocess.PIPE, stderr=subprocess.PIPE, timeout=600, **options)
    if ended.returncode != status:
        fail(f"{words}: status {ended.returncode}, expected {status}\n{ended.stderr.decode(errors='replace')}")
    return ended.stdout


def environment(home, **more):
    return dict(os.environ, PATH=f"{home}/bin:{os.environ['PATH']}", **more)
