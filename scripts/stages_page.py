"""The stages of ./test with their cases, as the scripts themselves say them: the page audit/tests.md."""
import re
import subprocess
from pathlib import Path
from typing import NamedTuple

TOP = Path(__file__).resolve().parents[1]
CASE = re.compile(r"# ---- (?!set-up: )([a-z][a-z0-9-]*): (.*\S)")  # as tests/cases reads them
BY_CASES = '/../cases"'


class Stage(NamedTuple):
    name: str
    about: str
    cases: list  # of name, words and place


def cases(name):
    """Those of tests/NAME/run; a script that is not made of cases has none."""
    script = TOP / "tests" / name / "run"
    text = script.read_text() if script.is_file() else ""
    found = ((number, CASE.fullmatch(line)) for number, line in enumerate(text.splitlines(), 1))
    return [(case.group(1), case.group(2), f"{script.relative_to(TOP)}:{number}") for number, case in found if case] if BY_CASES in text else []


def stages():
    said = subprocess.run([TOP / "test", "--list"], capture_output=True, text=True, check=True).stdout
    parts = (line.split(None, 1) for line in said.splitlines())
    return [Stage(name, about.removesuffix(" (quick)"), cases(name)) for name, about in parts]


def unknown(text, every):
    """The stages that a table row of the page's head names and ./test does not have."""
    names = {stage.name for stage in every}
    rows = (line.rpartition(" | ")[2] for line in text.splitlines() if line.startswith("| ") and " | stages |" not in line)
    return sorted({name for row in rows for name in re.findall(r"`([^`]+)`", row)} - names)


def lines(every):
    for stage in every:
        yield from (f"## {stage.name}", "", f"{stage.about[0].upper()}{stage.about[1:]}.", "")
        yield from (f"- `{name}` ({place}): {words}" for name, words, place in stage.cases)
        yield from ([""] if stage.cases else [])
