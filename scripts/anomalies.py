"""The known mistakes of past versions, docs/anomalies.txt, held to CHANGELOG.md and docs/DECISIONS.md; `page` is what an auditor reads of them."""
import datetime
import re
from pathlib import Path

TOP = Path(__file__).resolve().parents[1]
FIELDS = ("anomaly", "versions", "mended", "severity", "what", "do", "said", "tried")
SEVERITIES = ("serious", "moderate", "minor")
HEADING = re.compile(r"^## ([0-9.]+), (\d{4}-\d\d-\d\d)$", re.M)


def history():
    """The versions of CHANGELOG.md with their dates, the first one first."""
    return dict(reversed(HEADING.findall((TOP / "CHANGELOG.md").read_text())))


def entries():
    """Each as a list of (field, text)."""
    text = (TOP / "docs/anomalies.txt").read_text()
    blocks = re.split(r"\n\s*\n", "\n".join(line for line in text.splitlines() if not line.startswith("#")).strip())
    return [[tuple(line.split(": ", 1)) if ": " in line else (line, "") for line in block.splitlines()] for block in blocks if block.strip()]


def joined(text):
    return " ".join(text.split())


def untried(text):
    """What is wrong with the test that an entry names."""
    name, _, words = text.partition(": ")
    if name == "none":
        return None if words else "tried: none has no reason"
    if "tests" not in Path(name).parts or ".." in Path(name).parts or not (TOP / name).is_file():
        return f"tried: there is no file {name} in a folder tests"
    return None if words and words in (TOP / name).read_text() else f"tried: {name} does not have: {words}"


def faults():
    dates = history()
    order = list(dates)
    changes = (TOP / "CHANGELOG.md").read_text()
    pages = joined(changes) + joined((TOP / "docs/DECISIONS.md").read_text())
    seen, said = set(), []
    for entry in entries():
        name = entry[0][1]
        if [field for field, _ in entry] != list(FIELDS) or not all(text for _, text in entry):
            yield f"{name or entry[0][0]}: its fields are not {', '.join(FIELDS)}, each with a text"
            continue
        known = dict(entry)
        versions, mended = known["versions"].split(), known["mended"]
        if name in seen:
            yield f"{name}: there are two"
        seen.add(name)
        said.append(joined(known["said"]))
        if known["severity"] not in SEVERITIES:
            yield f"{name}: its severity is none of {', '.join(SEVERITIES)}"
        unknown = [version for version in [*versions, *([] if mended == "none" else [mended])] if version not in order]
        if unknown:
            yield f"{name}: CHANGELOG.md has no version {', '.join(unknown)}"
            continue
        at = [order.index(version) for version in versions]
        end = len(order) if mended == "none" else order.index(mended)
        if at != list(range(at[0], end)):
            yield f"{name}: its versions are not all from {versions[0]} to the last before {mended}"
        if why := untried(known["tried"]):
            yield f"{name}: {why}"
        if joined(known["said"]) not in pages:
            yield f"{name}: neither CHANGELOG.md nor docs/DECISIONS.md says: {known['said']}"
    for bullet in re.findall(r"^- \*\*Mended\*\*:.*?(?=^- |^## |\n\n|\Z)", changes, re.M | re.S):
        if not any(words in joined(bullet) for words in said):
            yield f"CHANGELOG.md says what was mended, and docs/anomalies.txt does not name it: {joined(bullet)[:100]}"


def page(version, date):
    """Those of the version itself first."""
    day = datetime.datetime.fromtimestamp(date, datetime.timezone.utc).strftime("%Y-%m-%d")
    dates, known = history(), [dict(entry) for entry in entries()]
    own = [entry for entry in known if version in entry["versions"].split()]
    yield "# Known anomalies"
    yield ""
    yield f"## Of this version, {version}"
    yield ""
    yield f"As of {day}, the day of its commit: {f'{len(own)} known' if own else 'none known'}. What became known later is in the page of a later version."
    yield ""
    for title, some in (("", own), ("Of earlier versions", [entry for entry in known if entry not in own])):
        yield from ([f"## {title}", ""] if title and some else [])
        for entry in some:
            yield f"### {entry['anomaly']}"
            yield ""
            yield f"- severity: {entry['severity']}"
            yield f"- versions: {', '.join(f'{each} ({dates[each]})' for each in entry['versions'].split())}"
            yield f"- mended: {entry['mended']}"
            yield f"- what: {entry['what']}"
            yield f"- what to do: {entry['do']}"
            yield f"- the test that would find it again, in the repository: {entry['tried']}"
            yield ""
    yield "## What the severities mean"
    yield ""
    yield "Serious: a wrong *safe*, what can be taken for one, or a file that is not checked though the status says that all are. Moderate: a file, a record, a setting or"
    yield "an answer is not what it should be, or something is run that nobody asked for. Minor: all else."
    yield ""
    yield "## Versions"
    yield ""
    yield "Each with the day on which its number was first in the repository. What is made of a later commit has that commit's day in its pages."
    yield ""
    yield from (f"- {each}, {dates[each]}" for each in reversed(list(dates)))
