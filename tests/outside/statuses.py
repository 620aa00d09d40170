"""How the C examples decide and release end on a file of tests/files: by the text that is expected of it, and by its
own text, as the specification reads it."""
import sys
from pathlib import Path

sys.path.insert(0, str(Path(__file__).resolve().parents[1] / "expected"))
import spec  # noqa: E402

SAFE, UNSAFE, REFUSED, FAILED, EMPTY = range(5)


def printed_status(text):
    """What the three lines say, or the line of a refusal."""
    first, _, second = text.partition("\n")
    if first.startswith("refused "):
        return REFUSED
    if first.startswith("states 0 "):
        return EMPTY
    return {"safe": SAFE, "unsafe": UNSAFE}[second.split()[0]]


def is_vacuous(path):
    """Whether nothing is initial or nothing forbidden in a table that has states."""
    text = path.with_suffix(".txt")
    if not text.exists():
        return False
    lines = [line.split() for line in text.read_text().splitlines()]
    n = int(next(words[1] for words in lines if words[:1] == ["states"]))
    of = lambda fact: {int(word) for words in lines if words[:1] == [fact] for word in words[1:] if word != "none"}  # noqa: E731
    steps = {(int(words[1]), int(word)) for words in lines if words[:1] == ["step"] for word in words[3:] if word != "none"}
    table = spec.Table(n, of("initial"), of("forbidden"), steps, [], of("resting"))
    return n > 0 and not (table.initial and table.forbidden())


def status_of(path):
    status = printed_status(path.with_suffix(".expected").read_text())
    return EMPTY if status == SAFE and is_vacuous(path) else status


def for_site(file, site):
    """The bytes of a file for site 0 as they are for another site, to which each check adds it."""
    block, prime = 512, 65521
    made = bytearray(file)
    for end in range(block, len(file) + 1, block):
        made[end - 2 : end] = ((int.from_bytes(file[end - 2 : end], "little") + site) % prime).to_bytes(2, "little")
    return bytes(made)
