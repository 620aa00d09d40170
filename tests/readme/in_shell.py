"""The lines behind `$` of README.md, in the order of the page: each prints what the page says, and what the page says is what was worked out.

    in_shell.py PREFIX FOLDER      with the commands in PREFIX/bin, in FOLDER, which has examples/
"""
import hashlib
import re
import shutil
import subprocess
import sys
from pathlib import Path

from support import DRAWN, EDITED, NAMES, PUMP, README, TOP, blocks, environment, model, need, run, same, spec

HOME, HERE = sys.argv[1], Path(sys.argv[2])
FILE, REPORT = spec.encode(PUMP), spec.printed(PUMP)
INVARIANT = sorted(spec.decide(PUMP)[2])
need(not model.remarks(PUMP, NAMES), "the example has something to look at")
DRAW = "step {} -> {}".format(*(NAMES[state] for state in DRAWN))
RELEASED = REPORT + f"SHA-256 {hashlib.sha256(FILE).hexdigest()}\n"
CONFIRMED = """confirmed safe: the invariant has every initial state, no forbidden one, no step out, and as many states as it says; the SHA-256 is that of the file
not confirmed: the count of refinements
"""
CHAIN = "shuntberry release pump.table released.table >release.txt && confirm released.table release.txt && shuntberry report released.table -o record.html >report.txt"
MANY = "pump.table: safe\nreleased.table: safe\n2 files: 2 safe, 0 unsafe, 0 refused, 0 drafts, 0 failed\n"
# What each command must print; one that is not among them prints nothing. All end with 0, but for the table that is unsafe.
WORKED_OUT = [
    (r"shuntberry check --text examples/pump\.txt \| head -n 3", REPORT),
    (rf"sed '\$i {re.escape(DRAW)}' examples/pump\.txt \| shuntberry check --text \| head -n 3", spec.printed(EDITED)),
    (r"shuntberry check pump\.table", REPORT),
    (r"cat release\.txt", RELEASED),
    (re.escape(CHAIN), CONFIRMED),
    (r"shuntberry check --names \S+ pump\.table \| tail -n 2", "".join(f"state {state} {NAMES[state]}\n" for state in INVARIANT[-2:])),
    (r"shuntberry inspect --text \S+ \| tail -n 1", "look at nothing in particular\n"),
    (r"shuntberry check-all pump\.table released\.table", MANY),
]


def commands():
    """Each command with what the page says it prints."""
    for block in blocks("console"):
        need(block.startswith("$ "), "a block of the shell does not begin with a command")
        for part in re.split(r"^\$ ", block, flags=re.M)[1:]:
            command, _, output = part.partition("\n")
            yield re.sub(r" {2,}#.*", "", command), output


tried = set()
for command, output in commands():
    expected = [text for pattern, text in WORKED_OUT if re.fullmatch(pattern, command)]
    same(output, "".join(expected), f"README.md after $ {command}")
    status = 1 if spec.printed(EDITED) in expected else 0
    printed = run(["bash", "-o", "pipefail", "-c", command], status, HERE, env=environment(HOME), stdin=subprocess.DEVNULL).decode()
    same(printed, output, f"$ {command}")
    for part in command.split(" && "):
        tried.add(part.split()[0] if not part.startswith("shuntberry") else part.split()[1])
wanted = {"encode", "check", "release", "confirm", "report", "inspect", "picture", "decode", "check-all"}
need(wanted <= tried, f"the page does not show {wanted - tried}")

made = {
    "pump.table": FILE, "released.table": FILE, "again.txt": spec.with_names(spec.text(PUMP), NAMES).encode(), "report.txt": REPORT.encode(),
    "quick.txt": (REPORT + "".join(f"state {state} {NAMES[state]}\n" for state in INVARIANT)).encode(),
}
for name, content in made.items():
    same((HERE / name).read_bytes(), content, name)
record = (HERE / "record.html").read_text()
need(hashlib.sha256(FILE).hexdigest() in record and all(name in (HERE / "pump.dot").read_text() for name in NAMES.values()), "the record or the picture lacks something")

# The chain where the release fails or is declined and an older file is there: nothing is confirmed, and no record is made.
VACUOUS = spec.Table(PUMP.n, set(), PUMP.marked, PUMP.steps, [], PUMP.resting)
for new, status in ((EDITED, 1), (VACUOUS, 4), (None, 3)):
    chained = HERE / "chained"
    chained.mkdir()
    (chained / "released.table").write_bytes(FILE)
    if new is not None:
        (chained / "pump.table").write_bytes(spec.encode(new))
    same(run(["bash", "-c", CHAIN], status, chained, env=environment(HOME), stdin=subprocess.DEVNULL), b"", f"the chain, where release ends with {status}")
    need((chained / "released.table").read_bytes() == FILE and not (chained / "record.html").exists(), "a release that failed is followed by something")
    shutil.rmtree(chained)

# The contributor's first command, in the clone.
FIRST = ["./check", "examples/pump.table"]
need(f"\n    {' '.join(FIRST)} " in README, "the page does not begin with ./check for a contributor")
same(run(FIRST, folder=TOP).decode(), REPORT, "./check examples/pump.table")

# "Tried: two unsafe tables gave a safe one": the first block of the one, the second of the other.
n = 64  # the rows from 60 on stand in the second block
last = n - 1
first = spec.Table(n, {0}, {last}, {(0, last - 1), (last - 1, last)}, [], set(range(n)))
second = spec.Table(n, {0}, {last}, {(0, last), (last - 1, last - 1)}, [], set(range(n)))
mixed = spec.encode(first)[: spec.BLOCK] + spec.encode(second)[spec.BLOCK :]
for file, status in ((spec.encode(first), 1), (spec.encode(second), 1), (mixed, 0)):
    (HERE / "mixed.table").write_bytes(file)
    run([f"{HOME}/bin/shuntberry", "check", "mixed.table"], status, HERE)
(HERE / "mixed.table").unlink()
print(f"readme: {len(list(commands()))} lines of the shell as the page says")
