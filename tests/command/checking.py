#!/usr/bin/env python3
"""check, check-all and release: on every file of tests/files, whole and damaged, held to what tests/expected/spec.py works out."""
import fcntl
import hashlib
import json
import mmap
import os
import random
import re
import resource
import signal
import subprocess
import time

import support
from support import DRAFT, FAILED, NO_RELEASE, PROGRAM, REFUSED, SAFE, TABLES, TOP, UNSAFE, WORK, call, gives, group, need, status_of, tables
import model
import spec

VERSION = (TOP / "VERSION").read_text().strip()
ACCEPTED = [(path, expected) for path, expected in tables() if not expected.startswith("refused")]
RULES = dict(line.split("|", 1) for line in (TOP / "rust/command/refusals.txt").read_text().splitlines() if not line.startswith("#"))


OLD = "this is a file of the old form, of versions 1 to 3: the command rewrite makes a new one of it"
MANY = "the program that wrote the file gave it too many groups"
TEXT = "this looks like a text: check --text reads it, and the command encode makes a file of it"


def refused(number, advice=None):
    """A refusal in words: the ground, and what to do."""
    ground, hint = RULES[str(number)].split("|")
    return f"refused {number}: {ground}; {advice or 'look whether ' + hint}"


def explanation(path, expected, names={}):
    """What is said of a file of tests/files without being asked; nothing of a table that is safe, where that says something."""
    words = expected.split()
    if words[0] == "refused":
        return refused(words[1], (OLD if path.read_bytes()[5] < 128 else MANY) if words[1] == "15" else None)
    if words[1] == "0":
        return "the table has no states, so that nothing is to be released: an empty input is a draft"
    if words[4] == "unsafe":
        return model.why_unsafe(model.table_of(path.with_suffix(".txt").read_text()), int(words[-1]), names)
    return vacuous(path) and remark(vacuous(path))


def just(why, command="check"):
    """Just this on standard error, for gives."""
    return why and "^" + re.escape(f"{command}: {why}\n") + r"\Z"


def vacuous(path):
    """Why it says little that a table is safe, as the page has it."""
    table = model.table_of(path.with_suffix(".txt").read_text()) if path.with_suffix(".txt").exists() else None
    if not table or not table.n or table.initial and table.forbidden():
        return None
    why = "nothing in the table is forbidden" if table.initial else "the table has no initial state"
    return f"{why}, so that it is safe whatever else is in it"


def remark(why):
    return f"{why}; release declines such a table"


# ---- check, on every file

for path, expected in tables():
    status = status_of(expected)
    file = path.read_bytes()
    err = just(explanation(path, expected))
    gives(status, expected, "check", path, err=err)
    gives(status, expected, path, under="/some/where/check", err=err)
    with open(path, "rb") as opened:
        gives(status, expected, "check", stdin=opened, err=err)
    gives(status, expected, under="check", input=file, err=err)
    # a script asks for the status alone; a draft is said, since it is mostly what a command that failed left, and a vacuous table, since its status is 0
    quiet = err if status == NO_RELEASE or vacuous(path) else None
    gives(status, "", "check", "--quiet", path, err=quiet)
found = {explanation(path, expected).split(", ", 1)[1].split(":")[0] for path, expected in tables() if status_of(expected) == UNSAFE}
need(found == {"a hang", "forbidden since it is marked"}, "no path ends in a hang, or none in a marked state", found)
group("check on the files of tests/files")

for path, expected in ACCEPTED:
    file = path.read_bytes()
    if not file:
        continue

    def damaged(at):
        return file[:at] + bytes([255 - file[at]]) + file[at + 1 :]

    size = len(file)
    # 13 is sure: a byte that is off by less than 256 moves the sum by no multiple of the prime
    for number, places in (12, [0, 1, size - 512]), (13, [2, 255, 509, 510, 511, size - 212, size - 1]):
        for at in places:
            gives(REFUSED, f"refused {number}\n", "check", input=damaged(at), err=just(refused(number)))
    gives(REFUSED, "refused 11\n", "check", input=file[:-1], err=just(refused(11)))
    gives(REFUSED, "refused 11\n", "check", input=file + b"\0", err=just(refused(11)))
with open("/dev/zero", "rb") as zeros:
    gives(REFUSED, "refused 11\n", "check", stdin=zeros, err=just(refused(11)))
gives(REFUSED, "refused 11\n", "check", "/dev/zero", err=just(refused(11)))
gives(REFUSED, "", "check", "--quiet", "/dev/zero")
gives(FAILED, "", "check", "--quiet", TABLES / "missing.table", err="No such file")  # a failure is never silent
gives(NO_RELEASE, (TABLES / "empty.expected").read_text(), "check", err=DRAFT)
group("check on damaged files and no input")


# ---- its options

def object_of(expected, why=None, end=None):
    """The object of a text, of why it says little that the table is safe, and of what its path ends in."""
    words = expected.split()
    if words[0] == "refused":
        return {"verdict": "refused", "refusal": int(words[1]), "ground": RULES[words[1]].split("|")[0]}
    found = {"verdict": words[4] if int(words[1]) else "draft", "states": int(words[1]), "groups": int(words[3]), "refinements": int(words[6])}
    if found["verdict"] == "safe":
        found |= {"vacuous": True, "why": why} if why else {"vacuous": False}
    if words[4] == "safe":
        found["invariant"] = sorted(model.numbers(words[9:]))
    elif words[4] == "unsafe":
        found["path"] = [int(word) for word in words[8:]]
        found["ends_in"] = end
    return found


def end_of(path, expected):
    """What the path of an unsafe table ends in."""
    return status_of(expected) == UNSAFE and ("hang" if "a hang" in explanation(path, expected) else "marked")


for path, expected in tables():
    status, err = status_of(expected), just(explanation(path, expected))
    given = gives(status, None, "check", "--json", path, err=err)
    lines, found = model.repairs(model.table_of(path.with_suffix(".txt").read_text()), {}) if status == UNSAFE else ([], {})
    need(given.out.count(b"\n") == 1 and json.loads(given.out) == object_of(expected, vacuous(path), end_of(path, expected)) | found, "other JSON", given)
    given = gives(status, expected, "check", "--explain", path, err=err and err.removesuffix(r"\Z"))
    need(given.err.decode().splitlines()[1:] == [f"check: {line}" for line in lines], lines, given)
    gives(status, "", "check", "--explain", "--quiet", path, err=err if status == NO_RELEASE or vacuous(path) else None)
    text = path.with_suffix(".txt")
    if status != REFUSED:
        gives(status, expected, "check", "--text", text, err=err)
        gives(status, expected, "check", "--names", text, path, err=err)
        given = gives(REFUSED, None, "check", text, err=re.escape(TEXT))
        need(given.out.startswith(b"refused 1"), given)
need({vacuous(path) for path, _ in tables()} > {None} and len({vacuous(path) for path, _ in tables()}) == 3, "no table is vacuous, or not for both reasons")
subprocess.run(["python3", "-m", "json.tool"], input=call("check", "--json", TABLES / "b.table").out, check=True, stdout=subprocess.DEVNULL)

UNDECIDED = "so many refinements do not tell safe from unsafe: check without --allowance, or allow more, up to 512"
for path, expected in ACCEPTED:
    table = model.table_of(path.with_suffix(".txt").read_text())
    most = int(expected.split()[6])
    for allowance in sorted({0, 1, 2, 3, most - 1, most, most + 1, 512} & set(range(513))):
        drafted = model.printed_within(table, allowance) if table.n <= 64 or allowance < 4 else expected if allowance >= most else None
        if drafted is None:
            drafted = f"states {table.n} groups {len(table.groups)}\nundecided refinements {allowance}\n"
        status = status_of(drafted)
        undecided = status == NO_RELEASE and table.n
        gives(status, drafted, "check", "--allowance", str(allowance), path, err=just(UNDECIDED if undecided else explanation(path, expected)))
gives(REFUSED, "refused 13\n", "check", "--allowance", "1", TABLES / "bad-check.table", err=just(refused(13)))
given = gives(NO_RELEASE, None, "check", "--json", "--allowance=2", TABLES / "b.table", err=just(UNDECIDED))
gives(NO_RELEASE, "", "check", "--quiet", "--allowance=2", TABLES / "b.table")
need(json.loads(given.out) == {"verdict": "undecided", "states": 5, "groups": 0, "refinements": 2}, given)

for path, expected in ACCEPTED:
    for site in 1, 7, 65520:
        file = WORK / "site"
        file.write_bytes(model.at_site(path.read_bytes(), site))
        status = status_of(expected)
        gives(status, expected, "check", "--site", str(site), file, err=just(explanation(path, expected)))
        if status != NO_RELEASE:
            # nothing that invites to another site
            gives(REFUSED, "refused 13\n", "check", file, err=just(refused(13)))
            gives(REFUSED, "refused 13\n", "check", "--site", str(site - 1), file, err=just(refused(13)))

# names stand below the three lines, beside the numbers
names = TOP / "examples/pump.txt"
pump = WORK / "pump.table"
gives(SAFE, "", "encode", "-o", pump, names)
plain = call("check", pump).out.decode()
known = dict(line.split()[1:3] for line in names.read_text().splitlines() if line.startswith("state "))
listed = plain.splitlines()[2].split(":")[-1].replace("path", "").split()
below = "".join(f"state {s} {known[s]}\n" for s in listed if s in known)
need(below, "the example has no names")
status = status_of(plain)
for words in ("--names", names, pump), ("--text", names):
    gives(status, plain + below, "check", *words)
    found = json.loads(call("check", "--json", *words).out)
    need(found.pop("names") == {s: known[s] for s in listed if s in known} and found == object_of(plain), found)
gives(REFUSED, "", "check", "--names", TABLES / "a.txt", pump, err="the text of another table")
gives(REFUSED, "refused 13\n", "check", "--names", TABLES / "e.txt", TABLES / "bad-check.table", err=just(refused(13)))
# a screen by its name, in what is said of the end of a path
over = WORK / "over.txt"
over.write_text(names.read_text().replace("end\n", "step running -> over-hard-limit\nend\n"))
gives(UNSAFE, None, "check", "--text", over, err=just("the path ends in 7 over-hard-limit, forbidden since it is marked"))
over.write_text("states 2\nstate 1 stuck\ninitial 0\nforbidden none\nstep 0 -> stuck\nend\n")
gives(UNSAFE, None, "check", "--text", over, err=just("the path ends in 1 stuck, a hang: no step leads out, and it is not resting"))
over.write_text("states 2\nstate 1 stuck\ninitial 0\nforbidden stuck\nstep 0 -> stuck\nend\n")  # marked, and it leads nowhere too
gives(UNSAFE, None, "check", "--text", over, err=just("the path ends in 1 stuck, forbidden since it is marked"))
group("options of check")


# ---- called wrongly: what was expected is named, nothing is printed

def wrong(err, *words, out="", **how):
    gives(FAILED, out, *words, err=err, **how)


E = TABLES / "e.table"
for words in (E, E), ("", E), ("-h",), ("-",), ("--explain", "--explain", E), ("--site", E), ("--site", "x", E), ("--site", "65521", E), (
    "--site", "-1", E), ("--allowance", "513", E), ("--allowance", "", E), ("--quiet", "--json", E), ("--text", "--site", "0", E), (
    "--text", "--names", E, E), ("--site=1=2", E), ("--json=x", E), ("--names",), ("--allowance", "99999999999999999999", E):
    wrong("usage: shuntberry check ", "check", *words)
    wrong("usage: check ", *words, under="check")
wrong("unknown option", "check", b"--names=\xff", E)
wrong("did you mean '--explain'", "check", "--explian", E)
wrong("did you mean '--allowance'", "check", "--alowance", "3", E)
wrong("expected a number from 0 to 512", "check", "--allowance", "600", E)
wrong("did you mean 'check'", "chekc", E, out="failed\n")
wrong("did you mean 'next-open'", "nextopen", out="failed\n")
wrong("no command\nusage", out="failed\n")
wrong("unknown command 'frobnicate'\n", "frobnicate", out="failed\n")
wrong("No such file", "check", "")
wrong("No such file", "check", TABLES / "missing.table", input=E.read_bytes())
wrong("No such file", "check", "/dev/tcp/127.0.0.1/1")
wrong("is a directory", "check", "/")
wrong("No such file", "check", "--", "--explain")

# about itself: with 0 where no 0 can pass for a verdict
for words in ["--help"], ["help"], *(["help", name] for name in "check check-all release report inspect diff within replay options next-open encode decode picture generate rewrite".split()):
    given = gives(SAFE, None, *words)
    need(given.out.startswith(b"usage: shuntberry "), given)
    if len(words) == 2:
        about = gives(FAILED, None, words[1], "--help")
        need(about.out == given.out, about)
        gives(FAILED, f"shuntberry {words[1]} (Shuntberry) {VERSION}\n", words[1], "--version")
        given = gives(FAILED, None, words[1], "--hepl", err="did you mean|unknown option")
        need(given.out == (b"failed\n" if words[1] in "encode decode picture generate rewrite".split() else b""), given)
gives(SAFE, f"shuntberry (Shuntberry) {VERSION}\n", "--version")
for command, usage in ("report", " -o OUT [--site N] [--names TEXT] [--title WORDS] [--released PLACE] [--since OLD] [--old-names TEXT] FILE\n"), ("next-open", " --at DATE-TIME "), ("encode", " [-o OUT]"):  # what must be given has no brackets
    need(usage in call("help", command).out.decode(), f"another usage of {command}", call("help", command))
gives(FAILED, f"check (Shuntberry) {VERSION}\n", "--version", under="check")
given = gives(FAILED, None, "--help", under="check")
need(given.out.startswith(b"usage: check ") and not any(line.startswith((b"safe", b"states")) for line in given.out.splitlines()), given)
wrong("did you mean 'release'", "help", "realease")
wrong("--version goes with no other", "--version", "x")
group("calls that are wrong, help and versions")


# ---- check-all

def line_of(name, expected):
    status = status_of(expected)
    word = {SAFE: "safe", UNSAFE: "unsafe", NO_RELEASE: "draft", REFUSED: expected.strip()}[status]
    return f"{name}: {word}\n"


def summary(statuses, not_checked=0):
    counts = [statuses.count(status) for status in (SAFE, UNSAFE, REFUSED, NO_RELEASE, FAILED)]
    s, d = ("" if number == 1 else "s" for number in (len(statuses), counts[3]))
    return f"{len(statuses)} file{s}: {counts[0]} safe, {counts[1]} unsafe, {counts[2]} refused, {counts[3]} draft{d}, {counts[4]} failed" + f", {not_checked} not checked" * bool(not_checked) + "\n"


def worst(statuses):
    return max(statuses, key=[SAFE, NO_RELEASE, UNSAFE, REFUSED, FAILED].index)


def counted(said, not_checked=0, not_followed=0):
    """The last object of JSON, by the last line."""
    numbers = map(int, re.findall(r"\d+", said))
    return dict(zip(["files", "safe", "unsafe", "refused", "drafts", "failed"], numbers), not_checked=not_checked, not_followed=not_followed)


def checks(*names, how=(), err=None):
    texts = [(TABLES / f"{name}.expected").read_text() for name in names]
    statuses = list(map(status_of, texts))
    paths = [f"{TABLES}/{name}.table" for name in names]
    lines = "".join(map(line_of, paths, texts)) + summary(statuses)
    files = [TABLES / f"{name}.table" for name in names]
    reasons = [explanation(*found) if status_of(found[1]) in (SAFE, REFUSED) else None for found in zip(files, texts)]
    said = "".join(f"check-all: {path}: {why}\n" for path, why in zip(paths, reasons) if why)
    kept = "".join(f"check-all: {path}: {remark(vacuous(path))}\n" for path in files if vacuous(path))
    for more in (), ("--json",):
        given = gives(worst(statuses), None if more else lines, "check-all", *more, *how, *paths, err=err or said and "")
        need(given.err.decode() == said, "other remarks", given)
        quiet = gives(worst(statuses), given.out, "check-all", "--quiet", *more, *how, *paths, err=err or kept and "")
        need(quiet.err.decode() == kept, "other remarks with --quiet", quiet)
    objects = [json.loads(line) for line in given.out.splitlines()]
    need(objects[:-1] == [{"file": os.fspath(path)} | object_of(text, vacuous(path), end_of(path, text)) for path, text in zip(files, texts)], given)
    need(objects[-1] == counted(summary(statuses)), given)


checks("a")
checks("a", "e", "a")
checks("empty")
checks("a", "empty")
checks("empty", "b")
checks("b")
checks("a", "b", "e")
checks("bad-check", "a")
checks("old-e", "b", "a", "empty")
every = [path.stem for path, _ in tables()]
checks(*every)
random.shuffle(every)
checks(*every)
group("check-all on files of tests/files")

# --quiet: no failure is silent, nor what was not checked
quiet = WORK / "quiet"
quiet.mkdir()
for name, place in ("bad-check", "bad.table"), ("a", "other.bin"):
    (quiet / place).write_bytes((TABLES / f"{name}.table").read_bytes())
lines = f"{quiet}/bad.table: refused 13\n{TABLES}/missing: failed\n{summary([REFUSED, FAILED], 1)}"
given = gives(FAILED, lines, "check-all", "--quiet", quiet, TABLES / "missing", err=f"(?m)^check-all: {TABLES}/missing could not be read: No such file")
need(f"check-all: not checked: {quiet}/other.bin\n" in given.err.decode() and b"refused" not in given.err, given)

# folders: what ends in .table, in the order of names, below it too; what is passed over is said
folder = WORK / "folder"
(folder / "deep/er").mkdir(parents=True)
for name, place in ("a", "b.table"), ("b", "a.table"), ("e", "deep/z.table"), ("e", "deep/er/y.table"), ("a", "other.bin"):
    (folder / place).write_bytes((TABLES / f"{name}.table").read_bytes())
os.symlink("..", folder / "deep/loop")
os.mkfifo(folder / "deep/er/pipe.table")
lines = [f"{folder}/a.table: unsafe", f"{folder}/b.table: safe", f"{folder}/deep/er/pipe.table: failed", f"{folder}/deep/er/y.table: safe", f"{folder}/deep/z.table: safe"]
given = gives(FAILED, "\n".join(lines) + "\n5 files: 3 safe, 1 unsafe, 0 refused, 0 drafts, 1 failed, 1 not checked\n", "check-all", folder, err="pipe.table: it is no file")
need(b"1 file whose name does not end in .table was not checked" in given.err, given)
need(b"1 link to a folder was not followed" in given.err, given)
need(f"check-all: not checked: {folder}/other.bin\n" in given.err.decode(), given)
last = json.loads(call("check-all", "--json", folder).out.splitlines()[-1])
need(last == counted("5 files: 3 safe, 1 unsafe, 0 refused, 0 drafts, 1 failed", 1, 1), last)
os.remove(folder / "deep/er/pipe.table")
os.remove(folder / "deep/loop")
gives(UNSAFE, None, "check-all", folder, err="1 file whose name does not end in .table was not checked")
os.remove(folder / "other.bin")
gives(UNSAFE, None, "check-all", folder)
nothing = WORK / "nothing"
nothing.mkdir()
given = gives(FAILED, f"{nothing}: failed\n1 file: 0 safe, 0 unsafe, 0 refused, 0 drafts, 1 failed\n", "check-all", nothing, err="no file in it whose name ends in .table")

# .table in capitals is one; what is spelled otherwise is named, up to ten of them, in the order of names
spelled = WORK / "spelled"
spelled.mkdir()
for name, place in ("a", "a.table"), ("b", ".table"), ("a", ".TABLE"), ("b", "PUMP.TABLE"), ("b", "pump.Table"), ("b", "pump.table "), ("b", "pump.table.txt"), ("b", "two\nlines"):
    (spelled / place).write_bytes((TABLES / f"{name}.table").read_bytes())
lines = [f"{spelled}/.TABLE: safe", f"{spelled}/.table: unsafe", f"{spelled}/PUMP.TABLE: unsafe", f"{spelled}/a.table: safe", f"{spelled}/pump.Table: unsafe",
         "5 files: 2 safe, 3 unsafe, 0 refused, 0 drafts, 0 failed, 3 not checked"]
said = [f"not checked: {spelled}/pump.table ", f"not checked: {spelled}/pump.table.txt", f'not checked: "{spelled}/two\\nlines"',
        f"{spelled}: 3 files whose name does not end in .table were not checked"]
given = gives(UNSAFE, "\n".join(lines) + "\n", "check-all", spelled, err="")
need(given.err.decode() == "".join(f"check-all: {line}\n" for line in said), given)
for i in range(9):
    (spelled / f"{i}.txt").touch()
given = gives(UNSAFE, "\n".join(lines).replace(", 3 not", ", 12 not") + "\n", "check-all", spelled, err="12 files whose name does not end in .table were not checked; 2 of them are not named here\n")
need(given.err.count(b"not checked: ") == 10, given)
last = json.loads(call("check-all", "--json", spelled, folder).out.splitlines()[-1])
need(last == counted("9 files: 5 safe, 4 unsafe, 0 refused, 0 drafts, 0 failed", 12, 0), last)
for place in spelled.iterdir():
    if place.name.lower().endswith(".table"):
        place.unlink()
gives(FAILED, f"{spelled}: failed\n{summary([FAILED], 12)}", "check-all", spelled, err=f"not checked: {spelled}/0.txt\n(.*\n)*.*no file in it whose name ends in .table")

# lists
listed = WORK / "list"
a, b = TABLES / "a.table", TABLES / "b.table"
ENDS = ((), "\n", "line feed"), (("-0",), "\0", "zero byte")
for how, end, called in ENDS:
    listed.write_text(f"{a}{end}{b}{end}")
    gives(UNSAFE, f"{a}: safe\n{b}: unsafe\n{summary([SAFE, UNSAFE])}", "check-all", "--from", listed, *how)
    gives(UNSAFE, f"{a}: safe\n{a}: safe\n{b}: unsafe\n{summary([SAFE, SAFE, UNSAFE])}", "check-all", *how, a, "--from", listed)
    listed.write_text(f"{a}{end}{b}")
    wrong(f"{listed} may be cut: its last name does not end with a {called}\n", "check-all", "--from", listed, *how)
    listed.write_text(f"{a}{end}{end}{b}{end}")
    gives(FAILED, f"{a}: safe\n\"\": failed\n{b}: unsafe\n{summary([SAFE, FAILED, UNSAFE])}", "check-all", "--from", listed, *how, err="No such file")
listed.write_text("")
for words in (), ("--",), ("-0", a), ("--from",), ("-x",), ("--json=1", a), ("--count",), ("--count", "x", a), ("--count", "-1", a), ("--count", "", a), ("--count", "1"), ("--count=1", "--count=1", a):
    wrong("usage: shuntberry check-all", "check-all", *words)
wrong("has no names", "check-all", "--from", listed)
wrong("has no names", "check-all", "--from", listed, a)
wrong("No such file", "check-all", "--from", WORK / "missing", a)

# --count: of words, folders and lists together, as the last line counts them; where it is another, no verdict
# is printed
listed.write_text(f"{a}\n{b}\n")
for count, words in (1, [a]), (3, [a, b, E]), (4, [folder]), (2, ["--from", listed]), (7, [folder, E, "--from", listed]), (1, [nothing]), (1, [TABLES / "missing"]):
    plain = call("check-all", *words)
    given = call("check-all", *words, "--count", str(count))
    need((given.status, given.out, given.err) == (plain.status, plain.out, plain.err) and given.out.splitlines()[-1].startswith(f"{count} file".encode()), given)
    for other in 0, count - 1, count + 1, 10 * count, 2**64 - 1, 2**64:
        if other != count:
            wrong(f"check-all: files to check: {count}, where --count says {min(other, 2**64 - 1)}: none was checked\n$", "check-all", f"--count={other}", *words)
            wrong("none was checked", "check-all", "--json", f"--count={other}", *words)

# a file that is there twice, by whatever name: it could stand in the count for one that is missing
twice = WORK / "twice"
twice.mkdir()
for name in "one.table", "two.table":
    (twice / name).write_bytes(a.read_bytes())
os.symlink(twice / "one.table", WORK / "link.table")
os.link(twice / "two.table", WORK / "hard.table")
(WORK / "one-more").write_text(f"{twice}/one.table\n")
one, two = twice / "one.table", twice / "two.table"
gives(SAFE, None, "check-all", "--count", "2", twice)  # the same bytes are no one file
for words, pair in [
    ([one, one], (one, one)), ([one, twice], (one, one)), ([twice, f"{twice}/./two.table"], (two, f"{twice}/./two.table")), ([twice, twice], (one, one)),
    ([one, "--from", WORK / "one-more"], (one, one)), ([twice, WORK / "link.table"], (one, WORK / "link.table")), ([WORK / "hard.table", two], (WORK / "hard.table", two)),
]:
    number = call("check-all", *words).out.splitlines()[-1].split()[0].decode()
    for more in (), ("--json",), ("--quiet",):
        wrong(f"check-all: {pair[0]} and {pair[1]} are one file, which --count counts once: none was checked\n$", "check-all", *more, "--count", number, *words)
for path in WORK / "link.table", WORK / "hard.table":
    path.unlink()

# a list that was cut at any byte is refused: by itself, or by --count where whole names are left
cuts = WORK / "cuts"
cuts.mkdir()
NAMES = ["a", "ab", "a b", "b", "ab.table", "größe", "-0"]
for name in NAMES:
    (cuts / name).write_bytes((b if name == "b" else a).read_bytes())
found = {"cut": 0, "whole": 0}
for _ in range(50):
    how, end, called = random.choice(ENDS)
    names = random.sample(NAMES, k=random.randrange(1, 6))
    whole = "".join(name + end for name in names).encode()
    listed.write_bytes(whole)
    status = UNSAFE if "b" in names else SAFE
    gives(status, None, "check-all", "--from", listed, *how, "--count", str(len(names)), cwd=cuts)
    for at in range(len(whole)):
        listed.write_bytes(whole[:at])
        if not at or not whole[:at].endswith(end.encode()):
            found["cut"] += 1
            wrong(f"may be cut: its last name does not end with a {called}" if at else "has no names", "check-all", "--from", listed, *how, cwd=cuts)
        else:
            found["whole"] += 1
            left = whole[:at].count(end.encode())
            wrong(f"files to check: {left}, where --count says {len(names)}: ", "check-all", "--from", listed, *how, "--count", str(len(names)), cwd=cuts)
need(min(found.values()) > 50, found)

# lists that are too long cost little: of names, of bytes, and of a name
def little():
    """What 16 MiB take, and no more."""
    resource.setrlimit(resource.RLIMIT_AS, (96 << 20, 96 << 20))


MOST = 16 << 20
for how, end, _ in ENDS:
    end = end.encode()
    for text, why in (end * MOST, "more than 100000 names"), ((b"x" + end) * (MOST // 2), "more than 100000 names"), (b"x" * (MOST - 1) + end, "a name of more than 4095 bytes"), (
        b"x" * MOST + end, "longer than 16777216 bytes"), ((b"x" + end) * 100_001, "more than 100000 names"), (b"y" * 4096 + end, "a name of more than 4095 bytes"):
        listed.write_bytes(text)
        wrong(f"check-all: {listed} has .*{why}", "check-all", "--from", listed, *how, preexec_fn=little)
    listed.write_bytes((b"a" + end) * 100_000)
    need(call("check-all", "--from", listed, *how, cwd=cuts, preexec_fn=little).out.endswith(b"\n100000 files: 100000 safe, 0 unsafe, 0 refused, 0 drafts, 0 failed\n"), "a list of 100000 names")
    listed.write_bytes(b"./" * 2047 + b"a" + end)
    gives(SAFE, None, "check-all", "--from", listed, *how, cwd=cuts)

# files that fail are no drafts, and each is named
lines = f"{a}: safe\n{TABLES}/missing: failed\n\"\": failed\n{b}: unsafe\n{summary([SAFE, FAILED, FAILED, UNSAFE])}"
given = gives(FAILED, lines, "check-all", a, TABLES / "missing", "", b, err=f"check-all: {TABLES}/missing could not be read: No such file")
found = [json.loads(line) for line in call("check-all", "--json", TABLES / "missing").out.splitlines()]
need(found[0]["verdict"] == "failed" and "No such file" in found[0]["why"], found)
for path, expected in ACCEPTED[:5]:
    file = WORK / "site"
    file.write_bytes(model.at_site(path.read_bytes(), 9))
    need(call("check-all", "--site", "9", file).status == status_of(expected), path)
    need(call("check-all", file).status == (REFUSED if file.stat().st_size else NO_RELEASE), path)

# a line for each, whatever the name is
names = {"a b": "a b", "-x": "-x", "--help": "--help", "*": "*", "it's": "it's", "two\nlines": '"two\\nlines"', "\x1b[31mred": '"\\u{1b}[31mred"', "ends: safe": "ends: safe",
         "größe": "größe", '"quoted"': '"\\"quoted\\""', "\u202eright": '"\\u{202e}right"', b"\xff\xfe": '"\\xff\\xfe"'}
place = WORK / "names"
place.mkdir()
for name in names:
    with open(os.path.join(os.fsencode(place), os.fsencode(name)), "wb") as file:
        file.write(b.read_bytes())
lines = "".join(f"{shown}: unsafe\n" for shown in names.values()) + summary([UNSAFE] * len(names))
gives(UNSAFE, lines, "check-all", "--", *names, cwd=place)
listed.write_bytes(b"".join(os.fsencode(name) + b"\0" for name in names))
gives(UNSAFE, lines, "check-all", "-0", "--from", listed, cwd=place)
objects = [json.loads(line) for line in call("check-all", "--json", "--", *names, cwd=place).out.splitlines()]
need([found["file"] for found in objects[:-2]] == list(names)[:-1] and objects[-2]["file_hex"] == "fffe", objects)
for name in names:
    gives(UNSAFE, (TABLES / "b.expected").read_text(), "check", "--", name, cwd=place, err=just("the path ends in 3, forbidden since it is marked"))
# a folder that cannot be looked at, where a file system does not say in its list what is a folder: it has failed, and is not passed over
UNTOLD = r"""
mkdir mnt && mount -o loop disk mnt 2>/dev/null || exit 77
mkdir -p mnt/top/closed/inner && cp "$1" mnt/top/safe.table && cp "$2" mnt/top/closed/inner/unsafe.table && cp "$0" mnt/program || exit 77
chmod 755 mnt mnt/top mnt/program && chmod 744 mnt/top/closed || exit 77
setpriv --reuid 65534 --regid 65534 --clear-groups mnt/program check-all mnt/top
"""
disk = WORK / "untold"
disk.mkdir()
disk.chmod(0o755)
mode = WORK.stat().st_mode
WORK.chmod(0o755)
room = 8192  # KiB, of which the program takes some
made = subprocess.run(["/usr/sbin/mke2fs", "-q", "-F", "-t", "ext2", "-O", "^filetype", disk / "disk", str(room)], stdout=subprocess.DEVNULL, stderr=subprocess.DEVNULL) if os.path.exists("/usr/sbin/mke2fs") and os.geteuid() == 0 else None
ran = made and made.returncode == 0 and subprocess.run(["unshare", "-m", "bash", "-c", UNTOLD, PROGRAM, TABLES / "e.table", TABLES / "b.table"], cwd=disk, stdout=subprocess.PIPE, stderr=subprocess.PIPE)
if not ran or ran.returncode == 77:
    print("skipped: check-all on a file system that does not tell folders: none can be mounted")
else:
    need(ran.returncode == FAILED and b"inner: failed" in ran.stdout and b"cannot be looked at" in ran.stderr, ran)
WORK.chmod(mode & 0o777)
group("check-all on folders, lists and names")

# ---- release: just the bytes that were checked, and only where they are safe and say something

def sum_line(path):
    return f"SHA-256 {hashlib.sha256(path.read_bytes()).hexdigest()}\n"


out = WORK / "released"
for path, expected in tables():
    table = model.table_of(path.with_suffix(".txt").read_text()) if status_of(expected) != REFUSED else None
    vacuous = table is not None and (not table.initial or not table.forbidden())
    for how in (), ("--even-if-vacuous",):
        status = status_of(expected)
        if status == SAFE and vacuous and not how:
            status = NO_RELEASE
        for before in None, b"what was there":
            out.unlink(missing_ok=True)
            if before:
                out.write_bytes(before)
            remark = "no state is marked as forbidden, only hangs are" if table and table.forbidden() and not table.marked else None
            if vacuous and how:
                remark = "look at it: (nothing in the table is forbidden|the table has no initial state), so that it is safe whatever else is in it"
            printed = expected + sum_line(path) if status == SAFE else expected
            unsafe = f"nothing was released: it is unsafe: the path ends in [0-9]+, {'a hang: no step leads out' if end_of(path, expected) == 'hang' else 'forbidden since it is marked'}"
            gives(status, printed, "release", *how, path, out, err=remark if status == SAFE else unsafe if status == UNSAFE else "nothing was released")
            after = out.read_bytes() if out.exists() else None
            need(after == (path.read_bytes() if status == SAFE else before), f"release {path}: another OUT")
need(call("release", TABLES / "g.table", out).err.count(b"no initial state") == 1, "g has no initial state")
need(call("release", TABLES / "last-rests.table", out).err.count(b"nothing in the table is forbidden") == 1, "nothing is forbidden")
file = WORK / "site"
file.write_bytes(model.at_site(a.read_bytes(), 5))
gives(SAFE, (TABLES / "a.expected").read_text() + sum_line(file), "release", "--site", "5", file, out)
need(sum_line(out).split()[1] == subprocess.run(["sha256sum", out], capture_output=True, text=True).stdout.split()[0], "sha256sum says something else")
need(out.read_bytes() == file.read_bytes(), "release of another site")
# what cannot be OUT is found before anything is printed
for target, why in (WORK, "it is no file"), ("/dev/null", "it is no file"), (WORK / "missing/x", "No such file"), ("", "No such file"), (WORK / ("x" * 256), "name too long"), (a / "x", "Not a directory"), (
    f"{WORK}/", "ends with a slash"), (f"{WORK}/free/", "ends with a slash"), (f"{out}/", "Not a directory"), ("/", "ends with a slash"), (f"{WORK}/free/.", "it is no file"), (
    f"{WORK}/free/..", "it is no file"), (f"{WORK}/.", "it is no file"), ("..", "it is no file"):
    for words in ("release", a, target), ("report", a, "-o", target):
        gives(FAILED, "", *words, err=f"could not be written: .*{why}")
    if target != "/dev/null":
        gives(FAILED, None, "encode", "-o", target, TABLES / "a.txt", err=f"could not be written: .*{why}")
need(not (WORK / "free").exists(), "a file under the name of a folder")
os.mkfifo(WORK / "fifo")
gives(FAILED, None, "release", a, WORK / "fifo", err="it is no file")
for words in (), (a,), (a, out, out), ("--json", a, out), ("--text", a, out):
    wrong("usage: shuntberry release", "release", *words)
out.unlink()
gives(FAILED, "", "release", TABLES / "missing", out, err="No such file")
need(not out.exists(), "release of a file that is missing")
gives(REFUSED, "refused 13\n", "release", TABLES / "bad-check.table", WORK / "never", err="nothing was released: it is refused 13: .*damaged, or was made for another site")
gives(REFUSED, "refused 11\n", "release", TABLES / "e.txt", WORK / "never", err=re.escape(TEXT))
# of an old file of another site no message sends to rewrite, which would refuse it
old = (TABLES / "old-e.table").read_bytes()
for site, err in (0, "the command rewrite makes a new one of it"), (7, "rewrite reads for site 0 alone: have it saved anew"):
    file.write_bytes(model.at_site(old, site))
    how = ["--site", str(site), file]
    gives(REFUSED, "refused 15\n", "release", *how, WORK / "never", err=err)
    gives(REFUSED, "refused 15\n", "report", *how, "-o", WORK / "never", err=err)
    gives(REFUSED, "refused 15\n", "check", "--explain", *how, err=err)
    gives(REFUSED, "", "inspect", *how, err=err)
gives(REFUSED, "refused 13\n", "rewrite", file, err="no command reads an old file of another site")
need(not (WORK / "never").exists(), "something was released")
# OUT that standard output goes to is not replaced: with > it was emptied, and is no draft afterwards; with >> it is as it was
for how, before, after in ("wb", b"old", b"failed\n"), ("ab", b"old", b"old"), ("ab", b"", b"failed\n"):
    for words in ("release", a, out), ("report", a, "-o", out), ("encode", "-o", out, TABLES / "a.txt"), ("decode", "-o", out, a), ("picture", "-o", out, a), ("release", a, "/dev/stdout"), ("generate", "-o", "/dev/stdout", "1", "2", "1"):
        out.write_bytes(before)
        with open(out, how) as opened:
            gives(FAILED, None, *words, stdout=opened, err="could not be written: standard output goes there too")
        need(out.read_bytes() == after, f"{words} {how}: {out.read_bytes()[:100]!r}")
        os.link(out, WORK / "linked")
        with open(WORK / "linked", "ab") as opened:
            gives(FAILED, None, *words, stdout=opened, err="standard output goes there too")
        need(out.read_bytes() == after, f"{words} {how}, by another name")
        os.remove(WORK / "linked")
# a write-protected OUT stays, also where the folder lets it be replaced, and for root
for mode in 0o444, 0o400, 0o464, 0o000:
    for words in ("release", a, out), ("report", a, "-o", out), ("encode", "-o", out, TABLES / "a.txt"), ("decode", "-o", out, a):
        out.write_bytes(b"kept")
        os.chmod(out, mode)
        given = gives(FAILED, None, *words, err=f"{out} could not be written: it is write-protected")
        need(b"SHA-256" not in given.out and out.stat().st_mode & 0o777 == mode, given)
        os.chmod(out, 0o600)
        need(out.read_bytes() == b"kept" and not list(WORK.glob(".shuntberry*")), f"{words}: a protected file was replaced")
out.unlink()
# where the verdict cannot be printed nothing is released; nor where the sum cannot, which comes last of all
with open("/dev/full", "wb") as full:
    gives(FAILED, b"", "release", a, out, err="No space left", stdout=full)
need(not out.exists(), "released though nothing was printed")
def stopped_at_sum(then):
    """A release whose verdict just fits into a pipe, so that it waits with the sum; then something happens."""
    support.count += 1
    there, here = os.pipe()
    fcntl.fcntl(here, fcntl.F_SETPIPE_SZ, 2 * mmap.PAGESIZE)
    os.write(here, bytes(mmap.PAGESIZE))
    run = subprocess.Popen(["shuntberry", "release", a, out], executable=PROGRAM, stdout=here, stderr=subprocess.PIPE)
    os.close(here)
    while not list(WORK.glob(".shuntberry*")):  # the new file, which has not its name yet
        need(run.poll() is None, "a release that did not wait")
        time.sleep(0.001)
    time.sleep(0.05)
    need(not out.exists(), "released before the sum was printed")
    then(run, there)
    said = run.stderr.read()
    run.stderr.close()
    return run.wait(), said


status, said = stopped_at_sum(lambda run, there: os.close(there))
need(status == FAILED and b"standard output could not be written: Broken pipe" in said and not out.exists(), status, said)
status, said = stopped_at_sum(lambda run, there: run.terminate())
need(status == -signal.SIGTERM and not out.exists(), status, said)
need(not list(WORK.glob(".shuntberry*")), "a part is left")


def read_all(run, there):
    got = b""
    while part := os.read(there, 1 << 16):
        got += part
    os.close(there)
    need(got.lstrip(b"\0").decode() == (TABLES / "a.expected").read_text() + sum_line(a), got)


need(stopped_at_sum(read_all)[0] == SAFE and out.read_bytes() == a.read_bytes(), "a slow reader of a release")
out.unlink()
os.symlink("behind", WORK / "link")
gives(FAILED, None, "release", a, WORK / "link", err="it is a link to nothing")
(WORK / "behind").write_bytes(b"what was there")
gives(SAFE, None, "release", a, WORK / "link")
need((WORK / "link").is_symlink() and (WORK / "behind").read_bytes() == a.read_bytes(), "release to a link")
need(not list(WORK.glob(".shuntberry*")), "a part is left")
group("release")
