#!/usr/bin/env python3
"""encode, decode, picture, generate and rewrite: texts, files and loads held to tests/expected/spec.py, load.py and old_files.py; what stands on standard output, or in
OUT, where something is wrong."""
import os
import random
import re
import shutil
import subprocess
import sys
from pathlib import Path

import support
from support import FAILED, NO_RELEASE, PROGRAM, REFUSED, SAFE, TABLES, TOP, UNSAFE, WORK, call, gives, group, need, some, status_of, tables
import load
import model
import old_files
import spec

HERE = Path(__file__).parent
SEED = random.randrange(2**30)
E = TABLES / "e.table"


def python(*words):
    subprocess.run([sys.executable, "-B", *map(str, words)], check=True)


# ---- texts and files: those of tests/files, and random ones

drafts = WORK / "drafts"
drafts.mkdir()
python(HERE / "drafts.py", drafts, SEED, 100)
accepted = []
for text in [*some(TABLES, "*.txt"), *some(drafts, "*.txt")]:
    table, out = text.with_suffix(".table"), WORK / "out"
    accepted.append(table)
    gives(SAFE, text.read_bytes(), "decode", table)
    gives(SAFE, text.read_bytes(), "decode", "--text", text)
    gives(SAFE, table.read_bytes(), "encode", text)
    if table.stat().st_size:
        gives(SAFE, text.read_bytes(), "decode", input=table.read_bytes())
    gives(SAFE, table.read_bytes(), "encode", input=text.read_bytes())
    gives(SAFE, "", "encode", "-o", out, text)
    need(out.read_bytes() == table.read_bytes(), f"encode -o of {text}")
    gives(SAFE, "", "decode", table, "-o", out)
    need(out.read_bytes() == text.read_bytes(), f"decode -o of {table}")
# with its names a text is one of the same table, to be edited and encoded again; so is one that numbers no state
for draft in [*some(drafts, "*.draft"), *some(drafts, "*.ordered")]:
    table, plain = draft.with_suffix(".table"), draft.with_suffix(".txt").read_text()
    gives(SAFE, table.read_bytes(), "encode", draft)
    given = re.findall(r"(?m)^[ ]?state (?:([0-9]+) )?([^\s#]+)", draft.read_text())
    names = {int(number or place): name for place, (number, name) in enumerate(given)}
    named = gives(SAFE, spec.with_names(plain, names), "decode", "--names", draft, table).out
    gives(SAFE, table.read_bytes(), "encode", input=named)
    gives(SAFE, named, "decode", "--text", draft)
    gives(SAFE, named, "decode", "--text", input=named)
    gives(SAFE, named, "decode", "--names", "/dev/stdin", table, input=named)
ordered = (TOP / "examples/pump.txt").read_text().replace("states 9\n", "")
gives(SAFE, call("encode", TOP / "examples/pump.txt").out, "encode", input=re.sub("(?m)^state [0-9]", "state", ordered).encode())
group(f"texts and files both ways, seed {SEED}")

shutil.copy(TOP / "examples/pump.txt", WORK / "pump.txt")


def large(name, n, initial, marked, steps):
    """A table with its text and what check prints, to be drawn in part."""
    table = spec.Table(n, initial, marked, steps, [], set())
    path = WORK / f"{name}.table"
    path.write_bytes(spec.encode(table)), path.with_suffix(".txt").write_text(spec.text(table)), path.with_suffix(".expected").write_text(spec.printed(table))
    return path


ring = lambda n: {(s, (s + 1) % n) for s in range(n)}
chords = lambda n, count: {(random.randrange(n), random.randrange(n)) for _ in range(count)}
large_ones = [
    large("ring60", 60, {0}, {59}, ring(60)), large("ring61", 61, {0}, {60}, ring(61)), large("short", 61, {7}, {9}, ring(61) | chords(61, 90)),
    large("long", 512, {0}, {511}, ring(512)), large("hub", 200, {0}, {1}, ring(200) | {(s, 0) for s in range(200)}), large("hangs", 100, {5}, set(), ring(50)),
    large("safe", 90, {3}, {80}, ring(80) | {(80, 81)} | {(s, 80) for s in range(81, 90)}), large("nothing", 70, set(), set(), ring(70)),
]
python(HERE / "pictures.py", PROGRAM, *accepted, *large_ones)
for path, expected in tables():
    if status_of(expected) == REFUSED:
        for command in "decode", "picture":
            gives(REFUSED, expected, command, path, err=f"^{command}: {path}: {expected.strip()}: ")
gives(REFUSED, "refused 15\n", "decode", TABLES / "old-e.table", err="the command rewrite makes a new one")
need(b"rewrite" not in call("decode", TABLES / "too-many-groups.table").err, "a file with too many groups is taken for an old one")
gives(REFUSED, "refused 11\n", "decode", TABLES / "e.txt", err="looks like a text: check --text reads it, and the command encode makes a file of it")
for site in 1, 65520:
    made = model.at_site((TABLES / "h1.table").read_bytes(), site)
    gives(SAFE, made, "encode", "--site", str(site), TABLES / "h1.txt")
    gives(SAFE, (TABLES / "h1.txt").read_bytes(), "decode", f"--site={site}", input=made)
    for command in "decode", "picture":
        gives(REFUSED, "refused 13\n", command, input=made, err="made for another site: ask who made it, and do not try numbers")
group("files that are refused, and sites")

# ---- generate

for seed in 0, 1, 12345, 4294967295, random.randrange(2**32):
    for n in 1, 2, 61, 255, 256, 511, 512:
        for f in 0, 1, 2, 16:
            gives(SAFE, load.file(seed, n, f), "generate", str(seed), str(n), str(f))
gives(SAFE, load.file(7, 3, 2), "generate", "007", "0003", "02")
gives(SAFE, model.at_site(load.file(7, 30, 2), 9), "generate", "--site", "9", "7", "30", "2")
gives(SAFE, "", "generate", "7", "3", "2", "-o", WORK / "load")
need((WORK / "load").read_bytes() == load.file(7, 3, 2), "generate -o")
much = "9" * 30
for words in [], ["7"], ["7", "3"], ["7", "3", "2", "1"], *([word, "3", "2"] for word in [
    "4294967296", much, "-1", "+7", "", " 7", "7 ", "7x", "0x7", "7.0", "1e3", "7\n", "٧"]), *(["7", word, "2"] for word in ["-1", "", "3x"]), ["7", "3", "+2"]:
    gives(FAILED, "failed\n", "generate", *words, err="usage: shuntberry generate")
for n in "0", "513", "65537", "18446744073709551617", much:
    for f in "2", "17":
        gives(REFUSED, "refused 14\n", "generate", "7", n, f, err="^generate: refused 14: ")
for f in "17", "65536", "18446744073709551616", much:
    gives(REFUSED, "refused 22\n", "generate", "7", "512", f, err="^generate: refused 22: ")
    gives(REFUSED, "", "generate", "7", "512", f, "-o", WORK / "none", err="refused 22")
need(not (WORK / "none").exists(), "a refused load wrote a file")
group("generate")

# ---- rewrite

for path in some(TABLES, "old-*.table"):
    name = path.name.removeprefix("old-")
    new = TABLES / f"rewritten-{name}"
    if new.exists():
        gives(SAFE, new.read_bytes(), "rewrite", path)
        gives(SAFE, new.read_bytes(), "rewrite", input=path.read_bytes())
    else:
        refused = new.with_suffix(".expected").read_text()
        gives(REFUSED, refused, "rewrite", path, err=refused.strip())
stored, drawn = WORK / "stored", WORK / "drawn"
stored.mkdir(), drawn.mkdir()
python(HERE / "stored.py", stored)
olds = sorted(stored.glob("*.old"))
need(len(olds) >= 200, f"only {len(olds)} stored answers")
for path in olds:
    gives(SAFE, "", "rewrite", path, "-o", WORK / "new")
    expected = path.with_suffix(".expected").read_text()
    given = call("check", WORK / "new")
    need((given.status, given.out) == (status_of(expected), expected.encode()), "a rewritten file has another answer", given, expected)
python(HERE / "old_files.py", drawn, SEED, 200)
for path in some(drawn, "*.old"):
    gives(SAFE, path.with_suffix(".new").read_bytes(), "rewrite", path)
    gives(REFUSED, "refused 15\n", "rewrite", path.with_suffix(".new"), err="refused 15")
old = (drawn / "0.old").read_bytes()
for number, file in [
    (11, old[:511]), (11, old + b"x"), (11, bytes(74 * 512)), (12, b"\1" + old[1:]), (13, old[:20] + b"\1" + old[21:]), (14, bytes(512)),
    (16, old + b"\1\0" + bytes(508) + b"\1\0"),
]:
    gives(REFUSED, f"refused {number}\n", "rewrite", input=file, err=f"refused {number}")
(WORK / "empty").write_bytes(b"")
gives(SAFE, "", "rewrite", WORK / "empty")
gives(FAILED, "failed\n", "rewrite", err="standard input is empty")
group("rewrite")

# ---- mistakes: each has its line, standard output has a line that is no file, and what was there stays

bad = WORK / "bad.txt"
bad.write_text("states 3\ninitial 0 7\nforbidden 2\nstep 0 -> up\nend\n")
given = gives(REFUSED, "failed\n", "encode", bad, err="")
need(given.err.decode() == f"{bad}:2: there is no state 7: with states 3 they are 0 to 2\n"
     f"{bad}:4: 'up' is no number, and no line gives a state this name; state N up would\nencode: {bad}: 2 mistakes\n", given)
there = WORK / "there"
shutil.copy(E, there)
gives(REFUSED, "", "encode", "-o", there, bad, err="2 mistakes")
need(there.read_bytes() == E.read_bytes(), "mistakes took away what was there")
gives(REFUSED, "failed\n", "encode", input=bad.read_bytes(), err="standard input:2: ")
gives(REFUSED, "failed\n", "encode", input=b"\x89PNG\r\n\x1a\n", err="UTF-8|control")
gives(REFUSED, "failed\n", "encode", WORK / "empty", err="the text may be cut")
(WORK / "emptied").write_text("end\n")
gives(REFUSED, "failed\n", "encode", WORK / "emptied", err="how many states")
gives(FAILED, "failed\n", "encode", "/dev/zero", err="is longer than")
gives(REFUSED, "refused 11\n", "decode", "/dev/zero", err="refused 11")
for command in "encode", "decode", "picture", "rewrite":
    gives(FAILED, "failed\n", command, err="standard input is empty")
    gives(FAILED, "failed\n", command, TABLES / "missing", err="could not be read: No such file")
    gives(FAILED, "failed\n", command, TABLES, err="could not be read: .*directory")
    gives(FAILED, "failed\n", command, "-o", err="-o needs a value")
    gives(FAILED, "failed\n", command, E, E, err="unexpected argument .*, and -o OUT for what is written")
    gives(FAILED, "failed\n", command, "-o", WORK / "x", E, "-o", WORK / "y", err="twice")
    gives(FAILED, "failed\n", command, "-O", WORK / "x", E, err="unknown option")
for words in ["-o", "x", "encode", E], ["--site", "1", "encode", E], ["encdoe", E], ["encode", "--site", "-o", E], ["encode", "--site", E], ["encode", "--sit", "1", "-o", WORK / "x", E]:
    gives(FAILED, "failed\n", *words, err="usage: ")
need(not (WORK / "x").exists() and not (WORK / "y").exists(), "a call that was wrong wrote a file")
for option in "--site", "--allowance", "--svg":
    gives(FAILED, "failed\n", "rewrite", option, "1", err="unknown option")

# a mistake is said once, on its line, and what was meant; a text that mixes its two forms is none
for text, said in [
    ("state off\nstate over hard limit\ninitial off\nforbidden over-hard-limit\nstep off -> over hard limit\nend\n", ["2: a name has no spaces: state over-hard-limit"]),
    ("state off\nstate home,\ninitial off\nforbidden none\nstep off → home\nend\n", ["2: 'home,' has a comma: "]),
    ("state off\nstate home\ninitial of\nforbidden none\nstep off, home\nend\n", ["3: 'of' is no state: .*; did you mean 'off'\\?", "5: a step is written "]),
    ("states 2\nstate off\nstate home\ninitial off\nforbidden home\nend\n", ["2: line 1 numbers the states, .* by states N and state N NAME, or none of them"]),
    ("state off\nstate 1 home\ninitial off\nforbidden home\nend\n", ["2: line 1 gives a state without a number"]),
    ("state off\ninitial 0\nforbidden none\nend\n", ["2: 0 is a number, .*: write the state's name"]),
]:
    lines = "".join(f"{re.escape(str(bad))}:{line}.*\\n" for line in said)
    bad.write_text(text)
    gives(REFUSED, "failed\n", "encode", bad, err=rf"\A{lines}encode: .*: {len(said)} mistakes?\n\Z")
    gives(REFUSED, "", "check", "--text", bad, err=rf"\A{lines}")
bad.write_text("states 3\ninitial 0 7\nforbidden 2\nstep 0 -> up\nend\n")

# help text: its examples are texts
language = gives(SAFE, None, "help", "text").out.decode()
need(max(map(len, language.splitlines())) <= 110, "help text has long lines")
examples = [part for part in re.findall(r"(?:^(?:    .*)?\n)+", language, re.M) if re.search(r"^    end(?: +#.*)?\n\Z", part.rstrip() + "\n", re.M) and "STATE" not in part]
need(len(examples) == 3, examples)
for example, status, path in zip(examples, [SAFE, SAFE], ["invariant 4: 0 1 2 3", "invariant 2: 0 1"]):
    need(call("encode", input=(example.rstrip() + "\n").encode()).status == SAFE, example)
    need(path in gives(status, None, "check", "--text", input=(example.rstrip() + "\n").encode()).out.decode(), example)
gives(SAFE, "open 2026-12-26 00:00 saturday\nuntil 2026-12-27 12:30 sunday\n", "next-open", "/dev/stdin", "--at", "2026-12-24T13:05", input=(examples[2].rstrip() + "\n").encode())
need(b"help text" in call("help").out, "help does not name help text")

# texts of any length take little time and room: in 400 MB, and in ten seconds of the processor's time, whatever else the machine does
def bounded(text, *words):
    run = subprocess.run(["bash", "-c", 'ulimit -v 400000 -t 10; exec "$@"', "-", PROGRAM, "encode"], input=text + b"\nend\n", capture_output=True)
    need(run.returncode == REFUSED and run.stdout == b"failed\n" and len(run.stderr) < 50_000, run.returncode, run.stderr[:500])
    return run.stderr


need(b"more words" in bounded(b"initial " + b" ".join(b"%d" % i for i in range(400_000))), "400,000 numbers")
need(b"of which the first 100 are shown" in bounded(b"x\n" * 7_000_000), "7 million bad words")
bounded(b"group x y z\n" * 1_300_000)
bounded(b"step 0 -> 1\n" * 1_300_000)
bounded(b"states 5\n" + b"state 1 a\n" * 1_500_000)
bounded(b"state a\n" * 2_000_000)
bounded(b"".join(b"state a b%d\n" % i for i in range(1_000_000)) + b"group b1 b700000 x\n")
bounded(b"".join(b"state s%d\n" % i for i in range(512)) + b"step s1 -> s5x1\n" * 900_000)
bounded(b"step " + b"a->" * 5_000_000)
group("mistakes and long texts")

# ---- texts that were cut: what is left is no text, by whomever it is read

def is_cut(*words, out="failed\n", line="[0-9]+", **how):
    """A call is refused, and standard error says why, and what to add."""
    gives(REFUSED, out, *words, err=rf"\A.*:{line}: the text may be cut: .*; if nothing is missing, add .*\n.*: 1 mistake\n\Z", **how)


# without its last two bytes, or the last one where the line has no end, this was a safe table
thirteen = "states 13\ninitial 0\nstep 0 -> 12\nresting " + " ".join(map(str, range(1, 13))) + "\nforbidden 12\n"
whole, cut = WORK / "whole.txt", WORK / "cut.txt"
whole.write_text(thirteen + "end\n")
gives(UNSAFE, None, "check", "--text", whole, err="^check: the path ends in ")
for length in range(1, len(thirteen) + 4):
    cut.write_text(whole.read_text()[:length])
    is_cut("check", "--text", cut, out="")
for length in len(thirteen), len(thirteen) - 1, len(thirteen) - 2:
    cut.write_text(thirteen[:length])
    for words in ("encode", cut), ("decode", "--text", cut), ("picture", "--text", cut), ("decode", "--names", cut, E):
        is_cut(*words, line=5)
    for words in ("check", "--text", cut), ("inspect", "--text", cut), ("within", "3", "--text", cut), ("options", "--text", cut), ("check", "--names", cut, E):
        is_cut(*words, out="", line=5)
    is_cut("encode", "-o", there, cut, out="")
    need(there.read_bytes() == E.read_bytes(), "a text that was cut took away what was there")
# the example, with a way round in its last line
drawn = spec.longer((TOP / "examples/pump.txt").read_text(), "step running -> over-hard-limit\n").encode()
gives(UNSAFE, None, "check", "--text", input=drawn, err="^check: the path ends in ")
for length in range(1, len(drawn)):
    is_cut("check", "--text", out="", input=drawn[:length])
for behind in b"\n", b" ", b"#", b"end\n", b"step 0 -> 0\n", drawn:
    gives(REFUSED, "", "check", "--text", err="goes on behind its 'end'", input=drawn + behind)
group("texts that were cut")

# ---- pictures: names, titles, and dot, which need not be there

pump = WORK / "pump.table"
call("encode", "-o", pump, TOP / "examples/pump.txt")
graph = gives(SAFE, None, "picture", "--names", TOP / "examples/pump.txt", pump).out.decode()
named = gives(SAFE, None, "picture", "--text", TOP / "examples/pump.txt").out.decode()
for s, name in re.findall(r"^state (\d+) (\S+)", (TOP / "examples/pump.txt").read_text(), re.M):
    need(re.search(rf'label="{s} {re.escape(name)}["\\]', graph) and re.search(rf'label="{s} {re.escape(name)}["\\]', named), f"no {name} in the picture")
gives(REFUSED, "failed\n", "picture", "--names", TABLES / "a.txt", pump, err="the text of another table")
gives(REFUSED, "failed\n", "picture", "--names", bad, pump, err="2 mistakes")
for name, title in ('a"b\\c&amp;', 'a\\"b\\\\c&amp;amp;\\n'), ("two\nlines\x01", '\\"two\\\\nlines\\\\u{1}\\"\\n'):
    path = WORK / name
    shutil.copy(E, path)
    need(title.encode() in call("picture", name, cwd=WORK).out, f"the title of {name!r}")
fakes = WORK / "fakes"
fakes.mkdir()


def dot(commands):
    (fakes / "dot").write_text(f"#!/bin/sh\n{commands}\n")
    os.chmod(fakes / "dot", 0o755)


def drawn_by(status, out, err, place=fakes):
    gives(status, out, "picture", "--svg", E, err=err, env={"PATH": str(place)})


dot('[ "$*" = -Tsvg ] && exec /bin/cat')
drawn_by(FAILED, "failed\n", "what dot printed is no drawing of the table: there are words outside of its labels")
drawn_by(FAILED, "failed\n", "dot of Graphviz, which is not installed", WORK / "nowhere")
for commands in "exit 1", 'echo "<svg/>"; kill -9 $$', "true":
    dot(commands)
    drawn_by(FAILED, "failed\n", "dot could not draw")
    dot(f"/bin/cat >/dev/null; {commands}")
    drawn_by(FAILED, "failed\n", "dot could not draw")
tangled = lambda n, steps: b"layout=sfdp" in call("picture", "--all", "--text", input=(
    f"states {n}\ninitial 0\nforbidden none\n" + "".join(f"step {a} -> {b}\n" for a, b in steps) + "end\n").encode()).out
chain = [(s, s + 1) for s in range(511)]
need(not tangled(512, chain), "a corridor is drawn by layers")
need(tangled(512, chain + [(2 * s, s) for s in range(256)]), "767 steps of 512 states are drawn by forces")
# a table of which there is nothing to explain has no legend, which dot could not draw
bland = WORK / "bland.txt"
bland.write_text("states 2\ninitial none\nforbidden none\nstep 0 -> 1\nstep 1 -> 0\nend\n")
need(b'label=""' in call("picture", "--text", bland).out, "the legend of no kinds")
need(b"40 of 512 states are drawn: the first and the last 20 of the path, with some of their neighbours" in call("picture", WORK / "long.table").out, "a part of a path")
need(b"13 of 90 states are drawn: starts and forbidden ones, with their neighbours" in call("picture", WORK / "safe.table").out, "a part of a safe table")
if shutil.which("dot"):
    need(b"</svg>" in call("picture", "--svg", "--text", bland).out, "a picture without a legend")

    def fits(*words):
        """The layout that was taken, by where the last state lies; the drawing fits A4, upright or across, and has its whole legend on the paper."""
        svg = gives(SAFE, None, "picture", "--svg", *words).out.decode()
        width, height = map(float, re.search(r'<svg width="([\d.]+)pt" height="([\d.]+)pt"', svg).groups())
        need(width <= 510.5 and height <= 666.5 or width <= 757.5 and height <= 411.5, f"{words} is drawn in {width} by {height} points")
        whole = list(map(float, re.search(r'viewBox="0.00 0.00 ([\d.]+) ([\d.]+)"', svg).groups()))
        need(abs(whole[0] / whole[1] - width / height) < 0.02, f"{words} is drawn in another form than it has")
        lines = [(float(x), float(y)) for x, y in re.findall(r'<text [^>]*x="([-\d.]+)" y="([-\d.]+)"[^>]*font-size="12.00"', svg)]
        need(all(0 <= x <= whole[0] and -whole[1] <= y <= 0 for x, y in lines), f"the legend of {words} is not on its paper")
        return width, height

    for path in [*large_ones, TABLES / "largest.table", pump]:
        fits(path)
    fits("--all", WORK / "long.table"), fits("--distances", "--groups", TABLES / "largest.table")
    # of the two ways to lay out layers the one that is larger on the page, as dot draws them for this test too
    on_page = lambda width, height: max(min(510 / width, 666 / height), min(757 / width, 411 / height))
    for path in large("row", 12, {0}, {11}, ring(12) - {(11, 0)}), large("fan", 12, {0}, {11}, {(0, s) for s in range(1, 12)}), pump:
        graph, sizes = call("picture", path).out.decode(), []
        for way in "LR", "TB":
            svg = subprocess.run(["dot", "-Tsvg"], input=graph.replace("rankdir=LR", f"rankdir={way}"), capture_output=True, text=True, check=True).stdout
            sizes.append(on_page(*map(float, re.search(r'viewBox="0.00 0.00 ([\d.]+) ([\d.]+)"', svg).groups())))
        width, height = map(float, re.search(rb'viewBox="0.00 0.00 ([\d.]+) ([\d.]+)"', call("picture", "--svg", path).out).groups())
        need(abs(on_page(width, height) - max(sizes)) < 0.001 or min(on_page(width, height), max(sizes)) >= 1, path, sizes, on_page(width, height))
    # where the second way cannot be drawn, or something else is, there is still the first
    row, box = WORK / "row.table", rb'viewBox="[^"]*"'
    first = subprocess.run(["dot", "-Tsvg"], input=call("picture", row).out, capture_output=True, check=True).stdout
    need(re.search(box, call("picture", "--svg", row).out)[0] != re.search(box, first)[0], "the second way of drawing a row is not the better one")
    for bad in "exit 1", "echo '<svg/>'; exit 0", "kill -9 $$", f"{shutil.which('dot')} -Tsvg <{WORK}/other.dot; exit 0":
        (WORK / "other.dot").write_bytes(call("picture", E).out)
        dot(f'graph=$(/bin/cat); case $graph in *rankdir=TB*|*sfdp*) {bad};; esac; printf "%s" "$graph" | {shutil.which("dot")} "$@"')
        given = gives(SAFE, None, "picture", "--svg", row, env={"PATH": str(fakes)})
        need(re.search(box, given.out)[0] == re.search(box, first)[0] and given.out.count(b"<title>s") == first.count(b"<title>s"), bad)
    for name in "b", "e", "d", "hang", "resting", "empty", "largest":
        for how in (), ("--distances", "--groups"), ("--names", TABLES / f"{name}.txt"):
            given = gives(SAFE, None, "picture", "--svg", *how, TABLES / f"{name}.table")
            need(b"</svg>" in given.out, name)
    for name in 'a"b\\c&amp;', "two\nlines\x01", "two  spaces", "größe", "\u202eright", "x" * 200, "<b>", "it's \\N \\G \\l %d", b"\xff\xfe":
        shutil.copy(E, os.path.join(os.fsencode(WORK), os.fsencode(name)))
        need(b"</svg>" in gives(SAFE, None, "picture", "--svg", "--", name, cwd=WORK).out, name)
    gives(SAFE, None, "picture", "--svg", "--text", TOP / "examples/pump.txt")
else:
    print("skipped: no dot: the pictures were not drawn")
group("pictures")

# ---- the wrong way round: a file where a text is expected, and a text where a file is; each command says what it has got, and what to do

E, TEXT, HOUSE = TABLES / "e.table", TABLES / "e.txt", WORK / "house.txt"
HOUSE.write_text("window monday 22:00 for 6h\nend\n")
OLD_FILE, CUT = TABLES / "old-e.table", WORK / "cut.table"
CUT.write_bytes(E.read_bytes()[:300])
LOG, TEXT_LOG = WORK / "way.log", WORK / "way.txt"
LOG.write_bytes(b"\0\0\1\0\2\0")
TEXT_LOG.write_text("0 0\nend\n")
AT = "--at", "2026-12-24T13:05"


def is_told(status, err, *words):
    """One line on standard error says it, and standard output has no word of an answer."""
    given = gives(status, None, *words, err=re.escape(err))
    need(given.out in (b"", b"failed\n", b"refused 11\n"), "an answer", given)
    lines = given.err.decode().splitlines()
    need(len(lines) == 1 and lines[0].startswith(f"{words[0]}: "), "more than one line", given)


for file in E, OLD_FILE, CUT, TABLES / "bad-check.table":
    leave_out = f"{file}: this looks like a table's file: leave out --text"
    for words in ("check",), ("check", "--quiet"), ("check", "--json"), ("inspect",), ("within", "3"), ("decode",), ("picture",), ("options",):
        is_told(REFUSED, leave_out, *words, "--text", file)
    is_told(REFUSED, leave_out, "replay", "--text", file, LOG)
    for both in (file, TEXT), (TEXT, file):
        is_told(FAILED, leave_out, "diff", "--text", *both)
    is_told(REFUSED, f"{file}: this looks like a table's file already: the command decode makes a text of it", "encode", file)
    for words in ("check",), ("inspect",), ("within", "3"), ("decode",), ("picture",), ("options", "--possible", E), ("report", "-o", WORK / "never"):
        is_told(REFUSED, f"{file}: this looks like a table's file, which holds no names: expected the text of the table", *words, "--names", file, E)
    is_told(REFUSED, f"{file}: this looks like a table's file: expected the text of a house", "next-open", *AT, file)
is_told(REFUSED, f"{TEXT}: this looks like the text of a table: expected that of a house", "next-open", *AT, TEXT)
is_told(REFUSED, f"{LOG}: this looks like a log of two-byte numbers: leave out --text-log", "replay", "--text-log", E, LOG)
is_told(REFUSED, f"{E}: this looks like a table's file, and no log: expected FILE LOG, in this order", "replay", "--text-log", E, E)
is_told(REFUSED, f"{E} looks like one: expected FILE LOG, in this order", "replay", LOG, E)
gives(NO_RELEASE, None, "replay", E, E, err=re.escape(f"{E} looks like a table's file, and no log"))
MAKES = "this looks like a text: check --text reads it, and the command encode makes a file of it"
for words in ("check",), ("inspect",), ("within", "3"), ("decode",), ("picture",), ("options", "--possible", E):
    is_told(REFUSED, MAKES, *words, TEXT)
is_told(REFUSED, MAKES, "replay", TEXT, LOG)
is_told(FAILED, MAKES, "diff", E, TEXT)
for status, words in (REFUSED, ("release", TEXT, WORK / "never")), (REFUSED, ("report", "-o", WORK / "never", TEXT)), (REFUSED, ("rewrite", TEXT)), (FAILED, ("report", "-o", WORK / "never", "--since", TEXT, E)), (
        REFUSED, ("options", "--possible", TEXT, E)):
    is_told(status, MAKES, *words)
gives(REFUSED, None, "check-all", TEXT, err=re.escape(MAKES))
for other in HOUSE, TEXT_LOG, TOP / "README.md":
    is_told(REFUSED, "this looks like a text, but does not begin as that of a table does", "check", other)
# what is a text is read as one, whatever else it looks like, and bytes that are neither are told as neither
noise = WORK / "noise"
noise.write_bytes(b"\x89PNG\r\n\x1a\n" + bytes(range(256)))
for words in ("check", noise), ("check", "--text", noise), ("encode", noise), ("next-open", *AT, noise), ("replay", "--text-log", E, noise):
    given = gives(REFUSED, None, *words, err=".")
    need(b"looks like" not in given.err, "noise looks like something", given)
need(not (WORK / "never").exists(), "something was written")
group("the wrong way round")
