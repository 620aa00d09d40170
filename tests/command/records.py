#!/usr/bin/env python3
"""report: what a record says is what tests/expected/spec.py and model.py work out of the table; the page stands alone, whatever the names are and whatever dot prints;
and there is a whole record or none, whatever goes wrong."""
import hashlib
import html
import os
import random
import re
import resource
import shutil
import signal
import subprocess
import threading
import time
from datetime import datetime, timezone
from html.parser import HTMLParser
from pathlib import Path

import support
from support import FAILED, NO_RELEASE, PROGRAM, REFUSED, SAFE, TABLES, TOP, UNSAFE, WORK, call, gives, group, need, status_of, tables
import drafts
import model
import pictures
import spec
from model import screen

SEED = random.randrange(2**30)
random.seed(SEED)
VERSION = (TOP / "VERSION").read_text().strip()
A, B, E, EMPTY = (TABLES / f"{name}.table" for name in "a b e empty".split())
NOW = "1767225599"  # 2025-12-31T23:59:59Z
out = WORK / "record.html"
fakes = WORK / "fakes"
fakes.mkdir()
NO_DOT = {"PATH": str(WORK / "nowhere"), "SOURCE_DATE_EPOCH": NOW}
FAKE_DOT = NO_DOT | {"PATH": f"{fakes}"}
REAL_DOT = {"PATH": os.environ["PATH"], "SOURCE_DATE_EPOCH": NOW}


# ---- pages

VOID = {"meta"}
PLACES = {  # the elements that a page may have, and their attributes
    "html": {"lang"}, "head": set(), "meta": {"charset", "name", "content", "http-equiv"}, "title": set(), "style": set(), "body": set(), "header": set(),
    "section": {"class"}, "footer": set(), "div": {"class", "role", "aria-label", "tabindex"}, "h1": set(), "h2": set(), "p": {"class"}, "strong": set(),
    "code": set(), "pre": set(), "bdi": set(), "ul": {"class"}, "ol": {"class"}, "li": set(), "table": {"class"}, "thead": set(), "tbody": set(),
    "tr": {"class"}, "th": {"scope"}, "td": {"class"}, "figure": set(), "figcaption": set(),
    "svg": {"role", "aria-label", "width", "height", "viewbox", "style"},
}
LOOKS = {"fill", "stroke", "stroke-width", "stroke-dasharray", "transform"}
WRITING = {"text-anchor", "x", "y", "font-family", "font-weight", "font-style", "font-size"}
PLACED = {"points", "d", "cx", "cy", "rx", "ry", "viewbox"}
# A drawing that was changed at random may have an attribute of place or look at an element where it means nothing.
DRAWN = dict.fromkeys(("g", "polygon", "polyline", "path", "ellipse", "text"), LOOKS | WRITING | PLACED)


class Page(HTMLParser):
    """A page as elements: (name, attributes, [elements and texts])."""

    def __init__(self, text):
        super().__init__(convert_charrefs=True)
        self.open = [("page", {}, [])]
        self.feed(text)
        self.close()
        need(len(self.open) == 1, "elements that are not closed", [element[0] for element in self.open])
        self.root = self.open[0]

    def handle_starttag(self, name, attributes):
        drawn = any(element[0] == "svg" for element in self.open)
        allowed = DRAWN if drawn else PLACES
        need(name in allowed, f"the page has an element {name}")
        for attribute, value in attributes:
            need(attribute in allowed[name], f"{name} has an attribute {attribute}")
            need(not re.search(r"https?:|url\s*\(|javascript|data:|//", value, re.I), f"{name} {attribute} refers to {value}")
        element = (name, dict(attributes), [])
        self.open[-1][2].append(element)
        if name not in VOID:
            self.open.append(element)

    def handle_startendtag(self, name, attributes):
        need(name in DRAWN, f"<{name}/> is none of a drawing's")
        self.handle_starttag(name, attributes)
        self.handle_endtag(name)

    def handle_endtag(self, name):
        need(self.open.pop()[0] == name, f"</{name}> closes something else")

    def handle_data(self, data):
        self.open[-1][2].append(data)

    def handle_comment(self, data):
        need(False, "the page has a comment", data)

    handle_pi = handle_comment

    def handle_decl(self, data):
        need(data == "DOCTYPE html", data)

    unknown_decl = handle_comment


def every(element, name, **having):
    found = []
    for child in element[2]:
        if not isinstance(child, str):
            if child[0] == name and all(child[1].get(key.strip("_")) == value for key, value in having.items()):
                found.append(child)
            found += every(child, name, **having)
    return found


def text_of(element):
    return "".join(child if isinstance(child, str) else text_of(child) for child in element[2])


def section(root, heading):
    found = [part for part in every(root, "section") if text_of(every(part, "h2")[0]) == heading]
    need(len(found) <= 1, f"{heading} stands there twice")
    return found[0] if found else None


def rows(table):
    return [[text_of(cell) for cell in row[2] if not isinstance(cell, str)] for row in every(table, "tr")]


def shown(name):
    """A file's name as the command shows it."""
    return name if name.isprintable() and not name.startswith('"') else None


WORKED_OUT = {}


def worked_out(table):
    """What check prints of a table, and its shortest path, worked out once."""
    if id(table) not in WORKED_OUT:
        WORKED_OUT[id(table)] = table, spec.printed(table), spec.shortest_path(table)
    return WORKED_OUT[id(table)][1:]


def expected_verdict(table):
    if not table.n:
        return "draft", "draft: the table has no states, and nothing is to be released"
    path = worked_out(table)[1]
    if path is None:
        return "safe", "safe: no forbidden state can be reached"
    steps, end = len(path) - 1, "forbidden state" if path[-1] in table.marked else "hang"
    if not steps:
        return "unsafe", f"unsafe: a session can start in a {end}"
    return "unsafe", f"unsafe: a {end} is reached in {steps} step{'s' * (steps != 1)}"


def free_of(source, *words):
    """A page without some free words."""
    for word in filter(None, words):
        source = source.replace(html.escape(word), "")
    return source


def check_page(page, table, path, site=0, names=None, text=None, date="2025-12-31T23:59:59Z (given by SOURCE_DATE_EPOCH, not by the clock)", named=None, title=None, released=None, since=None):
    """A page says of a table what is true, and all of it. Gives what it says of the picture."""
    source = page.decode()
    need(source.startswith("<!DOCTYPE html>\n") and source.endswith("<p>End of the record.</p>\n</footer>\n</body>\n</html>\n"), "a page that is not whole")
    need(not re.search(r"<script|https?:|url\(|@import|@font-face|\bon[a-z]+\s*=", source, re.I), "a page that does not stand alone")
    root = Page(source).root
    names = names or {}
    word, sentence = expected_verdict(table)
    file = path.read_bytes()
    named = shown(str(path)) if named is None else named
    need(text_of(every(root, "title")[0]) == f"{word}: {named}: record of a check by Shuntberry", "the title")
    need([text_of(h) for h in every(root, "h1")] == [sentence], "the verdict", sentence)
    need(every(root, "html")[0][1] == {"lang": "en"}, "the language")
    for other in {"safe", "unsafe", "draft"} - {word}:  # who looks for a word alone finds the right one
        need(other == "draft" and "untouched draft" in source or not re.search(rf"\b{other}\b", free_of(source, named, title, *since or ())), f"a record of {word} says {other}")
    # what was checked
    text_lines = worked_out(table)[0].splitlines()
    facts = {
        "File": named, "SHA-256": hashlib.sha256(file).hexdigest(), "Length": f"{len(file)} bytes", "Site": str(site), "States": str(table.n),
        "Groups": str(len(table.groups)), "Refinements": text_lines[1].split()[-1], "Checked": date,
    }
    if text:
        facts["Names"] = f"from {shown(str(text))}, a text of the same table: the file itself has none to compare them with"
        facts["SHA-256 of that text"] = hashlib.sha256(text.read_bytes()).hexdigest()
    if released:
        facts["Released"] = released
    need([text_of(found) for found in every(every(root, "header")[0], "p", class_="kind")] == ["Record of a check by Shuntberry", *[f"Pump and table, as given: {title}"] * bool(title)], "the words of --title", title)
    need(dict(rows(section(root, "What was checked"))) == facts, rows(section(root, "What was checked")), facts)
    need(all(th[1].get("scope") in ("row", "col") for th in every(root, "th")), "a heading without a scope")
    # remarks, path and invariant
    look = model.remarks(table, names)
    found = section(root, "What to look at")
    need([text_of(item) for item in every(found, "li")] == look, look)
    need(look or "nothing in particular" in text_of(found), "nothing to look at")
    states = [int(state) for state in text_lines[2].split(":")[-1].split() if state.isdigit()]
    heading = {"safe": "Invariant", "unsafe": "Path", "draft": None}[word]
    for other in {"Invariant", "Path"} - {heading}:
        need(section(root, other) is None, f"a record of {word} has the section {other}")
    if heading:
        found = section(root, heading)
        need([text_of(item) for item in every(found, "li")] == [screen(s, names) for s in states], "the states of the", heading)
    end = model.why_unsafe(table, states[-1], names) if word == "unsafe" else None
    headed = [text_of(p) for p in every(every(root, "header")[0], "p") if "path ends" in text_of(p)]
    need(headed == ([f"T{end.removeprefix('t')}."] if end else []), "why the path ends", end, headed)
    need(not end or text_of(every(found, "p")[0]).endswith(f"; {end}."), "why the path ends, beside it", end)
    if word == "unsafe":
        lines, _ = model.repairs(table, names)
        ways = [line.removeprefix("reached: ") for line in lines if line.startswith("reached: ")]
        ways = [f"{way.removesuffix(', ' + end)}: {end}" for way in ways for end in model.END.values() if way.endswith(end)]
        steps = [line.removeprefix("rub out ").replace(", and no", ": no") for line in lines if line.startswith("rub out ")]
        resting = [line.removeprefix("mark ").replace(" as resting", "", 1) + "." for line in lines if line.startswith("mark ")]
        rest = section(root, "Screen to mark as resting")
        need(([text_of(p) for p in every(rest, "p")] if rest else []) == resting, resting, rest)
        need([text_of(item) for item in every(section(root, "Forbidden screens that can be reached"), "li")] == ways, ways)
        need([text_of(item) for item in every(section(root, "Steps to rub out"), "li")] == steps, steps)
        need(("No single step" in text_of(section(root, "Steps to rub out"))) == (not steps), steps)
    else:
        for heading in "Steps to rub out", "Screen to mark as resting", "Forbidden screens that can be reached":
            need(section(root, heading) is None, f"a record of {word} has the section {heading}")
    vacuous = table.n and (not table.initial or not table.forbidden())
    need(("does not release it without --even-if-vacuous" in text_of(every(root, "header")[0])) == bool(vacuous), "vacuous")
    # the screens
    found = section(root, "Screens")
    away, reachable, hangs = model.distances(table), model.reached(table, table.initial), table.dead_ends() - table.resting
    columns = ["State", *["Name"] * bool(text), "Is", *["Groups"] * bool(table.groups), "Reachable", "Distance", "Steps to"]
    lines, steps = [columns], {}
    for a, b in sorted(table.steps):
        step = screen(b, names)
        steps[a] = f"{steps[a]}{',' * bool(text)} {step}" if a in steps else step
    for s in range(table.n):
        kinds = [kind for kind, held in [("initial", table.initial), ("marked", table.marked), ("resting", table.resting), ("hang", hangs)] if s in held]
        groups = " ".join(str(j) for j, held in enumerate(table.groups) if s in held)
        lines.append([str(s), *[names.get(s, "")] * bool(text), ", ".join(kinds), *[groups] * bool(table.groups), "yes" if s in reachable else "no", str(away.get(s, "never")), steps.get(s, "")])
    need(rows(found) == (lines if table.n else []), "the table of screens", rows(found)[:5], lines[:5])
    need([int(row[2][0][2][0]) for row in every(found, "tr", class_="forbidden")] == sorted(table.forbidden()), "the rows of forbidden screens")
    # the program
    need(text_of(every(section(root, "Program"), "code")[0]) == f"shuntberry (Shuntberry) {VERSION}", "the version")
    need("Not proved: the program around the proved call" in text_of(section(root, "Program")), "what is not proved")
    need(("not whether the file was released" in text_of(every(root, "footer")[0])) == (not released), "whether it says something of a release")
    signed = [row[0] for row in rows(section(root, "Signatures"))][1:]
    not_there = bool(released) and released.startswith("no")
    need(signed == (["Checked by", *["Released by"] * (not not_there)] if word == "safe" and not vacuous else ["Seen by"]), "who signs it", signed)
    need((section(root, "What has changed") is None) == (since is None), "what has changed")
    return section(root, "Picture")


def words_of(table, names, title):
    """The lines of words that a picture of the table has, as often as they must stand there: as pictures.py has the labels."""
    word, sentence = expected_verdict(table)
    count = lambda number, what: f"{number} {what}{'s' * (number != 1)}"
    if word == "safe" and not (table.initial and table.forbidden()):
        sentence += ", since nothing is forbidden" if table.initial else ", since no state is initial"
    lines = [title, sentence, f"{count(table.n, 'state')}, {count(len(table.groups), 'group')}"]
    hangs = table.dead_ends() - table.resting
    part, about = part_of(table)
    for s in part:
        kinds = [("forbidden", table.marked), ("hang", hangs), ("resting", table.resting), ("dead end", table.dead_ends() & table.resting)]
        lines += [screen(s, names), ", ".join(kind for kind, held in kinds if s in held), pictures.left_out(s, part, table.steps)]
    lines += ["start"] * len(table.initial & part)
    path = worked_out(table)[1] or []
    lines += [str(k) for k in range(1, len(path)) if {path[k - 1], path[k]} <= part]
    return [line for line in [*lines, about] if line]


def part_of(table):
    """The states that are drawn, and what is said of them."""
    return pictures.part_of(table.n, worked_out(table)[1] or [], table.initial, table.marked | table.dead_ends() - table.resting, table.steps)


def report(*words, env=NO_DOT, **how):
    out.unlink(missing_ok=True)
    return call("report", "-o", out, *words, env=env, **how)


def no_record(given, status, said=None):
    need(given.status == status and not out.exists() and not list(WORK.glob(".shuntberry*")), f"expected status {status} and no record", given)
    need(said is None or re.search(said, given.err.decode(errors="replace")), f"expected {said}", given)


# ---- every file of tests/files, and random ones, without dot

EVERY = [(model.table_of(path.with_suffix(".txt").read_text()), path) for path, expected in tables() if status_of(expected) != REFUSED]
for i in range(40):
    path = WORK / f"{i}.table"
    table = drafts.table()
    path.write_bytes(spec.encode(table))
    EVERY.append((table, path))
status_for = lambda table: {"safe": SAFE, "unsafe": UNSAFE, "draft": NO_RELEASE}[expected_verdict(table)[0]]
for table, path in EVERY:
    given = report(path)
    need(given.status == status_for(table) and given.out.decode() == worked_out(table)[0], given)
    # what check says of a draft and of a vacuous table, and nothing else
    said = gives(None, None, "check", "--quiet", path, err="").err.decode().removeprefix("check: ")
    need(given.err.decode() == (said and f"report: {path}: {said}") and bool(said) == (not table.n or not table.initial or not table.forbidden()), given, said)
    picture = check_page(out.read_bytes(), table, path)
    why = "the program dot of Graphviz is not installed" if table.n else "the table has no states"
    need(text_of(picture).split("Picture")[1].strip() == f"There is no picture: {why}.", text_of(picture))
for path, expected in tables():
    if status_of(expected) == REFUSED:
        given = report(path)
        no_record(given, REFUSED, "there is no record: it is refused")
        need(given.out.decode() == expected, given)
group(f"records of tables, seed {SEED}")

# ---- names and sites

text = WORK / "named.txt"
for table, path in EVERY:
    names = {s: f"screen-{s}" for s in range(table.n) if random.random() < 0.7}
    text.write_text(spec.longer(spec.text(table), "".join(f"state {s} {name}\n" for s, name in names.items())))
    given = report(path, "--names", text)
    need(given.status == status_for(table), given)
    check_page(out.read_bytes(), table, path, names=names, text=text)
site = WORK / "site.table"
site.write_bytes(model.at_site(B.read_bytes(), 77))
table_a, table_b = (model.table_of((TABLES / f"{name}.txt").read_text()) for name in "ab")
need(report(site, "--site", "77").status == UNSAFE, "a file of another site")
check_page(out.read_bytes(), table_b, site, site=77)
no_record(report(site), REFUSED, "refused 13.*ask who made it, and do not try numbers")
no_record(report(B, "--names", TABLES / "a.txt"), REFUSED, "the text of another table")
text.write_text("states x\n")
no_record(report(B, "--names", text), REFUSED, "mistake")
# names of files: as they are, or in quotes with escapes, and never markup
place = WORK / "names"
place.mkdir()
NAMES = {
    "a b.table": None, "<b>bold</b>": None, "</title><script>alert(1)</script>": None, "&lt;&amp;&#60;": None, "\"'>": '"\\"\'>"', "it's": None, "-x": None,
    "-->": None, "]]>": None, "}</style>": None, "{{x}}": None, "two\nlines": '"two\\nlines"', "\x1b[31mred": '"\\u{1b}[31mred"', "\u202eright": '"\\u{202e}right"',
    "größe": None, "שלום": None, b"\xff\xfe<i>": '"\\xff\\xfe<i>"', "%n%s": None, "\\N\\G": None, "x" * 255: None, "unsafe": None,
}
for name, told in NAMES.items():
    path = place / os.fsdecode(name)
    path.parent.mkdir(parents=True, exist_ok=True)
    path.write_bytes(A.read_bytes())
    for env in NO_DOT, REAL_DOT:
        given = report("--", name, cwd=place, env=env)
        need(given.status == SAFE, given)
        picture = check_page(out.read_bytes(), table_a, path, named=told or name)
        if every(picture, "svg"):
            title = told or path.name
            need(text_of(every(picture, "text")[0]) == (title if len(title) <= 40 else title[:40] + ".."), "the title of the picture", name)
group("names of screens and of files")

# ---- pump and table in free words, the place of a release, and what has changed since

place, old = WORK / "place.table", WORK / "old.table"
TITLES = {name: told for name, told in NAMES.items() if len(name) < 255} | {
    "Pump 7, bolus": None, "</p><script>alert(1)</script>": None, "</bdi></header><h1>safe: no forbidden state can be reached</h1>": None, "safe: released": None,
    "x" * 200: None, "\u2028": "", "a\u2028b": '"a\\u{2028}b"', "--": None, "": "", " ": "", "\t\n": "", "x" * 201: "", "<" * 200: None, "--since": None,
}
for words, told in TITLES.items():
    given = report(B, *(("--title", words) if isinstance(words, bytes) else (f"--title={words}",)))
    if told == "":
        no_record(given, FAILED, "--title needs 1 to 200 characters")
        continue
    need(given.status == UNSAFE, given)
    check_page(out.read_bytes(), table_b, B, title=told or words)
no_record(report(A, "--title"), FAILED, "--title needs a value")
no_record(report(A, "--title", "a", "--title", "b"), FAILED, "twice")

TORN = b"other bytes"


def is_released(table, path, said):
    """What the record says of the place, and that no status of 0 and no silence stands beside a no."""
    given = report(path, "--released", place)
    is_no = not said.startswith("to ")
    status = NO_RELEASE if is_no and status_for(table) == SAFE else status_for(table)
    need(given.status == status and given.out.decode() == worked_out(table)[0], given, status)
    told = f"report: {path}: not released{said.removeprefix('no')}\n"
    need((told in given.err.decode()) == is_no and (is_no or not given.err), given, told)
    check_page(out.read_bytes(), table, path, released=said)


VACUOUS = [(table, path) for table, path in EVERY if table.n and (not table.initial or not table.forbidden())]
need({bool(table.initial) for table, _ in VACUOUS} == {True, False}, "no table is vacuous, or not for both reasons")
for table, path in *VACUOUS[:9], (table_a, A), (table_b, B), (model.table_of((TABLES / "empty.txt").read_text()), EMPTY):
    word = expected_verdict(table)[0]
    place.unlink(missing_ok=True)
    is_released(table, path, f"no: there is no {place}")
    place.write_bytes(TORN)
    is_released(table, path, f"no: {place} has other bytes, of the SHA-256 {hashlib.sha256(TORN).hexdigest()}")
    place.write_bytes(path.read_bytes())
    vacuous = word == "safe" and (not table.initial or not table.forbidden())
    is_released(table, path, f"no, but {place} has these bytes, and release declines them without --even-if-vacuous" if vacuous else {
        "safe": f"to {place}, which has the bytes that were checked"}.get(word, f"no, but {place} has these bytes: take it away, it must not be loaded"))
    # a file has its own bytes, by whatever name: that says nothing of a release
    own = path.read_bytes()
    (place.parent / "own.table").unlink(missing_ok=True)
    for name, link in (path, None), ("own.table", os.symlink), ("own.table", os.link), (f"{WORK}/./own.table", os.link):
        if link:
            place.write_bytes(own)
            (WORK / "own.table").unlink(missing_ok=True)
            link(place, WORK / "own.table")
        no_record(report(place if link else path, "--released", name, cwd=WORK), FAILED, "^report: PLACE is FILE itself")
os.symlink("nowhere", WORK / "dangling")
(WORK / "long.table").write_bytes(bytes(37377))
for name, why in (WORK / "dangling", "could not be read"), (TABLES, "could not be read: it is no file"), ("", "could not be read"), (WORK / "long.table", "longer than any"), ("/dev/zero", "could not be read: it is no file"), (f"{A}/x", "could not be read"):
    no_record(report(A, "--released", name), FAILED, why)
need(not report(A, "--released", WORK / "dangling").out, "a verdict before what failed")
need(report(A, "--released", "<b>x\ny").status == NO_RELEASE, "a name")
check_page(out.read_bytes(), table_a, A, released='no: there is no "<b>x\\ny"')

was = {"safe": "In the old table no forbidden state could be reached", "unsafe": "In the old table a forbidden state could be reached", "draft": "The old table had no states"}
pairs = [(random.choice(EVERY), random.choice(EVERY)) for _ in range(25)] + [(one, (table_a, A)) for one in VACUOUS[:9]] + [(EVERY[0], EVERY[0]), ((table_a, A), (table_b, B)), ((table_b, B), (table_a, A))]
for (before, old), (table, path) in pairs:
    given = report(path, "--since", old)
    need(given.status == status_for(table) and given.out.decode() == worked_out(table)[0], given)
    check_page(out.read_bytes(), table, path, since=(str(old),))
    lines = call("diff", old, path).out.decode().splitlines()
    found = section(Page(out.read_text()).root, "What has changed")
    said, sum_ = expected_verdict(before)[0], hashlib.sha256(old.read_bytes()).hexdigest()
    why = "" if said != "safe" or before.initial and before.forbidden() else ", since nothing was forbidden" if before.initial else ", since no state was initial"
    need(text_of(every(found, "p")[0]) == f"Since {old}, of the SHA-256 {sum_}: {lines[-1]}. {was[said]}{why}.", text_of(found))
    shown_lines = [line for pre in every(found, "pre") for line in text_of(pre).split("\n")]
    need(shown_lines == lines[2:-1][:400], shown_lines, lines)
    more = len(lines) - 3 - 400
    need(more <= 0 or f"And {more} more lines, which the command diff prints." in text_of(found), text_of(found)[-200:])
one, two = WORK / "one.txt", WORK / "two.txt"
one.write_text(spec.longer((TABLES / "a.txt").read_text(), "state 0 off\nstate 1 home\n"))
two.write_text(spec.longer((TABLES / "a.txt").read_text(), "state 0 off\nstate 1 menu\n"))
need(report(A, "--since", A, "--old-names", one, "--names", two).status == SAFE, "names of both")
need("~ state 1 home is now named menu" in text_of(section(Page(out.read_text()).root, "What has changed")), "the names of both")
strange = WORK / "<b>old & 'x'\n.table"
strange.write_bytes(B.read_bytes())
need(report(A, "--since", strange).status == SAFE, "a name")
check_page(out.read_bytes(), table_a, A, since=(f'"{WORK}/<b>old & \'x\'\\n.table"',))
for words, why in [
    (("--since", TABLES / "bad-check.table"), "refused 13"), (("--since", TABLES / "e.txt"), "refused 11"), (("--since", WORK / "missing"), "could not be read"), (("--since", ""), "could not be read"),
    (("--since", B, "--old-names", one), "another table"), (("--since", A, "--old-names", TABLES / "bad-check.table"), "looks like a table's file, which holds no names: expected the text of the table"), (("--old-names", one), "--old-names goes with --since"),
    (("--since", site), "refused 13"), (("--since", A, "--since", A), "twice"), (("--since", out), "could not be read"),
]:
    given = report(A, *words)
    no_record(given, FAILED, why)
    need(not given.out, "a verdict before what failed", given)
os.mkfifo(WORK / "pipe")  # nobody writes to it: who reads it waits for ever
os.symlink("pipe", WORK / "to-pipe")
for option in "--released", "--since":
    for name in WORK / "pipe", WORK / "to-pipe", "/dev/null", "/dev/stdin", TABLES, "/", ".":
        given = report(A, option, name, stdin=subprocess.PIPE)
        no_record(given, FAILED, "^report: .* could not be read: it is no file\n$")
        need(not given.out, "a verdict before what failed", given)
no_record(report(TABLES / "bad-check.table", "--since", A), REFUSED, "there is no record: it is refused")
no_record(report(TABLES / "bad-check.table", "--since", TABLES / "bad-check.table"), FAILED, "refused 13")
group("titles, releases and changes")

# ---- the date, and what was proved

for seconds in 0, 1, 59, 86399, 86400, 951782400, 951868799, 951868800, 1709164800, 4107542399, 4107542400, 253402300799, *(random.randrange(253402300800) for _ in range(200)):
    report(A, env=NO_DOT | {"SOURCE_DATE_EPOCH": str(seconds), "TZ": "Asia/Tokyo"})
    days, rest = divmod(seconds, 86400)
    date = datetime.fromordinal(days + datetime(1970, 1, 1).toordinal()).strftime("%Y-%m-%d").rjust(10, "0")
    expected = f"{date}T{rest // 3600:02}:{rest // 60 % 60:02}:{rest % 60:02}Z (given by SOURCE_DATE_EPOCH, not by the clock)"
    need(dict(rows(section(Page(out.read_text()).root, "What was checked")))["Checked"] == expected, seconds, expected)
for word in "", "x", "-1", "1.5", " 1", "1 ", "0x10", "253402300800", "99999999999999999999999", "1e9", b"\xff":
    no_record(report(A, env=NO_DOT | {"SOURCE_DATE_EPOCH": word}), FAILED, "SOURCE_DATE_EPOCH is .* mend or unset it")
before = datetime.now(timezone.utc).replace(microsecond=0)
report(A, env={"PATH": NO_DOT["PATH"]})
date = dict(rows(section(Page(out.read_text()).root, "What was checked")))["Checked"]
need(before <= datetime.strptime(date, "%Y-%m-%dT%H:%M:%S%z") <= datetime.now(timezone.utc), date)

installed = WORK / "installed"
(installed / "bin").mkdir(parents=True), (installed / "share/doc/shuntberry").mkdir(parents=True)
shutil.copy(PROGRAM, installed / "bin/shuntberry")
proved = installed / "share/doc/shuntberry/PROVED"
FACTS = "commit   0123456789abcdef\ntree     clean\nkit      rt <1> & \"2\"\nlibrary  logic=proved functions=29"


def program_of(status=SAFE):
    out.unlink(missing_ok=True)
    support.count += 1
    run = subprocess.run([installed / "bin/shuntberry", "report", A, "-o", out], capture_output=True, env=NO_DOT)
    need(run.returncode == status, run)
    root = Page(out.read_text()).root
    return section(root, "Program")


need("there is no file PROVED beside the program" in text_of(program_of()), "no PROVED")
proved.write_text(f"Shuntberry {VERSION} for x86-64 Linux\n\n{FACTS}\n\nProved, of each of these crates: its theorems\n  model\n")
need([text_of(pre) for pre in every(program_of(), "pre")] == [FACTS], text_of(program_of()))
for content, why in [
    (f"Shuntberry {VERSION}1 for x86-64 Linux\n\n{FACTS}\n".encode(), "that of another version"), (b"", "that of another version"), (b"\xff", "no text"),
    (f"Shuntberry 4.0.0 for x86-64 Linux\n\n{FACTS}\n".encode(), "that of another version"),
]:
    proved.write_bytes(content)
    need(why in text_of(program_of()) and not every(program_of(), "pre"), why)
proved.unlink()
proved.mkdir()
need("could not be read" in text_of(program_of()), "a folder PROVED")
group("dates, and what was proved")

# ---- the picture: dot may fail, hang, or print what it likes

LEGEND = {  # what stands in the legend, by kind: how it is drawn, and the first words of what that means
    "initial": "start and an arrow", "forbidden": "eight corners", "hang": "eight corners, broken line", "resting": "double line", "dead-end": "double broken line",
    "path": "thick line", "invariant": "shaded",
}
report(B)
without = out.read_bytes()
head, tail = re.split(rb"<p>There is no picture: [^\n]*</p>\n", without)


def dot(commands):
    (fakes / "dot").write_text(f"#!/bin/sh\n{commands}\n")
    os.chmod(fakes / "dot", 0o755)


def left_out(why, path=B, target=out, env=FAKE_DOT):
    """The record is what it is without dot, but that it says why there is no picture."""
    target.unlink(missing_ok=True)
    given = call("report", path, "-o", target, env=env)
    need(given.status == UNSAFE and given.out == (TABLES / "b.expected").read_bytes(), given)
    page = target.read_bytes()
    found = re.fullmatch(re.escape(head) + rb"<p>There is no picture: ([^\n<]*)\.</p>\n" + re.escape(tail), page)
    need(found and re.search(why, html.unescape(found[1].decode())), f"expected {why!r}", page[:3000] if not found else found[1])


cat = "/bin/cat >/dev/null"
for commands, why in [
    ("exit 1", "exit status: 1"), (f"{cat}; exit 7", "exit status: 7"), (f"{cat}; kill -9 $$", "signal: 9"), (f"{cat}; kill -15 $$", "signal: 15"), (cat, "it drew nothing"),
    ("exit 0", "it drew nothing|Broken pipe"), (f"{cat}; echo '<svg>'; exit 3", "exit status: 3"), (f"{cat}; echo rubbish", "words outside|no SVG"),
    (f"{cat}; echo '<html><body>safe</body></html>'", "an element 'html'"), (f"{cat}; /bin/cat /bin/sh", "no UTF-8"), (f"{cat}; /usr/bin/yes '<g>'", "more than 16777216 bytes"),
    ("/bin/cat", "words outside"),
]:
    dot(commands)
    left_out(why)
(fakes / "dot").write_text("no program")
left_out("dot could not draw the graph")
os.chmod(fakes / "dot", 0o644)
left_out("dot could not draw the graph: .*denied|is not installed")
(fakes / "dot").unlink()
os.mkdir(fakes / "dot")
left_out("dot could not draw the graph: .*denied|is not installed")
os.rmdir(fakes / "dot")


def written(word, x=200, y=-20, **other):
    """A text as dot prints it."""
    escape = lambda word: html.escape(word).replace("-", "&#45;")
    looks = {"text-anchor": "start", "x": x, "y": y, "font-family": "Helvetica,sans-Serif", "font-size": "14.00"} | other
    return f"<text {' '.join(f'{name}={chr(34)}{value}{chr(34)}' for name, value in looks.items())}>{escape(word)}</text>\n"


def drawing(words, titles, more=""):
    """A drawing as dot prints it, with these titles, and these words: each state has its number, and the legend has the others."""
    left, groups, height = list(words), [], 60 * (len(titles) + 1) + 20 * len(words)
    for i, title in enumerate(titles):
        y, parts = -60 * (i + 1), ""
        if "->" in title:
            parts = f'<path fill="none" stroke="#404040" d="M80,{y}C100,{y} 120,{y} 140,{y}"/>\n<polygon fill="#404040" stroke="#404040" points="140,{y} 150,{y + 3} 150,{y - 3} 140,{y}"/>\n'
        elif title[1:].isdigit():
            parts = f'<polygon fill="white" stroke="black" points="0,{y} 80,{y} 80,{y + 40} 0,{y + 40} 0,{y}"/>\n'
            if title[1:] in left:
                left.remove(title[1:])
                parts += written(title[1:], 40, y + 20, **{"text-anchor": "middle"})
        groups.append(f'<!-- {title.replace("-", "&#45;").replace(">", "&gt;")} -->\n<g id="node{i}" class="node">\n<title>{title.replace("-", "&#45;").replace(">", "&gt;")}</title>\n{parts}</g>\n')
    legend = "".join(written(word, y=-20 * (i + 1), **{"font-size": "12.00"}) for i, word in enumerate(left))
    return (
        '<?xml version="1.0" encoding="UTF-8" standalone="no"?>\n<!DOCTYPE svg PUBLIC "-//W3C//DTD SVG 1.1//EN"\n "http://www.w3.org/Graphics/SVG/1.1/DTD/svg11.dtd">\n'
        f'<!-- Generated by graphviz version 2.43.0 (0)\n -->\n<svg width="400pt" height="{height}pt"\n viewBox="0.00 0.00 400.00 {height}.00" xmlns="http://www.w3.org/2000/svg" xmlns:xlink="http://www.w3.org/1999/xlink">\n'
        f'<g id="graph0" class="graph" transform="scale(1 1) rotate(0) translate(4 {height - 4})">\n<title>table</title>\n'
        f'<polygon fill="white" stroke="transparent" points="-4,4 -4,{4 - height} 396,{4 - height} 396,4 -4,4"/>\n'
        f'<g id="clust1" class="cluster">\n<title>cluster_table</title>\n{legend}</g>\n{"".join(groups)}{more}</g>\n</svg>\n'
    )


titles = [f"s{s}" for s in range(5)] + [f"s{a}->s{b}" for a, b in table_b.steps] + ["start0", "start0->s0"]
legend = [
    "start and an arrow", "a session can start here", "eight corners", "forbidden, since it is marked so", "eight corners, broken line",
    "a hang: forbidden, since it has no way out and does not rest", "thick line", "on the path from a start to a forbidden state, its steps numbered",
]
words = words_of(table_b, {}, "b.table") + legend
svg = WORK / "drawn.svg"
dot(f"{cat}; /bin/cat '{svg}'")


def drawn(content):
    svg.write_bytes(content if isinstance(content, bytes) else content.encode())


def on_page(content):
    """A drawing in the size in which it fits A4, upright or across; all else is as it is."""
    width, height = map(float, re.search(rb'viewBox="0.00 0.00 ([\d.]+) ([\d.]+)"', content).groups())
    part = max(min(510 / width, 666 / height), min(757 / width, 411 / height))
    sides = f' width="{width * part:.2f}pt" height="{height * part:.2f}pt"'.encode()
    return re.sub(rb' width="[\d.]+pt" height="[\d.]+pt"', sides, content, count=1) if part < 1 else content


def pictured(why=None):
    """picture --svg holds the same drawing to the table: it is written in a size that fits the page, or not at all."""
    target = WORK / "pictured.svg"
    target.write_bytes(b"as it was")
    gives(FAILED if why is not None else SAFE, "", "picture", "--svg", "-o", target, "b.table", cwd=TABLES, env=FAKE_DOT, err=why and f"no drawing of the table: .*({why})|dot could not draw")
    need(target.read_bytes() == (b"as it was" if why is not None else on_page(svg.read_bytes())), f"another picture: {why}")


def accepted(content, does=None):
    drawn(content)
    pictured(does)
    need(report(B, env=FAKE_DOT).status == UNSAFE, "a good drawing")
    picture = check_page(out.read_bytes(), table_b, B)
    need(sorted(text_of(word) for word in every(picture, "text")) == sorted(words), text_of(picture))
    return out.read_text()


good = drawing(words, titles)
page = accepted(good)
need(accepted(good.replace("\n", "\r\n")), "other ends of lines")
# no variable decides how large the threads are that read and write: one that is too large for the machine
# would end in a panic
drawn(good)
for size in "1", str(2**62), str(2**64 - 1):
    need(report(B, env=FAKE_DOT | {"RUST_MIN_STACK": size}).status == UNSAFE and out.read_text() == page, f"a record with RUST_MIN_STACK={size}")
    gives(SAFE, on_page(good.encode()), "picture", "--svg", "b.table", cwd=TABLES, env=FAKE_DOT | {"RUST_MIN_STACK": size})
need(accepted(good.replace('stroke="transparent"', 'stroke="none"').replace("<text ", '<text xml:space="preserve" ')), "as newer versions print it")


def refused(content, why):
    drawn(content)
    left_out(why)
    pictured(why)


def put(old, new, count=1):
    """The good drawing with one thing changed, which must be there."""
    need(old in good, f"no drawing has {old}")
    return good.replace(old, new, count)


# what is not listed is no drawing, wherever it stands
for element in "svg", "g", "polygon", "path", "text", "title":
    for attribute in [
        'onclick="alert(1)"', 'onload="x"', 'href="http://x.test/"', 'xlink:href="javascript:alert(1)"', 'xml:base="http://x.test/"', 'style="display:none"', 'display="none"', 'visibility="hidden"', 'opacity="0"',
        'fill-opacity="0"', 'stroke-opacity="0"', 'mask="url(#m)"', 'filter="url(#f)"', 'clip-path="url(#c)"', 'clip="rect(0 0 0 0)"', 'overflow="hidden"', 'color="white"', 'marker-end="url(#m)"', 'requiredFeatures="x"', 'systemLanguage="xx"',
        'preserveAspectRatio="none"', 'textLength="0"', 'letter-spacing="-9"', 'dx="999"', 'rotate="90"', 'transform="scale(0)"', 'pathLength="0"', 'fill-rule="evenodd"', 'font="0 x"', 'unicode-bidi="bidi-override"', 'direction="rtl"',
    ]:
        refused(put(f"<{element}{' ' if element != 'title' else ''}", f"<{element} {attribute} "), "an attribute '|attribute 'transform'")
for more, why in [
    ("<script>alert(1)</script>", "an element 'script'"), ("<SCRIPT>alert(1)</SCRIPT>", "an element 'SCRIPT'"), ('<script href="http://x.test/x.js"/>', "an element 'script'"),
    ('<image href="http://x.test/x.png" x="1" y="1"/>', "an element 'image'"), ('<a href="http://x.test/"><text>start</text></a>', "an element 'a'"),
    ("<style>@import 'http://x.test/x.css';</style>", "an element 'style'"), ("<foreignObject><p>safe</p></foreignObject>", "an element 'foreignObject'"),
    ('<use href="#x"/>', "an element 'use'"), ("<animate/>", "an element 'animate'"), ("<set/>", "an element 'set'"), ("<g><svg/></g>", "an element 'svg'"), ("<iframe/>", "an element 'iframe'"),
    ('<rect width="400" height="400" fill="white"/>', "an element 'rect'"), ("<mask/>", "an element 'mask'"), ("<defs/>", "an element 'defs'"), ("<switch/>", "an element 'switch'"), ("<svg:g/>", "an element 'svg:g'"),
    ('<ellipse fill="white" stroke="black" cx="9" cy="-9" rx="9" ry="9"/>', "an element 'ellipse'"), ("<path/>", "an element 'path'"), ("<title>table</title>", "an element 'title'"),
    (written("safe"), "words are not those"), (written("safe: no forbidden state can be reached"), "words are not those"), (written("start"), "words are not those"), ("<text>start</text>", "no attribute"),
    ("safe", "words outside"), ("<g>safe</g>", "words outside"), ("<![CDATA[safe]]>", "declares"), ("<!ENTITY x 'y'>", "declares"), ("&safe;", "words outside"), ("\ufeff", "words outside"),
    (written("x").replace(">x<", ">&safe;<"), "an entity that is none"), (written("x").replace(">x<", ">&safe<"), "broken entity"), (written("x").replace(">x<", ">&#1114112;<"), "an entity that is none"),
    (written("x").replace(">x<", ">&#x73;<"), "an entity that is none"), (written("x").replace(">x<", ">&#+65;<"), "an entity that is none"), (written("x").replace(">x<", "><!-- x --><"), "a comment that is none"),
    ("<g><title>s9</title></g>", "a state has no words"), ("<g><title>s0</title></g>", "not those of the table"), ("<g><title>other</title></g>", "not those of the table"), ("<g><title>table</title></g>", "not those of the table"),
    ("<g><title>cluster_table</title></g>", "not those of the table"), ("<g></g>", "without a title"), ("<g><g></g></g>", "an element 'g'"), ("<?php x?>", "a tag that cannot be read|an element"), ('<?xml-stylesheet href="x"?>', "an element '.xml-stylesheet'|a tag"),
    ("<!-- a -- b -->", "a comment that is none"), ("<!-->x-->", "a comment that is none"), ("<!-- <text>safe</text> -->", "a comment that is none"), ("<!--->", "before it is whole"), ("<!-- x --->", "a comment that is none"),
    ('<polygon fill="url(http://x.test/)"/>', "attribute 'fill'"), ('<polygon fill="&#117;rl(x)"/>', "attribute 'fill'"), ("<polygon points='\"><script>'/>", "a tag that cannot be read"), ("<polygon points=1/>", "a tag that cannot be read"),
    ("<polygon points/>", "a tag that cannot be read"), ('<polygon points ="1,1"/>', "a tag that cannot be read"), ('<g transform="url(x:y)"></g>', "attribute 'transform'"), ("<g>", "without a title"), ("</g>", "closed in their order"),
    (written("x").replace(">x<", "><tspan>start</tspan><"), "an element 'tspan'"), ("<polygon><text>x</text></polygon>", "no attribute"), ("<", "a tag that cannot be read"), ("<!--", "before it is whole"), ("\0", "words outside"),
    (written("x").replace('x="200"', 'x="1" x="200"'), "attribute 'x'"), (written("\x1b[31m"), "words are not those"),
    # over what is drawn
    ('<polygon fill="white" stroke="none" points="-4,4 -4,-400 396,-400 396,4 -4,4"/>', "hides another"),
    ('<g><title>legend</title><polygon fill="white" stroke="none" points="0,0 80,0 80,-100 0,-100 0,0"/></g>', "hides another"),
    ('<g><title>s7</title><polygon fill="white" stroke="black" points="10,-50 70,-50 70,-30 10,-30 10,-50"/>' + written("7", 40, -35) + "</g>", "hides another"),
    ('<g><title>s0-&gt;s0</title><path fill="white" stroke="#404040" d="M0,0C0,0 9,9 9,-9"/></g>', "attribute 'fill'"), ('<g><title>s0-&gt;s0</title><path stroke="#404040" d="M0,0C0,0 9,9 9,-9"/></g>', "no attribute 'fill'"),
    ('<g><title>s0-&gt;s0</title><polygon fill="#404040" stroke="#404040" points="0,0 80,0 80,-100 0,0"/></g>', "an arrow that is none"),
]:
    refused(drawing(words, titles, more), why)
state = re.search(r'<polygon fill="white" stroke="black" points="[^"]*"/>\n<text [^>]*>0</text>\n', good)[0]
number = re.search(r"<text [^>]*>0</text>\n", state)[0]
changed = lambda part, old, new: put(state, state.replace(part, part.replace(old, new)))
need(changed(number, "", "") == good, "the state 0")
for content, why in [
    # a screen that is not seen
    (changed(state, 'fill="white"', 'fill="black"'), "attribute 'fill'"), (changed(state, 'fill="white"', 'fill="transparent"'), "attribute 'fill'"), (changed(state, 'fill="white"', 'fill="none"'), "not in its shape"),
    (changed(state, 'stroke="black"', 'stroke="white"'), "attribute 'stroke'"), (changed(state, 'stroke="black"', 'stroke="none"'), "attribute 'stroke'"), (changed(state, 'stroke="black"', 'stroke="black" stroke-width="0"'), "attribute 'stroke-width'"),
    (changed(state, 'stroke="black"', 'stroke="black" stroke-dasharray="0,99"'), "attribute 'stroke-dasharray'"), (changed(state, 'points="0,', 'points="9000,'), "not lie on its paper"), (re.sub(r'points="0,-60 [^"]*"', 'points="40,-40 40,-40"', good), "not in its shape"),
    (re.sub(r'points="0,-60 [^"]*"', 'points=""', good), "attribute 'points'"), (re.sub(r'points="0,-60 [^"]*"', 'points="1e3,0 0,0"', good), "attribute 'points'"), (changed(number, ">0<", ">1<"), "another's number"), (put(state, state.replace(number, "")), "a state has no words"),
    (put(state, number + state.replace(number, "")), "not in its shape"), (put(state, state + state.replace(number, "")), "hides another"), (changed(number, 'font-size="14.00"', 'font-size="0"'), "attribute 'font-size'"),
    (changed(number, 'font-size="14.00"', 'font-size="14.00" fill="white"'), "attribute 'fill'"), (changed(number, 'font-size="14.00"', 'font-size="14.00" fill="none"'), "attribute 'fill'"), (changed(number, ' font-size="14.00"', ""), "no attribute 'font-size'"),
    (changed(number, "Helvetica,sans-Serif", "Wingdings"), "attribute 'font-family'"), (changed(number, 'x="40"', 'x="300"'), "not in its shape"), (changed(number, 'x="40"', 'x="-9999"'), "not lie on its paper"), (changed(number, 'x="40"', ""), "no attribute 'x'"),
    (changed(number, 'x="40"', 'x="NaN"'), "attribute 'x'"), (changed(number, 'x="40"', 'x="4e1"'), "attribute 'x'"), (changed(number, 'x="40"', 'x="40%"'), "attribute 'x'"), (changed(number, 'x="40"', 'x="+40"'), "attribute 'x'"),
    # nor any
    (put("scale(1 1)", "scale(0 0)"), "attribute 'transform'"), (put("scale(1 1)", "scale(0)"), "attribute 'transform'"), (put("rotate(0)", "rotate(90)"), "attribute 'transform'"), (put("translate(4 ", "translate(9999 "), "not lie on its paper"),
    (put("translate(4 ", "translate(-4000 "), "not lie on its paper"), (put("translate(4 ", "translate(4 -"), "not lie on its paper"), (re.sub(r' transform="[^"]*"', "", good), "no attribute 'transform'"), (put("scale(1 1) ", ""), "attribute 'transform'"),
    (put(' viewBox="0.00 0.00', ' viewBox="9000 9000'), "attribute 'viewBox'"), (put("0.00 0.00 400.00", "0.00 -900.00 400.00"), "attribute 'viewBox'"), (put("400.00", "0.00"), "attribute 'viewBox'"), (put("400.00", "-400.00"), "attribute 'viewBox'"),
    (put("400.00", "NaN"), "attribute 'viewBox'"), (put("400.00", "400.00 5"), "attribute 'viewBox'"), (put("400.00", "400000.00"), "another size"), (put('width="400pt"', 'width="0pt"'), "another size"), (put('width="400pt"', 'width="0"'), "attribute 'width'"),
    (put('width="400pt"', 'width="100%"'), "attribute 'width'"), (re.sub(r' viewBox="[^"]*"', "", good), "no attribute 'viewBox'"), (put("2000/svg", "2000/html"), "attribute 'xmlns'"), (put(' xmlns="http://www.w3.org/2000/svg"', ""), "no attribute 'xmlns'"),
    (put('class="node"', 'class="node hidden"'), "attribute 'class'"), (put('id="node0"', 'id="hidden"'), "attribute 'id'"), (put('id="node0"', "id='node0'"), "a tag that cannot be read"),
    # and what stands around it
    (good + good[good.index("<svg") :], "an element 'svg'"), (good + "safe", "words outside"), ("safe" + good, "words outside"), ("\ufeff" + good, "words outside"), ("<!-- x -->" + good, "a tag that cannot be read|an element"),
    (put("svg PUBLIC", "svg [<!ENTITY x 'safe'>] PUBLIC"), "declares|words outside"), (put("svg11.dtd", "x.dtd"), "declares"), (put("svg PUBLIC", "svg SYSTEM"), "declares"), (put("UTF-8", "UTF-7"), "a tag that cannot be read|an element"), (put('"1.0"', '"1.1"'), "a tag that cannot be read|an element"),
    (put("<?xml ", '<?xml-stylesheet href="x"?><?xml '), "a tag that cannot be read|an element"), (drawing(words[1:], titles), "words are not"), (drawing(words, titles[1:]), "not those of the table|words are not"),
    (drawing([word.replace("unsafe", "safe") for word in words], titles), "words are not those"), (drawing(words, [title.replace("s0->s1", "s0->s2") for title in titles]), "not those of the table"),
    (good.encode() + b"\xff", "no UTF-8"), (good.encode("utf-16"), "no UTF-8"),
]:
    refused(content, why)
for cut in random.sample(range(1, len(good) - 8), 150):
    drawn(good[:cut])
    left_out("")
    pictured("")
for _ in range(300):  # bytes of it changed: a picture of the table, or none
    content = bytearray(good.encode())
    for _ in range(random.choice([1, 1, 2, 5])):
        content[random.randrange(len(content))] = random.choice(b"<>/&;\"'= sSx0\n\0\xff" + bytes(range(32, 127)))
    drawn(bytes(content))
    given = report(B, env=FAKE_DOT)
    need(given.status == UNSAFE, given)
    check_page(out.read_bytes(), table_b, B)
group("dots that fail, and drawings that are none")

# hanging: ended after its time, with what it started
MARK = f"5{os.getpid()}"  # seconds, by which the sleepers of this test are known
sleep = f"/bin/sleep {MARK}"
hanging = {
    "child": sleep, "itself": f"exec {sleep}", "after": f"{cat}; /bin/cat '{WORK}/good.svg'; {sleep}", "closed": f"{cat}; exec >&-; {sleep}", "deaf": f"trap '' TERM HUP INT; {sleep}",
    "many": f"{sleep} & {sleep} & {sleep}", "unread": f"exec <&-; {sleep}",
}
(WORK / "good.svg").write_text(good)


def sleepers():
    found = []
    for path in Path("/proc").glob("[0-9]*/cmdline"):
        try:
            if MARK.encode() in path.read_bytes().split(b"\0"):
                found.append(int(path.parent.name))
        except OSError:
            pass  # it has just ended
    return found


failures = []


def hangs(name):
    place = WORK / f"hang-{name}"
    began = time.monotonic()
    try:
        left_out("dot was not done after 30 seconds", target=place / "record.html", env=NO_DOT | {"PATH": str(place)})
    except SystemExit as failure:
        failures.append(f"{name}: {failure}")
    if time.monotonic() - began > 45:
        failures.append(f"{name}: {time.monotonic() - began} s")


# Every script is there before the first thread starts: a process made meanwhile would hold one open that is being written, and it could not be run.
for name, commands in hanging.items():
    place = WORK / f"hang-{name}"
    place.mkdir()
    (place / "dot").write_text(f"#!/bin/sh\n{commands}\n")
    os.chmod(place / "dot", 0o755)
dot(sleep)
threads = [threading.Thread(target=hangs, args=(name,)) for name in hanging]
for thread in threads:
    thread.start()
# meanwhile: a signal ends dot too, and leaves nothing
for number in signal.SIGTERM, signal.SIGINT, signal.SIGHUP:
    signal.signal(number, signal.SIG_DFL) if number != signal.SIGINT else None
    out.unlink(missing_ok=True)
    before = len(sleepers())
    run = subprocess.Popen(["shuntberry", "report", A, "-o", out], executable=PROGRAM, stdout=subprocess.DEVNULL, env=FAKE_DOT, preexec_fn=lambda: signal.signal(signal.SIGINT, signal.SIG_DFL))
    children = Path(f"/proc/{run.pid}/task/{run.pid}/children")
    while not children.read_text().split():
        need(run.poll() is None, "a report that did not wait for dot")
        time.sleep(0.005)
    child = int(children.read_text().split()[0])
    time.sleep(0.3)
    run.send_signal(number)
    need(run.wait() == -number and not out.exists() and not list(WORK.glob(".shuntberry*")), f"a report that got {number!r}")
    for _ in range(200):
        try:
            os.killpg(child, 0)
        except ProcessLookupError:
            break
        time.sleep(0.01)
    else:
        need(False, f"dot runs on after {number!r}")
    support.count += 1
for thread in threads:
    thread.join()
need(not failures, *failures)
need(not sleepers(), "programs that dot started run on", sleepers())
group("dots that hang")

# ---- the true dot, where there is one

if shutil.which("dot"):
    count = 0
    for table, path in EVERY:
        names = {s: f"screen-{s}" for s in range(table.n) if random.random() < 0.5}
        text.write_text(spec.longer(spec.text(table), "".join(f"state {s} {name}\n" for s, name in names.items())))
        given = report(path, "--names", text, env=REAL_DOT)
        need(given.status == status_for(table), given)
        picture = check_page(out.read_bytes(), table, path, names=names, text=text)
        if table.n:
            need(every(picture, "svg"), f"no picture of {path}", text_of(picture)[:500])
            found = sorted(text_of(word) for word in every(picture, "text"))
            last = worked_out(table)[0].splitlines()[2]
            kinds = {
                "initial": table.initial, "forbidden": table.marked, "hang": table.dead_ends() - table.resting, "resting": table.resting, "dead-end": table.dead_ends() & table.resting,
                "path": set(worked_out(table)[1] or []), "invariant": {int(word) for word in last.split(": ")[1].split() if word != "none"} if last.startswith("invariant") else set(),
            }
            kinds = {kind: held & part_of(table)[0] for kind, held in kinds.items()}
            for line in words_of(table, names, path.name) + [LEGEND[kind] for kind, held in kinds.items() if held]:
                need(line in found, f"the picture of {path} has no {line!r}")
                found.remove(line)
            need(len(found) == sum(bool(held) for held in kinds.values()), "words that nobody asked for", found)
            count += 1
    group(f"{count} pictures by dot")
else:
    print("skipped: no dot: the pictures of records were not drawn")

# ---- one read: what is written over the file meanwhile plays no part

changing = WORK / "changing.table"
dot(f"{cat}; /bin/cat '{B}' >'{changing}'; /bin/cat '{svg}'")
for _ in range(5):
    changing.write_bytes(A.read_bytes())
    given = report(changing, env=FAKE_DOT)
    need(given.status == SAFE and changing.read_bytes() == B.read_bytes(), given)
    page = out.read_bytes()
    changing.write_bytes(A.read_bytes())
    check_page(page, table_a, changing)
(fakes / "dot").unlink()
stop = threading.Event()


def save():
    while not stop.is_set():
        for path in A, B:
            changing.write_bytes(path.read_bytes())


saver, statuses = threading.Thread(target=save), set()
saver.start()
try:
    for _ in range(200):
        given = report(changing)
        statuses.add(given.status)
        need(out.exists() == (given.status in (SAFE, UNSAFE, NO_RELEASE)), given)
        if out.exists():
            told = dict(rows(section(Page(out.read_text()).root, "What was checked")))["SHA-256"]
            file = {SAFE: A.read_bytes(), UNSAFE: B.read_bytes(), NO_RELEASE: b""}[given.status]
            need(told == hashlib.sha256(file).hexdigest(), "a record of other bytes", given)
finally:
    stop.set()
    saver.join()
need(len(statuses) > 1, statuses)
group(f"files that change, statuses {sorted(statuses)}")

# ---- nothing that goes wrong leaves a record

def limited():
    resource.setrlimit(resource.RLIMIT_FSIZE, (1024, 1024))


def closed_output():
    os.closerange(1, 2)


for old in None, b"what was there":
    def as_it_was(status, said, *words, target=out, **how):
        out.unlink(missing_ok=True)
        if old:
            out.write_bytes(old)
        given = call("report", *words, "-o", target, env=NO_DOT, **how)
        need(given.status == status and re.search(said, given.err.decode(errors="replace")), f"expected status {status}, {said!r}", given)
        need((out.read_bytes() if out.exists() else None) == old and not list(WORK.glob(".shuntberry*")), "OUT is another", given)

    as_it_was(FAILED, "File too large", A, preexec_fn=limited)
    as_it_was(FAILED, "standard output is closed", A, stdout=None, preexec_fn=closed_output)
    with open("/dev/full", "wb") as full:
        as_it_was(FAILED, "standard output could not be written: No space left", A, stdout=full)
    there, here = os.pipe()
    os.close(there)
    as_it_was(FAILED, "Broken pipe", A, stdout=here)
    os.close(here)
    as_it_was(FAILED, "No such file", TABLES / "missing")
    as_it_was(FAILED, "is a directory", TABLES)
    as_it_was(REFUSED, "refused 13", TABLES / "bad-check.table")
    as_it_was(REFUSED, "refused 11.*looks like a text: check --text reads it, and the command encode makes a file of it", TABLES / "e.txt")
    as_it_was(FAILED, "No such file", A, "--names", TABLES / "missing")
    as_it_was(FAILED, "expected a number", A, "--site", "x")
    as_it_was(FAILED, "unknown option", A, "--text")
    as_it_was(FAILED, "unknown option", A, "--json")
    as_it_was(FAILED, "unexpected argument .*: expected FILE, and -o OUT for what is written", A, A)
    as_it_was(FAILED, "missing argument")
    as_it_was(FAILED, "twice", A, "-o", WORK / "other.html")
    for target in WORK, "/dev/full", "/dev/null", WORK / "missing/x", "", WORK / ("x" * 256):
        as_it_was(FAILED, "could not be written", A, target=target)
gives(FAILED, "", "report", A, err="expected -o OUT.*\nusage: shuntberry report", env=NO_DOT)
# its own input is no place for it
source = WORK / "source.table"
source.write_bytes(A.read_bytes())
os.link(source, WORK / "hard"), os.symlink("source.table", WORK / "link")
for name in source, f"{WORK}/./source.table", WORK / "hard", WORK / "link":
    gives(FAILED, "", "report", source, "-o", name, err="input and output are one file", env=NO_DOT)
shutil.copy(TABLES / "a.txt", text)
gives(FAILED, "", "report", source, "--names", text, "-o", text, err="input and output are one file", env=NO_DOT)
need(source.read_bytes() == A.read_bytes() and text.read_bytes() == (TABLES / "a.txt").read_bytes(), "the input was written over")
os.mkfifo(WORK / "fifo")
gives(FAILED, None, "report", A, "-o", WORK / "fifo", err="it is no file", env=NO_DOT)
# who may read it stays the same; behind a link the file is written
behind = WORK / "behind"
behind.write_bytes(b"old"), os.chmod(behind, 0o640), os.symlink("behind", WORK / "to-behind")
need(call("report", A, "-o", WORK / "to-behind", env=NO_DOT).status == SAFE, "a link")
need((WORK / "to-behind").is_symlink() and b"End of the record." in behind.read_bytes() and behind.stat().st_mode & 0o777 == 0o640, "behind a link")
# a disk that is full
disk = WORK / "disk"
disk.mkdir()
full = 'mount -t tmpfs -o size=8k none "$1" && : >"$1/probe" && "$0" report "$2" -o "$1/record.html"; s=$?; ls -A "$1"; exit $s'
try:
    run = subprocess.run(["unshare", "--mount", "sh", "-c", full, PROGRAM, disk, TABLES / "largest.table"], capture_output=True, text=True, env=os.environ | NO_DOT | {"PATH": "/usr/bin:/bin"})
    private = "probe" in run.stdout
except OSError:
    private = False
if private:
    need(run.returncode == FAILED and "No space left" in run.stderr and run.stdout.splitlines()[-1] == "probe", "a full disk", run)
else:
    print("no small disk could be mounted: a full one was tried by a limit alone")
# an empty name by accident, and inputs that are no files
(WORK / "empty").write_bytes(b"")
need(report(WORK / "empty").status == NO_RELEASE, "a draft")
check_page(out.read_bytes(), model.table_of("states 0\ninitial none\nforbidden none\nend\n"), WORK / "empty")
no_record(report(""), FAILED, "No such file")
no_record(report("/dev/zero"), REFUSED, "refused 11")
no_record(report("/proc/self/mem"), FAILED)
group("what goes wrong, and no record")

# ---- killed at many moments: the whole record, or what was there

dot(f"{cat}; /bin/sleep 0.02; /bin/cat '{WORK}/good.svg'")
need(report(B, env=FAKE_DOT).status == UNSAFE, "a record")
whole = out.read_bytes()
need(b"<svg" in whole, "no picture")
began = time.monotonic()
report(B, env=FAKE_DOT)
took, kills = time.monotonic() - began, {"killed": 0, "done": 0}
for i in range(150):
    old = random.choice([None, b"what was there"])
    number = random.choice([signal.SIGTERM, signal.SIGINT, signal.SIGHUP, signal.SIGKILL, signal.SIGALRM, signal.SIGQUIT])
    out.unlink(missing_ok=True)
    if old:
        out.write_bytes(old)
    plain = lambda: [signal.signal(each, signal.SIG_DFL) for each in (signal.SIGINT, signal.SIGQUIT, signal.SIGHUP)]
    run = subprocess.Popen(["shuntberry", "report", B, "-o", out], executable=PROGRAM, stdin=subprocess.DEVNULL, stdout=subprocess.DEVNULL, stderr=subprocess.DEVNULL, env=FAKE_DOT, preexec_fn=plain)
    time.sleep(random.random() * took * 1.2)
    run.send_signal(number)
    status = run.wait()
    found = out.read_bytes() if out.exists() else None
    need(status in (UNSAFE, -number), status)
    need(found == whole or (found == old and status != UNSAFE), f"killed by {number!r}: OUT has {found and len(found)} bytes, status {status}")
    need(number == signal.SIGKILL or not list(WORK.glob(".shuntberry*")), "a part is left")
    for left in WORK.glob(".shuntberry*"):
        left.unlink()
    kills["done" if status == UNSAFE else "killed"] += 1
    support.count += 1
need(kills["killed"] >= 20 and kills["done"] >= 5, kills)
group(f"records killed at many moments, {kills['killed']} of them before the end")

# ---- in a browser, where there is one: it finds the elements that Python's parser finds, and prints A4

browser = shutil.which("chromium") or shutil.which("chromium-browser") or shutil.which("google-chrome")


def browse(*words):
    how = ["--headless=new", "--no-sandbox", "--disable-gpu", f"--user-data-dir={WORK}/browser"]
    try:
        run = subprocess.run([browser, *how, *map(str, words)], capture_output=True, timeout=60, env=os.environ | {"HOME": str(WORK)})
    except (OSError, subprocess.TimeoutExpired):
        return None
    return run.stdout.decode(errors="replace") if run.returncode == 0 else None


def counted(source):
    return {name: len(re.findall(rf"<{name}[ />]", source)) for name in [*PLACES, *DRAWN, "script", "img", "a", "iframe", "link"]}


if browser and browse("--dump-dom", "about:blank") is not None:
    for path in A, B, EMPTY, TABLES / "largest.table", TABLES / "g.table", WORK / "names" / "<b>bold</b>":
        report(path, env=REAL_DOT)
        seen = browse("--dump-dom", out.as_uri())
        need(seen is not None and counted(seen) == counted(out.read_text()), f"the browser finds other elements in the record of {path}", counted(seen or ""), counted(out.read_text()))
        need(browse("--no-pdf-header-footer", f"--print-to-pdf={WORK}/record.pdf", out.as_uri()) is not None, "no PDF")
        if shutil.which("pdfinfo"):
            said = subprocess.run(["pdfinfo", "-f", "1", "-l", "99", WORK / "record.pdf"], capture_output=True, text=True).stdout
            sizes = {tuple(sorted(round(float(side)) for side in found)) for found in re.findall(r"size: +([\d.]+) x ([\d.]+)", said)}
            need(sizes == {(595, 842)}, "paper that is not A4", said)
        support.count += 2
    group("records in a browser")
else:
    print("skipped: no browser: no record was looked at in one")
