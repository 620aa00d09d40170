"""What is said, tried and tested of each sentence of docs/PROMISES.md, read from the sources: the names beside it, each with its place; the must-fail edits
that change or fall on one of these names; and the tests that carry one of them, by a tag in a comment:

    # tries: Reported.safe_line, call_check::check

A name of a tag is written as docs/PROMISES.md writes it in full: File.name, File.Record.field, crate::function, crate::Type::method, with `crate: ` before it
where two crates have it. A tag belongs to the case, test or function around it or below it."""
import functools
import importlib.machinery
import importlib.util
import re
import sys
from pathlib import Path
from typing import NamedTuple

sys.dont_write_bytecode = True
TOP = Path(__file__).resolve().parents[1]
PAGE = TOP / "docs/PROMISES.md"
LOADER = importlib.machinery.SourceFileLoader("promises", str(TOP / "tests/gate/promises"))
promises = importlib.util.module_from_spec(importlib.util.spec_from_loader("promises", LOADER))
LOADER.exec_module(promises)

TAGGED = ("tests/**/*", "rust/outside/**/*.rs")
TAG = re.compile(r"^\s*(?:#|//)\s*tries: (.*\S)\s*$", re.M)
FALLS = re.compile(r"^# falls on: (\S+): (.*\S)\s*$", re.M)
DECLARES = re.compile(r"^(?:(?:unfoldable|abbrev|pub)\s+)*(?:(?:record|data)\s+([^\s(){}]+)|([^\s(){}]+)\s+:(?:\s|$))")
USED = re.compile(r"^ *ghost use Rattle\.(\w+)\.specs\.(\w+)\.\{([^}]*)\}", re.M)
NAME = re.compile(r"[^\s(){}\[\],;.]+(?:\.[^\s(){}\[\],;]*)?")  # a projection stands tight behind what it is of: `d.row`
# A function with a body, and its head, with its contract; what a trait asks for ends with its head.
ITEM = re.compile(
    r"^(?P<indent> *)(?P<head>(?:pub )?(?:extern \"C\" )?fn (?P<name>\w+)(?:(?!;$).)*?)(?:\n(?P=indent)\{| \{)\n(?P<body>.*?)^(?P=indent)\}$", re.M | re.S
)
SAID_TEST = re.compile(r"`((?:tests|rust/outside/tests)/[^`]*)`")
POINTS_BACK = re.compile(r"(?:accepted|all of these|and|get|its?|nor|such|that|the same|these|where)\b")
OWNER = re.compile(r"(?:impl(?:<[^>]*>)? (?:(?P<law>\w+(?:<[^>]*>)?) for )?|(?:pub )?trait )(?P<type>&?\w+)(?:<[^>]*>)?(?:: [^{]*)?(?: \{|$)")
FUNCTION = re.compile(r"^\s*(?:#\[[\w()]+\] *)?(?:pub )?(?:extern \"C\" )?fn (\w+)")


class Name(NamedTuple):
    """A definition, theorem or function. Its text is as a tag has it, and `keys` are what an edit is compared by."""

    text: str
    crate: str
    place: str

    @property
    def keys(self):
        if "::" in self.text:
            return {(self.crate, *self.text.split("::")[1:])}
        parts = tuple(self.text.split("."))
        field = {(self.crate, parts[0], parts[2])} if len(parts) == 3 else set()
        return {(self.crate, *parts)} | field


class Sentence(NamedTuple):
    """A row of the page: `where` is its second cell, and `before` the words of the row above it."""

    line: int
    section: str
    words: str
    where: str
    before: str
    names: list

    @property
    def points_back(self):
        return POINTS_BACK.match(self.words)

    @property
    def tests_said(self):
        """The tests that the page itself names beside it."""
        return list(dict.fromkeys(SAID_TEST.findall(self.where)))


class Edit(NamedTuple):
    crate: str
    label: str
    mistake: str
    file: str
    fact: str
    keys: set


class Tag(NamedTuple):
    """`place` is that of the tag, `within` that of the case, test or function that it belongs to, with its name."""

    name: str
    place: str
    within: str


def line_of(text, at):
    return text.count("\n", 0, at) + 1


# ---- the sentences, and where their names stand

# Where docs/SPECIFICATION.md says what a section of the page is about.
SPECIFICATION = {
    "States and sets": ("Tables and sets", "The store"),
    "Figures": ("The store", "Files", "Refusals", "The version"),
    "Cover": ("Post, hold and covers",),
    "Rounds": ("Rounds", "Backward elimination"),
    "Path": ("Paths",),
    "Blocks": ("Files",),
    "What a block's check is good for": ("Files", "What is promised"),
    "Files that know their site": ("Files",),
    "An untouched draft": ("Tables and sets", "Files"),
    "What comes back when a call is refused": ("Refusals",),
    "The program": ("The program",),
    "A load that can be repeated": ("A load that can be repeated",),
    "Small tables": ("Worked tables",),
    "Groups put another way": ("What is promised",),
    "Distances": ("Distances",),
    "Demands": ("What is promised",),
    "Replay": ("Replay",),
    "Possible steps": ("Possible steps",),
    "Rewriting an old file": ("Rewriting an old file",),
    "Edit sessions": ("Edit sessions",),
    "Release windows": ("Release windows",),
}


def lost_sections(said):
    """Sections of the page that stand for no section of the specification, and those that it does not have."""
    titles = set(re.findall(r"^## (.*)$", (TOP / "docs/SPECIFICATION.md").read_text(), re.M))
    for section in dict.fromkeys(sentence.section for sentence in said):
        if section not in SPECIFICATION:
            yield f"docs/PROMISES.md: the section {section} has no section of docs/SPECIFICATION.md in scripts/trace_promises.py"
        yield from (f"docs/SPECIFICATION.md has no section {title}, which {section} is of" for title in SPECIFICATION.get(section, ()) if title not in titles)


def source_name(full):
    """A function of src/: its crate, and its line."""
    parts = full.split("::")
    crates = [parts[0]] if parts[0] in promises.CRATES else list(promises.CRATES)
    for crate in crates:
        for path in sorted((promises.CRATES[crate] / "src").glob("*.rt")):
            text = path.read_text()
            owner = parts[-2] if parts[-2:-1] and parts[-2] not in promises.CRATES else None
            blocks = promises.blocks(text, owner) if owner and owner != path.stem else [re.match(r"(?s).*", text)]
            for block in blocks:
                found = re.search(rf"\b(?:fn|struct|enum|const|type|mod)\s+{re.escape(parts[-1])}\b", block.group())
                if found:
                    rest = [part for part in parts if part not in promises.CRATES and part != path.stem]
                    return Name("::".join([crate, *rest]), crate, f"{path.relative_to(TOP)}:{line_of(text, block.start() + found.start())}")
    return None


def antt_name(crate, full):
    """A definition, a statement or a theorem: its crate, and its line."""
    parts = full.split(".")
    path = promises.in_antt(crate, parts)
    text = path.read_text()
    start = 0
    if len(parts) == 3:
        start = re.search(rf"^(?:\w+ )*(?:record|data) {re.escape(parts[1])}(?:\s|$)", text, re.M).start()
    found = re.search(rf"^ *(?:(?:unfoldable|abbrev|pub)\s+)*(?:(?:record|data)\s+)?{re.escape(parts[-1])}(?:\s|$)", text[start:], re.M)
    at = start + found.start() if found else 0
    return Name(full, path.parents[1].name, f"{path.relative_to(TOP)}:{line_of(text, at)}")


def name_of(crate, full):
    return source_name(full) if "::" in full else antt_name(crate, full)


def sentences():
    """The rows of the page's tables, without their heads."""
    found, section, before = [], "", ""
    for number, line in enumerate(PAGE.read_text().splitlines(), 1):
        section = line[3:] if line.startswith("## ") else section
        cells = line.strip("| ").split(" | ", 1)
        if not line.startswith("| ") or len(cells) != 2 or cells[0] == "sentence":
            continue
        names = {}
        for _, crate, full in promises.named(cells[1]):
            name = name_of(crate, full) if full else None
            if name:
                names[name.crate, name.text] = name
        found.append(Sentence(number, section, cells[0], cells[1].strip(), before, list(names.values())))
        before = cells[0]
    return found


# ---- the must-fail edits


def declared_at(lines, at):
    """The names of the declaration, and of its field, that line `at` (from 0) of a file of definitions is in."""
    field = None
    for k in range(at, -1, -1):
        member = promises.MEMBER.match(lines[k])
        opened = DECLARES.match(lines[k])
        if opened:
            name = opened.group(1) or opened.group(2)
            return {(name,), (name, field), (field,)} if field and opened.group(1) else {(name,)}
        if member and field is None:
            field = member.group(1)
        begun = re.match(r"([^\s(){}]+) .*=|([^\s(){}]+) =", lines[k])  # the clause of a definition
        if begun and not lines[k].startswith((" ", "-")):
            return {(begun.group(1) or begun.group(2),)}
    return set()


def owner_of(opened):
    """The type or trait; of an impl of a trait what the prover calls it, as `U32FromRefusal` of `impl From<Refusal> for u32`."""
    if not opened["law"]:
        return opened["type"]
    words = re.findall(r"&|\w+", f"{opened['type']} {opened['law']}")
    return "".join("Ref" if word == "&" else word[0].upper() + word[1:] for word in words)


def opened_at(lines, at):
    """The function that line `at` of a source is in, and what opens the impl or trait that has it: of a contract the one below it is meant by none."""
    name = None
    for k in range(at, -1, -1):
        found = FUNCTION.match(lines[k])
        if name is None and found:
            name = found.group(1)
        opened = OWNER.match(lines[k])
        if opened and name and not any(line == "}" for line in lines[k:at]):
            return name, opened
    return name, None


def function_at(lines, at):
    """The function, and the type that it is of, that line `at` of a source is in."""
    name, opened = opened_at(lines, at)
    return {(owner_of(opened), name) if opened else (name,)} if name else set()


def replacements(crate, text):
    """The texts that an edit replaces, each with its file, and the new one: a line for each, as `rt` reads it."""
    file = old = None
    for line in text.splitlines():
        if line.startswith("file: "):
            file = TOP / "crates" / crate / line[6:]
        elif line.startswith("old: "):
            old = line[5:]
        elif line.startswith("new:") and file and file.is_file():
            yield file, old, line[4:].removeprefix(" ")


def changed_keys(crate, text):
    """The names that an edit changes: those around each text that it replaces."""
    keys = set()
    for file, old, _ in replacements(crate, text):
        whole = file.read_text()
        at = whole.find(old)
        if at < 0:
            continue
        lines = whole.splitlines()
        if file.suffix == ".rt":
            keys |= {(crate, *key) for key in function_at(lines, line_of(whole, at) - 1)}
        elif file.parent.name == "specs":
            keys |= {(crate, file.stem, *key) for key in declared_at(lines, line_of(whole, at) - 1)}
    return keys


# Definitions that are a number, which says too little of what a function ensures.
NUMBERS = {
    (path.parts[-3], path.stem, name) for path in TOP.glob("crates/*/specs/*.antt") for name in re.findall(r"^(?:\w+ )*(\S+) : ℕ$", path.read_text(), re.M)
}


class Function(NamedTuple):
    """What its contract ensures cites, its code, and the type that it is of, or ""."""

    ensures: set
    body: str
    type: str


def items(text):
    """The functions of a source by their names, methods with their type's: what is matched of each, and the type."""
    lines = text.splitlines()
    for found in ITEM.finditer(text):
        line = line_of(text, found.start("name")) - 1
        _, opened = opened_at(lines, line)
        for key in function_at(lines, line):
            yield key, found, opened["type"] if opened else ""


@functools.cache
def functions(crate):
    """The functions of a crate by their names."""
    made = {}
    for path in sorted((TOP / "crates" / crate / "src").glob("*.rt")):
        text = path.read_text()
        known = {}
        for other, file, names in USED.findall(text):
            for name in filter(None, (name.strip() for name in names.split(","))):
                original, _, here = name.partition(" as ")
                known[here.strip() or original] = (other, file, original)
        for key, found, owner in items(text):
            words = {word.partition(".")[0] for word in NAME.findall(found["head"].partition("ensures")[2])}
            cited = {known[name] for name in words if name in known} - NUMBERS
            own = {name for name in cited if name[0] == crate}  # what others define is then what it speaks about
            made[key] = Function(own or cited, found["body"], owner)
    return made


def functions_of(crate):
    """The functions of a crate by their names: file, line, and whether it has a contract."""
    made = {}
    for path in sorted((TOP / "crates" / crate / "src").glob("*.rt")):
        text = path.read_text()
        module = [] if path.stem in ("lib", "main") else [path.stem]
        for key, found, _ in items(text):
            made[(*module, *key)] = (str(path.relative_to(TOP)), line_of(text, found.start("name")), "ensures" in found["head"])
    return made


@functools.cache
def records():
    return {owner for path in TOP.glob("crates/*/specs/*.antt") for owner, _ in promises.antt_names(path)[1]}


@functools.cache
def theorems(crate):
    """The declarations of proofs/ that are of a record of specs/ as a whole: file, name, line and statement."""
    found = []
    for path in sorted((TOP / "crates" / crate / "proofs").glob("*.antt")):
        for number, line in enumerate(path.read_text().splitlines(), 1):
            declared = re.match(r"(?:pub )?(\S+) : (\S+)$", line)
            if declared and declared.group(2) in records():
                found.append((path, declared.group(1), number, declared.group(2)))
    return found


def callers(key, made):
    """The functions of a crate that call one of it: by its name alone, a method behind a point or its type."""
    owner = made[key].type if key in made else ""
    before = rf"(?:\.|\b(?:{re.escape(owner)}|Self)::)" if owner else r"(?<![\w.:])"
    call = re.compile(rf"{before}{re.escape(key[-1])}\(")
    return {other for other, function in made.items() if other != key and call.search(function.body)}


def is_of_laws(file):
    parts = Path(file).parts
    return parts[0] == "proofs" and len(parts) == 2  # the proof of a function is a folder


def by_phrase(path, phrase, replaced):
    """The functions in whose contract a phrase stands, as an edit makes it."""
    text = path.read_text()
    for old, new in replaced:
        text = text.replace(old, new, 1)
    return {key for key, found, _ in items(text) if " ".join(phrase.split()) in " ".join(found["head"].split())}


def by_body(path, replaced):
    """The function whose body an edit changes; none where it changes more of the source than that and comments."""
    text = path.read_text()
    known, bodies = list(items(text)), set()
    for at in filter(lambda at: at >= 0, (text.find(old) for old, _ in replaced)):
        inside = [(key, at >= found.start("body")) for key, found, _ in known if found.start() <= at < found.end()]
        bodies |= {key for key, in_body in inside if in_body}
        if not inside and not text.startswith("//", text.rfind("\n", 0, at) + 1) or not all(in_body for _, in_body in inside):
            return set()
    return bodies


def fallen_functions(crate, file, fact, text):
    """The function that an edit falls on: that of the proof; where the toolchain's own proof fails, at a source, by what `# falls on:` has of it, a goal or
    words of the contract. Where that is of no function, or of several, none."""
    path = TOP / "crates" / crate / file
    replaced = [(old, new) for changed, old, new in replacements(crate, text) if changed == path]
    if file.startswith("proofs/"):
        found = {tuple(part.lstrip("+") for part in Path(file).parts[1:-1])} & functions(crate).keys()
    elif file.startswith("src/"):
        found = by_phrase(path, fact, replaced) if " " in fact else by_body(path, replaced)
    else:
        found = set()
    return found if len(found) == 1 else set()


def fallen_keys(crate, file, fact, text, named):
    """The names that it falls on: a law, and the theorem of the law's file, if that has one alone; or a function with what its contract ensures; where no
    sentence has one of these, the functions of the crate that call it, up to the first that one has."""
    if is_of_laws(file):
        law = {(crate, Path(file).stem, fact.split()[0])}
        proved = [name for path, name, _, _ in theorems(crate) if path.name == Path(file).name]
        return law | {(crate, Path(file).stem, name) for name in proved if len(proved) == 1}
    made = functions(crate)
    seen, layer = set(), fallen_functions(crate, file, fact, text)
    while layer:
        keys = {(crate, *key) for key in layer} | {cited for key in layer if key in made for cited in made[key].ensures}
        if keys & named:
            return keys
        seen |= layer
        layer = {caller for key in layer for caller in callers(key, made)} - seen
    return set()


def edits(said):
    """The edits, each with the names that it is compared by with those of the sentences."""
    named = {key for sentence in said for name in sentence.names for key in name.keys}
    found = []
    for path in sorted(TOP.glob("crates/*/must-fail/*.edit")):
        text, crate = path.read_text(), path.parts[-3]
        falls = FALLS.search(text)
        mistake = " ".join(line[2:] for line in text.splitlines() if line.startswith("# ") and not line.startswith("# falls on:"))
        file, fact = falls.groups()
        found.append(Edit(crate, path.stem, mistake, file, fact, changed_keys(crate, text) | fallen_keys(crate, file, fact, text, named)))
    return found


def edits_of(sentence, every):
    keys = set().union(*(name.keys for name in sentence.names)) if sentence.names else set()
    return [edit for edit in every if edit.keys & keys]


def lost_edits(every):
    """Those of which it is not known at which function they fail."""
    for edit in every:
        path = TOP / "crates" / edit.crate / "must-fail" / f"{edit.label}.edit"
        if not is_of_laws(edit.file) and not fallen_functions(edit.crate, edit.file, edit.fact, path.read_text()):
            yield f"{path.relative_to(TOP)}: this is of no function, or of several: {edit.file}: {edit.fact}: write words of the contract that fails"


# ---- the tags of tests


ITEMS = r"\s*(?:pub(?:\(\w+\))? )?(?:async )?(?:fn|def|function|static void) (\w+)"


def within(lines, at):
    """The line and the name of the test or function that a tag is above or in, or of the case of a script that it is in; nothing where it is in none."""
    for number, line in enumerate(lines[at:], at + 1):
        found = re.match(ITEMS, line)
        if found:
            return number, found.group(1)
        if line.strip() and not line.lstrip().startswith(("#", "//", "@")):
            break
    for number in range(at, 0, -1):
        found = re.match(r"# ---- ([a-z][a-z0-9-]*): ", lines[number - 1]) or re.match(ITEMS, lines[number - 1])
        if found:
            return number, found.group(1)
    return None


def tags():
    found = []
    for path in sorted({path for pattern in TAGGED for path in TOP.glob(pattern)}):
        if not path.is_file() or path.parts[-2] == "gate" or path.suffix in (".table", ".log"):
            continue
        try:
            text = path.read_text()
        except UnicodeDecodeError:
            continue
        for tag in TAG.finditer(text):
            line, file = line_of(text, tag.start(1)), path.relative_to(TOP)
            item = within(text.splitlines(), line)
            found.extend(Tag(name, f"{file}:{line}", f"{file}:{item[0]}, {item[1]}" if item else f"{file}:{line}") for name in tag.group(1).split(", "))
    return found


def carries(tag, name):
    return tag.name in (name.text, f"{name.crate}: {name.text}")


def tests_of(sentence, every):
    return [tag for tag in every if any(carries(tag, name) for name in sentence.names)]


def lost_tags(every, said):
    """Those that name nothing of any sentence, and those whose name two crates have."""
    names = {(name.crate, name.text): name for sentence in said for name in sentence.names}.values()
    for tag in every:
        crates = {name.crate for name in names if carries(tag, name)}
        if len(crates) != 1:
            why = "is a name of no sentence of docs/PROMISES.md" if not crates else f"is one of several crates, {', '.join(sorted(crates))}: write CRATE: NAME"
            yield f"{tag.place}: tries: {tag.name} {why}"
