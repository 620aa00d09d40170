#!/usr/bin/env python3
"""Brings the names that pages and tests cite to the spelling of today's Rattle, once, after port.py and tools/respell.py.

usage: tools/respell_pages.py OLD NEW [--list]      from the commit OLD to the commit NEW; --list prints what it would change

A name of specs/ or proofs/ is what NEW has in the place of OLD's: the declarations of each file stand in the same order in both. In pages it is looked
for in backquotes, and in tests behind `tries:`. A part of lower-case letters alone is respelled only behind its file's name, as in `File.name`: alone it
may be a word. Functions of src/, C names, what programs print and CHANGELOG.md stay.
"""
import re
import subprocess
import sys
from pathlib import Path

TOP = Path(__file__).resolve().parents[1]
PART = r"[^\s(){}\[\],;:`\"]+"
DECLARED = re.compile(rf"^[ \t]*(?:(?:unfoldable|abbrev|pub|constructor)\s+)*(?:(?:record|data)\s+({PART})|({PART})\s+:(?=\s|$))", re.M)
PAGES = ("README.md", "CONTRIBUTING.md", "docs/*.md", "docs/changes/*.md", "docs/anomalies.txt", "packaging/audit/*.md", "packaging/*.md")
TAGGED = ("tests/**/*", "rust/outside/**/*.rs")
LEFT_OUT = {"PORT.md"}
# Words of something else: a field of the module for JavaScript, a file of tests/files.
OTHERS = {("docs/DECISIONS.md", "isSafe"), ("docs/changes/08-five-hundred-states.md", "one-fewer")}
WORD = re.compile(r"[A-Za-z_⊆][\w'′⊆-]*")


def git(*words):
    return subprocess.run(["git", "-C", str(TOP), *words], capture_output=True, text=True, check=True).stdout


def declared(commit):
    """The names that each file of specs/ and proofs/ declares, in their order."""
    listed = [name for name in git("ls-tree", "-r", "--name-only", commit, "crates").split() if re.fullmatch(r"crates/\w+/(?:specs|proofs)/\w+\.antt", name)]
    return {name: [one or other for one, other in DECLARED.findall(git("show", f"{commit}:{name}"))] for name in listed}


def renamed(old, new):
    found = {}
    before, after = declared(old), declared(new)
    for name, names in before.items():
        if len(names) != len(after[name]):
            sys.exit(f"respell_pages: {name} declares {len(names)} names, and then {len(after[name])}")
        for one, other in zip(names, after[name]):
            if found.setdefault(one, other) != other:
                sys.exit(f"respell_pages: {one} is {found[one]} and {other}")
    return {one: other for one, other in found.items() if one != other}, {Path(name).stem for name in before}


def main(words):
    to, files = renamed(*words[:2])
    listing = words[2:] == ["--list"]
    seen, at = {}, [None]

    def part(word, behind):
        new = to.get(word)
        if new is None or (str(at[0]), word) in OTHERS or not (behind or "-" in word or re.search(r"[a-z][A-Z]", word)):
            return word
        seen[word, new] = seen.get((word, new), 0) + 1
        return new

    def token(found):
        parts = found.group().split(".")
        behind = [parts[0] in files] * len(parts)
        return ".".join([part(parts[0], False), *(part(word, known) for word, known in zip(parts[1:], behind))])

    name = re.compile(rf"(?<![\w:/.-])(?<!shuntberry ){WORD.pattern}(?:\.{WORD.pattern})*(?![\w:/]|-\w)")
    quoted = lambda text: re.sub(r"`[^`\n]+`", lambda found: name.sub(token, found.group()), text)
    tags = lambda text: re.sub(r"(?m)^(\s*(?:#|//)\s*tries: )(.*)$", lambda found: found.group(1) + name.sub(token, found.group(2)), text)
    for patterns, change in ((PAGES, quoted), (TAGGED, tags)):
        for path in sorted({path for pattern in patterns for path in TOP.glob(pattern)}):
            if not path.is_file() or path.name in LEFT_OUT:
                continue
            at[0] = path.relative_to(TOP)
            try:
                text = path.read_text()
            except UnicodeDecodeError:
                continue
            new = change(text)
            if new != text and not listing:
                path.write_text(new)
    for (one, other), count in sorted(seen.items()):
        print(f"{count:4} {one} {other}")


main(sys.argv[1:])
