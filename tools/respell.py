#!/usr/bin/env python3
"""Brings the definitions and lemmas of this repository to the spelling of today's Rattle, once, after its port.py.

usage: tools/respell.py [--list] [FOLDER]

In the crates below FOLDER (here): functions, lemmas, fields and constructors of specs/ and proofs/ are in snake case; a dash
stands only between the names of two definitions (`length-set_at`); types, facts and modules keep their capitals. What a library
declares, functions of src/, strings and the goals of answer files keep their names. --list prints the names and changes nothing.
"""

import glob
import os
import re
import sys

PART = r"[^\s(){}\[\],;.:`\"]+"
DEFINED = re.compile(r"^[ \t]*(?:pub )?(?:unfoldable |abbrev )(?:pub )?(" + PART + r") :(?=\s)", re.M)
DECLARED = re.compile(
    r"^[ \t]*(?:(?:unfoldable|abbrev|pub) )*(?:constructor )?(" + PART + r") :(?=\s)(?! goal\.)(?! tie\.)(?! \{M : Type 1\} → statement)", re.M
)
# In an old proof by the walk these were the names of what Rattle makes.
ANSWER_FILES = ("Proof.antt", "Answers.antt", "Invariants.antt")
# What port.py left or made that no rule gives.
OVERRIDES = {
    "get_d_chunk": "get_or-chunk",
    "get_d_part": "get_or-part",
    "get_d_past": "get_or_past",
    "get_d_tabulate": "get_or-tabulate",
    # `bit_or` and `bit_and` are std's
    "bit-or": "bit_of_or",
    "bit-and": "bit_of_and",
    # a list of a table's that a proof has; the fields of that name are five
    "firstOrder": "first_order_of",
}
# Words of std that are the names of functions, beside which a dash stays.
STD = set("length take drop get_or set append concat min max map filter tabulate sum".split())


def files(root, ends):
    for folder, dirs, names in os.walk(os.path.join(root, "crates")):
        dirs[:] = sorted(it for it in dirs if it != "out")
        for name in sorted(names):
            if name.endswith(ends):
                yield os.path.join(folder, name)


def read(path):
    with open(path, encoding="utf-8") as f:
        return f.read()


def snake(word):
    word = re.sub(r"^getD$", "get_or", word)
    return re.sub(r"(?<=[a-z0-9])([A-Z])(?=[a-z])", lambda m: "_" + m[1].lower(), word)


def declared(root):
    """The names that specs/ declare, and those of proofs/."""
    definitions, lemmas = set(), set()
    for path in files(root, ".antt"):
        into = definitions if "/specs/" in path else lemmas
        into.update(DECLARED.findall(read(path)))
    return definitions, lemmas


def renaming(root):
    definitions, lemmas = declared(root)
    functions = {it for it in definitions if not it[0].isupper()}
    nouns = {snake(it) for it in functions if "-" not in it} | STD
    to = {}
    for name in sorted(definitions | lemmas):
        if not re.match(r"[A-Za-z]", name) or (name[0].isupper() and "-" not in name):
            continue
        words = [snake(it) for it in name.split("-")]
        new = words[0]
        for before, word in zip(words, words[1:]):
            new += ("-" if before in nouns and word in nouns else "_") + word
        new = OVERRIDES.get(name, new)
        if new != name:
            to[name] = new
    # a lemma or a field that would have a definition's name gets `_lem`
    defined = set()
    for path in files(root, ".antt"):
        if "/specs/" in path:
            defined.update(DEFINED.findall(read(path)))
    sources = {}
    for name in definitions | lemmas:
        sources.setdefault(to.get(name, name), []).append(name)
    for new, olds in sorted(sources.items()):
        if len(olds) > 1:
            first = [it for it in olds if it in defined]
            if len(first) != 1:
                sys.exit(f"respell: {new}: {' '.join(olds)}: which of them keeps it?")
            for old in olds:
                if old != first[0]:
                    to[old] = new + "_lem"
                    if new + "_lem" in sources:
                        sys.exit(f"respell: {new}_lem is taken")
    return to, definitions | lemmas


def imported(text):
    """What a file takes from a library that is not of this repository: those names stay."""
    ours = re.compile(r"Rattle\.(\w+)\.")
    taken = set()
    for path, names in re.findall(r"^\s*(?:pub |ghost )?use ([^\s{}]+)\.\{([^}]*)\}", text, re.M):
        crate = ours.match(path)
        if crate and os.path.isdir(os.path.join(ROOT, "crates", crate[1])):
            continue
        for item in names.split(","):
            taken.add(item.strip().split(" as ")[0])
    return taken


ROOT = "."


def main(words):
    global ROOT
    listing = "--list" in words
    rest = [it for it in words if it != "--list"]
    ROOT = rest[0] if rest else "."
    to, _ = renaming(ROOT)
    if listing:
        for old, new in sorted(to.items()):
            print(old, new)
        return 0
    token = re.compile(PART)
    for path in files(ROOT, (".antt", ".rt")):
        text = read(path)
        keep = imported(text)
        lines = []
        for line in text.split("\n"):
            # a module's path keeps its words: what stands behind `proofs.` may be a function of src/
            if path.endswith(".rt") and '"' in line:
                lines.append(line)
                continue
            # `ground` is a tactic's word
            if path.endswith(".antt") and not line.lstrip().startswith("--"):
                line = re.sub(r"(?<![\w-])ground(?![\w-])", "first_ground", line)
            lines.append(token.sub(lambda m: to[m[0]] if m[0] in to and m[0] not in keep else m[0], line))
        new = "\n".join(lines)
        if new != text:
            with open(path, "w", encoding="utf-8") as f:
                f.write(new)
    return 0


if __name__ == "__main__":
    sys.exit(main(sys.argv[1:]))
