#!/usr/bin/env python3
"""Turns the proofs by the walk (proofs/F/Proof.antt) of a crate into Invariants.antt and Answers.antt.

usage: tools/answers.py CRATE NAMES.json [FUNCTION..]

NAMES.json is what `rt check --generated FOLDER --old-names` wrote in the crate. An answer keeps its term; the paths in it are
those of today. An answer that is `search rules` alone is left out, since the check tries that itself, but where the old proof
had an `unfolding` line. What it could not turn is printed as 'look:'. Proof.antt is moved to /tmp/old-proofs/CRATE/F.antt.
"""

import json
import os
import re
import shutil
import sys

WORD = r"[^\s(){}\[\],;:]+"


def spaced(n):
    return n.replace("-", "_").lower()


def groups(text, at):
    """The arguments of a call from `at` on: each an identifier or a bracketed group, until the bracket that closes."""
    out, i = [], at
    while True:
        while i < len(text) and text[i].isspace():
            i += 1
        if i >= len(text) or text[i] == ")":
            return out, i
        if text[i] == "(":
            depth, j = 0, i
            while True:
                if text[j] in "([{":
                    depth += 1
                elif text[j] in ")]}":
                    depth -= 1
                    if depth == 0:
                        break
                j += 1
            out.append(text[i : j + 1])
            i = j + 1
        else:
            j = i
            while j < len(text) and not text[j].isspace() and text[j] not in "()":
                j += 1
            out.append(text[i:j])
            i = j


# What port.py renames where it sees what a field is of.
PLAIN_FIRST = {"pre": "requires", "fits": "ranges", "good": "well_formed"}
PLAIN = {"inv": "invariant", "taken": "true", "left": "false", "came": "branch", "entry": "initial"}


class Function:
    """The steps of a function, by the names that they had in a proof by the walk."""

    def __init__(self, name, info):
        self.name, self.info = name, info
        self.steps = {}
        for old, parent, step, callee, more in info["places"]:
            if step[0]:
                self.steps.setdefault(spaced(step[0]), step[1])
        # what a pattern binds: the arm that it stands in
        parents = {old: (parent, step) for old, parent, step, callee, more in info["places"]}
        self.arm_of = {}
        for old, parent, step, callee, more in info["places"]:
            p = old
            while p is not None and not parents[p][1][1].startswith("in-"):
                p = parents[p][0]
            if p is not None:
                self.arm_of[step[1]] = parents[p][1][1]
        self.args = {}
        for old, new in info["args"]:
            if old.startswith(".args .") and new.startswith(".args ."):
                self.args[old[len(".args .") :]] = new[len(".args .") :]

    def turn(self, body, var="c"):
        """The paths of a term in today's words: a step is a field of `c`, wherever it stands."""
        known = {var}
        while True:
            hit = None
            for m in re.finditer(r"let ([\w'-]+) = \(?([\w'-]+)\)?((?:\.before)*) in\s*", body):
                if m[2] in known:
                    hit = m
                    break
            if hit is None:
                break
            known.add(hit[1])
            body = body[: hit.start()] + body[hit.end() :]

        def swap(m):
            parts = m[0].split(".")
            if parts[0] not in known:
                return m[0]
            rest = [it for it in parts[1:] if it != "before"]
            if rest and spaced(rest[0]) in self.steps:
                rest[0] = self.steps[spaced(rest[0])]
            elif rest and rest[0].endswith("_lem") and spaced(rest[0])[: -len("_lem")] in self.steps:
                rest[0] = self.steps[spaced(rest[0])[: -len("_lem")]]  # respell.py took a callee for a lemma
            elif len(rest) > 1 and rest[0] in ("args", "ranges", "fits") and rest[1] in self.args:
                rest[1] = self.args[rest[1]]
            if len(rest) > 2 and rest[1:3] == ["given", "1"] and rest[0] in self.arm_of:
                rest[0:3] = [self.arm_of[rest[0]], "is"]
            rest[:1] = [PLAIN_FIRST.get(it, it) for it in rest[:1]]
            rest[1:2] = [PLAIN.get(it, it) for it in rest[1:2]]
            return ".".join(["c"] + rest)

        names = "|".join(re.escape(it) for it in sorted(known, key=len, reverse=True))
        body = re.sub(r"(?<![\w.'-])(?:" + names + r")(?:\.[\w'-]+)*(?![\w'-])", swap, body)
        # the test of `!b` says what b is
        return re.sub(r"(?<![\w'-])not[_-](?:true|false) (?:_|\([^()]*\)|[^\s()]+) (c\.[^\s()]*\.(?:true|false))(?![\w'.-])", r"\1", body)


def aligned(answers, needs):
    """The answer of each goal: an older check asked for some more, which `search rules` answered."""
    more = len(answers) - len(needs)
    if more < 0:
        return None

    def fits(answer, need):
        takes = len(answer[0]) > 1
        return takes == bool(re.search(r"requires(-|$)", need[1]))

    best = {}

    def go(i, j):
        if j == len(needs):
            return (0, []) if all(it[2] for it in answers[i:]) else None
        if i == len(answers):
            return None
        if (i, j) in best:
            return best[i, j]
        found = None
        rest = go(i + 1, j + 1)
        if rest is not None:
            cost = 0 if fits(answers[i], needs[j]) else 5
            found = (rest[0] + cost, [i] + rest[1])
        if answers[i][2]:
            rest = go(i + 1, j)
            if rest is not None and (found is None or rest[0] < found[0]):
                found = rest
        best[i, j] = found
        return found

    sys.setrecursionlimit(10000)
    got = go(0, 0)
    return got and [answers[i] for i in got[1]]


def parse_lambda(group):
    m = re.match(r"\(\s*λ ([^.]*?)\.\s*", group, re.S)
    if not m:
        return None, group
    return m[1].split(), group[m.end() : -1].strip()


def invariant(loop, changed, params, body):
    names = loop[1]
    first = list(zip(params[: len(names)], names))
    second = list(zip(params[len(names) :], [n for n, c in zip(names, changed) if c]))
    to = {}
    for (p, n), c in zip(first, changed):
        to[p] = f"l.initial.{n}" if c else f"l.{n}"
    for p, n in second:
        to[p] = f"l.{n}"
    pat = "|".join(re.escape(it) for it in sorted(to, key=len, reverse=True))
    return re.sub(r"(?<![\w.'₀-])(" + pat + r")(?![\w'₀-])", lambda m: to[m[1]], body)


def split_file(text):
    """The head comment, the use lines, and the declarations."""
    lines = text.split("\n")
    i = 0
    while i < len(lines) and (lines[i].startswith("--") or lines[i].startswith("use ") or lines[i].strip() == "" ):
        if lines[i].startswith("--") and i > 0 and any(it.startswith("use ") for it in lines[:i]):
            break
        i += 1
    head = [it for it in lines[:i] if it.startswith("--")]
    uses = [it for it in lines[:i] if it.startswith("use ")]
    decls, now = [], []
    for line in lines[i:]:
        if line.strip() == "" and now and not now[-1].startswith("--"):
            decls.append("\n".join(now))
            now = []
        elif line.strip() != "":
            now.append(line)
    if now:
        decls.append("\n".join(now))
    return head, uses, decls


def indent(body):
    lines = body.split("\n")
    if len(lines) == 1:
        return body
    return "\n    " + "\n".join(["" + lines[0]] + lines[1:])


def convert(crate, folder, fn, info):
    path = os.path.join(folder, "Proof.antt")
    aside = os.path.join("/tmp/old-proofs", crate, fn + ".antt")
    if not os.path.exists(path):
        shutil.copy(aside, path)
    for name in ("Invariants.antt", "Answers.antt"):
        if os.path.exists(os.path.join(folder, name)):
            os.remove(os.path.join(folder, name))
    text = open(path, encoding="utf-8").read()
    f = Function(fn, info)
    head, uses, decls = split_file(text)
    uses = [u for u in uses if ".Statement." not in u and not u.endswith(" as tie")]
    spec = [d for d in decls if "tie.spec" in d]
    if len(spec) != 1:
        return f"look: {path}: no tie.spec"
    spec = spec[0]
    others = [d for d in decls if d is not spec]
    unfolding = re.search(r"^unfolding (.*)$", spec, re.M)
    unfolding = unfolding[1] if unfolding else None
    args, _ = groups(spec, spec.index("tie.spec") + len("tie.spec"))
    loops = info["loops"]
    lead = args[: 2 * len(loops)]
    answers = args[2 * len(loops) :]
    said = []
    inv_out, ans_out = [], []
    # invariants and measures, which are declarations of their own or written in place
    declared = {}
    needed = {}
    rest = []
    for d in others:
        m = re.search(r"^abbrev (\S+) : tie\.(invariant|decreases)-\S+\n\1 (.*?)=(.*)\Z", d, re.S | re.M)
        n = re.search(r"^(?:pub )?(\S+) : tie\.Need-[^\n]*(?:\n {4,}[^\n]*)*\n(?:unfolding ([^\n]*)\n)?\1 ([^=\n]*?) =(.*)\Z", d, re.S | re.M)
        if n:
            needed[n[1]] = (n[3].split(), n[4].strip(), n[2])
        elif m:
            declared[m[1]] = (m[3].split(), m[4].strip(), d[: m.start()].strip())
        else:
            rest.append(d)
    for k, (loop, changed) in enumerate(zip(loops, info["changed"])):
        for j, kind in enumerate(("invariant", "decreases")):
            if 2 * k + j >= len(lead):
                continue
            word = lead[2 * k + j]
            if word in declared:
                params, body, note = declared[word]
            else:
                params, body = parse_lambda(word)
                note = ""
                if params is None:
                    said.append(f"cannot read {word}")
                    continue
            new = loop[0][1]
            count = len(loop[1]) + sum(changed)
            if len(params) != count:
                said.append(f"{kind} of {new} has {len(params)} parameters, not {count}")
            turned = invariant(loop, changed, params, body)
            is_for = new.startswith("loop-") and re.fullmatch(r"WORDS - w|.* - .*|.*", body) is not None
            if kind == "decreases" and ("-", new) and FORS.get((fn, new), False):
                continue
            entry = (note + "\n" if note else "") + f"abbrev pub {kind}-{new} : goal.{kind}-{new}\n{kind}-{new} l ={' ' if chr(10) not in turned else chr(10) + '    '}{turned}\n"
            inv_out.append(entry)
    # local declarations: those that invariants use go beside them
    names_of = lambda d: re.findall(r"^(?:abbrev |pub |unfoldable )*(\S+) :", d, re.M)[:1]
    in_inv = []
    changed_any = True
    used = "\n".join(inv_out)
    while changed_any:
        changed_any = False
        for d in rest:
            if d in in_inv:
                continue
            nm = names_of(d)
            if nm and re.search(r"(?<![\w.'-])" + re.escape(nm[0]) + r"(?![\w'-])", used):
                in_inv.append(d)
                used += "\n" + d
                changed_any = True
    local_names = []
    pub = []
    for d in rest:
        if d in in_inv:
            nm = names_of(d)[0]
            local_names.append(nm)
            d = re.sub(r"^(abbrev )?(?=" + re.escape(nm) + " :)", lambda m: (m[1] or "") + "pub ", d, count=1, flags=re.M)
            pub.append(d)
    rest = [d for d in rest if d not in in_inv]
    # declarations about a place: names of a place above become `c`, the others a `let` of each answer that cites them
    places, lets = set(), {}
    kept = []
    for d in rest:
        m = re.search(r"^(?:abbrev )?(?:pub )?(\S+) : (?:\(([\w']+) : (tie\.[^()]*?)\)|(tie\.[^→()]*?))\s*→\s*(.*?)\n(?:unfolding ([^\n]*)\n)?\1 ([\w' κλ]*?) =(.*)\Z", d, re.S | re.M)
        if not m:
            kept.append(d)
            continue
        name, var, typ, opened_in, params, body = m[1], m[2], m[5].strip(), m[6], m[7].split(), m[8].strip()
        if typ.startswith("tie."):
            places.add(name)
            continue
        note = "\n".join(it for it in d[: m.start()].split("\n") if it.startswith("--"))
        lets[name] = (var or params[0], typ, params, body, opened_in, note)
    rest = kept

    def flatten(body):
        """`(start (turn c))` and the like are `c`."""
        if not places:
            return body
        names = "|".join(re.escape(it) for it in places)
        while True:
            new = re.sub(r"\((?:" + names + r") ([\w'.-]+?)\)", lambda m: re.sub(r"\..*", "", m[1]) if re.fullmatch(r"[\w'-]+(\.before)*", m[1]) else m[0], body)
            new = re.sub(r"(?<![\w.'-])(?:" + names + r") ([\w'-]+(?:\.before)*)(?![\w'-]|\.[\w])", lambda m: m[1].split(".")[0], new)
            new = re.sub(r"\(([\w'-]+)\)(?=\.\w)", r"\1", new)
            if new == body:
                return body
            body = new

    def with_lets(body, var):
        """The body, with a `let` for each declaration that it cites."""
        body = f.turn(flatten(body), var)
        used, todo = [], True
        bodies = body
        opened = []
        while todo:
            todo = False
            for name, (v, typ, params, term, opened_in, note) in lets.items():
                if name in [it[0] for it in used]:
                    continue
                if re.search(r"(?<![\w.'-])" + re.escape(name) + r"(?![\w'-])", bodies):
                    term = f.turn(flatten(term), v)
                    typ = f.turn(flatten(typ), v)
                    args = params[1:]
                    if args:
                        term = "λ " + " ".join(args) + ". " + term
                    used.insert(0, (name, typ, term))
                    bodies = typ + " " + term + " " + bodies
                    if opened_in:
                        opened.append(opened_in)
                    todo = True
        order = [n for n in lets if n in [it[0] for it in used]]
        for name in reversed(order):
            _, typ, term = [it for it in used if it[0] == name][0]
            body = f"let {name} : {typ} = {term} in\n    {body}"
        for name in order:
            body = re.sub(r"\(" + re.escape(name) + r" c\)", name, body)
            body = re.sub(r"(?<![\w.'-])" + re.escape(name) + r" c(?![\w'.-])", name, body)
        return body, opened

    read = []
    for group in answers:
        params, body = parse_lambda(group)
        own = None
        if params is None and group in needed:
            params, body, own = needed[group]
        elif params is None:
            params, body = ["c"], group + " c"
        read.append((params, body, re.sub(r"\s+", " ", body) == "search rules", own))
    found = aligned(read, info["needs"])
    if found is None:
        return f"look: {path}: {len(answers)} answers, {len(info['needs'])} goals"
    for (old, new), (params, body, trivial, own) in zip(info["needs"], found):
        opened = " ".join(it for it in (unfolding, own) if it)
        if trivial and (not opened or re.match(r"overflow|offset|bounds|slice_bounds|loop-.*-smaller|nonzero|shape", new)):
            continue
        turned, more_opened = with_lets(body, params[0])
        opened = " ".join(dict.fromkeys((opened + " " + " ".join(more_opened)).split()))
        ans_out.append(
            f"pub {new} : goal.{new}\n"
            + (f"unfolding {opened}\n" if opened else "")
            + f"{new} c ="
            + (" " + turned if "\n" not in turned else "\n    " + turned)
            + "\n"
        )
    full = f"Rattle.{crate}.proofs.{fn}"
    if inv_out:
        with open(os.path.join(folder, "Invariants.antt"), "w", encoding="utf-8") as out:
            out.write("\n".join(head + uses + [f"use {full}.Given as goal", ""]) + "\n" + "\n".join([p + "\n" for p in pub] + inv_out))
    if ans_out:
        more = [f"use {full}.Invariants.{{{', '.join(local_names)}}}"] if local_names else []
        with open(os.path.join(folder, "Answers.antt"), "w", encoding="utf-8") as out:
            out.write("\n".join((head if not inv_out else head) + uses + more + [f"use {full}.Goals as goal", ""]) + "\n" + "\n".join([d + "\n" for d in rest] + ans_out))
    for d in rest:
        if "tie." in d:
            said.append("a declaration cites tie: " + (names_of(d) or ["?"])[0])
    os.makedirs(os.path.dirname(aside), exist_ok=True)
    shutil.move(path, aside)
    return "".join(f"look: {path}: {it}\n" for it in said)


FORS = {}


def main(words):
    crate, names = words[0], json.load(open(words[1], encoding="utf-8"))
    only = words[2:]
    top = os.path.join("crates", crate, "proofs")
    for folder, dirs, files in os.walk(top):
        fn = os.path.relpath(folder, top).replace("/", ".")
        if "Proof.antt" not in files and fn not in only:
            continue
        if only and fn not in only:
            continue
        key = f"Rattle-{crate}-proofs.{fn}.Lts"
        if key not in names:
            print(f"look: {fn}: no names")
            continue
        # the variable of a `for` counts by itself: no measure is asked for
        for (old, new), _ in names[key]["loops"]:
            FORS[(fn, new)] = any(it[1] == "overflow_step-" + new[len("loop-") :] for it in names[key]["needs"])
        said = convert(crate, folder, fn, names[key])
        if said:
            print(said.rstrip())


if __name__ == "__main__":
    main(sys.argv[1:])
