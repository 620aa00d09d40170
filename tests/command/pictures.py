#!/usr/bin/env python3
"""Holds pictures to their tables: python3 tests/command/pictures.py PROGRAM FILE..

PROGRAM is the command, each FILE a NAME.table with NAME.txt, its text, and NAME.expected, what `check` prints for it, beside it; the two are worked out by
tests/expected/spec.py. With --all every state and step of the text is drawn, and no other; without, of more than 60 states those of `part_of`, each with how many of
its steps are not there. The kinds of a state are told by its class and by its look; the path and the invariant are those of `check`; the distances are searched
for here.
"""

import re
import subprocess
import sys
from pathlib import Path

STATE = re.compile(
    r'  s(?P<s>\d+) \[label="(?P<label>[^"]*)", class="(?P<kinds>[^"]*)", shape=(?P<shape>\w+), style="(?P<style>[^"]*)", '
    r'fillcolor="(?P<fill>[^"]*)", peripheries=(?P<lines>\d), penwidth=(?P<width>\d)\]'
)
STEP = re.compile(r'  s(\d+) -> s(\d+)(?: \[class="path", headlabel="(\d+)",.*\])?')
START = re.compile(r'  start(\d+) (?:-> s(\d+) \[class="start"\]|\[label="start", .*\])')
FRAME = re.compile(r'digraph table \{|  (graph|node|edge|legend) \[.*\]|  subgraph cluster_table \{|  peripheries=0; .*|  \}|\}')
LEGEND = {  # what the legend says where such a state is there
    "initial": "a session can start here", "forbidden": "marked so", "hang": "a hang:", "resting": "resting:", "dead-end": "a dead end:", "path": "on the path",
    "invariant": "the invariant:",
}


def part_of(n, path, initial, forbidden, steps):
    """The states that are drawn without --all, and what is said of them: of more than 60 at most 40. Those of the path, or starts and forbidden ones; then their
    neighbours, from the last one's on, as far as there is room."""
    if n <= 60:
        return set(range(n)), None
    first, what = path, "those of the path"
    if len(path) > 40:
        first, what = path[:20] + path[-20:], "the first and the last 20 of the path"
    if not path:
        first, what = list(dict.fromkeys([*sorted(initial)[:20], *sorted(forbidden)[:20]])), "starts and forbidden ones"
    if not first:
        first, what = list(range(20)), "the first 20"
    around = [t for s in reversed(first) for t in sorted({b for a, b in steps if a == s} | {a for a, b in steps if b == s})]
    drawn = set(first)
    for t in around:
        if len(drawn) < 40:
            drawn.add(t)
    return drawn, f"{len(drawn)} of {n} states are drawn: {what}, with {'' if set(around) <= drawn else 'some of '}their neighbours"


def left_out(s, part, steps):
    """What a state says of its steps that are not drawn."""
    count = sum((a == s and b not in part) + (b == s and a not in part) for a, b in steps)
    return f"{count} step{'s' * (count > 1)} not drawn" if count else ""


def numbers(words):
    return [] if words == ["none"] else [int(word) for word in words]


class Table:
    def __init__(self, path):
        lines = [line.split() for line in path.with_suffix(".txt").read_text().splitlines()]
        of = lambda fact: {s for words in lines if words[0] == fact for s in numbers(words[1:])}
        self.n = int(lines[0][1])
        self.initial, self.marked, self.resting = of("initial"), of("forbidden"), of("resting")
        self.groups = [set(numbers(words[1:])) for words in lines if words[0] == "group"]
        self.steps = {(int(words[1]), int(b)) for words in lines if words[0] == "step" for b in words[3:]}
        self.dead_ends = set(range(self.n)) - {a for a, _ in self.steps}
        self.hangs = self.dead_ends - self.resting
        said = path.with_suffix(".expected").read_text().splitlines()
        self.safe, last = said[1].startswith("safe"), said[2].split()
        self.path = [] if self.safe else numbers(last[1:])
        self.invariant = set(numbers(last[2:])) if self.safe else set()

    def kinds(self, s):
        sets = {
            "initial": self.initial, "forbidden": self.marked, "hang": self.hangs, "resting": self.resting,
            "dead-end": self.dead_ends & self.resting, "path": self.path, "invariant": self.invariant,
        }
        return {kind for kind, states in sets.items() if s in states}

    def distances(self):
        away, layer, found = 0, self.marked | self.hangs, {}
        while layer:
            found |= {s: away for s in layer}
            layer, away = {a for a, b in self.steps if b in layer} - set(found), away + 1
        return found


def told(away):
    return "never" if away is None else "1 step" if away == 1 else f"{away} steps"


def check(table, lines, label_of, part, about):
    states, steps, path, starts, rest = {}, set(), {}, set(), []
    for line in lines:
        if m := STATE.fullmatch(line):
            assert states.setdefault(int(m["s"]), m) is m, line
        elif m := STEP.fullmatch(line):
            step = (int(m[1]), int(m[2]))
            assert step not in steps, line
            steps.add(step)
            if m[3]:
                path[int(m[3])] = step
        elif m := START.fullmatch(line):
            assert m[2] in (None, m[1]), line
            starts |= {int(m[2])} if m[2] else set()
        else:
            assert FRAME.fullmatch(line), line
            rest.append(line)
    assert set(states) == part and steps == {(a, b) for a, b in table.steps if {a, b} <= part} and starts == table.initial & part
    assert path == {i: (a, b) for i, (a, b) in enumerate(zip(table.path, table.path[1:]), 1) if {a, b} <= part}, path
    fills = {"forbidden": set(), "invariant": set(), "other": set()}
    for s, drawn in states.items():
        kinds = set(drawn["kinds"].split())
        assert kinds == table.kinds(s), (s, kinds)
        forbidden = bool({"forbidden", "hang"} & kinds)
        assert (drawn["shape"] == "octagon") == forbidden, s
        assert ("dashed" in drawn["style"]) == (s in table.dead_ends), s
        assert (drawn["lines"] == "2") == (s in table.resting), s
        assert (drawn["width"] == "3") == (s in table.path), s
        assert drawn["label"] == label_of(s), (s, drawn["label"])
        fills["forbidden" if forbidden else "invariant" if "invariant" in kinds else "other"].add(drawn["fill"])
    colours = [fill for fill in fills.values() if fill]
    assert all(len(fill) == 1 for fill in colours) and len(set().union(*colours)) == len(colours), fills
    frame = "\n".join(rest)
    verdict = "\\ndraft: the table has no states" if not table.n else "\\nsafe: " if table.safe else "\\nunsafe: "
    assert table.n or not re.search(r"\bsafe\b", frame), frame
    vacuous = {"no state is initial": table.n and not table.initial, "nothing is forbidden": table.n and table.initial and not table.marked | table.hangs}
    assert all((f", since {why}\\n" in frame) == bool(holds) for why, holds in vacuous.items()), frame
    assert verdict in frame and f"\\n{table.n} state" in frame and f"{len(table.groups)} group" in frame, frame
    assert re.findall(r'\\n([^\\"]* states are drawn[^"]*)"', frame) == ([about] if about else []), (about, frame)
    for kind, words in LEGEND.items():
        assert (words in frame) == any(kind in table.kinds(s) for s in part), kind


def words_of(table, s):
    kinds = table.kinds(s)
    return ", ".join(kind.replace("-", " ") for kind in ["forbidden", "hang", "resting", "dead-end"] if kind in kinds)


def main():
    command, count = sys.argv[1], 0
    for name in sys.argv[2:]:
        table = Table(Path(name))
        drawn = lambda *options: subprocess.run([command, "picture", *options, name], capture_output=True, check=True, text=True).stdout.splitlines()
        away = table.distances()
        groups = lambda s: ", ".join(str(j) for j, group in enumerate(table.groups) if s in group)
        label = lambda *lines: "\\n".join(line for line in lines if line)
        part, about = part_of(table.n, table.path, table.initial, table.marked | table.hangs, table.steps)
        try:
            check(table, drawn("--all"), lambda s: label(str(s), words_of(table, s)), set(range(table.n)), None)
            check(
                table, drawn("--distances", "--groups"),
                lambda s: label(str(s), words_of(table, s), told(away.get(s)), groups(s) and "in group " + groups(s), left_out(s, part, table.steps)), part, about,
            )
        except AssertionError as error:
            error.add_note(name)
            raise
        count += 1
    assert count > 0
    print(f"command: {count} pictures as their tables are")


if __name__ == "__main__":
    main()
