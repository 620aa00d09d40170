#!/usr/bin/env python3
"""Completion in bash: its lists are those of the program's own help, and Tab runs nothing, whatever was typed and whatever PATH has."""
import os
import re
import subprocess
from pathlib import Path

import support
from support import TOP, WORK, call, group, need

COMPLETION = TOP / "packaging/completion.bash"
COMPLETE = """
. "$1"
compopt() { :; }
shift
COMP_WORDS=("$@") COMP_CWORD=$(($# - 1))
_shuntberry "$1" "${COMP_WORDS[COMP_CWORD]}" "${COMP_WORDS[COMP_CWORD - 1]}"
printf '%s\\n' "${COMPREPLY[@]}"
"""
place, mark = WORK / "typed", WORK / "typed/mark"
place.mkdir()
for name in "shuntberry", "check", "help":
    (place / name).write_text(f"#!/bin/sh\n: >'{mark}'\n")
    os.chmod(place / name, 0o755)
(place / "a.table").write_bytes(b"")


def completed(*words, completion=COMPLETION):
    support.count += 1
    run = subprocess.run(["/bin/bash", "--norc", "-c", COMPLETE, "-", completion, *words], capture_output=True, text=True, cwd=place, timeout=60,
                         env={"PATH": f"{place}:/usr/bin:/bin"})
    need(run.returncode == 0 and not run.stderr, words, run)
    need(not mark.exists(), f"Tab behind {words} runs what was typed")
    return run.stdout.split()


def same(said, expected, *words):
    need(said == expected, f"{words} is completed as {said}, expected {expected}")


def has(pattern, *words):
    return re.findall(pattern, call(*words).out.decode(), re.M)


commands = has("^  ([a-z-]+)  ", "--help")
need(len(commands) > 10, commands)
for program in "shuntberry", "./shuntberry", str(place / "shuntberry"):
    same(completed(program, ""), [*commands, "help", "--help", "--version"], program)
    same(completed(program, "help", ""), commands, program, "help")
    same(completed(program, "re"), [name for name in commands if name.startswith("re")], program, "re")
    for command in commands:
        options = has("^  (-[-a-z0-9]*)", "help", command)
        need("--" in options, command, options)
        same(completed(program, command, "-"), options, program, command)
        same(completed(program, command, "a.t"), ["a.table"], program, command)
    same(completed(program, "nothing", "-"), [], program)
for program in "check", "./check", str(place / "check"):
    same(completed(program, "-"), has("^  (-[-a-z0-9]*)", "help", "check"), program)
    same(completed(program, "a.t"), ["a.table"], program)
    same(completed(program, "--site", ""), [], program)
for word in "$(: >mark)", "`: >mark`", "$(: >mark)/a", "~/$(: >mark)", "a.table;", "'$(: >mark)", '"$(: >mark)':
    for words in [("check", word), ("shuntberry", word), ("shuntberry", "check", word), ("shuntberry", word, "-"), ("shuntberry", "check", word, "-")]:
        completed(*words)
# that this would be seen
running = WORK / "running.bash"
running.write_text(COMPLETION.read_text().replace("  COMPREPLY=()\n", '  COMPREPLY=()\n  "$1" --help\n'))
try:
    completed("./check", "-", completion=running)
except SystemExit:
    mark.unlink()
else:
    need(False, "a completion that runs the program is not found")
group("completion")
