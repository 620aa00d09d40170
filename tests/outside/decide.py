#!/usr/bin/env python3
"""What examples/decide.c prints for the files of tests/files, and how it ends: the text beside each, and 0 for safe, 1 for unsafe, 2 for refused, 4
for a table without states and for a safe one in which nothing is initial or nothing forbidden, with words on standard error. Then a safe file with each
byte of it changed, and cut at each length: 2, and 4 where nothing is left; and a file of another site.

  tests/outside/decide.py PROGRAM TABLE..
"""
import subprocess
import sys
import tempfile
from pathlib import Path

sys.dont_write_bytecode = True
from statuses import EMPTY, FAILED, REFUSED, SAFE, for_site, is_vacuous, printed_status, status_of  # noqa: E402

WHOLE = Path("tests/files/e.table")
#: Words on standard error that a status has.
SAID = {REFUSED: "refused ", EMPTY: "nothing to release", FAILED: "usage: "}


def main():
    program, *tables = sys.argv[1:]

    def ends(path, text, what, status, *site, said=None):
        ran = subprocess.run([program, path, *site], capture_output=True, text=True)
        words = SAID.get(status, "") if said is None else said
        if (ran.stdout, ran.returncode) != (text, status) or words not in ran.stderr or (words == "") != (ran.stderr == ""):
            sys.exit(f"decide on {what}: {ran.stdout!r}, status {ran.returncode}, {ran.stderr!r}; expected {text!r}, {status}, {words!r}")

    for path in map(Path, tables):
        said = "no state is initial or none is forbidden" if is_vacuous(path) and status_of(path) == EMPTY else None
        ends(path, path.with_suffix(".expected").read_text(), path, status_of(path), said=said)
    if not any(is_vacuous(Path(path)) for path in tables):
        sys.exit("decide: no vacuous table was tried")
    if not tables:
        sys.exit("decide: no table was tried")

    whole, text = WHOLE.read_bytes(), WHOLE.with_suffix(".expected").read_text()
    if status_of(WHOLE) != SAFE:
        sys.exit(f"decide: {WHOLE} is not safe")
    with tempfile.TemporaryDirectory() as folder:
        damaged = Path(folder) / "damaged"
        for place in range(len(whole)):
            damaged.write_bytes(whole[:place] + bytes([whole[place] ^ 1 << place % 8]) + whole[place + 1 :])
            ends(damaged, "refused 12\n" if place < 2 else "refused 13\n", f"{WHOLE} with byte {place} changed", REFUSED)
        for length in range(len(whole)):
            damaged.write_bytes(whole[:length])
            cut = "refused 11\n" if length else "states 0 groups 0\nsafe refinements 0\ninvariant 0: none\n"
            ends(damaged, cut, f"{length} bytes of {WHOLE}", printed_status(cut))
        damaged.write_bytes(for_site(whole, 65520))
        ends(damaged, text, "another site, which is named", SAFE, "65520")
        for site, said in ((), "refused 13\n"), (("0",), "refused 13\n"), (("65521",), "refused 24\n"):
            ends(damaged, said, f"a file of another site than {site}", REFUSED, *site)
        for word in ("", "-1", "65520 ", "x", "065520"):
            ends(damaged, "", f"the site {word!r}", FAILED, word)
    print(f"the C example of decide: {len(tables)} files of tests/files, and {2 * len(whole)} damaged ones, printed and ended as expected")


main()
