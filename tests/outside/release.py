#!/usr/bin/env python3
"""What examples/release.c prints for the files of tests/files, how it ends, and what becomes of OUT: the very bytes of the file where it ends with 0, and
what it was before everywhere else, with nothing left beside it.

  tests/outside/release.py PROGRAM WORD.. -- TABLE..     the program is called as PROGRAM WORD.. FILE OUT [SITE]
"""
import subprocess
import sys
import tempfile
from pathlib import Path

sys.dont_write_bytecode = True
from statuses import EMPTY, FAILED, REFUSED, SAFE, UNSAFE, for_site, is_vacuous, status_of  # noqa: E402

#: Words on standard error that each status has.
SAID = {SAFE: "", UNSAFE: "not released", REFUSED: "refused ", FAILED: "", EMPTY: ": not released"}


def need(holds, *said):
    if not holds:
        sys.exit("release: " + " ".join(map(str, said)))


def main():
    at = sys.argv.index("--")
    program, tables = sys.argv[1:at], list(map(Path, sys.argv[at + 1 :]))
    seen = set()
    with tempfile.TemporaryDirectory() as folder:
        folder = Path(folder)
        out, beside, before = folder / "out.table", folder / "out.table.new", b"what was there"

        def run(*words):
            ran = subprocess.run([*program, *words], stdout=subprocess.PIPE, stderr=subprocess.PIPE)
            return ran.returncode, ran.stdout.replace(b"\r\n", b"\n").decode(), ran.stderr.decode(errors="replace")

        def releases(path, status, text=None, bytes_after=None, site=(), words=""):
            for there in (None, before):
                out.unlink(missing_ok=True)
                if there is not None:
                    out.write_bytes(there)
                ended, printed, said = run(path, out, *site)
                need(ended == status and text in (None, printed), path, *site, "ends with", ended, "and prints", repr(printed), said)
                need(SAID[status] in said and words in said and (status == SAFE) == (said == ""), path, *site, "says", repr(said))
                after = out.read_bytes() if out.exists() else None
                need(after == (bytes_after if status == SAFE else there), path, "left another OUT")
                need([each.name for each in folder.iterdir() if each.name.endswith(".new")] == [], path, "left a file beside OUT")
            seen.add(status)

        for path in tables:
            releases(path, status_of(path), path.with_suffix(".expected").read_text(), path.read_bytes())
        need(seen == {SAFE, UNSAFE, REFUSED, EMPTY}, "not every status was seen:", seen)
        vacuous = [path for path in tables if is_vacuous(path)]
        need(vacuous, "no vacuous table was tried")
        releases(vacuous[0], EMPTY, words="no state is initial or none is forbidden")
        empty = folder / "empty"
        empty.write_bytes(b"")
        releases(empty, EMPTY, words="nothing to release")
        (folder / "cut").write_bytes(b"cut")
        releases(folder / "cut", REFUSED, "refused 11\n", words="refused 11: the input's length")
        releases(folder / "missing", FAILED, "")
        releases(folder, FAILED, "")

        # a site: its files, another's, and words that are none
        safe = next(path for path in tables if status_of(path) == SAFE)
        ours = folder / "ours"
        ours.write_bytes(for_site(safe.read_bytes(), 17))
        releases(ours, SAFE, safe.with_suffix(".expected").read_text(), ours.read_bytes(), site=("17",))
        releases(safe, SAFE, bytes_after=safe.read_bytes(), site=("0",))
        releases(ours, REFUSED, "refused 13\n")
        releases(ours, REFUSED, "refused 13\n", site=("65520",))
        releases(ours, REFUSED, "", site=("65521",), words="refused 24: ")
        for word in ("", "-1", "+17", " 17", "17 ", "17x", "0x11", "000017", "4294967313", "none"):
            releases(ours, FAILED, "", site=(word,), words="usage: ")

        # OUT.new is there: a release's that runs or was killed, or the file itself. Nothing is written over or removed
        for path in (safe, beside):
            for there in (before, safe.read_bytes()):
                beside.write_bytes(safe.read_bytes() if path == beside else there)
                held = beside.read_bytes()
                out.write_bytes(before)
                ended, _, said = run(path, out)
                need(ended == FAILED and "not released" in said, "OUT.new is there:", ended, said)
                need(beside.read_bytes() == held and out.read_bytes() == before, "OUT.new is there: another file")
        beside.unlink()

        # OUT cannot be: it is a folder, or in none. The words are those of the error, and not of a success
        (folder / "full").mkdir()
        (folder / "full" / "file").write_bytes(b"")
        for place in (folder / "full", folder / "none" / "out"):
            ended, _, said = run(safe, place)
            need(ended == FAILED and "not released" in said and "uccess" not in said, place, ended, said)
            need(len(said.splitlines()) == 2 and ": " in said.splitlines()[0], "no word of why", repr(said))
            need(not Path(f"{place}.new").exists(), place, "left a file beside OUT")
        need((folder / "full" / "file").exists(), "a folder was replaced")

        ours.write_bytes(safe.read_bytes())  # OUT is FILE itself: the same bytes
        need(run(ours, ours)[0] == SAFE and ours.read_bytes() == safe.read_bytes(), "in its own place")
        for words in ((), (safe,), (safe, out, out), (safe, out, "0", "0")):
            ended, printed, said = run(*words)
            need(ended == FAILED and not printed and said, words, ended, printed)
    print(f"the C example of release: {len(tables)} files of tests/files printed, ended and released as expected")


main()
