"""The ten lines of C, compiled as README.md says, by pkg-config where there is one: what they print of each file of tests/files, and how they end.

    in_c.py PREFIX FOLDER
"""
import re
import shutil
import subprocess
import sys
from pathlib import Path

from support import README, TOP, environment, need, run, same, ten_lines

HOME, HERE = sys.argv[1], Path(sys.argv[2])
STRICT = "-std=c11 -Wall -Wextra -Wpedantic -Wconversion -Werror"
(HERE / "released.c").write_text(ten_lines("c"))
lines = re.findall(r"`(cc released\.c [^`]*)`", README)
same(len(lines), 2, "lines that compile it")
need("--libs" in lines[0] and "archive" in lines[1], "the page does not link the shared library first, and then the archive")
if not shutil.which("pkg-config"):
    print("skipped: no pkg-config: C was compiled by flags of the test's own")
    flags = f"'-I{HOME}/include' "
    lines = [f"cc released.c {flags} '-L{HOME}/lib' -lshuntberry -o released", f"cc released.c {flags} '{HOME}/lib/libshuntberry.a' -o released"]


def ends(words, status, what, **streams):
    found = subprocess.run(words, stderr=subprocess.DEVNULL, timeout=60, **streams).returncode
    same(found, status, f"the lines of C, with {what}")


files = sorted((TOP / "tests" / "files").glob("*.table"))
for line, loaded in zip(lines, ({"LD_LIBRARY_PATH": f"{HOME}/lib"}, {})):
    run(["bash", "-c", f"{line} {STRICT}"], folder=HERE, env=environment(HOME, PKG_CONFIG_PATH=f"{HOME}/lib/pkgconfig"))
    released = [str(HERE / "released")]
    for file in files:
        expected = file.with_suffix(".expected").read_text()
        safe = "\nsafe " in expected and not expected.startswith("states 0 ")
        with file.open("rb") as stream:
            same(run(released, 0 if safe else 1, stdin=stream, env=environment(HOME, **loaded)).decode(), expected, f"the lines of C, of {file.name}")
    options = dict(env=environment(HOME, **loaded))
    with open(files[0], "rb") as stream, open("/dev/full", "wb") as full:
        ends(released, 3, "no room to print", stdin=stream, stdout=full, **options)
    closed = lambda which: ["bash", "-c", f'exec "$0" {which}', *released]
    ends(closed("<&-"), 3, "a closed input", stdout=subprocess.DEVNULL, **options)
    ends(closed(f"<{files[0]} >&-"), 3, "a closed output", **options)
    ends(closed("</"), 3, "a folder as its input", stdout=subprocess.DEVNULL, **options)
print(f"readme: ten lines of C, with the shared library and with the archive, on {len(files)} files")
