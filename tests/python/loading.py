"""Which library is taken, and that none which is missing, torn, of another version or lying gives an answer.

    loading.py PREFIX
"""
import os
import shutil
import subprocess
import sys
import tempfile
from pathlib import Path

from support import PACKAGE, PREFIX, TABLES, TOP, group, need

MAJOR = (TOP / "VERSION").read_text().split(".")[0]
NAME = f"libshuntberry.so.{MAJOR}"
WHOLE = (PREFIX / "lib" / NAME).resolve().read_bytes()
ASK = f"import shuntberry; print(shuntberry.decide(shuntberry.Table.from_file({str(TABLES / 'e.table')!r})).is_safe, shuntberry.LIBRARY)"
#: What a program begins with that is to find the library as on another system; the file that Windows would name is the one that is mapped.
AS_ON = {
    "win32": """import ctypes, os, shutil, subprocess, sys
class Kernel:
    def __init__(self, name):
        assert name == "kernel32"
    @staticmethod
    def GetModuleFileNameW(handle, said, room):
        said.value = next(line.split(None, 5)[5].rstrip() for line in open("/proc/self/maps") if ".dll" in line)
        return len(said.value)
ctypes.WinDLL, sys.platform = Kernel, "win32"
""",
    "darwin": "import ctypes, os, shutil, subprocess, sys\nsys.platform = 'darwin'\n",
}
work = Path(tempfile.mkdtemp(prefix="loading.")).resolve()


def ask(program, package, **environment):
    """Runs a program of Python's in a process of its own."""
    kept = {name: os.environ[name] for name in ("PATH", "HOME") if name in os.environ}
    return subprocess.run(
        [sys.executable, "-B", "-c", program], env={**kept, "PYTHONPATH": str(package), **environment}, stdout=subprocess.PIPE, stderr=subprocess.PIPE,
        text=True, check=False, cwd=work)


def answers(by, package, program=ASK, **environment):
    ran = ask(program, package, **environment)
    need(ran.stdout == f"True {by}\n" and ran.returncode == 0, f"expected an answer of {by}", ran)


def no_answer(words, package, program=ASK, **environment):
    """It ends with an error that says the words, or by a signal, and prints nothing."""
    ran = ask(program, package, **environment)
    need(ran.returncode != 0 and not ran.stdout, "expected no answer", ran)
    need(ran.returncode < 0 or words in ran.stderr, f"expected {words!r}", ran)


def package(name):
    """The module alone, in a folder of its own."""
    folder = work / name
    shutil.copytree(PACKAGE / "shuntberry", folder / "shuntberry")
    return folder


def library(path, *words):
    """A library of C, under the name of ours."""
    path.parent.mkdir(parents=True, exist_ok=True)
    exports = work / "exports"
    version = next((word[2:] for word in words if word.startswith("V=")), f"SHUNTBERRY_{MAJOR}")
    exports.write_text(f"{version} {{ global: shuntberry_*; local: *; }};")
    subprocess.run(
        ["gcc", "-shared", "-fPIC", "-w", f"-I{TOP / 'include'}", *(word for word in words if not word.startswith("V=")), TOP / "tests" / "python" / "lies.c",
         f"-Wl,--version-script={exports}", f"-Wl,-soname={NAME}", "-o", path], check=True)
    return path


try:
    # ---- where it is looked for: beside the module, then by the loader, then as the environment names it

    alone, beside = package("alone"), package("beside")
    (beside / "shuntberry" / NAME).write_bytes(WHOLE)
    named = work / "named.so"
    named.write_bytes(WHOLE)
    loader = work / "loader"
    loader.mkdir()
    (loader / NAME).write_bytes(WHOLE)
    torn = work / "torn"
    torn.mkdir()
    (torn / NAME).write_bytes(WHOLE[:40])

    installed = ask(ASK, alone)
    if installed.returncode:
        no_answer("install it, or name it in SHUNTBERRY_LIBRARY", alone)
        no_answer("install it, or name it in SHUNTBERRY_LIBRARY", alone, SHUNTBERRY_LIBRARY="")
        answers(named, alone, SHUNTBERRY_LIBRARY=str(named))
        answers(named, alone, SHUNTBERRY_LIBRARY="named.so")
        answers(named, alone, SHUNTBERRY_LIBRARY=str(named), LD_LIBRARY_PATH=str(torn))
        for wrong in (work / "none", work, torn / NAME, "/dev/null"):
            no_answer("SHUNTBERRY_LIBRARY names", alone, SHUNTBERRY_LIBRARY=str(wrong))
    else:
        print("skipped: the system has the library: the environment's was not tried")
    answers(loader / NAME, alone, LD_LIBRARY_PATH=str(loader))
    answers(loader / NAME, alone, LD_LIBRARY_PATH="loader")
    answers(loader / NAME, alone, LD_LIBRARY_PATH=str(loader), SHUNTBERRY_LIBRARY=str(torn / NAME))
    second = work / "second"
    second.mkdir()
    (second / NAME).write_bytes(WHOLE)
    for first, other in ((loader, second), (second, loader)):
        answers(first / NAME, alone, LD_LIBRARY_PATH=f"{first}:{other}")
    maps = ask("import shuntberry; print(shuntberry.LIBRARY in open('/proc/self/maps').read())", alone, LD_LIBRARY_PATH=str(second))
    need(maps.stdout == "True\n", "LIBRARY is not the file that is loaded", maps)
    answers(beside / "shuntberry" / NAME, beside, LD_LIBRARY_PATH=str(second))
    answers(beside / "shuntberry" / NAME, beside)
    answers(beside / "shuntberry" / NAME, beside, LD_LIBRARY_PATH=str(torn), SHUNTBERRY_LIBRARY=str(torn / NAME))
    answers(PREFIX / "lib" / NAME, PACKAGE)
    (work / "link").symlink_to(PACKAGE)
    answers(PREFIX / "lib" / NAME, work / "link")

    # ---- one that came with the module and is damaged: no other is taken

    for part in (0, 1, 64, 1000, 4096, 20_000, len(WHOLE) * 4 // 5):
        (beside / "shuntberry" / NAME).write_bytes(WHOLE[:part])
        no_answer("came with this module and cannot be loaded", beside, LD_LIBRARY_PATH=str(loader), SHUNTBERRY_LIBRARY=str(named))
    (beside / "shuntberry" / NAME).unlink()
    (beside / "shuntberry" / NAME).symlink_to(work / "none")
    no_answer("came with this module and cannot be loaded", beside, LD_LIBRARY_PATH=str(loader))

    # ---- of another version

    for wrong, words in (
        (["-DLIE=0", f"V=SHUNTBERRY_{int(MAJOR) + 1}"], "of version"), (["-DLIE=0", "-DLACKS"], "has no shuntberry_rewrite"), (["-DLIE=0", "V=OTHER"], "of version"),
        (["-DLIE=0", f"-DOTHER={int(MAJOR) + 1}"], f"is of version {int(MAJOR) + 1}: this module is {MAJOR}."),
        (["-DLIE=0", "-DOTHER=0"], f"is of version 0: this module is {MAJOR}."),
    ):
        other = package("-".join(wrong).replace("=", ""))
        library(other / "shuntberry" / NAME, *wrong)
        no_answer(words, other)
    libc = package("libc")
    shutil.copy(next(Path(line.split()[-1]) for line in open("/proc/self/maps") if "/libc" in line), libc / "shuntberry" / NAME)
    no_answer("has no shuntberry_version", libc)
    group("which library is taken")

    # ---- under its names on Windows and macOS, which are only played here: the search, and no more

    for system, other_name in (("win32", "shuntberry.dll"), ("darwin", "libshuntberry.dylib")):
        there = AS_ON[system] + ASK
        folder = package(system)
        (folder / "shuntberry" / NAME).write_bytes(WHOLE)
        no_answer(f"no {other_name}, neither", folder, there)
        (folder / "shuntberry" / other_name).write_bytes(WHOLE)
        (folder / "shuntberry" / NAME).unlink()
        answers(folder / "shuntberry" / other_name, folder, there)
        answers(folder / "shuntberry" / other_name, folder, there, LD_LIBRARY_PATH=str(torn), SHUNTBERRY_LIBRARY=str(torn / NAME))
        if installed.returncode:
            no_answer(f"no {NAME}, neither", folder)
        (loader / other_name).write_bytes(WHOLE)
        answers(loader / other_name, alone, there, LD_LIBRARY_PATH=str(loader))
        (work / other_name).write_bytes(WHOLE)
        answers(work / other_name, alone, there, SHUNTBERRY_LIBRARY=str(work / other_name))
        (folder / "shuntberry" / other_name).write_bytes(WHOLE[:4096])
        no_answer("came with this module and cannot be loaded", folder, there, LD_LIBRARY_PATH=str(loader))
        for wrong, words in (
            (["-DLIE=0", "-DLACKS"], "has no shuntberry_rewrite"), (["-DLIE=0", f"-DOTHER={int(MAJOR) + 1}"], f"is of version {int(MAJOR) + 1}: this module"),
        ):
            (folder / "shuntberry" / other_name).unlink()
            library(folder / "shuntberry" / other_name, *wrong)
            no_answer(words, folder, there)
    group("the names of other systems")

    # ---- one that lies: it accepts all, and answers with numbers that stand for nothing

    CALLS = {
        "check": "s.check(b'')", "decide": "s.decide(t)", "shortest_path": "s.shortest_path(t)", "distances": "s.distances(t)", "within": "s.within(t, 1)",
        "read": "s.read(b'')", "write": "s.write(t)", "rewrite": "s.rewrite(b'')", "generate": "s.generate(1, 3, 1)", "replay": "s.replay(t, b'')",
        "session": "s.Session(t)", "decide_modal": "s.decide_modal(t, {})", "next_open": "s.next_open(0, [])",
    }
    for lie in (1, 2, 4, 255, 2**32 - 1):
        liar = package(f"liar-{lie}")
        library(liar / "shuntberry" / NAME, f"-DLIE={lie}u")
        program = "import shuntberry as s\nt = s.Table(3, initial=[0], marked=[], steps={})\n" + "".join(
            f"try: given = {call}\nexcept (s.UnknownAnswer, s.Refused) as error: print({name!r}, type(error).__name__)\nelse: print({name!r}, given)\n"
            for name, call in CALLS.items())
        ran = ask(program, liar)
        said = dict(line.split(" ", 1) for line in ran.stdout.splitlines())
        need(not ran.returncode and said.keys() == CALLS.keys(), f"the lie {lie}", ran)
        for name, given in said.items():
            need(given in ("UnknownAnswer", "Refused"), f"the lie {lie} is taken for an answer of {name}: {given}")
    group("libraries that lie")
finally:
    shutil.rmtree(work)
