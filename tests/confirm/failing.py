#!/usr/bin/env python3
"""The command confirm where something goes wrong: words, streams, signals, limits, environments, a confirm that was cut, a Python that is none. Nothing of that
ends with 0, 1 or 4, and what can be caught ends with 3. Then the same with a confirm that has a mistake in it, which must be found."""
import hashlib
import os
import random
import resource
import shutil
import signal
import subprocess
import sys
import threading
import time
from pathlib import Path

from trying import CONFIRM, SEED, TABLES, TOP, WORK, call, done, is_whole, need

A, B, EMPTY, BAD, LARGEST, LONG = (TABLES / f"{name}.table" for name in "a b empty bad-check largest long".split())
SAID = {path: path.with_suffix(".expected") for path in (A, B, EMPTY, BAD, LARGEST)}
ANSWERS = {A: 0, B: 1, EMPTY: 4, BAD: 3}
rng = random.Random(SEED)
PYTHON = "/usr/bin/python3"  # that of confirm


def put_summed(name, said, table):
    """A report with the line of release, for which Python's hashlib is loaded."""
    path = WORK / name
    path.write_bytes(said + f"SHA-256 {hashlib.sha256(table.read_bytes()).hexdigest()}\n".encode())
    return path


RELEASED = put_summed("released", SAID[A].read_bytes(), A)
FORGED = put_summed("forged", b"states 5 groups 0\nsafe refinements 0\ninvariant 5: 0 1 2 3 4\n", B)
CASES = [(table, SAID[table], status) for table, status in ANSWERS.items()] + [(A, RELEASED, 0), (B, FORGED, 3)]


class Wrong(Exception):
    """What was not as expected."""


def ends(run, status, *said):
    """With the status, and what belongs to it was printed."""
    if run.returncode != status or run.stdout and not is_whole(run):
        raise Wrong(f"expected status {status}", *said, run)


def fails(run, *said):
    ends(run, 3, *said)
    if run.stdout or b"Traceback" in (run.stderr or b""):
        raise Wrong("something was printed, or it did not expect that", *said, run)


count = 0


def counted(run, *words, **how):
    """A call of subprocess's, counted."""
    global count
    count += 1
    return run(*words, **how)


# ---- words

def words(program, confirm):
    a = SAID[A]
    for given in [], [A], [a], [A, a, a], ["--site"], ["--site", A, a], ["--site", "0", A], ["-", a], ["--", "-", a], ["", a], [A, ""], ["-x", A, a], [A, a, "-x"], [A, "-x"], ["-h"], \
            ["--version"], ["--Site", "0", A, a], ["--site", "0", "--site", "0", A, a], ["--site=0", "--site=0", A, a], [A, "--site", a], ["--site0", A, a], [A, "--", a], ["--", "--site", A, a]:
        fails(confirm(*given), given)
    for site in "", "x", "-1", "+0", " 0", "0 ", "1_0", "٠", "0x0", "0.0", "65521", "65536", "131042", "4294967296", "0" * 5000, "1":
        fails(confirm("--site", site, A, a), site)
        fails(confirm(f"--site={site}", A, a), site)
    ends(confirm("--site", "0", A, a), 0)
    run = confirm("--help")
    if run.returncode != 3 or not run.stdout.startswith(b"usage: confirm [--site N] [--] FILE REPORT\n"):
        raise Wrong("--help", run)
    for name in b"-dash", b"--", b"-", b"a space", b"two\nlines", b"\xff\xfe", b"$(exit 0)", "ä".encode(), b"x" * 255:
        folder = os.fsencode(WORK / "names")
        os.makedirs(folder, exist_ok=True)
        for table, status in ANSWERS.items():
            Path(os.fsdecode(folder + b"/" + name)).write_bytes(table.read_bytes())
            ends(confirm("--", os.fsdecode(folder + b"/" + name), SAID[table]), status, name)
            ends(confirm("--", name, SAID[table], cwd=folder), status, name)
    for name in "-dash", "-":
        (WORK / "names" / name).write_bytes(a.read_bytes())
        ends(confirm("--", A, name, cwd=WORK / "names"), 0)
        ends(confirm("--site", "0", "--", A, name, cwd=WORK / "names", input=SAID[B].read_bytes()), 0)
        fails(confirm("--", B, name, cwd=WORK / "names", input=SAID[B].read_bytes()), "standard input, which is not named")
    fails(confirm("--", A, "-", cwd=TOP, input=a.read_bytes()), "no file -")
    ends(confirm(A, "-", cwd=WORK / "names", input=a.read_bytes()), 0)
    fails(confirm(A, "-", cwd=WORK / "names", input=SAID[B].read_bytes()), "the file -, which is not named")


# ---- outputs

def closes(*numbers):
    return lambda: [os.closerange(number, number + 1) for number in numbers]


def limit(what, most):
    return lambda: resource.setrlimit(what, (most, most))


def outputs(program, confirm):
    for table in A, B, EMPTY:
        for closed in (1,), (0, 1), (1, 2), (0, 1, 2):
            fails(confirm(table, SAID[table], stdout=None, preexec_fn=closes(*closed)), closed)
        with open("/dev/full", "wb") as full, open("/dev/null", "rb") as null, open(WORK / "cut", "wb") as cut:
            fails(confirm(table, SAID[table], stdout=full))
            fails(confirm(table, SAID[table], stdout=full, stderr=full))
            fails(confirm(table, SAID[table], stdout=null))
            fails(confirm(table, SAID[table], stdout=cut, preexec_fn=limit(resource.RLIMIT_FSIZE, 10)))
        there, here = os.pipe()
        os.close(there)
        fails(confirm(table, SAID[table], stdout=here))
        os.close(here)
        there, here = os.pipe()  # full, and it does not wait
        os.set_blocking(here, False)
        try:
            while os.write(here, bytes(4096)):
                pass
        except BlockingIOError:
            fails(confirm(table, SAID[table], stdout=here))
        os.close(there), os.close(here)
        for closed in (0,), (2,), (0, 2):  # these it does not need
            ends(confirm(table, SAID[table], preexec_fn=closes(*closed)), ANSWERS[table], closed)


# ---- inputs

def inputs(program, confirm):
    a = SAID[A]
    for none in "/", "/nowhere", WORK / "no/where", A / "below", "/dev/null", "/dev/zero", "/proc/self/mem", WORK, "x" * 5000:
        fails(confirm(none, a), none)
        fails(confirm(A, none), none)
    fails(confirm(A, "-", stdin=None, preexec_fn=closes(0)))
    for path, how in ("/", os.O_RDONLY), ("/dev/zero", os.O_RDONLY), ("/dev/null", os.O_RDONLY), (WORK / "writable", os.O_WRONLY | os.O_CREAT):
        stream = os.open(path, how)
        fails(confirm(A, "-", stdin=stream), path)
        os.close(stream)
    for path in EMPTY, a:
        failing = TOP / "tests/command/failing_after"
        fails(confirm(path, program, A, "-", program=(sys.executable, failing)), path)
    # a front of it would be right
    fails(confirm(LONG, SAID[LARGEST]))
    for more in b"\n", b" ", bytes(4096), b"\n" * 100_000:
        (WORK / "long").write_bytes(a.read_bytes() + more)
        fails(confirm(A, WORK / "long"))
        fails(confirm(A, "-", input=a.read_bytes() + more))
    ends(confirm(LARGEST, SAID[LARGEST]), 1)
    fifo = WORK / "fifo"
    fifo.exists() or os.mkfifo(fifo)
    for given, words in (A, [fifo, a]), (a, [A, fifo]):
        writer = threading.Thread(target=lambda: fifo.write_bytes(given.read_bytes()))
        writer.start()
        ends(confirm(*words), 0, words)
        writer.join()
    if os.geteuid() == 0:
        os.chmod(WORK, 0o755)
        for mine, name in (A, "table"), (a, "report"):
            (WORK / name).write_bytes(mine.read_bytes())
            os.chmod(WORK / name, 0)
        copy = WORK / "mine"
        copy.write_bytes(Path(program).read_bytes()), os.chmod(copy, 0o755)
        nobody = {"program": (copy,), "user": 65534, "group": 65534, "extra_groups": []}
        (WORK / "read").write_bytes(A.read_bytes()), (WORK / "said").write_bytes(a.read_bytes())
        ends(confirm(WORK / "read", WORK / "said", **nobody), 0)
        fails(confirm(WORK / "table", WORK / "said", **nobody))
        fails(confirm(WORK / "read", WORK / "report", **nobody))


def saved_meanwhile(program, confirm):
    """A file that is saved while it is read, in place and as editors do."""
    target, stop = WORK / "saved", threading.Event()

    def save():
        while not stop.is_set():
            for path in A, B:
                target.write_bytes(path.read_bytes())

    target.write_bytes(A.read_bytes())
    saver = threading.Thread(target=save)
    saver.start()
    try:
        for table in [A, B, EMPTY] * 15:
            run = confirm(target, SAID[table])
            if run.returncode != ANSWERS[table]:
                fails(run)
    finally:
        stop.set()
        saver.join()


# ---- signals

CAUGHT = [signal.SIGHUP, signal.SIGINT, signal.SIGQUIT, signal.SIGUSR1, signal.SIGUSR2, signal.SIGPIPE, signal.SIGALRM, signal.SIGTERM, signal.SIGXCPU, signal.SIGXFSZ, signal.SIGVTALRM,
          signal.SIGPROF, signal.SIGIO, signal.SIGPWR]
NOT_ENDING = [signal.SIGCHLD, signal.SIGCONT, signal.SIGSTOP, signal.SIGTSTP, signal.SIGTTIN, signal.SIGTTOU, signal.SIGURG, signal.SIGWINCH]


def children(pid):
    return [int(word) for word in Path(f"/proc/{pid}/task/{pid}/children").read_text().split()]


def until(holds):
    last = time.monotonic() + 20
    while not holds():
        if time.monotonic() > last:
            raise Wrong("it took too long")
        time.sleep(0.002)


def waiting(program, **how):
    """A call that waits for its report, and the number of its Python."""
    run = counted(subprocess.Popen, [program, A, "-"], stdin=subprocess.PIPE, stdout=subprocess.PIPE, stderr=subprocess.PIPE, **how)
    until(lambda: children(run.pid) and b"python3" in Path(f"/proc/{children(run.pid)[0]}/comm").read_bytes())
    python = children(run.pid)[0]
    until(lambda: Path(f"/proc/{python}/syscall").read_text().split()[:2] == ["0", "0x0"])  # it reads standard input
    return run, python


def ended(run, given=None):
    out, err = run.communicate(given, timeout=60)
    return subprocess.CompletedProcess(run.args, run.returncode, out, err)


def is_gone(pid):
    try:
        return Path(f"/proc/{pid}/stat").read_text().split(") ")[1][0] == "Z"
    except FileNotFoundError:
        return True


def signals(program, confirm):
    # a gate that was started in the background, or by nohup, has these ignored, and so has what it starts
    for number in signal.SIGHUP, signal.SIGINT, signal.SIGQUIT:
        signal.signal(number, signal.SIG_DFL)
    for number in signal.valid_signals() - set(NOT_ENDING):
        run, python = waiting(program)
        run.send_signal(number)
        if number in CAUGHT:
            run.wait(20)
            until(lambda: is_gone(python))
            fails(ended(run), number)
        else:
            out, status = run.stdout.read() if not run.stdin.close() else b"", run.wait(20)
            if status in (0, 1, 4) or out:
                raise Wrong(f"signal {number}: status {status}", out)
        if number == signal.SIGINT:
            continue  # ignored in what a shell starts so
        run, python = waiting(program)
        os.kill(python, number)
        if number == signal.SIGQUIT or number in (signal.SIGPIPE, signal.SIGXFSZ):  # ignored there too, by the shell or by Python
            ends(ended(run, SAID[A].read_bytes()), 0, number)
        else:
            fails(ended(run), f"Python got {number}")
    # a terminal's signals go to both; stops, and what was ignored, change nothing
    run, python = waiting(program, start_new_session=True)
    os.killpg(run.pid, signal.SIGINT)
    fails(ended(run))
    run, python = waiting(program)
    for pid in run.pid, python:
        os.kill(pid, signal.SIGSTOP), os.kill(pid, signal.SIGCONT), os.kill(pid, signal.SIGWINCH)
    ends(ended(run, SAID[A].read_bytes()), 0, "stopped")
    run, python = waiting(program, preexec_fn=lambda: signal.signal(signal.SIGHUP, signal.SIG_IGN))
    run.send_signal(signal.SIGHUP)
    ends(ended(run, SAID[A].read_bytes()), 0, "nohup")
    # a parent that waits for no child, and one that holds signals back
    blocked = lambda: signal.pthread_sigmask(signal.SIG_BLOCK, signal.valid_signals())
    for before in (lambda: signal.signal(signal.SIGCHLD, signal.SIG_IGN)), blocked:
        for table, said, status in CASES:
            ends(counted(call, table, said, program=(program,), preexec_fn=before), status)
    # at any moment
    for _ in range(40):
        run = counted(subprocess.Popen, [program, A, SAID[A]], stdin=subprocess.DEVNULL, stdout=subprocess.PIPE, stderr=subprocess.PIPE, start_new_session=True)
        time.sleep(rng.random() * 0.05)
        number = rng.choice([signal.SIGTERM, signal.SIGINT, signal.SIGHUP, signal.SIGKILL])
        try:
            os.killpg(run.pid, number)
        except ProcessLookupError:
            pass
        run = ended(run)
        if run.returncode not in (0, 3, -number) or run.returncode == 0 and not is_whole(run):
            raise Wrong(f"signal {number} at a moment", run)


# ---- limits

def limits(program, confirm):
    seen = set()
    for table in A, B:
        for what, numbers in (resource.RLIMIT_AS, range(2_000_000, 24_000_000, 500_000)), (resource.RLIMIT_NOFILE, range(0, 12)), (resource.RLIMIT_STACK, range(0, 400_000, 40_000)):
            for most in numbers:
                try:
                    run = confirm(table, SAID[table], preexec_fn=limit(what, most))
                except (OSError, subprocess.SubprocessError):  # not even a shell
                    continue
                seen.add(run.returncode)
                if run.returncode in (0, 1, 4) and not (run.returncode == ANSWERS[table] and is_whole(run)):
                    raise Wrong(f"limit {what} {most}", run)
    if not {0, 1, 3} <= seen:
        raise Wrong(f"limits: {seen}")


# ---- environments

def evil(folder):
    """Programs and modules by the names of others, which end as a confirmed safe would."""
    folder.mkdir(exist_ok=True)
    for name in "atexit os posix posixpath stat sys sitecustomize usercustomize site signal re io codecs encodings abc genericpath hashlib".split():
        (folder / f"{name}.py").write_text("import posix\nposix._exit(40)\n")
    for name in "python3 python kill wait bash sh env trap".split():
        (folder / name).write_text("#!/bin/sh\necho 'confirmed safe: '\nexit 40\n")
        os.chmod(folder / name, 0o755)
    (folder / "exits").write_text("exit 0\n")
    return folder


LOADED = r"""
#include <unistd.h>
__attribute__((constructor)) static void loaded(void) {
  static const char text[] = "confirmed safe: forged\nnot confirmed: the count of refinements\n";
  _exit(write(1, text, sizeof text - 1) > 0 ? 40 : 3);
}
"""
OPENSSL = """openssl_conf = all
[all]
providers = of_providers
engines = of_engines
[of_providers]
forger = forger
[forger]
module = {so}
activate = 1
[of_engines]
forging = forging
[forging]
dynamic_path = {so}
init = 1
"""


def forgers(folder):
    """Environments that make a program load a library, which forges the answer: each with a program in which it is seen to do so."""
    folder.mkdir(exist_ok=True)
    library = folder / "FORGER.so"
    (folder / "forger.c").write_text(LOADED)
    subprocess.run(["gcc", "-shared", "-fPIC", "-o", library, folder / "forger.c"], check=True)
    (folder / "openssl.cnf").write_text(OPENSSL.format(so=library))
    conf = {"OPENSSL_CONF": folder / "openssl.cnf", "OPENSSL_MODULES": folder, "OPENSSL_ENGINES": folder}
    yield "OPENSSL_CONF", conf, [PYTHON, "-I", "-S", "-c", "import hashlib; hashlib.sha256(b'')"]
    # the C library loads the converter of a locale's letters from where it is told
    (folder / "gconv-modules").write_text("module ISO-8859-15// INTERNAL FORGER 1\nmodule INTERNAL ISO-8859-15// FORGER 1\n")
    if shutil.which("localedef"):
        subprocess.run(["localedef", "-i", "POSIX", "-f", "ISO-8859-15", "--no-archive", folder / "forging"], capture_output=True)
    yield "GCONV_PATH", {"GCONV_PATH": folder, "LOCPATH": folder, "LC_ALL": "forging"}, ["/bin/bash", "-p", "-c", ":"]


def with_words(trick):
    return os.environ | {key: str(value) for key, value in trick.items()}


def working_forgers():
    """Those of them that this system falls for."""
    for name, trick, program in forgers(WORK / "forgers"):
        run = subprocess.run(program, env=with_words(trick), capture_output=True)
        if run.returncode == 40 and run.stdout.startswith(b"confirmed safe: forged"):
            yield name, trick
        else:
            print(f"confirm: {name}: {program[0]} does not load a library by it here, so it is not tried", flush=True)


FORGERS = dict(working_forgers())


def environments(program, confirm):
    bad = evil(WORK / "evil")
    path = os.environ["PATH"]
    tricks = {
        "modules": {"PYTHONPATH": bad, "PYTHONUSERBASE": bad, "PYTHONSTARTUP": bad / "exits", "PYTHONPYCACHEPREFIX": bad},
        "Python": {"PYTHONOPTIMIZE": "2", "PYTHONINSPECT": "1", "PYTHONWARNINGS": "error", "PYTHONIOENCODING": "utf-16", "PYTHONINTMAXSTRDIGITS": "640", "PYTHONHASHSEED": "x",
                   "PYTHONUTF8": "x", "PYTHONVERBOSE": "1", "PYTHONDEVMODE": "1", "PYTHONMALLOC": "debug", "PYTHONBREAKPOINT": "os.abort", "PYTHONEXECUTABLE": "/nowhere"},
        "home": {"PYTHONHOME": "/nowhere", "PYTHONPLATLIBDIR": "no", "HOME": bad},
        "fakes": {"PATH": f"{bad}:{path}"},
        "nothing in reach": {"PATH": "/nowhere"},
        "shell": {"BASH_ENV": bad / "exits", "ENV": bad / "exits", "SHELLOPTS": "noexec:xtrace", "BASHOPTS": "extglob", "CDPATH": "/", "IFS": "/", "POSIXLY_CORRECT": "1", "PS4": "$(exit 0)",
                  "BASH_XTRACEFD": "1", "BASH_COMPAT": "3.2", "BASH_LOADABLES_PATH": bad, "TMOUT": "1", "python": bad / "python3"},
        "functions": {f"BASH_FUNC_{name}%%": "() { builtin exit 0; }" for name in ("python3", "wait", "trap", "kill", "exec", "exit", "[", ":")},
        "languages": {"LC_ALL": "xx_XX.nowhere", "LANG": "C", "PYTHONCOERCECLOCALE": "1", "TERM": "x", "TMPDIR": "/nowhere"},
        "nothing": None,
    } | FORGERS
    for name, trick in tricks.items():
        env = {} if trick is None else with_words(trick)
        for table, said, status in CASES:
            for folder in TOP, bad:
                ends(confirm(table, said, env=env, cwd=folder), status, name)
    copy = bad / "confirm"
    copy.write_bytes(Path(program).read_bytes()), os.chmod(copy, 0o755)
    link = WORK / "by a link"
    link.is_symlink() or os.symlink(copy, link)
    for called in (copy,), (link,), (sys.executable, copy), (sys.executable, "-O", copy), (sys.executable, "-OO", "-i", copy), (sys.executable, "-I", copy), ("/bin/bash", copy):
        for table, said, status in CASES:
            ends(confirm(table, said, program=called), status, called)
            ends(confirm(table, "-", program=called, input=said.read_bytes()), status, called)
    # bash and Python that were called by others have had their environment; what they start has not
    if "OPENSSL_CONF" in FORGERS:
        for called in ("/bin/bash", copy), (PYTHON, copy):
            fails(confirm(B, FORGED, program=called, env=with_words(FORGERS["OPENSSL_CONF"])), called)
    run = confirm(A, SAID[A], program=("/bin/sh", copy))
    if run.returncode != 0:  # a sh that is no bash
        fails(run)
    # a Python that ends in some way without having looked, and none where it must be
    tampered, fake = WORK / "tampered", WORK / "python/python3"
    places = "/usr/bin/python3 /usr/local/bin/python3"
    source = Path(program).read_text()
    need(source.count(places) == 1, f"confirm does not name {places}")
    tampered.write_text(source.replace(places, f"/nowhere/python3 {fake}"))
    os.chmod(tampered, 0o755)
    fails(confirm(A, SAID[A], program=(tampered,)), "no Python but that of PATH")
    fake.parent.mkdir(exist_ok=True)
    for way in [f"exit {status}" for status in {*range(256)} - {40, 41, 44} if status < 50 or status in (120, 127, 128, 139, 255)] + ["kill -9 $$", "kill -11 $$", "exec 2>&-"]:
        fake.write_text(f"#!/bin/sh\n{way}\n")
        os.chmod(fake, 0o755)
        fails(confirm(A, SAID[A], program=(tampered,)), way)
    os.unlink(fake)


# ---- a part of it

def cuts(program, confirm):
    """Past its first line, confirm is whole or confirms nothing: as crashes and full disks leave it."""
    whole = Path(program).read_bytes()
    ends_of_lines = [at + 1 for at, byte in enumerate(whole) if byte == 10]
    last = whole.index(b"\nif __name__ == \"__main__\":\n")  # what follows calls it
    places = [at for at in ends_of_lines[1:25] + rng.sample(ends_of_lines[25:], 20) + rng.sample(range(ends_of_lines[0] + 1, last), 20) + [4096] if at < last]
    cut = WORK / "cut-program"
    for at in places:
        for front in whole[:at], whole[:at] + bytes(len(whole) - at):
            cut.write_bytes(front)
            os.chmod(cut, 0o755)
            run = confirm(A, SAID[A], program=(cut,))
            if run.returncode in (0, 1, 4) or run.stdout:
                raise Wrong(f"cut at {at}", run)


def tried(way, program):
    global count
    count = 0
    way(program, lambda *words, **how: counted(call, *words, **{"program": (program,)} | how))
    return count


WAYS = [words, outputs, inputs, saved_meanwhile, signals, limits, environments, cuts]
try:
    for way in WAYS:
        done(f"{way.__name__.replace('_', ' ')}", tried(way, CONFIRM))
except Wrong as wrong:
    need(False, way.__name__, *wrong.args)

# ---- confirm with one mistake in it: the way by which it must be found

MISTAKES = [
    ("Python's 0 is safe", "  40) exit 0 ;;", "  0 | 40) exit 0 ;;", cuts),
    ("Python's 1 is unsafe", "  41) exit 1 ;;", "  1 | 41) exit 1 ;;", inputs),
    ("Python's status as it is", "  exit 3\n}", "  exit $?\n}", environments),
    ("the environment handed on to bash", " -i /bin/bash", " /bin/bash", environments),
    ("the environment handed on to Python", "/usr/bin/env -i ", "", environments),
    ("the Python that PATH has", "env -i \"$python\"", "env -i python3", environments),
    ("- is standard input behind -- too", "names, options = words[1:], []", "names, options = [None if word == \"-\" else word for word in words[1:]], []", words),
    ("signals not caught", "  trap ", "  : ", signals),
    ("Python goes on after a signal", "kill -KILL $! 2>/dev/null; ", "", signals),
    ("a part that is written is enough", "        left = left[os.write(stream, left) :]", "        try:\n            left = left[os.write(stream, left) :]\n        except OSError:\n            return", outputs),
    ("a read that fails is an end", "        more = os.read(stream, most + 1 - len(some))", "        try:\n            more = os.read(stream, most + 1 - len(some))\n        except OSError:\n            break", inputs),
    ("the front of a longer file", "os.read(stream, most + 1 - len(some))", "os.read(stream, most - len(some))", inputs),
    ("sites of any size", "int(word) <= MAX_SITE", "True", words),
    ("sites of any form", "set(word) <= set(\"0123456789\") and ", "", words),
    ("words too many", "len(names) == 2 and not options", "len(names) > 1 and not options", words),
    ("the help is safe", "end(NOT_CONFIRMED, ", "end(SAFE, ", words),
]
source = CONFIRM.read_text()
for name, right, wrong, way in MISTAKES:
    need(source.count(right) == 1, f"{name}: {source.count(right)} times in confirm: {right}")
    mistaken = WORK / "mistaken"
    mistaken.write_text(source.replace(right, wrong))
    os.chmod(mistaken, 0o755)
    try:
        tried(way, mistaken)
    except (Wrong, subprocess.TimeoutExpired):
        continue
    need(False, f"not found: {name}")
done("mistakes in what is around it found", len(MISTAKES))
