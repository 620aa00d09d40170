#!/usr/bin/env python3
"""Inputs and outputs of every sort, signals at many moments, files that change, and environments: nothing that goes wrong ends with 0, and no file is written
that is not whole."""
import ctypes
import os
import pty
import random
import resource
import signal
import subprocess
import sys
import threading
import time
from pathlib import Path

import support
from support import DRAFT, FAILED, NO_RELEASE, PROGRAM, REFUSED, SAFE, TABLES, TOP, UNSAFE, WORK, call, gives, group, need, status_of
import spec

HERE = Path(__file__).parent
A, B, E, H1 = (TABLES / f"{name}.table" for name in "a b e h1".split())
LARGEST = TABLES / "largest.table"
log, house = WORK / "log", WORK / "house"
log.write_bytes(b"\0\0")
house.write_text("window none\nend\n")
# every command that ends with 0 where it prints, and one that has much to print
PRINTING = [
    ["check", A], ["check", "--json", A], ["check", "--text", TABLES / "a.txt"], ["check", LARGEST], ["check-all", A, E], ["check-all", *[A] * 3000], ["inspect", A],
    ["report", A, "-o", WORK / "record.html"], ["inspect", LARGEST], ["replay", A, log], ["options", A, "--possible", A], ["next-open", house, "--at", "2026-01-01T00:00"], ["encode", TABLES / "e.txt"],
    ["encode", TABLES / "largest.txt"], ["decode", LARGEST], ["picture", LARGEST], ["generate", "7", "512", "2"], ["rewrite", TABLES / "old-largest.table"], ["--help"], ["--version"],
    ["help", "check"],
]


# ---- outputs

def closes(*numbers):
    return lambda: [os.closerange(number, number + 1) for number in numbers]  # one may be closed already, where the gate has no input


def limited():
    resource.setrlimit(resource.RLIMIT_FSIZE, (1024, 1024))


for words in PRINTING:
    given = call(*words)
    need(given.status in (SAFE, UNSAFE) and given.out, given)
    gives(FAILED, b"", *words, err="standard output is closed", stdout=None, preexec_fn=closes(1))
    gives(FAILED, b"", *words, err="standard output is closed", stdout=None, preexec_fn=closes(0, 1))
    with open("/dev/full", "wb") as full:
        gives(FAILED, b"", *words, err="No space left", stdout=full)
    with open("/dev/null", "rb") as null:
        gives(FAILED, b"", *words, err="Bad file descriptor", stdout=null)
    there, here = os.pipe()
    os.close(there)
    gives(FAILED, b"", *words, err="Broken pipe", stdout=here)
    os.close(here)
    if len(given.out) > 1024:
        with open(WORK / "cut", "wb") as cut:
            gives(FAILED, b"", *words, err="File too large", stdout=cut, preexec_fn=limited)
        need((WORK / "cut").read_bytes() == given.out[:1024], words)
    # a pipe that does not wait, and a reader that is slow
    there, here = os.pipe()
    os.set_blocking(here, False)
    run = subprocess.Popen(["shuntberry", *words], executable=PROGRAM, stdout=here, stderr=subprocess.PIPE, stdin=subprocess.DEVNULL)
    os.close(here)
    got = b""
    while part := os.read(there, 50_000):
        got += part
        time.sleep(0.002)
    os.close(there)
    need(run.wait() == given.status and got == given.out, f"a slow reader got {len(got)} of {len(given.out)} bytes", words)
    # nobody to tell what is wrong: the status still does
    need(subprocess.run(["shuntberry", *words], executable=PROGRAM, preexec_fn=closes(1, 2)).returncode == FAILED, words)
for words in ["check", "--quiet", A], ["encode", "-o", WORK / "out", TABLES / "e.txt"], ["release", A, WORK / "out"]:
    gives(FAILED, b"", *words, err="standard output is closed", stdout=None, preexec_fn=closes(1))
need(not (WORK / "out").exists(), "a file was written though standard output is closed")
# files that are opened do not get the number of a stream that is closed
for words, file in (["encode", "-o", WORK / "out", TABLES / "e.txt"], E), (["release", A, WORK / "out"], A):
    run = subprocess.run(["shuntberry", *words], executable=PROGRAM, preexec_fn=closes(0, 2), stdout=subprocess.PIPE)
    need(run.returncode == SAFE and (WORK / "out").read_bytes() == file.read_bytes(), words)
group("closed, full, broken and slow outputs")

# ---- inputs

READING = [["check"], ["inspect"], ["within", "3"], ["options", "--text"], ["encode"], ["decode"], ["picture"], ["rewrite"], ["check", "--text"]]
writable = open(WORK / "writable", "wb")
failing = HERE / "failing_after"
part = WORK / "part"
part.write_bytes(E.read_bytes()[:100])
(WORK / "empty").write_bytes(b"")
for words in READING:
    out = b"failed\n" if words[0] in ("encode", "decode", "picture", "rewrite") else b""
    gives(FAILED, out, *words, err="standard input is closed", stdin=None, preexec_fn=closes(0))
    with open("/dev/null") as folder:
        folder = os.open("/", os.O_RDONLY)
        gives(FAILED, out, *words, err="is a directory", stdin=folder)
        os.close(folder)
    gives(FAILED, out, *words, err="Bad file descriptor", stdin=writable)
    for file in WORK / "empty", part, E:
        run = subprocess.run([failing, file, PROGRAM, *words], capture_output=True)
        need(run.returncode == FAILED and run.stdout == out and b"Input/output error" in run.stderr, words, run)
    if words[0] != "check" or len(words) > 1:
        gives(FAILED, out, *words, err="standard input is empty")
    terminal, side = pty.openpty()
    gives(FAILED, out, *words, err="standard input is a terminal\nusage: ", stdin=side)
    os.close(terminal), os.close(side)
gives(SAFE, (TABLES / "h1.expected").read_text(), "check", "/dev/stdin", input=H1.read_bytes())
there, here = os.pipe()
run = subprocess.Popen(["check"], executable=PROGRAM, stdin=there, stdout=subprocess.PIPE)
for at in range(0, 1024, 100):
    os.write(here, H1.read_bytes()[at : at + 100])
    time.sleep(0.01)
    run.send_signal(signal.SIGSTOP), run.send_signal(signal.SIGCONT), run.send_signal(signal.SIGWINCH)
os.close(here)
need(run.communicate()[0] == (TABLES / "h1.expected").read_bytes() and run.returncode == SAFE, "a slow pipe, with stops")
fifo = WORK / "fifo"
os.mkfifo(fifo)
threading.Thread(target=lambda: fifo.write_bytes(E.read_bytes())).start()
gives(SAFE, (TABLES / "e.expected").read_text(), "check", fifo)
with open(E, "rb") as opened:  # from where the file stands
    opened.seek(512)
    gives(NO_RELEASE, None, "check", stdin=opened, err=DRAFT)
if os.geteuid() == 0:
    secret = WORK / "secret"
    secret.write_bytes(A.read_bytes())
    os.chmod(WORK, 0o755), os.chmod(secret, 0)
    copy = WORK / "program"
    copy.write_bytes(Path(PROGRAM).read_bytes()), os.chmod(copy, 0o755)
    for words in ["check", secret], ["check-all", secret], ["release", secret, "/tmp/never"]:
        run = subprocess.run([copy, *words], capture_output=True, user=65534, group=65534, extra_groups=[])
        need(run.returncode == FAILED and b"Permission denied" in run.stderr, words, run)
for word in "/proc/self/mem", "/proc/sys/kernel/random/uuid":
    given = call("check", word)
    need(given.status == FAILED and not given.out, given)
need(b"changed while it was read" in given.err, given)  # each look at it finds another
# one file for both: the shell has emptied it, or it is written where it is read
for file, words in (TABLES / "old-e.table", ["rewrite"]), (E, ["decode"]), (TABLES / "e.txt", ["encode"]):
    both = WORK / "both"
    both.write_bytes(file.read_bytes())
    for how in '"$0" "${@:2}" <"$1" >"$1"', '"$0" "${@:2}" "$1" >"$1"', '"$0" "${@:2}" <"$1" >>"$1"', '"$0" "${@:2}" "$1" 1<>"$1"':
        both.write_bytes(file.read_bytes())
        run = subprocess.run(["bash", "-c", how, PROGRAM, both, *words], capture_output=True)
        need(run.returncode == FAILED and b"one file" in run.stderr, how, run)
        need(both.read_bytes() != b"" and call("check", both).status == REFUSED, how)
    # also where no file may be open but the input and the standard streams
    both.write_bytes(file.read_bytes())
    with open(both, "ab") as output:
        gives(FAILED, b"", *words, both, stdout=output, err="input and output are one file", preexec_fn=lambda: resource.setrlimit(resource.RLIMIT_NOFILE, (4, 4)))
    need(both.read_bytes() == file.read_bytes() + b"failed\n", words)
group("inputs that fail, wait or are no files")

# ---- terminals: a file is not for one; how far check-all is stands there, and is gone at the end

def on_terminal(*words, size=1 << 16):
    support.count += 1
    terminal, side = pty.openpty()
    run = subprocess.Popen(["shuntberry", *map(str, words)], executable=PROGRAM, stdin=subprocess.DEVNULL, stdout=side, stderr=side)
    os.close(side)
    got = b""
    try:
        while piece := os.read(terminal, size):
            got += piece
    except OSError:
        pass
    os.close(terminal)
    return run.wait(), got.replace(b"\r\n", b"\n")


for words in ["encode", TABLES / "e.txt"], ["generate", "7", "3", "2"], ["rewrite", TABLES / "old-e.table"]:
    status, got = on_terminal(*words)
    need(status == FAILED and b"not for a terminal" in got and b"failed" not in got, got)
status, got = on_terminal("check", A)
need(status == SAFE and got == (TABLES / "a.expected").read_bytes(), got)
many = WORK / "many"
many.write_text(f"{LARGEST}\n" * 3000)
status, got = on_terminal("check-all", "--from", many)
need(status == UNSAFE and b" of 3000 files: " in got, got[-500:])
lines = [line.split(b"\x1b[K")[-1] for line in got.split(b"\n")]
need(lines == [f"{LARGEST}: unsafe".encode()] * 3000 + [b"3000 files: 0 safe, 3000 unsafe, 0 refused, 0 drafts, 0 failed", b""], lines[-3:])
group("terminals")

# ---- -o: whole, or as it was

out = WORK / "new"
for before in None, b"what was there":
    for words in ["encode", TABLES / "largest.txt"], ["decode", LARGEST], ["picture", LARGEST], ["generate", "7", "512", "2"], ["rewrite", TABLES / "old-largest.table"], ["release", A], ["report", LARGEST]:
        option = [] if words[0] == "release" else ["-o"]
        out.unlink(missing_ok=True)
        if before:
            out.write_bytes(before)
        if words[0] != "release":
            given = call(*words, *option, out, preexec_fn=limited)
            need(given.status == FAILED and b"File too large" in given.err, given)
            need((out.read_bytes() if out.exists() else None) == before, "a disk that is full in the middle", given)
        for target, why in (WORK / "missing/x", "No such file"), (WORK, "it is no file|directory"), ("", "No such file"), ("/proc/x", "No such file|Permission|not permitted"):
            given = call(*words, *option, target)
            need(given.status == FAILED and __import__("re").search(why, given.err.decode()), given)
        need(not list(WORK.glob(".shuntberry*")), "a part is left")
link, behind = WORK / "link", WORK / "behind"
behind.write_bytes(b"old")
os.symlink("behind", link)
gives(SAFE, "", "encode", "-o", link, TABLES / "h1.txt")
need(link.is_symlink() and behind.read_bytes() == H1.read_bytes(), "an output behind a link")
gives(SAFE, H1.read_bytes(), "encode", "-o", "/dev/stdout", TABLES / "h1.txt")
gives(SAFE, "", "encode", "-o", "-dash", TABLES / "h1.txt", cwd=WORK)
gives(SAFE, "", "encode", "-o", "two\nlines", "--", "-text", cwd=WORK) if (WORK / "-text").write_bytes((TABLES / "h1.txt").read_bytes()) else None
need((WORK / "-dash").read_bytes() == (WORK / "two\nlines").read_bytes() == H1.read_bytes(), "names of outputs")
os.chmod(behind, 0o640)
gives(SAFE, "", "encode", "-o", link, TABLES / "e.txt")
need(behind.stat().st_mode & 0o777 == 0o640 and behind.read_bytes() == E.read_bytes(), "who may read it")
long = "x" * 255
gives(SAFE, "", "encode", "-o", WORK / long, TABLES / "h1.txt")
# the input itself is no place for the output, by whatever name: a file does not hold what a text does
source, names = WORK / "source", WORK / "names"
for file, words in (TABLES / "e.txt", ["encode"]), (E, ["decode"]), (E, ["picture"]), (TABLES / "old-e.table", ["rewrite"]):
    source.write_bytes(file.read_bytes())
    (WORK / "hard").unlink(missing_ok=True)
    os.link(source, WORK / "hard")
    for out_name in source, f"{WORK}/./source", WORK / "hard":
        gives(FAILED, None, *words, "-o", out_name, source, err="input and output are one file")
        with open(source, "rb") as piped:
            gives(FAILED, None, *words, "-o", out_name, stdin=piped, err="input and output are one file")
    need(source.read_bytes() == file.read_bytes(), "the input was written over", words)
names.write_bytes((TABLES / "e.txt").read_bytes())
gives(FAILED, None, "picture", "--names", names, "-o", names, E, err="input and output are one file")
need(names.read_bytes() == (TABLES / "e.txt").read_bytes(), "the names were written over")
# a link to nothing, and a word that is an option
os.symlink("nothing-there", WORK / "loose")
for words in ["encode", "-o", WORK / "loose", TABLES / "e.txt"], ["release", A, WORK / "loose"]:
    gives(FAILED, None, *words, err="it is a link to nothing")
    need((WORK / "loose").is_symlink() and not (WORK / "nothing-there").exists(), "a link to nothing was written over")
gives(FAILED, None, "encode", "-o", "-o", TABLES / "e.txt", err="-o needs a value", cwd=WORK)
need(not (WORK / "-o").exists(), "a file called -o")
group("outputs by their names")

# ---- an OUT that is there stays whose it is, or stays as it is

WRITING = ["release", A], ["report", A, "-o"], ["encode", TABLES / "a.txt", "-o"], ["decode", A, "-o"], ["picture", A, "-o"], ["generate", "7", "3", "2", "-o"], ["rewrite", TABLES / "old-e.table", "-o"]
place = WORK / "place"
place.mkdir()
kept, second = place / "kept", place / "second"


def stays(words, err, path=kept, **how):
    """A call that fails, prints nothing, and leaves all in the folder as it was."""
    look = lambda: {file.name: (file.lstat().st_ino, file.lstat().st_uid, file.lstat().st_gid, file.lstat().st_mode, file.is_symlink() or file.read_bytes()) for file in place.iterdir()}
    before = look()
    gives(FAILED, "", *words, path, err=f"could not be written: {err}", **how)
    need(look() == before, "the folder is not as it was", words, before, look())


kept.write_bytes(b"kept")
os.link(kept, second)
for words in WRITING:
    for name in kept, second:
        stays(words, "it has a second name", name)
os.symlink("second", place / "by-link")
stays(WRITING[0], "it has a second name", place / "by-link")
second.unlink(), (place / "by-link").unlink()
group("outputs with a second name")


def private(*mounts):
    """For a call in a name space of its own, in which some things are mounted: (what, where, flags of mount)."""
    BIND, REC, PRIVATE, NEWNS = 4096, 16384, 1 << 18, 0x20000

    def done():
        for result in libc.unshare(NEWNS), libc.mount(None, b"/", None, REC | PRIVATE, None), *(libc.mount(os.fsencode(what), os.fsencode(where), None, BIND | flags, None) for what, where, flags in mounts):
            if result:
                raise OSError(ctypes.get_errno(), "no name space, or no mount")

    return done


libc = ctypes.CDLL(None, use_errno=True)
REMOUNT, NOSYMFOLLOW = 32, 256
try:
    subprocess.run(["true"], preexec_fn=private(), check=True)
    mounts = True
except subprocess.SubprocessError:
    mounts = False
if os.geteuid() == 0:
    os.chmod(WORK, 0o755)
    os.chmod(place, 0o777)
    os.chmod(copy, 0o755)
    nobody = {"user": 65534, "group": 65534, "extra_groups": []}
    # root keeps owner, group and mode; another user does so, or leaves the file as it was
    for words in WRITING:
        for owner, group_of, mode in (1, 2, 0o640), (0, 7, 0o660), (65534, 65534, 0o600):
            kept.write_bytes(b"kept")
            os.chown(kept, owner, group_of), os.chmod(kept, mode)
            given = call(*words, kept)
            found = kept.stat()
            need(given.status == SAFE and (found.st_uid, found.st_gid, found.st_mode & 0o7777) == (owner, group_of, mode) and kept.read_bytes() != b"kept", "another owner", given, found)
        kept.write_bytes(b"kept")
        for owner, group_of in (0, 0), (65534, 0), (0, 65534), (1, 1):
            os.chown(kept, owner, group_of), os.chmod(kept, 0o666)
            given = subprocess.run([copy, *words, kept], capture_output=True, **nobody)
            need(given.returncode == FAILED and b"it would not keep its owner and group: Operation not permitted" in given.stderr and b"SHA-256" not in given.stdout, given)
            need(os.listdir(place) == ["kept"] and kept.read_bytes() == b"kept" and (kept.stat().st_uid, kept.stat().st_gid) == (owner, group_of), "not as it was", given)
            support.count += 1
        os.chown(kept, 65534, 65534)
        given = subprocess.run([copy, *words, kept], capture_output=True, **nobody)
        need(given.returncode == SAFE and kept.stat().st_uid == 65534 and kept.read_bytes() != b"kept", given)
    os.chown(kept, 0, 0)
if mounts:
    # links that the kernel does not follow, of which fs.protected_symlinks is one case: no other file is
    # written by what stands in them
    os.symlink("kept", place / "link")
    os.symlink(place / "link", place / "longer")
    os.symlink("free", place / "to-nothing")
    for words in WRITING:
        for name in "link", "longer", "to-nothing":
            stays(words, "Too many levels of symbolic links", place / name, preexec_fn=private((place, place, 0), ("none", place, REMOUNT | NOSYMFOLLOW)))
        gives(SAFE, None, *words, place / "longer")
        kept.write_bytes(b"kept")
    for name in "link", "longer", "to-nothing":
        (place / name).unlink()
    # what is mounted there cannot be replaced, be it of another file system or of the same
    second.write_bytes(b"second")
    for what in second, Path("/proc/self/status"), kept:
        for words in WRITING:
            stays(words, "a file system is mounted on it|it is write-protected", preexec_fn=private((what, kept, 0)))
group("outputs that stay whose they are" + ("" if mounts else "; nothing could be mounted"))

# ---- signals: at many moments, to every command that writes a file

# A gate that was started in the background, or by nohup, has these ignored, and so has what it starts.
for number in signal.SIGHUP, signal.SIGINT, signal.SIGQUIT:
    signal.signal(number, signal.SIG_DFL)
ENDING = [number for number in signal.Signals if number not in (
    signal.SIGKILL, signal.SIGSTOP, signal.SIGCHLD, signal.SIGCONT, signal.SIGTSTP, signal.SIGTTIN, signal.SIGTTOU, signal.SIGURG, signal.SIGWINCH, signal.SIGPIPE, signal.SIGXFSZ)]


def ready(run):
    """Waits until the program catches signals: what comes before that it cannot know of."""
    while run.poll() is None:
        status = Path(f"/proc/{run.pid}/status").read_text()
        if int(status.split("SigCgt:")[1].split()[0], 16) >> 63 & 1:  # the last one
            return
        time.sleep(0.0002)


def started(words, **how):
    run = subprocess.Popen(["shuntberry", *map(str, words)], executable=PROGRAM, stderr=subprocess.DEVNULL, **how)
    ready(run)
    return run


# while it waits for its input: `failed` stands in place of a file, and the signal ends it
for number in ENDING:
    for words in ["encode"], ["check"], ["decode", "-o", out]:
        out.write_bytes(b"old")
        run = started(words, stdin=subprocess.PIPE, stdout=subprocess.PIPE)
        run.send_signal(number)
        got, status = run.stdout.read(), run.wait()
        run.stdin.close(), run.stdout.close()
        need(status == -number, f"{words} ended with {status} on {number!r}")
        need(got in {"encode": [b"failed\n"], "check": [b""], "decode": [b"", b"failed\n"]}[words[0]] and out.read_bytes() == b"old", words, number, got)
        support.count += 1
# what is ignored stays so: nohup
run = subprocess.Popen(["shuntberry", "encode"], executable=PROGRAM, stdin=subprocess.PIPE, stdout=subprocess.PIPE, preexec_fn=lambda: signal.signal(signal.SIGHUP, signal.SIG_IGN))
ready(run)
run.send_signal(signal.SIGHUP)
need(run.communicate((TABLES / "e.txt").read_bytes())[0] == E.read_bytes() and run.returncode == 0, "nohup")
# a pipe that is full: it can be ended, and what was read is no file
there, here = os.pipe()
run = started(["generate", "7", "512", "2"], stdin=subprocess.DEVNULL, stdout=here)
run2 = started(["inspect", LARGEST], stdin=subprocess.DEVNULL, stdout=here)
time.sleep(0.05)
run.send_signal(signal.SIGTERM), run2.send_signal(signal.SIGTERM)
need(run.wait() in (0, -signal.SIGTERM) and run2.wait() in (0, -signal.SIGTERM), "a full pipe cannot be left")
os.close(here), os.close(there)
group("signals while it waits")

# at moments from the first to the last, with much to do before the file is written
big = WORK / "big.txt"
big.write_bytes(b"# a long comment, as drafters write it\n" * 100_000 + (TABLES / "largest.txt").read_bytes())
WRITES = [(["encode", big], LARGEST.read_bytes()), (["decode", "--text", big], (TABLES / "largest.txt").read_bytes()), (["generate", "7", "512", "2"], None), (["release", A], A.read_bytes())]
kills = {"killed": 0, "done": 0}
for words, whole in WRITES:
    whole = whole or call(*words).out
    release = words[0] == "release"
    times = []
    for _ in range(3):
        began = time.monotonic()
        call(*words, *([] if release else ["-o"]), out)
        times.append(time.monotonic() - began)
    took = max(times)
    for i in range(60):
        old = random.choice([None, b"what was there"])
        number = random.choice([signal.SIGTERM, signal.SIGINT, signal.SIGHUP, signal.SIGKILL, signal.SIGALRM, signal.SIGQUIT])
        out.unlink(missing_ok=True)
        if old:
            out.write_bytes(old)
        run = started([*words, *([] if release else ["-o"]), out], stdin=subprocess.DEVNULL, stdout=subprocess.DEVNULL)
        time.sleep(random.random() * took * 1.1)
        run.send_signal(number)
        status = run.wait()
        found = out.read_bytes() if out.exists() else None
        need(status in (0, -number), words, status)
        need(found == whole or (found == old and status != 0), f"{words} killed by {number!r}: OUT has {found and len(found)} bytes, status {status}")
        need(number == signal.SIGKILL or not list(WORK.glob(".shuntberry*")), "a part is left", words)
        for left in WORK.glob(".shuntberry*"):
            left.unlink()
        kills["done" if status == 0 else "killed"] += 1
        support.count += 1
        if release or number == signal.SIGKILL:
            continue
        # on standard output: a whole file, or a line that is none
        with open(out, "wb") as output:
            run = started(words, stdin=subprocess.DEVNULL, stdout=output)
            time.sleep(random.random() * took * 1.1)
            run.send_signal(number)
            status = run.wait()
        found = out.read_bytes()
        need(found == whole or (found == b"failed\n" and status == -number), f"{words} killed by {number!r}: {found[:50]!r}, status {status}")
need(kills["killed"] >= 20 and kills["done"] >= 10, kills)
group(f"kills at many moments, {kills['killed']} of them before the end")

# ---- files that change

target, released = WORK / "saved", WORK / "out"
stop = threading.Event()


def save():
    """As an editor does: empties the file and writes it anew."""
    while not stop.is_set():
        for path in A, B:
            target.write_bytes(path.read_bytes())


answers = {path.read_bytes(): path.with_suffix(".expected").read_bytes() for path in (A, B)}
target.write_bytes(A.read_bytes())
saver = threading.Thread(target=save)
saver.start()
statuses = set()
try:
    for _ in range(300):
        given = call("check", target)
        statuses.add(given.status)
        need(given.status not in (SAFE, UNSAFE) or given.out == answers[(A if given.status == SAFE else B).read_bytes()], given)
        need(given.status != FAILED or (b"changed while it was read" in given.err and not given.out), given)
        released.unlink(missing_ok=True)
        given = call("release", target, released)
        need(released.exists() == (given.status == SAFE), given)
        need(not released.exists() or released.read_bytes() == A.read_bytes(), given)
finally:
    stop.set()
    saver.join()
need(len(statuses) > 1, statuses)
group(f"a file that is saved meanwhile, statuses {sorted(statuses)}")

# ---- environments

fakes = WORK / "fakes"
fakes.mkdir()
for tool in "head cat tail readlink dirname find stat touch mv flock bash sh env mktemp check shuntberry program_check".split():
    (fakes / tool).write_text("#!/bin/sh\nexit 0\n")
    os.chmod(fakes / tool, 0o755)
(WORK / "exits").write_text("exit 0\n")
preload = WORK / "preload.so"
(WORK / "preload.c").write_text("#include <unistd.h>\n__attribute__((constructor)) static void no(void) { _exit(0); }\n")
built = subprocess.run(["gcc", "-shared", "-fPIC", "-o", preload, WORK / "preload.c"]).returncode == 0
tricks = {
    "functions": {"BASH_FUNC_head%%": "() { :; }", "BASH_FUNC_exec%%": "() { exit 0; }", "BASH_FUNC_become%%": "() { exit 0; }", "BASH_FUNC_exit%%": "() { builtin exit 0; }"},
    "BASH_ENV": {"BASH_ENV": str(WORK / "exits"), "ENV": str(WORK / "exits")},
    "noexec": {"SHELLOPTS": "noexec:xtrace", "BASHOPTS": "extglob"},
    "PATH": {"PATH": f"{fakes}:{os.environ['PATH']}"},
    "others": {"CDPATH": "/", "GLOBIGNORE": "*", "IFS": "/", "POSIXLY_CORRECT": "1", "LC_ALL": "tr_TR.UTF-8", "TERM": "x", "PS4": "$(exit 0)", "RUST_BACKTRACE": "1", "TMPDIR": "/nowhere"},
    "nothing": {},
}
for name, trick in tricks.items():
    env = trick if name == "nothing" else os.environ | trick
    for script in TOP / "check", PROGRAM:
        if script == PROGRAM or name != "nothing":
            for path in A, B, TABLES / "bad-check.table", TABLES / "empty.table":
                expected = path.with_suffix(".expected").read_bytes()
                words = [script, path] if script != PROGRAM else [script, "check", path]
                run = subprocess.run(words, capture_output=True, env=env, stdin=subprocess.DEVNULL)
                need(run.returncode == status_of(expected.decode()) and run.stdout == expected, name, run)
                support.count += 1
if built:
    for path in B, TABLES / "bad-check.table":
        run = subprocess.run([PROGRAM, "check", path], capture_output=True, env=os.environ | {"LD_PRELOAD": str(preload)})
        need(run.returncode == status_of(path.with_suffix(".expected").read_text()), "LD_PRELOAD", run)
# the script: as the program, from everywhere and by a link
expected = (TABLES / "e.expected").read_bytes()
os.symlink(TOP / "check", WORK / "by-link")
for words, how in ([TOP / "check", E], {}), ([WORK / "by-link", E], {}), ([TOP / "check"], {"stdin": open(E, "rb")}), ([TOP / "shuntberry", "check", E], {"cwd": "/"}):
    run = subprocess.run(words, capture_output=True, **how)
    need(run.returncode == SAFE and run.stdout == expected and not run.stderr, words, run)
for words in [TOP / "check", "--version"], [TOP / "check", "--help"]:
    need(subprocess.run(words, capture_output=True).returncode == FAILED, words)
# a clone without the tools says what to do; one that cannot be built does not run what is there
clone = WORK / "clone"
(clone / "scripts").mkdir(parents=True)
for name in "check", "shuntberry", "VERSION", "crates.txt", "scripts/native", "scripts/prove":
    (clone / name).write_bytes((TOP / name).read_bytes())
    os.chmod(clone / name, 0o755)
bare = WORK / "bare"
bare.mkdir()
for tool in "tail mv mkdir flock rm".split():
    os.symlink(subprocess.run(["which", tool], capture_output=True, text=True).stdout.strip(), bare / tool)
os.symlink(sys.executable, bare / "python3")
for script in "check", "shuntberry":
    run = subprocess.run([clone / script, A], capture_output=True, env={"PATH": str(bare)}, text=True)
    need(run.returncode == FAILED and f"shuntberry-{(TOP / 'VERSION').read_text().strip()}-x86_64-linux.tar.gz" in run.stderr and not run.stdout, run)
(clone / "rust/target/command/release").mkdir(parents=True), (clone / "target/staticlib").mkdir(parents=True)
(clone / "target/staticlib/libshuntberry.a").write_bytes(b"")
(clone / "rust/target/command/release/shuntberry").write_bytes(Path(PROGRAM).read_bytes())
os.chmod(clone / "rust/target/command/release/shuntberry", 0o755)
for tool in "rt", "cargo":
    (bare / tool).write_text("#!/bin/sh\necho the build is broken\nexit 1\n")
    os.chmod(bare / tool, 0o755)
run = subprocess.run([clone / "check", A], capture_output=True, env={"PATH": str(bare)}, text=True)
need(run.returncode == FAILED and not run.stdout and "the build is broken" in run.stderr and "could not be built: the library" in run.stderr, run)
for name in "library", "program":  # tests/dist/clone has when it is built
    (clone / f"target/{name}.built").write_bytes(b"")
run = subprocess.run([clone / "check", A], capture_output=True, env={"PATH": str(bare)}, text=True)
need(run.returncode == FAILED and not run.stdout, run)
(clone / "scripts/native").unlink()
run = subprocess.run([clone / "check", A], capture_output=True, text=True)
need(run.returncode not in (SAFE, UNSAFE, REFUSED) and not run.stdout, run)
group("environments, and the scripts of the repository")
