#!/usr/bin/env python3
"""Holds each constant, struct and function of C that sys.rs declares to the C headers:
tests/system/headers.py SYS_RS.

Small C programs print the numbers of the headers. A constant has the name that C has for it, or one of OURS; any
other is a fault, so that none is left out. Then numbers, fields and types of sys.rs are changed, one at a time: each
time a fault must be found."""
import re
import subprocess
import sys
import tempfile
from pathlib import Path

HEADERS = "errno fcntl limits poll signal stddef stdint stdio sys/stat sys/types time unistd".split()
# What a constant of ours is in C: one number, or the members of a list. None: it is no number of C's.
OURS = {
    "DEFAULT": ["(uintptr_t)SIG_DFL"],
    "IGNORE": ["(uintptr_t)SIG_IGN"],
    "OUTPUT": ["STDOUT_FILENO"],
    "PIPE_BYTES": ["PIPE_BUF"],
    "LAST_SIGNAL": ["SIGRTMAX"],
    "NO_GROUP": None,
    # those that cannot be caught, those that end nothing, and the two that the C library keeps, below the first of real time
    "LEFT_ALONE": [
        *"SIGKILL SIGSTOP SIGCHLD SIGCONT SIGTSTP SIGTTIN SIGTTOU SIGURG SIGWINCH".split(),
        *["SIGRTMIN - 2", "SIGRTMIN - 1"],
    ],
}
# A struct of ours: the type in C, and its fields there; what is not in the list is filler.
STRUCTS = {
    "Poll": ("struct pollfd", {"fd": "fd", "events": "events", "found": "revents"}),
    "Signals": ("sigset_t", {}),
    "Statx": ("struct statx", {"attributes": "stx_attributes", "known": "stx_attributes_mask"}),
}
SIZES = {
    "i16": 2, "u16": 2, "i32": 4, "u32": 4, "i64": 8, "u64": 8,
    "c_int": 4, "c_uint": 4, "c_long": 8, "c_ulong": 8, "usize": 8, "isize": 8,
}
IN_C = {
    "c_int": "int", "c_uint": "unsigned int", "c_long": "long", "c_ulong": "unsigned long",
    "usize": "size_t", "isize": "ssize_t", "c_char": "char", "c_void": "void", "u32": "uint32_t", "()": "void",
    **{ours: theirs for ours, (theirs, _) in STRUCTS.items()},
}
# A word or a pointer of ours that C has a type of its own for.
OTHERWISE = {
    ("signal", "action"): "sighandler_t",
    ("signal", "->"): "sighandler_t",
    ("ppoll", "wait"): "const struct timespec *",
}


def in_c(some):
    """The C type of one of Rust's."""
    if some == "...":
        return some
    pointer = re.fullmatch(r"\*(const|mut) (.+)", some)
    if pointer:
        return f"{'const ' if pointer[1] == 'const' else ''}{in_c(pointer[2])} *"
    return IN_C[some]


def constants(text):
    return dict(re.findall(r"^\s*(?:pub )?const (\w+): [^=]+ = (.+?);", text, re.M))


def structs(text):
    """Each struct that is laid out as C does it: its fields with their types, in order; without names, by their places."""
    found = {}
    head = r"#\[repr\(C\)\]\s*(?:#\[.*\]\s*)*(?:pub )?struct (\w+)\s*"
    for name, named, plain in re.findall(head + r"(?:\{([^}]*)\}|\(([^)]*)\);)", text):
        if named:
            found[name] = re.findall(r"^\s*(?:pub )?(\w+): (.+?),$", named, re.M)
        else:
            found[name] = [(str(place), kind) for place, kind in enumerate(re.split(r", *", plain))]
    return found


def functions(text):
    """Each function of C: its parameters with their types, and what it returns."""
    found = {}
    for block in re.findall(r'unsafe extern "C" \{(.*?)^\}', text, re.M | re.S):
        for name, inside, answer in re.findall(r"fn (\w+)\(([^)]*)\)(?: -> ([^;]+))?;", block):
            parts = [part.strip() for part in inside.split(",") if part.strip()]
            pairs = [("...", "...") if part == "..." else tuple(part.split(": ")) for part in parts]
            found[name] = (pairs, answer or "()")
    return found


def size_of(kind):
    """Size and alignment."""
    array = re.fullmatch(r"\[(\w+); (\d+)\]", kind)
    one = SIZES[array[1] if array else kind]
    return one * int(array[2]) if array else one, one


def layout(fields):
    """Where each field is and how long, as repr(C) has it, and the size of all."""
    at, most, places = 0, 1, {}
    for name, kind in fields:
        size, align = size_of(kind)
        at += -at % align
        places[name] = (at, size)
        at, most = at + size, max(most, align)
    return places, at + -at % most


class C:
    """Numbers of the C headers, asked for once each."""

    def __init__(self, folder):
        self.folder, self.known = Path(folder), {}

    def compiled(self, text):
        source = self.folder / "asked.c"
        includes = "".join(f"#include <{name}.h>\n" for name in HEADERS)
        source.write_text(f"#define _GNU_SOURCE\n{includes}{text}")
        words = ["gcc", "-std=gnu11", "-Wall", "-Wextra", "-Werror", source, "-o", self.folder / "asked"]
        return subprocess.run(words, capture_output=True).returncode == 0

    def number(self, asked):
        """None where the headers have no such thing."""
        if asked not in self.known:
            self.known[asked] = None
            if self.compiled(f'int main(void) {{ printf("%lld\\n", (long long)({asked})); }}\n'):
                self.known[asked] = int(subprocess.run([self.folder / "asked"], capture_output=True, check=True).stdout)
        return self.known[asked]

    def has(self, name, type_of_it):
        asked = (name, type_of_it)
        if asked not in self.known:
            same = f"__builtin_types_compatible_p(__typeof__(&{name}), {type_of_it})"
            self.known[asked] = self.compiled(f'_Static_assert({same}, "another");\nint main(void) {{}}\n')
        return self.known[asked]


def numbers(value, all_constants):
    """Those of a constant of Rust's: one, or the members of a list, each a number or the name of another constant."""
    words = [word.strip() for word in value.strip("[]").split(",") if word.strip()]
    return [int((all_constants[word] if word in all_constants else word).replace("_", ""), 0) for word in words]


def constant_faults(text, c):
    found = constants(text)
    for name, value in found.items():
        theirs = OURS.get(name, [name])
        if theirs is None:
            continue
        expected = [c.number(one) for one in theirs]
        if None in expected:
            yield f"{name}: C has no such constant, and OURS does not say which it is"
        elif sorted(numbers(value, found)) != sorted(expected):
            yield f"{name} is {value}, and in C {expected}"


def struct_faults(text, c):
    for name, fields in structs(text).items():
        if name not in STRUCTS:
            yield f"{name}: STRUCTS does not say which struct of C's it is"
            continue
        theirs, pairs = STRUCTS[name]
        places, size = layout(fields)
        if size != c.number(f"sizeof({theirs})"):
            yield f"{name} has {size} bytes, and {theirs} another number"
        for ours, field in pairs.items():
            expected = (c.number(f"offsetof({theirs}, {field})"), c.number(f"sizeof((({theirs} *)0)->{field})"))
            if places.get(ours) != expected:
                yield f"{name}.{ours} is at {places.get(ours)}, and {theirs}.{field} at {expected}, with its size"


def function_faults(text, c):
    for name, (parameters, answer) in functions(text).items():
        kinds = [OTHERWISE.get((name, what)) or in_c(kind) for what, kind in [*parameters, ("->", answer)]]
        type_of_it = f"{kinds[-1]} (*)({', '.join(kinds[:-1]) or 'void'})"
        if not c.has(name, type_of_it):
            yield f"{name} is no {type_of_it} in C"


def faults(text, c):
    return [*constant_faults(text, c), *struct_faults(text, c), *function_faults(text, c)]


def with_constant(text, name, value):
    return re.sub(rf"(const {name}: [^=]+ = ).+?;", lambda found: f"{found[1]}{value};", text)


def other_kind(kind):
    """A type of another size."""
    if kind.startswith("["):
        return re.sub(r"(\d+)\]", lambda found: f"{int(found[1]) + 1}]", kind)
    return "i64" if kind == "i16" else "i16"


def mutants(text):
    """The same with one number, one field or one type changed."""
    for name, value in constants(text).items():
        if OURS.get(name, ()) is None:
            continue
        for place in re.finditer(r"(?<!\w)\d[\d_xa-fA-F]*", value):
            number = int(place[0].replace("_", ""), 0) + 1
            changed = f"{value[:place.start()]}{number}{value[place.end():]}"
            yield f"{name} = {changed}", with_constant(text, name, changed)
    for name, fields in structs(text).items():
        for field, kind in fields:
            head, rest = text.split(f"struct {name}", 1)
            yield f"{name}.{field}: {other_kind(kind)}", f"{head}struct {name}{rest.replace(kind, other_kind(kind), 1)}"
    exchanged = text.replace("events: i16", "new: i16", 1).replace("found: i16", "events: i16", 1)
    yield "events and found exchanged", exchanged.replace("new: i16", "found: i16", 1)
    for before, after in (
        ("fd: c_int, bytes", "fd: usize, bytes"),
        ("length: usize) -> isize", "length: usize) -> c_int"),
        ("how: c_int, ", ""),
    ):
        yield f"{before} as {after}", text.replace(before, after, 1)


def main():
    text = Path(sys.argv[1]).read_text()
    found = [constants(text), structs(text), functions(text)]
    if not all(found):
        sys.exit(f"system: {sys.argv[1]} has no constants, structs or functions that can be read here")
    with tempfile.TemporaryDirectory() as folder:
        c = C(folder)
        wrong = faults(text, c)
        if wrong:
            sys.exit("\n".join(f"system: {fault}" for fault in wrong))
        count = 0
        for what, mutant in mutants(text):
            if mutant == text or not faults(mutant, c):
                sys.exit(f"system: {what} is not found")
            count += 1
    told = "{} constants, {} structs and {} functions".format(*map(len, found))
    print(f"system: {told} as in the C headers; {count} changes of them found")


main()
