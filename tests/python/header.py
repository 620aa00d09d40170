"""What was made of the header for Python is what the C compiler makes of it: sizes, refusals, the layout of the
structs, and what the calls take and answer. And why a state is forbidden is the same in both.

    header.py PREFIX SEED
"""
import ctypes
import random
import struct
import subprocess
import sys
import tempfile
from pathlib import Path

from support import TOP, group, need, same, shuntberry
from shuntberry import Forbidden, Refusal, Table, _raw

random.seed(int(sys.argv[2]))


def run_c(lines, given=b""):
    """What a C program prints of what it is given."""
    with tempfile.TemporaryDirectory() as work:
        source, program = Path(work, "p.c"), Path(work, "p")
        source.write_text('#include <stdio.h>\n#include "shuntberry.h"\nint main(void) {\n' + "\n".join(lines) + "\n}\n")
        subprocess.run(["gcc", "-Wall", "-Wconversion", "-Werror", f"-I{TOP / 'include'}", source, "-o",
            program], check=True)
        return subprocess.run([program], input=given, check=True, stdout=subprocess.PIPE).stdout.decode()


# ---- sizes and refusals

sizes = {name: value for name, value in vars(_raw).items() if name.isupper() and isinstance(value, int)}
need(len(sizes) >= 30, f"only {sizes} are known")
printed = run_c([f'printf("{name} %llu\\n", (unsigned long long)SHUNTBERRY_{name});' for name in sizes])
same(printed, "".join(f"{name} {value}\n" for name, value in sizes.items()), "sizes")
printed = run_c([f'printf("%d %s\\n", SHUNTBERRY_{refusal.name}, shuntberry_refusal_text({refusal.value}));' for refusal in Refusal])
same(printed, "".join(f"{refusal.value} {refusal.ground}\n" for refusal in Refusal), "refusals")

# ---- structs: each field at its place

STRUCTS = {found: f"struct shuntberry_{name.lower()}" for name,
    found in vars(_raw).items() if isinstance(found, type) and found.__base__ is ctypes.Structure}
need(len(STRUCTS) >= 11, "too few structs")
lines, laid_out = [], ""
for found, of in STRUCTS.items():
    lines.append(f'printf("{of} %zu\\n", sizeof({of}));')
    laid_out += f"{of} {ctypes.sizeof(found)}\n"
    for field, _ in found._fields_:
        lines.append(f'printf("{of} {field} %zu %zu\\n", offsetof({of}, {field}), sizeof((({of} *)0)->{field}));')
        laid_out += f"{of} {field} {getattr(found, field).offset} {getattr(found, field).size}\n"
same(run_c(lines), laid_out, "the layout of the structs")

# ---- calls: C takes arguments of these types, and answers with this one; nothing is called

C_TYPES = {
    ctypes.c_size_t: "size_t", ctypes.c_uint32: "uint32_t", ctypes.POINTER(ctypes.c_uint8): "uint8_t *",
        ctypes.POINTER(ctypes.c_uint16): "uint16_t *",
    ctypes.POINTER(ctypes.c_uint32): "uint32_t *", ctypes.POINTER(ctypes.c_uint64): "uint64_t *", **STRUCTS}
lines = []
for name, (answer, parameters) in _raw.CALLS.items():
    arguments = ", ".join(f"*({C_TYPES[kind]} *)0" for _, kind in parameters)
    lines.append(f'printf("{name} %d\\n", __builtin_types_compatible_p(__typeof__(shuntberry_{name}({arguments})), {C_TYPES[answer]}));')
same(run_c(lines), "".join(f"{name} 1\n" for name in _raw.CALLS), "calls")
group("sizes, refusals, structs and calls as the C compiler has them")

# ---- why a state is forbidden

tables, given, vacuous = [], b"", set()
for n in (0, 1, 2, 63, 64, 65, 511, 512, *(random.randrange(1, 40) for _ in range(40)), *(random.randrange(1, 5) for _ in range(40))):
    some = lambda: [s for s in range(n) if random.random() < 0.3]  # noqa: E731
    tables.append(Table(n, initial=some(), marked=some(), resting=some(), steps={s: random.choices(range(n),
        k=random.randrange(3)) for s in range(n)}))
    given += struct.pack("=Q", n) + bytes(tables[-1]._store)
said = run_c([
    "static uint64_t store[SHUNTBERRY_STORE_WORDS]; uint64_t n;",
        "while (fread(&n, sizeof n, 1, stdin) == 1 && fread(store, sizeof store, 1, stdin) == 1) {",
    "for (size_t state = 0; state < n + 2; state++)",
        'printf("%u ", (unsigned)shuntberry_why_forbidden(store, n, state));',
    'printf("%d\\n", shuntberry_is_vacuous(store, n)); }'], given)
for table, line in zip(tables, said.splitlines()):
    ours = [table.why_forbidden(s) for s in range(table.n)]
    *whys, is_vacuous = line.split()
    same([int(number) for number in whys], [why.value for why in ours] + [_raw.NO_ANSWER] * 2, "why in C", table)
    same(table.is_vacuous, is_vacuous == "1", "vacuous in C", table)
    reaches = any(away is not None for away in shuntberry.distances(table))
    same(table.is_vacuous, not (shuntberry.Session(table).reachable and reaches), "vacuous, and what is reached", table)
    vacuous.add(table.is_vacuous)
    need(not table.is_vacuous or shuntberry.decide(table).verdict is shuntberry.Verdict.SAFE, "vacuous, and not safe", table)
    same([why is not Forbidden.NOT for why in ours], [away == 0 for away in shuntberry.distances(table)],
        "why, and distances", table)
    same({s for s in range(table.n) if ours[s] is Forbidden.MARKED}, set(table.marked), "marked", table)
need(said.count("\n") == len(tables) and all(f" {why.value} " in said for why in Forbidden),
    "a reason was not tried")
same(vacuous, {True, False}, "no table is vacuous, or all are")
group("why a state is forbidden, as in C")
