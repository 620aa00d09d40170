"""Holds what Rattle exports to the header: contracts know names, C knows places.

From the source of `shuntberry` and `shuntberry_fields`: the names of the exports; the names, order and widths of
their parameters and of the fields of the structs; that each export hands its parameters on, under the same names
and in the same order, to the call of its own name, which has those that it names in the same places (or, without
parameters, is a constant); and the numbers of the constants. From all source: that code names its refusals
(`Refusal` of `core_refusals`, which is made from the header), gives none by a number and makes none of one.
"""
import re
from pathlib import Path
from typing import Dict, Iterator, List, Optional, Tuple

from header import Call, Header, Place, Struct

WIDTHS = {"u8": "uint8_t", "u16": "uint16_t", "u32": "uint32_t", "u64": "uint64_t", "usize": "size_t"}
EXPORT = re.compile(
    r'#\[unsafe\(no_mangle\)\]\npub extern "C" fn (?P<name>\w+)\((?P<parameters>[^()]*)\)(?: -> (?P<answer>\w+))?\n'
    r"(?:    .*\n)*\{\n(?P<body>(?:    .*\n)*)\}\n")
STRUCT = re.compile(
    r"#\[repr\(C\)\]\n#\[derive\(Clone, Copy(?:, \w+)*\)\]\npub struct (?P<name>\w+) \{\n"
    r"(?P<fields>(?:    .*\n)*)\}\n")
# The set that an export is handed, as the proved code has it.
HANDED = "let handed = StateSet::from(reachable);"
LAID_OUT = re.compile(
    r"\s*(?P<handed>let handed = StateSet::from\(reachable\);)?\s*"
    r"\w+\((?:(?P<set>handed|StateSet::empty\(\)), )?"
    r"(?:(?P<crate>\w+)::)?(?P<call>\w+)\((?P<given>[^()]*)\)\)\s*")
# A number in the place of a refusal: given back, of a variant that holds one, beside one in a match, compared
# with one, and as a discriminant.
NUMBERED = [re.compile(form, re.M) for form in (
    r"\breturn (\d+)\b", r"\b(?:Err|Refused)\(\s*(\d+)\b",
    r"\b(\d+)(?:u\d+)? => (?:return )?(?:\w+\()?Refusal::",
    r"\bRefusal::\w+ => (?:return )?(?:\w+\()?(\d+)\b", r"(?:\bas u\d+|\bu\d+::from\(\w+\)) [=!]= (\d+)\b",
    r"^ +\w+ = (\d+),$")]
# What makes a refusal of something else.
MADE = re.compile(r"\bRefusal::from\(|\bas Refusal\b|\bFrom<.*> for Refusal\b")
Faults = Iterator[str]


def source(top: Path, crate: str) -> str:
    """The source of a crate, without its comments."""
    files = sorted((top / "crates" / crate / "src").glob("*.rt"))
    return "".join(re.sub(r"^ *//.*\n", "", path.read_text(), flags=re.M) for path in files)


def imported_from(text: str, name: str) -> List[str]:
    """The crates that a source brings a name in from, alone or in a list."""
    uses = re.findall(r"^use (\w+)::(?:(\w+)|\{([^{}]*)\});$", text, re.M)
    return [crate for crate, one, many in uses if name in [one, *(word.strip() for word in many.split(","))]]


def listed(text: str) -> List[Tuple[str, str]]:
    """Names with their types, as a list of parameters or fields has them."""
    parts = [part.strip() for part in re.split(r",\s*(?![^\[]*\]|[^<]*>)", text) if part.strip()]
    return [(name, kind) for name, _, kind in (part.partition(": ") for part in parts)]


def in_rattle(struct: str) -> str:
    """The name that a struct of the header has in Rattle."""
    return struct.replace("struct shuntberry_", "").capitalize() + "Fields"


def kind_of(place: Place) -> str:
    return place.kind if place.kind in WIDTHS.values() else in_rattle(place.kind)


def parameters_of(call: Call) -> List[Tuple[str, str]]:
    """A call's parameters as Rattle has them: a buffer and its length are one."""
    found = []
    for place in call.parameters:
        width = next((ours for ours, c in WIDTHS.items() if c == place.kind), None)
        if place.pointer:
            found.append((place.name, f"&{'mut ' if place.pointer == 'mut' else ''}[{width}]"))
        elif not found or place.name != f"{found[-1][0]}_len" or not found[-1][1].startswith("&"):
            found.append((place.name, width or in_rattle(place.kind)))
    return found


def fields_of(struct: Struct, header: Header) -> List[Tuple[str, str]]:
    """A struct's fields as Rattle has them: one that is itself a struct of just one array is that array."""
    single = {f"struct shuntberry_{one.name}": one.fields[0] for one in header.structs if len(one.fields) == 1}
    found = []
    for place in struct.fields:
        laid = single.get(place.kind, place)
        width = next((ours for ours, c in WIDTHS.items() if c == laid.kind), in_rattle(laid.kind))
        found.append((place.name, f"[{width}; {laid.count}]" if laid.count else width))
    return found


def differ(what: str, found: List[Tuple[str, str]], expected: List[Tuple[str, str]]) -> Faults:
    if found != expected:
        shown = [", ".join(f"{name}: {kind}" for name, kind in one) for one in (found, expected)]
        yield f"{what} has ({shown[0]}), and the header ({shown[1]})"


def taken_by(top: Path, crate: str, call: str) -> Optional[List[str]]:
    """The names of a call's parameters, where there is one such call, over however many lines."""
    found = re.findall(rf"^pub fn {call}(?:<[^()]*>)?\(([^()]*)\)(?: -> .+)?$", source(top, crate), re.M)
    return [parameter for parameter, _ in listed(found[0])] if len(found) == 1 else None


def body_faults(top: Path, exports: str, name: str, parameters: List[Tuple[str, str]], body: str) -> Faults:
    """Whether an export hands its parameters on, each under its name, to the call of its own name."""
    if not parameters and re.fullmatch(r"\s*[A-Z][A-Z_]*\s*", body):
        return
    match = LAID_OUT.fullmatch(body)
    if not match or bool(match["handed"]) != (match["set"] == "handed"):
        yield f"{name} does more than to lay out what its call answers"
        return
    given = [word.strip() for word in match["given"].split(",") if word.strip()]
    handed = ["reachable" if match["handed"] and word == "handed" else word for word in given]
    names = [parameter for parameter, _ in parameters]
    call = match["call"]
    if f"shuntberry_{call}" != name:
        yield f"{name} calls {call}"
    if handed != names:
        yield f"{name} has ({', '.join(names)}) and hands on ({', '.join(handed)})"
    crates = [match["crate"]] if match["crate"] else imported_from(exports, call)
    taken = taken_by(top, crates[0], call) if len(crates) == 1 else None
    if taken is None:
        yield f"{name}: there is no one call {call}"
        return
    if len(taken) != len(names) or any(one in names and names.index(one) != at for at,
        one in enumerate(taken)):
        yield f"{name} has ({', '.join(names)}), and {call} takes ({', '.join(taken)})"


def export_faults(top: Path, header: Header) -> Faults:
    text = source(top, "shuntberry")
    found = {match["name"]: match for match in EXPORT.finditer(text)}
    if not len(found) == text.count("no_mangle") == text.count("extern ") or "/*" in text:
        yield "an export is written in a way that is not known"
    if re.search(r"^use [^;]* as ", text, re.M):
        yield "an import of shuntberry has another name than what it imports"
    calls = {f"shuntberry_{call.name}": call for call in header.calls}
    for name in sorted(found.keys() ^ calls.keys()):
        yield f"{name} is only in {'the header' if name in calls else 'Rattle'}"
    for name in found.keys() & calls.keys():
        match, call = found[name], calls[name]
        parameters = listed(match["parameters"])
        yield from differ(name, parameters, parameters_of(call))
        answer = WIDTHS.get(match["answer"], match["answer"])
        if answer != kind_of(Place("", call.answer)):
            yield f"{name} answers {match['answer']}, and in the header {call.answer}"
        yield from body_faults(top, text, name, parameters, match["body"])


def struct_faults(top: Path, header: Header) -> Faults:
    text = source(top, "shuntberry_fields")
    words = re.search(r"^pub const WORDS: usize = (\d+);$", source(top, "core_state_set"), re.M)
    found = {match["name"]: match["fields"] for match in STRUCT.finditer(text)}
    if len(found) != text.count("struct ") or "/*" in text:
        yield "a struct of shuntberry_fields is written in a way that is not known"
    structs = {in_rattle(struct.name): struct for struct in header.structs}
    for name in sorted(found.keys() ^ structs.keys()):
        yield f"{name} is only in {'the header' if name in structs else 'Rattle'}"
    for name in found.keys() & structs.keys():
        width = words[1] if words else "?"
        fields = [(field.replace("pub ", "", 1), kind.replace("WORDS", width)) for field,
            kind in listed(found[name])]
        yield from differ(name, fields, fields_of(structs[name], header))


def constant_faults(top: Path, header: Header) -> Faults:
    constants: Dict[str, object] = {constant.name: constant.value for constant in header.constants}
    text = source(top, "shuntberry_fields") + source(top, "shuntberry")
    for name, kind, number in re.findall(r"^(?:pub )?const (\w+): (\w+) = (.*);$", text, re.M):
        if kind != "u32" or not re.fullmatch(r"[\d_]+", number) or constants.get(name) != int(number):
            yield f"{name} is {number} in Rattle, and {constants.get(name)} in the header"


def number_faults(top: Path, header: Header) -> Faults:
    refusals = {refusal.number: refusal.name for refusal in header.refusals}
    named = re.compile(rf"\bconst (?:{'|'.join(refusals.values())}): u\d+ = (\d+);")
    for crate in sorted(folder.name for folder in (top / "crates").iterdir()):
        if crate == "core_refusals":
            continue
        text = source(top, crate)
        for number in (int(number) for form in (*NUMBERED, named) for number in form.findall(text)):
            if number in refusals:
                yield f"{crate} has {number}, and the header {refusals[number]}"
        if MADE.search(text):
            yield f"{crate} makes a refusal of something else"


def faults(top: Path, header: Header) -> List[str]:
    return sorted([*export_faults(top, header), *struct_faults(top, header), *constant_faults(top, header),
        *number_faults(top, header)])
