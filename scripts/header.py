"""Reads include/shuntberry.h, the one place where the interface is said: constants, refusals, structs, calls.

It takes a strict subset of C whole, and refuses with the line what it does not know: nothing is passed over.

  #define SHUNTBERRY_NAME VALUE /* what it is */     VALUE: a number, a text, or names with + * and brackets
  #define SHUNTBERRY_NAME(x) VALUE /* what it is */
  struct shuntberry_name { TYPE field; /* what it is */ .. };
  SHUNTBERRY_NODISCARD TYPE shuntberry_name(TYPE parameter, ..);   the comment above says `Refuses with ..`
  static inline TYPE shuntberry_name(..) { .. }     its body is C's own, and is not read

A refusal is a constant of the section of refusals, with a comment above it: its ground, then lines
`exactly:`, `look whether:` and `mended by:`. Everything else is comments, and the directives of FIXED.
"""
import re
from dataclasses import dataclass, field
from pathlib import Path
from typing import Dict, List, NoReturn, Optional, Tuple

PREFIX = "SHUNTBERRY_"
REFUSALS = "Refusal numbers"
#: The directives, each as it stands there, once.
FIXED = (
    "#ifndef SHUNTBERRY_H\n#define SHUNTBERRY_H\n\n#include <stddef.h>\n#include <stdint.h>\n\n"
    "#ifdef __cplusplus\nextern \"C\" {\n#endif\n",
    """#if (defined(__cplusplus) && __cplusplus >= 201703L) || \
(defined(__STDC_VERSION__) && __STDC_VERSION__ >= 202311L)
#define SHUNTBERRY_NODISCARD [[nodiscard]]
#elif defined(__GNUC__)
#define SHUNTBERRY_NODISCARD __attribute__((warn_unused_result))
#else
#define SHUNTBERRY_NODISCARD
#endif
""",
    "#ifdef __cplusplus\n}\n#endif\n\n#endif\n",
)
NUMBERS = ("uint8_t", "uint16_t", "uint32_t", "uint64_t", "size_t")

NAME = r"[a-z][a-z0-9_]*"
KIND = rf"(?:uint(?:8|16|32|64)_t|size_t|struct shuntberry_{NAME})"
COMMENT = r"/\*((?:[^*]|\*(?!/))*)\*/"
ITEMS = {
    "section": r"/\* ---- (?P<title>[^*\n]*) ---- \*/\n",
    "comment": rf"{COMMENT}\n",
    "constant": r"#define SHUNTBERRY_(?P<name>[A-Z][A-Z0-9_]*) (?P<value>[^\n/]*?) *"
    r"(?:/\*(?P<said>[^\n]*)\*/)?\n",
    "macro": r"#define SHUNTBERRY_[A-Z][A-Z0-9_]*\([a-z]\) [^\n/]*/\*[^\n]*\*/\n",
    "struct": rf"struct shuntberry_(?P<name>{NAME}) \{{\n(?P<fields>(?:    [^\n]*\n)+)\}};\n",
    "call": rf"SHUNTBERRY_NODISCARD\n(?P<answer>{KIND}) shuntberry_(?P<name>{NAME})"
    r"\((?P<parameters>[^(){};]*)\);\n",
    "inline": rf"(?:SHUNTBERRY_NODISCARD\n)?static inline (?:int |void |const char \*|{KIND} )shuntberry_{NAME}"
    r"\([^(){};]*\)\n\{\n(?:(?:    [^\n]*)?\n)*?\}\n",
    "blank": r"\n",
}


@dataclass(frozen=True)
class Constant:
    name: str
    section: str
    value: object  #: a number, or a text
    said: str


@dataclass(frozen=True)
class Refusal:
    number: int
    name: str
    ground: str  #: the words that every language has
    exactly: str  #: what the specification says where these are short of it, else empty
    hint: str  #: what to look at in a file that is refused so, else empty
    mended: str  #: who can mend it


@dataclass(frozen=True)
class Place:
    """A field, or a parameter."""

    name: str
    kind: str  #: a number of C, or `struct shuntberry_name`
    count: int = 0  #: of an array's elements, else 0
    pointer: str = ""  #: `const`, `mut`, or empty
    said: str = ""


@dataclass(frozen=True)
class Struct:
    name: str
    fields: Tuple[Place, ...]
    said: str


@dataclass(frozen=True)
class Call:
    name: str
    answer: str
    parameters: Tuple[Place, ...]
    refuses: str  #: the numbers in the order in which it looks, as its comment says them


@dataclass
class Header:
    constants: List[Constant] = field(default_factory=list)
    refusals: List[Refusal] = field(default_factory=list)
    structs: List[Struct] = field(default_factory=list)
    calls: List[Call] = field(default_factory=list)

    def numbers(self, call: Call) -> List[int]:
        """The refusals of a call, in the order in which it looks."""
        return list(dict.fromkeys(int(number) for number in re.findall(r"\b\d+\b", call.refuses)))


class Unknown(Exception):
    """The header has something that this reader does not take."""


class Reader:
    def __init__(self, text: str) -> None:
        self.text, self.at, self.begun = text, 0, 0
        self.found = Header()
        self.section: Optional[str] = None
        self.above: Optional[str] = None  # the comment that stands straight above, or above the call before
        self.fixed = list(FIXED)

    def refuse(self, why: str) -> NoReturn:
        raise Unknown(f"include/shuntberry.h:{self.text.count(chr(10), 0, self.begun) + 1}: {why}")

    def read(self) -> Header:
        while self.at < len(self.text):
            self.begun = self.at
            if self.fixed and self.text.startswith(self.fixed[0], self.at):
                self.at += len(self.fixed.pop(0))
                continue
            for kind, pattern in ITEMS.items():
                match = re.compile(pattern).match(self.text, self.at)
                if match:
                    break
            else:
                self.refuse(f"what is this: {self.text[self.at:].splitlines()[0]}")
            self.at = match.end()
            getattr(self, f"take_{kind}")(match)
        if self.fixed:
            self.refuse("a directive is missing, or is another")
        self.agree()
        return self.found

    # ---- what stands in it

    def take_blank(self, match: "re.Match[str]") -> None:
        self.above = None

    def take_section(self, match: "re.Match[str]") -> None:
        self.section, self.above = match["title"], None

    def take_comment(self, match: "re.Match[str]") -> None:
        self.above = match[1]

    def take_constant(self, match: "re.Match[str]") -> None:
        name, value = match["name"], self.worth(match["value"])
        if any(name == other.name for other in self.found.constants):
            self.refuse(f"{name} is there twice")
        if self.section is None:
            self.refuse(f"{name} stands in no section")
        said = plain(match["said"] or self.above or "")
        if not said:
            self.refuse(f"{name} has no comment")
        self.found.constants.append(Constant(name, self.section, value, said))
        if self.section == REFUSALS and value != 0:
            self.refusal(name, value)
        self.above = None

    def refusal(self, name: str, value: object) -> None:
        if self.above is None or not isinstance(value, int):
            self.refuse(f"{name} has no comment straight above it")
        parts = re.split(r"\n \*   (exactly|look whether|mended by): ", self.above.rstrip())
        said: Dict[str, str] = dict(zip(parts[1::2], map(plain, parts[2::2])))
        ground = plain(parts[0])
        if list(parts[1::2]) != sorted(said) or "mended by" not in said or not all([ground, *said.values()]):
            self.refuse(f"the comment of {name} is not its ground, then exactly, look whether, and always mended by")
        for words in (ground, *said.values()):
            if re.search(r'["\\|]', words):
                self.refuse(f"the words of {name} have a character that some language does not take: {words}")
        before = self.found.refusals
        if before and before[-1].number >= value:
            self.refuse(f"{name} is {value}, and the numbers rise")
        before.append(Refusal(value, name, ground, said.get("exactly", ""), said.get("look whether", ""),
            said["mended by"]))

    def take_macro(self, match: "re.Match[str]") -> None:
        pass  # each language has these as functions of its own

    def take_inline(self, match: "re.Match[str]") -> None:
        pass

    def take_struct(self, match: "re.Match[str]") -> None:
        if not plain(self.above or ""):
            self.refuse(f"the struct {match['name']} has no comment above it")
        fields = []
        for line in match["fields"].splitlines():
            one = re.fullmatch(rf"    ({KIND}) ({NAME})(?:\[SHUNTBERRY_([A-Z_]+)\])?; *(?:/\* ([^*]*) \*/)?",
                line)
            if not one:
                self.refuse(f"no field of the struct {match['name']}: {line}")
            self.known(one[1])
            fields.append(Place(one[2], one[1], self.worth(PREFIX + one[3]) if one[3] else 0, "",
                plain(one[4] or "")))
        self.distinct(fields)
        self.found.structs.append(Struct(match["name"], tuple(fields), plain(self.above or "")))
        self.above = None

    def take_call(self, match: "re.Match[str]") -> None:
        self.known(match["answer"])
        parameters = []
        listed = " ".join(match["parameters"].split())
        for one in [] if listed == "void" else listed.split(", "):
            kind = re.fullmatch(rf"(?:(const )?({KIND}) \*|({KIND}) )({NAME})", one)
            if not kind:
                self.refuse(f"no parameter of {match['name']}: {one}")
            self.known(kind[2] or kind[3])
            pointer = ("const" if kind[1] else "mut") if kind[2] else ""
            parameters.append(Place(kind[4], kind[2] or kind[3], 0, pointer))
        self.distinct(parameters)
        for buffer, length in zip(parameters, parameters[1:] + [Place("", "")]):
            if buffer.pointer and (length.name, length.kind, length.pointer) != (f"{buffer.name}_len",
                "size_t", ""):
                self.refuse(f"{buffer.name} of {match['name']} is not followed by its length")
        refuses = re.findall(r"Refuses with ([^.]*)\.", plain(self.above or ""))
        if len(refuses) != 1 and listed != "void":
            self.refuse(f"the comment above {match['name']} has {len(refuses)} sentences 'Refuses with'")
        self.found.calls.append(Call(match["name"], match["answer"], tuple(parameters), "".join(refuses)))

    # ---- what it comes to

    def worth(self, value: str) -> int:
        """The number, or the text, that a constant is."""
        if re.fullmatch(r'"[^"\\]*"', value):
            return value[1:-1]  # type: ignore[return-value]
        if not re.fullmatch(r"(?:\d+u?|SHUNTBERRY_[A-Z_]+|[ +*()])+", value):
            self.refuse(f"no value: {value}")
        known = {PREFIX + constant.name: constant.value for constant in self.found.constants}
        try:
            return eval(re.sub(r"\b(\d+)u\b", r"\1", value), {"__builtins__": {}},
                known)  # digits, names, + * and brackets alone
        except (NameError, SyntaxError, TypeError):
            self.refuse(f"no value: {value}")

    def known(self, kind: str) -> None:
        if kind not in NUMBERS and all(kind != f"struct shuntberry_{struct.name}" for struct in self.found.structs):
            self.refuse(f"{kind} is not said before")

    def distinct(self, places: List[Place]) -> None:
        names = [place.name for place in places]
        if len(names) != len(set(names)):
            self.refuse(f"a name is there twice: {', '.join(names)}")

    def agree(self) -> None:
        """Every refusal is one that a call gives, and the calls give no others."""
        self.begun = 0
        listed = {refusal.number for refusal in self.found.refusals}
        given = {number for call in self.found.calls for number in self.found.numbers(call)}
        for number in sorted(listed ^ given):
            fault = "a refusal that no call gives" if number in listed else "no refusal, and a call gives it"
            self.refuse(f"{number} is {fault}")
        for kind in ("calls", "structs"):
            names = [one.name for one in getattr(self.found, kind)]
            if len(names) != len(set(names)) or not names:
                self.refuse(f"there are no {kind}, or one is there twice")


def plain(comment: str) -> str:
    """The words of a comment, in one line."""
    return " ".join(re.sub(r"^ \*", "", comment, flags=re.M).split())


def header(top: Path) -> Header:
    return Reader((top / "include" / "shuntberry.h").read_text()).read()
