"""Reads Rattle by tokens, as Rust: what `scripts/portable` lets through. It knows each form that it lets
through and refuses every other, with its line; and it finds the kinds of numbers (`scripts/kinds.py`), by which
conversions are judged. A file is read twice: first for its names alone, then for its judgements.
"""
import re
from typing import Dict, List, Tuple

from kinds import (ANSWERED, ANY_WIDTH, BOOL, INTEGER, METHODS, NUMBERS, OF_NUMBERS, SIZE, UNIT, Kind, Known,
    Names, bare, counted, first_known, hinted, is_number, items, merged, of_answer, of_items, of_slice, part,
    settled, taken)

TOKEN = re.compile(
    r"(?P<comment>//[^\n]*)|(?P<byte>b'[ -~]')|(?P<bytes>b\"(?:\\[n\"\\]|[^\"\\\n])*\")|(?P<abi>\"C\")"
    r"|(?P<life>'[a-z_]\w*(?!'))|(?P<name>[A-Za-z_]\w*)"
    r"|(?P<number>[0-9][0-9_]*(?:u8|u16|u32|u64|usize)?)(?![\w])"
    r"|(?P<sign>::|->|=>|\.\.=|\.\.|&&|\|\||<<=|>>=|<<|>>|[-+*/%&|^!=<>]="
    r"|[-+*/%&|^!=<>.,;:(){}\[\]#?])"
    r"|(?P<space>[ \n]+)")
CLAUSE = re.compile(r"(?:requires|ensures)(?: [a-z]\w*)? \{[ \n]")
GHOST = re.compile(r" *(?:pub )?ghost (?:use [^;{]*(?:\{[^;}]*\})?;\n|(?P<name>[^\s:]+)(?:: | = ))")
GHOSTLY = re.compile(r" *(?:pub )?ghost\b")
DERIVED = ("Clone", "Copy", "Debug", "Default", "PartialEq", "Eq", "PartialOrd", "Ord")
KEPT = {"derive": DERIVED, "repr": ("C",), "inline": ("always", "never")}  # the attributes that stay, and what each may name
KEYWORDS = set("as break const continue else enum extern false fn for if impl in let loop match mut pub "
    "return self Self struct trait true type use where while ghost requires ensures".split())
FOREIGN = set("async await box crate do dyn final macro mod move override priv ref static super try typeof "
    "unsafe unsized virtual yield macro_rules asm i8 i16 i32 i64 i128 u128 isize f32 f64 char str String Vec "
    "Box".split())
WRAPPING = "std::num::wrapping_add_u32("
FITS = 'usize::try_from({}).expect("a number that fits")'
# The signs of two operands, the loosest first.
LEVELS = [("||",), ("&&",), ("==", "!=", "<", "<=", ">", ">="), ("|",), ("^",), ("&",), ("<<", ">>"),
    ("+", "-"), ("*", "/", "%")]
ASSIGNING = ("=", "+=", "-=", "*=", "/=", "%=", "|=", "&=", "^=", "<<=", ">>=")


class Refused(Exception):
    pass


# ---- tokens


def balanced(text: str, at: int) -> int:
    """Where the brace ends that opens at `at`."""
    depth = 0
    while True:
        depth += {"{": 1, "}": -1}.get(text[at], 0)
        at += 1
        if not depth:
            return at


def ghost_end(text: str, at: int) -> Tuple[str, int]:
    """What begins with `ghost` on a line of its own: a use, a field or a member, and where its line ends."""
    begun = GHOST.match(text, at)
    if not begun:
        raise Refused((at, "a ghost that is not known"))
    if not begun["name"]:
        return "use", begun.end()
    end = begun.end()
    while text[end] not in ",;":
        if text[end] == "{":
            end = balanced(text, end)
        elif re.match(r"[ =]|by\b|\n", text[end:]):
            end += 2 if text.startswith("by", end) else 1
        else:
            raise Refused((at, "a ghost that is not known"))
    if text[end + 1] != "\n":
        raise Refused((at, "a ghost that does not stand on lines of its own"))
    return "field" if text[end] == "," else "member", end + 2


def clause_end(text: str, at: int) -> int:
    """Where the clause ends that begins at `at`."""
    opening = CLAUSE.match(text, at)
    if not opening:
        raise Refused((at, "a clause that begins with neither a brace nor a name and a brace"))
    end = balanced(text, opening.end() - 2)
    if text[end] not in "\n;":
        raise Refused((at, "a clause that does not stand on lines of its own"))
    return end


def tokens(text: str):
    """The tokens of a source, (kind, text, where), and what of it is the logic's and left out: clauses and
    ghosts, each one token, which is taken whole, since its words are not Rust's."""
    found: List[Tuple[str, str, int]] = []
    left_out, at = [], 0
    while at < len(text):
        line = text.rfind("\n", 0, at) + 1
        alone = not text[line:at].strip()
        if alone and GHOSTLY.match(text, at):
            what, end = ghost_end(text, at)
            found.append(("ghost", what, at))
            left_out.append((line, end))
            at = end
            continue
        token = TOKEN.match(text, at)
        if not token:
            raise Refused((at, f"a form that is not known: {text[at:at + 20]!r}"))
        kind, word = token.lastgroup, token.group()
        if kind == "name" and word in ("requires", "ensures"):
            if not alone:
                raise Refused((at, "a clause that does not stand on lines of its own"))
            end = clause_end(text, at)
            found.append(("clause", word, at))
            left_out.append((line - 1, end))
            at = end
            continue
        if kind not in ("space", "comment"):
            found.append((kind, word, at))
        at = token.end()
    return found, left_out


# ---- the reader


class Reader:
    """One source, read from its first token to its last; every form that is not met here is refused."""

    def __init__(self, crate: str, text: str, below: Dict[str, Names]) -> None:
        self.crate, self.text, self.below = crate, text, below
        self.names = Names()
        for its in below.values():
            self.names.take_types(its)
        for self.judging in (False, True):
            self.tokens, self.left_out = tokens(text)
            self.edits: List[Tuple[int, int, str]] = []
            self.at, self.owner = 0, None
            self.bounds: Dict[str, List[str]] = {}
            self.closures: Dict[str, Tuple[List[Known], Known]] = {}
            while self.at < len(self.tokens):
                self.item()

    # ---- tokens

    def peek(self, ahead: int = 0) -> str:
        return self.tokens[self.at + ahead][1] if self.at + ahead < len(self.tokens) else ""

    def kind_of_token(self) -> str:
        return self.tokens[self.at][0] if self.at < len(self.tokens) else ""

    def refuse(self, why: str) -> None:
        raise Refused((self.tokens[min(self.at, len(self.tokens) - 1)][2], why))

    def judge(self, why: str) -> None:
        """Refuses once the names are known."""
        if self.judging:
            self.refuse(why)

    def take(self, *words: str):
        if self.peek() not in words:
            self.refuse(f"{' or '.join(words)} expected, and {self.peek()!r} found")
        self.at += 1
        return self.tokens[self.at - 1]

    def take_if(self, word: str) -> bool:
        if self.peek() != word:
            return False
        self.at += 1
        return True

    def name(self) -> str:
        kind, word = self.kind_of_token(), self.peek()
        self.ghost()
        if kind != "name" or word in KEYWORDS or word in FOREIGN:
            self.refuse(f"a name expected, and {word!r} found")
        self.at += 1
        return word

    def life(self) -> bool:
        if self.kind_of_token() != "life":
            return False
        self.at += 1
        return True

    def where(self) -> int:
        return self.tokens[self.at][2] if self.at < len(self.tokens) else len(self.text)

    def listing(self, closing: str, each) -> List:
        """What stands between commas, up to what closes it."""
        found = []
        while not self.take_if(closing):
            found.append(each())
            if not self.take_if(","):
                self.take(closing)
                break
        return found

    def angle(self) -> None:
        """The end of a list of types; of `>>` the first half."""
        if self.peek() == ">>":
            kind, _, where = self.tokens[self.at]
            self.tokens[self.at : self.at + 1] = [(kind, ">", where), (kind, ">", where + 1)]
        self.take(">")

    def angles(self, each) -> List:
        self.take("<")
        found = []
        while self.peek() not in (">", ">>"):
            found.append(each())
            if not self.take_if(","):
                break
        self.angle()
        return found

    # ---- items

    def attribute(self) -> bool:
        """One attribute: whether it marks an export. What only the prover reads goes."""
        begin = self.take("#")[2]
        inner = self.take_if("!")
        self.take("[")
        word = self.peek()
        drops = [self.peek(k) for k in range(4)] == ["derive", "(", "Drop", ")"]  # as every value of Rust does
        if word in KEPT and not inner and not drops:
            self.at += 1
            self.take("(")
            self.listing(")", lambda: self.take(*KEPT[word]))
            self.take("]")
            return False
        if word == "unsafe" and not inner:
            for word in ("unsafe", "(", "no_mangle", ")"):
                self.take(word)
        else:
            self.provers()
        end = self.take("]")[2] + 1
        line = self.text[self.text.rfind("\n", 0, begin) + 1 : self.text.index("\n", end)]
        if line.strip() != self.text[begin:end]:
            raise Refused((begin, "an attribute that does not stand on lines of its own"))
        self.left_out.append((begin - (len(line) - len(line.lstrip())), end + 1))
        return word == ")"

    def provers(self) -> None:
        self.take("tactic", "cycle", "derive")
        depth = 0
        while depth or self.peek() != "]":
            depth += {"(": 1, ")": -1}.get(self.peek(), 0)
            self.at += 1

    def attributes(self) -> bool:
        exported = False
        while self.peek() == "#":
            exported = self.attribute() or exported
        return exported

    def item(self) -> None:
        if self.ghost("use"):
            return
        if self.peek(1) == "!":
            self.attribute()
            return
        exported = self.attributes()
        if self.at == len(self.tokens):
            return  # a file of no items
        start = self.where()
        public = self.take_if("pub")
        word = self.peek()
        if exported:
            self.edits.append((start, start + len('pub extern "C" fn'), "pub fn"))
            self.take("extern")
            self.take('"C"')
            self.function()
            return
        known = {"const": self.constant, "type": self.alias, "struct": self.struct, "enum": self.enum,
            "trait": self.trait, "fn": self.function}
        if not public:
            known.update({"use": self.use, "impl": self.implementation})
        if word not in known:
            self.refuse(f"an item that is not known: {word!r}")
        known[word]()

    def ghost(self, *whats: str) -> bool:
        """What only the logic reads, where it may stand."""
        if self.kind_of_token() != "ghost":
            return False
        if self.peek() not in whats:
            self.refuse(f"a ghost {self.peek()} that does not stand where one may")
        self.at += 1
        return True

    def use(self) -> None:
        start = self.where()
        self.at += 1
        crate = self.name()
        if crate not in self.below:
            self.refuse(f"{crate} is no crate below {self.crate}")
        self.take("::")
        words = self.listing("}", self.name) if self.take_if("{") else [self.name()]
        self.take(";")
        for word in words:
            self.names.take_word(self.below[crate], word)
        self.edits.append((start, start + len(f"use {crate}::"), f"use crate::{crate}::"))

    def constant(self) -> None:
        self.at += 1
        name = self.name()
        self.take(":")
        kind = self.type()
        if not self.owner:
            self.names.constants[name] = kind
        if self.owner and self.peek() == ";":
            self.at += 1
            return
        self.take("=")
        self.expression({})
        self.take(";")

    def alias(self) -> None:
        self.at += 1
        name = self.name()
        if self.take_if("="):
            kind = self.type()
            if self.owner:
                self.names.fields[self.owner.name, f"::{name}"] = kind
            else:
                self.names.aliases[name] = kind
        elif not self.owner:
            self.take("=")
        self.take(";")

    def struct(self) -> None:
        self.at += 1
        name = self.name()
        self.generics()
        self.names.types.append(name)
        if self.take_if("("):
            held = dict(enumerate(self.listing(")", self.place)))
            self.take(";")
            self.names.variants[name, ""] = held
        else:
            held = self.fields(name)
        for field, kind in held.items():
            self.names.fields[name, str(field)] = kind

    def place(self) -> Kind:
        """What stands at a place of a struct without names."""
        self.take_if("pub")
        return self.type()

    def fields(self, name: str) -> Dict[str, Known]:
        self.take("{")
        found: Dict[str, Known] = {}
        self.owner = Kind(name)
        while not self.take_if("}"):
            if self.ghost("field"):
                continue
            self.take_if("pub")
            field = self.name()
            self.take(":")
            found[field] = self.type()
            if not self.take_if(","):
                self.take("}")
                break
        self.owner = None
        return found

    def enum(self) -> None:
        self.at += 1
        name = self.name()
        self.generics()
        self.names.types.append(name)
        self.take("{")
        self.listing("}", lambda: self.variant(name))

    def variant(self, name: str) -> None:
        case, held = self.name(), {}
        if self.peek() == "{":
            held = self.fields(name)
        elif self.take_if("("):
            held = dict(enumerate(self.listing(")", self.type)))
        elif self.take_if("="):
            if self.kind_of_token() != "number":
                self.refuse("a number expected")
            self.at += 1
        self.names.variants[name, case] = held

    def implementation(self) -> None:
        """`impl Type { .. }` or `impl Trait for Type { .. }`."""
        self.at += 1
        self.generics()
        first = self.type()
        owner = self.type() if self.take_if("for") else first
        self.members(owner)

    def trait(self) -> None:
        self.at += 1
        name = self.name()
        self.generics()
        if self.take_if(":"):
            self.bound_list(name)
        self.names.types.append(name)
        self.members(Kind(name), trait=True)

    def members(self, owner: Known, trait: bool = False) -> None:
        self.wheres()
        self.take("{")
        while not self.take_if("}"):
            self.owner = owner
            if self.ghost("member", "use"):
                continue
            if self.attributes():
                self.refuse("a method that is exported")
            if not trait:
                self.take_if("pub")
            word = self.peek()
            if word in ("const", "type"):
                self.constant() if word == "const" else self.alias()
            else:
                self.function(trait)
        self.owner = None

    # ---- types

    def generics(self) -> None:
        if self.peek() == "<":
            self.angles(self.generic)

    def generic(self) -> None:
        if self.life():
            while self.take_if(":") or self.take_if("+"):
                self.life() or self.refuse("a lifetime expected")
        elif self.take_if("const"):
            name = self.name()
            self.take(":")
            self.names.constants[name] = self.type()
        else:
            name = self.name()
            self.bounds[name] = self.bound_list(name) if self.take_if(":") else []

    def bound_list(self, of: str) -> List[str]:
        found = [self.bound(of)]
        while self.take_if("+"):
            found.append(self.bound(of))
        return found

    def bound(self, of: str) -> str:
        """A trait with its types: `Relation`, `Fn(u64) -> bool`, `Iterator<Item = u8>`."""
        if self.life():
            return ""
        name = self.name()
        if self.take_if("("):
            given = self.listing(")", self.type)
            self.closures[of] = given, self.type() if self.take_if("->") else UNIT
        elif self.peek() == "<":
            self.angles(self.argument)
        return name

    def wheres(self) -> None:
        if not self.take_if("where"):
            return
        while self.peek() not in ("{", ";") and self.kind_of_token() != "clause":
            kind = self.type()
            self.take(":")
            self.bounds.setdefault(kind.name, []).extend(self.bound_list(kind.name))
            if not self.take_if(","):
                return

    def argument(self) -> Known:
        """What stands in a type's angles: a type, a lifetime, a number, `Item = u8`."""
        if self.life():
            return None
        if self.kind_of_token() == "number":
            self.at += 1
            return None
        if self.peek(1) == "=":
            self.name()
            self.at += 1
        return self.type()

    def type(self) -> Kind:
        if self.take_if("&"):
            self.life()
            self.take_if("mut")
            return Kind("&", (self.type(),))
        if self.take_if("["):
            inner = self.type()
            if self.take_if(";"):
                self.expression({})
            self.take("]")
            return Kind("[]", (inner,))
        if self.take_if("("):
            return Kind("()", tuple(self.listing(")", self.type)))
        if self.take_if("impl"):
            name = f"impl at {self.where()}"
            self.bounds[name] = self.bound_list(name)
            return Kind(name)
        return self.named_type()

    def named_type(self) -> Kind:
        if self.take_if("Self"):
            kind = self.owner or Kind("Self")
        else:
            name = self.name()
            kind = self.names.aliases.get(name) or Kind(name)
            if self.peek() == "<":
                kind = Kind(name, tuple(one for one in self.angles(self.argument) if one))
        while self.take_if("::"):
            kind = Kind(f"{kind.name}::{self.name()}")
        return kind

    # ---- functions

    def function(self, trait: bool = False) -> None:
        self.take("fn")
        name, owner = self.name(), self.owner
        self.generics()
        self.take("(")
        types: Dict[str, Known] = {}
        bound = self.listing(")", self.parameter)
        for each in bound:
            types.update(each)
        answer = self.type() if self.take_if("->") else UNIT
        if owner:
            self.names.methods[owner.name, name] = answer
        else:
            self.names.answers[name] = answer
        self.wheres()
        self.names.takes[owner.name if owner else "", name] = [
            self.closures.get(kind.name, ([], None))[0] if kind else []
            for each in bound for word, kind in list(each.items())[:1] or [("", None)] if word != "self"]
        while self.kind_of_token() == "clause":
            self.at += 1
        if not trait or not self.take_if(";"):
            self.block(types)

    def parameter(self) -> Dict[str, Known]:
        if self.take_if("&"):
            self.life()
            self.take_if("mut")
            self.take("self")
            return {"self": Kind("&", (self.owner,))}
        if self.peek() == "self" or (self.peek() == "mut" and self.peek(1) == "self"):
            self.take_if("mut")
            self.take("self")
            return {"self": self.owner}
        pattern = self.pattern()
        self.take(":")
        return self.bound_by(pattern, self.type())

    # ---- patterns: what is read, and then what it binds

    def pattern(self):
        if self.take_if("&"):
            return "&", self.pattern()
        if self.take_if("("):
            return "()", self.listing(")", self.pattern)
        if self.peek() in ("true", "false") or self.kind_of_token() in ("number", "byte"):
            self.at += 1
            return "_", None
        self.take_if("mut")
        first = "Self" if self.take_if("Self") else self.name()
        case = self.name() if self.take_if("::") else ""
        if first == "_" or (first.isupper() and not case):
            return "_", None  # a constant, or anything
        if self.take_if("("):
            return "case", first, case, dict(enumerate(self.listing(")", self.pattern)))
        if case and self.take_if("{"):
            return "case", first, case, dict(self.listing("}", self.field_pattern))
        return ("name", first) if first[0].islower() or first[0] == "_" else ("_", None)

    def field_pattern(self):
        self.take_if("mut")
        name = self.name()
        return name, self.pattern() if self.take_if(":") else ("name", name)

    def bound_by(self, pattern, kind: Known) -> Dict[str, Known]:
        what = pattern[0]
        if what == "_":
            return {}
        if what == "name":
            return {pattern[1]: settled(kind)}
        if what == "&":
            return self.bound_by(pattern[1], part(kind) if kind and kind.name == "&" else None)
        lent = bool(kind) and kind.name == "&"
        inner = bare(kind)
        if what == "()":
            held = dict(enumerate(inner.parts)) if inner and inner.name == "()" else {}
            parts = dict(enumerate(pattern[1]))
        else:
            held, parts = self.held(pattern[1], pattern[2], inner), pattern[3]
        found: Dict[str, Known] = {}
        for key, each in parts.items():
            of = held.get(key)
            found.update(self.bound_by(each, Kind("&", (of,)) if lent and of else of))
        return found

    def held(self, first: str, case: str, kind: Known) -> Dict[object, Known]:
        """What a variant holds."""
        if first in ("Ok", "Some", "Err"):
            return {0: part(kind, 1 if first == "Err" else 0)}
        owner = self.owner.name if first == "Self" and self.owner else first
        return self.names.variants.get((owner, case)) or {}

    # ---- statements

    def block(self, types: Dict[str, Known]) -> Known:
        """The kind of a block is that of its last expression."""
        self.take("{")
        types, last = dict(types), UNIT
        while not self.take_if("}"):
            last = self.statement(types)
        return last

    def statement(self, types: Dict[str, Known]) -> Known:
        word = self.peek()
        if word == "let":
            self.let(types)
        elif word == "for":
            self.at += 1
            pattern = self.pattern()
            self.take("in")
            bound = self.bound_by(pattern, self.taken_from(self.expression(types, struct=False)))
            self.block({**types, **bound})
        elif word == "while":
            self.at += 1
            self.block({**types, **self.condition(types)})
        elif word == "loop":
            self.at += 1
            self.block(types)
        else:
            return self.expression_statement(types)
        return UNIT

    def taken_from(self, kind: Known) -> Known:
        """What a loop takes: of an iterator of the crates, what it says that its items are."""
        return self.names.fields.get((kind.name, "::Item")) if kind and kind.name in self.names.types else counted(kind)

    def let(self, types: Dict[str, Known]) -> None:
        self.at += 1
        pattern = self.pattern()
        given = self.type() if self.take_if(":") else None
        self.take("=")
        made = self.expression(types)
        types.update(self.bound_by(pattern, given or made))
        self.take(";")

    def condition(self, types: Dict[str, Known]) -> Dict[str, Known]:
        """A condition, or `let` a pattern be something; what it binds."""
        if not self.take_if("let"):
            self.expression(types, struct=False)
            return {}
        pattern = self.pattern()
        self.take("=")
        return self.bound_by(pattern, self.expression(types, struct=False))

    def expression_statement(self, types: Dict[str, Known]) -> Known:
        start, word = self.where(), self.peek()
        if word in ("if", "match", "{"):  # it ends with its brace, whatever follows
            kind = self.formed(word, types)
            return UNIT if self.take_if(";") else kind
        kind = self.expression(types)
        if self.peek() in ASSIGNING:
            sign = self.take(*ASSIGNING)[1]
            if sign == "<<=":
                self.shifted(start, kind)
            self.expression(types)
            kind = UNIT
        if self.take_if(";"):
            return UNIT
        if self.peek() != "}":
            self.refuse("a statement that does not end")
        return kind

    # ---- expressions: what they give is their kind

    def expression(self, types: Dict[str, Known], struct: bool = True) -> Known:
        """An expression, or a range: `a..b`, `a..=b`, `a..`, `..b`, `..`."""
        kind = None
        if self.peek() not in ("..", "..="):
            kind = self.binary(types, struct)
            if self.peek() not in ("..", "..="):
                return kind
        self.take("..", "..=")
        if self.peek() not in ("]", ")", "{", ",", ";"):
            kind = merged(kind, self.binary(types, struct)) if kind else self.binary(types, struct)
        return Kind("Range", (kind,))

    def binary(self, types: Dict[str, Known], struct: bool, level: int = 0) -> Known:
        if level == len(LEVELS):
            return self.cast(types, struct)
        start = self.where()
        kind = self.binary(types, struct, level + 1)
        while self.peek() in LEVELS[level]:
            sign = self.take(self.peek())[1]
            if sign == "<<":
                self.shifted(start, kind)
            other = self.binary(types, struct, level + 1)
            if level < 3:
                kind = BOOL
            elif sign not in ("<<", ">>"):
                kind = merged(kind, other)
        return kind

    def shifted(self, start: int, kind: Known) -> None:
        """`<<` loses other bits of a usize where it has 32; of a 1 it loses none, since it stops there."""
        kind = bare(kind)
        if kind == SIZE:
            self.judge("<< of a usize, which loses other bits where it has 32")
        operand = self.text[start : self.tokens[self.at - 1][2]].strip()
        if operand != "1" and not is_number(kind):
            self.judge(f"<< of {operand}: its type is not known")

    def cast(self, types: Dict[str, Known], struct: bool) -> Known:
        start = self.where()
        kind = self.unary(types, struct)
        while self.take_if("as"):
            wanted = self.name()
            if wanted not in NUMBERS:
                self.refuse(f"as {wanted}")
            if wanted == "usize":
                self.to_size(start, kind)
            kind = Kind(wanted)
        return kind

    def to_size(self, start: int, kind: Known) -> None:
        """A number of 16 or 32 bits fits where a usize has 32; one of 64 is looked at."""
        if kind and kind.name in ("u8", "u16", "u32"):
            return
        end = self.tokens[self.at - 1][2] + len("usize")
        operand = self.text[start:end].rsplit(" as ", 1)[0]
        if kind != Kind("u64") or not re.fullmatch(r"\w+", operand):
            shown = kind.name if kind else None
            self.judge(f"{operand} as usize: it is not known to fit 32 bits (its type: {shown})")
        self.edits.append((start, end, FITS.format(operand)))

    def unary(self, types: Dict[str, Known], struct: bool) -> Known:
        if self.take_if("!"):
            kind = self.unary(types, struct)
            of = bare(kind)
            if of == SIZE:
                self.judge("! of a usize, which has other bits where it has 32")
            if of not in (BOOL, INTEGER) and not is_number(of):
                self.judge("! of what is not known to be a truth or a number of 8 to 64 bits")
            return of
        if self.take_if("&"):
            self.take_if("mut")
            return Kind("&", (self.unary(types, struct),))
        if self.take_if("*"):
            kind = self.unary(types, struct)
            return part(kind) if kind and kind.name == "&" else None
        return self.postfix(types, struct)

    def postfix(self, types: Dict[str, Known], struct: bool) -> Known:
        kind = self.primary(types, struct)
        while True:
            if self.take_if("."):
                kind = self.member(types, kind)
            elif self.take_if("["):
                place = self.expression(types)
                self.take("]")
                inner = bare(kind)
                inner = inner if inner and inner.name == "[]" else None
                kind = inner if place and place.name == "Range" else part(inner)
            elif self.take_if("?"):
                kind = part(kind) if kind and kind.name in ("Option", "Result") else None
            else:
                return kind

    def member(self, types: Dict[str, Known], of: Known) -> Known:
        """A field, or a method with what it is given."""
        inner = bare(of)
        if self.kind_of_token() == "number":
            self.at += 1
            at = self.tokens[self.at - 1][1]
            if inner and inner.name == "()" and at.isdigit():
                return part(inner, int(at))
            return self.names.fields.get((inner.name, at)) if inner else None
        name, asked = self.name(), None
        if self.take_if("::"):
            asked = next(iter(self.angles(self.argument)), None)
        if self.peek() != "(":
            return self.names.fields.get((inner.name, name)) if inner else None
        own = self.own_method(inner, name)
        if own is None and not self.names.has_method(name) and name not in METHODS:
            self.judge(f"a method that is not known: {name}")
        takes = self.names.takes.get((inner.name if inner else "", name))
        given = self.arguments(types, lambda before: taken(takes, before) if takes else hinted(of, name, before))
        if own is not None:
            return own
        return asked or self.of_rusts_own(of, name, given)

    def own_method(self, kind: Known, name: str) -> Known:
        """What a method of the crates answers: of a type's own, or of a trait that a type stands for."""
        if not kind:
            return None
        for owner in (kind.name, *self.bounds.get(kind.name, ())):
            if (owner, name) in self.names.methods:
                found = self.names.methods[owner, name]
                return kind if found and found.name == owner != kind.name else found
        return None

    def of_rusts_own(self, of: Known, name: str, given: List[Known]) -> Known:
        inner = bare(of)
        if name in OF_NUMBERS:
            if not is_number(inner) or inner == SIZE:
                shown = inner.name if inner else None
                self.judge(f"{name} of what is not known to be a number of 8 to 64 bits (its type: {shown})")
            return OF_NUMBERS[name] or inner
        if name in ANSWERED:
            return ANSWERED[name]
        if name == "clone":
            return inner
        if inner and inner.name in ("Option", "Result"):
            return of_answer(inner, name, given)
        if name in ("min", "max") and is_number(inner):
            return inner
        if inner and inner.name == "[]":
            return of_slice(of, inner, name, given)
        return of_items(items(of), name, given) if of and of.name in ("Iter", "Range") else None

    def arguments(self, types: Dict[str, Known], hints=lambda given: []) -> List[Known]:
        """What is given to a call; closures are read by the kinds of what they will be given."""
        self.take("(")
        given: List[Known] = []

        def one() -> None:
            if self.peek() in ("|", "||"):
                given.append(self.closure(types, hints(given)))
            else:
                given.append(self.expression(types))

        self.listing(")", one)
        return given

    def closure(self, types: Dict[str, Known], hints: List[Known]) -> Known:
        """A closure; its kind is that of what it gives."""
        bound = []
        if not self.take_if("||"):
            self.take("|")
            while not self.take_if("|"):
                pattern = self.pattern()
                bound.append((pattern, self.type() if self.take_if(":") else None))
                if not self.take_if(","):
                    self.take("|")
                    break
        inner = dict(types)
        for at, (pattern, kind) in enumerate(bound):
            inner.update(self.bound_by(pattern, kind or (hints[at] if at < len(hints) else None)))
        if self.take_if("->"):
            kind = self.type()
            self.block(inner)
            return kind
        return self.block(inner) if self.peek() == "{" else self.assigned(inner)

    def assigned(self, types: Dict[str, Known]) -> Known:
        """What a closure gives: an expression, or an assignment."""
        start = self.where()
        kind = self.expression(types)
        if self.peek() not in ASSIGNING:
            return kind
        if self.take(*ASSIGNING)[1] == "<<=":
            self.shifted(start, kind)
        self.expression(types)
        return UNIT

    def primary(self, types: Dict[str, Known], struct: bool) -> Known:
        kind, word = self.kind_of_token(), self.peek()
        if kind == "number":
            self.at += 1
            suffix = re.search(r"(u8|u16|u32|u64|usize)$", word)
            return Kind(suffix.group()) if suffix else INTEGER
        if kind in ("byte", "bytes"):
            self.at += 1
            return Kind("u8") if kind == "byte" else Kind("&", (Kind("[]", (Kind("u8"),)),))
        if word in ("true", "false"):
            self.at += 1
            return BOOL
        if word in ("self", "if", "match", "(", "[", "{", "|", "||", "return", "continue", "break"):
            return self.formed(word, types)
        return self.path(types, struct)

    def formed(self, word: str, types: Dict[str, Known]) -> Known:
        if word == "if":
            return self.choice(types)
        if word == "match":
            return self.match(types)
        if word == "{":
            return self.block(types)
        if word in ("|", "||"):
            self.closure(types, [])
            return None
        self.at += 1
        if word == "self":
            return types.get("self")
        if word == "(":
            return self.tuple(types)
        if word == "[":
            return self.array(types)
        if word == "return" and self.peek() not in (";", ",", "}"):
            self.expression(types)
        return None

    def tuple(self, types: Dict[str, Known]) -> Known:
        """`()`, an expression in parentheses, or several."""
        if self.take_if(")"):
            return UNIT
        first = self.expression(types)
        if self.take_if(")"):
            return first
        self.take(",")
        return Kind("()", (first, *self.listing(")", lambda: self.expression(types))))

    def array(self, types: Dict[str, Known]) -> Known:
        if self.take_if("]"):
            return Kind("[]", (None,))
        first = self.expression(types)
        if self.take_if(";"):
            self.expression(types)
            self.take("]")
        elif not self.take_if("]"):
            self.take(",")
            self.listing("]", lambda: self.expression(types))
        return Kind("[]", (first,))

    def choice(self, types: Dict[str, Known]) -> Known:
        self.take("if")
        kind = self.block({**types, **self.condition(types)})
        if not self.take_if("else"):
            return UNIT
        other = self.choice(types) if self.peek() == "if" else self.block(types)
        return first_known(kind, other)

    def match(self, types: Dict[str, Known]) -> Known:
        self.take("match")
        of = self.expression(types, struct=False)
        self.take("{")
        found: Known = None
        while not self.take_if("}"):
            found = first_known(found, self.arm(types, of))
        return found

    def arm(self, types: Dict[str, Known], of: Known) -> Known:
        bound = self.bound_by(self.pattern(), of)
        while self.take_if("|"):
            bound.update(self.bound_by(self.pattern(), of))
        self.take("=>")
        braced = self.peek() == "{"
        kind = self.block({**types, **bound}) if braced else self.assigned({**types, **bound})
        if not self.take_if(",") and not braced and self.peek() != "}":
            self.refuse("an arm that does not end")
        return kind

    # ---- paths

    def path(self, types: Dict[str, Known], struct: bool) -> Known:
        start = self.where()
        if self.text.startswith(WRAPPING, start):
            self.edits.append((start, start + len(WRAPPING), "u32::wrapping_add("))
            while self.peek() != "(":
                self.at += 1
            self.arguments(types)
            return Kind("u32")
        first = "Self" if self.take_if("Self") else self.name()
        second = self.name() if self.take_if("::") else ""
        if second and first in NUMBERS:
            return self.of_number(types, first, second)
        if second and first[0].islower():
            if first not in self.below or self.peek() != "(":
                self.refuse(f"{first}::{second}: no call of a crate below")
            self.edits.append((start, start, "crate::"))
            self.arguments(types)
            return self.below[first].answers.get(second)
        owner = self.owner.name if first == "Self" and self.owner else first
        if self.peek() == "(":
            takes = self.names.takes.get((owner, second) if second else ("", owner))
            return self.called(owner, second, self.arguments(types, lambda given: taken(takes, given)), types)
        if struct and self.peek() == "{" and owner[0].isupper() and not owner.isupper():
            return self.literal(types, owner)
        if second:
            return Kind(owner) if (owner, second) in self.names.variants else None
        if first == "None":
            return Kind("Option", (None,))
        return types.get(first, self.names.constants.get(first))

    def of_number(self, types: Dict[str, Known], first: str, second: str) -> Known:
        """`u64::count_ones(x)`, `u32::from(x)`, `u16::MAX`: what depends on the width not of a usize."""
        known = second in ANY_WIDTH or first != "usize" and second in (*OF_NUMBERS, "MAX")
        if not known:
            self.refuse(f"{first}::{second}")
        if self.peek() == "(":
            self.arguments(types)
        return OF_NUMBERS.get(second) or Kind(first)

    def called(self, first: str, second: str, given: List[Known], types: Dict[str, Known]) -> Known:
        if second:
            if (first, second) in self.names.variants:
                return Kind(first)
            return Kind(first) if second == "from" else self.own_method(Kind(first), second)
        if first in ("Ok", "Some"):
            return Kind("Option" if first == "Some" else "Result", (given[0] if given else None,))
        if first == "Err":
            return Kind("Result", (None, given[0] if given else None))
        if first in types:
            return self.closures.get(types[first].name, ([], None))[1] if types[first] else None
        return Kind(first) if (first, "") in self.names.variants else self.names.answers.get(first)

    def literal(self, types: Dict[str, Known], owner: str) -> Known:
        self.take("{")
        self.listing("}", lambda: self.field_value(types))
        return Kind(owner)

    def field_value(self, types: Dict[str, Known]) -> None:
        self.name()
        if self.take_if(":"):
            self.expression(types)
