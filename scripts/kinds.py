"""Kinds of what stands in Rattle's code, as far as `scripts/reader.py` finds them: `Kind("u64")`,
`Kind("&", (Kind("[]", (Kind("u16"),)),))`, `Kind("Option", (Kind("usize"),))`, `INTEGER` of a bare number;
None is not known. And what Rust's own methods give, by the kind of what they are of.
"""
from typing import Dict, List, NamedTuple, Optional, Tuple

NUMBERS = ("u8", "u16", "u32", "u64", "usize")


class Kind(NamedTuple):
    name: str
    parts: Tuple = ()


Known = Optional[Kind]
INTEGER, BOOL, SIZE, UNIT = Kind("{integer}"), Kind("bool"), Kind("usize"), Kind("()")
# What of Rust's own is called by a number's type: what it answers, None for its own.
OF_NUMBERS = {"count_ones": Kind("u32"), "trailing_zeros": Kind("u32"), "leading_zeros": Kind("u32"),
    "wrapping_add": None, "wrapping_sub": None, "wrapping_mul": None, "from_le_bytes": None,
    "to_le_bytes": Kind("[]", (Kind("u8"),))}
# The same of any width: neither loses what a usize of 32 bits has not got.
ANY_WIDTH = ("from", "min", "max")
# The methods of Rust's own, by what they are of: `core` has had each since 1.63 at the latest.
SAME_ITEMS = ("rev", "skip", "take", "step_by", "filter", "by_ref", "take_while", "skip_while")
OF_ITEMS = ("enumerate", "zip", "map", "copied", "cloned", "any", "all", "position", "count", "fold", "sum",
    "next", "for_each", "find", "last", "min", "max")
OF_SLICES = ("len", "is_empty", "iter", "iter_mut", "into_iter", "chunks_exact", "chunks_exact_mut", "chunks",
    "windows", "fill", "copy_from_slice", "clone_from_slice", "copy_within", "split_at", "split_at_mut",
    "swap", "first", "contains")
OF_ANSWERS = ("unwrap_or", "map", "map_or", "map_err", "ok_or", "ok", "and_then", "is_some", "is_none",
    "is_ok", "is_err")
OF_ALL = ("clone", "into", "eq", "ne", "cmp")
METHODS = {*SAME_ITEMS, *OF_ITEMS, *OF_SLICES, *OF_ANSWERS, *OF_ALL, *OF_NUMBERS, "min", "max"}
ANSWERED = {**dict.fromkeys(("any", "all", "is_empty", "contains", "is_some", "is_none", "is_ok", "is_err",
    "eq", "ne"), BOOL), **dict.fromkeys(("count", "len"), SIZE)}


def bare(kind: Known) -> Known:
    """What a reference is to."""
    while kind and kind.name == "&":
        kind = kind.parts[0]
    return kind


def part(kind: Known, at: int = 0) -> Known:
    return kind.parts[at] if kind and at < len(kind.parts) else None


def is_number(kind: Known) -> bool:
    return bool(kind) and kind.name in NUMBERS


def merged(one: Known, other: Known) -> Known:
    """The kind of what two operands give, which are of one type."""
    one, other = bare(one), bare(other)
    for kind in (one, other):
        if is_number(kind):
            return kind
    if one == other or other in (None, INTEGER):
        return one if other != INTEGER or one == INTEGER else None
    return other if one is None else None


def items(kind: Known) -> Known:
    """What a loop takes from it, one by one."""
    if not kind:
        return None
    if kind.name in ("Iter", "Range"):
        return part(kind)
    inner = bare(kind)
    if inner and inner.name == "[]":
        return Kind("&", (part(inner),)) if kind.name == "&" else part(inner)
    return None


def iterator(item: Known) -> Kind:
    return Kind("Iter", (item,))


class Names:
    """What the crates name: by its name each constant's kind and each function's answer; by its type and its
    name each field, each method's answer, what a function gives to each closure that it takes, and what a
    variant holds."""

    def __init__(self) -> None:
        self.constants: Dict[str, Known] = {}
        self.answers: Dict[str, Known] = {}
        self.fields: Dict[Tuple[str, str], Known] = {}
        self.methods: Dict[Tuple[str, str], Known] = {}
        self.variants: Dict[Tuple[str, str], Dict[object, Known]] = {}
        self.takes: Dict[Tuple[str, str], List[List[Known]]] = {}
        self.aliases: Dict[str, Known] = {}
        self.types: List[str] = []

    def take_types(self, its: "Names") -> None:
        """The types of a crate below, all of them: a value may be of one that is not brought in."""
        both = ((self.fields, its.fields), (self.methods, its.methods), (self.variants, its.variants),
            (self.takes, its.takes))
        for mine, other in both:
            for key, value in other.items():
                mine[key] = value if mine.get(key, value) == value else None  # two of one name
        self.types += its.types

    def take_word(self, its: "Names", word: str) -> None:
        both = (self.constants, its.constants), (self.answers, its.answers), (self.aliases, its.aliases)
        for mine, other in both:
            mine.update({word: other[word]} if word in other else {})

    def has_method(self, name: str) -> bool:
        return any(method == name for _, method in self.methods)


# ---- what Rust's own methods give


def settled(kind: Known) -> Known:
    """The kind of a variable: a bare number's may be any."""
    if kind is None or kind == INTEGER:
        return None
    return Kind(kind.name, tuple(settled(each) for each in kind.parts))


def counted(kind: Known) -> Known:
    """What a loop takes; a counter whose width is not known is a usize, of which less is let through."""
    item = items(kind)
    if kind and kind.name == "Range" and item in (None, INTEGER):
        return SIZE
    return item


def first_known(one: Known, other: Known) -> Known:
    return one if one not in (None, INTEGER, UNIT) else other


def taken(takes: Optional[List[List[Known]]], given: List[Known]) -> List[Known]:
    """What a function of the crates gives to the closure that it is given next."""
    return takes[len(given)] if takes and len(given) < len(takes) else []


def hinted(of: Known, name: str, given: List[Known]) -> List[Known]:
    """What a method gives to its closure."""
    inner = bare(of)
    if inner and inner.name in ("Option", "Result"):
        return [part(inner, 1 if name == "map_err" else 0)]
    item = items(of) if of and of.name in ("Iter", "Range") else part(inner) if name == "map" else None
    if name in ("filter", "take_while", "skip_while", "find"):
        return [Kind("&", (item,))]
    return [settled(given[0]) if given else None, item] if name == "fold" else [item]


def of_answer(kind: Kind, name: str, given: List[Known]) -> Known:
    """Of an Option or a Result."""
    if name == "unwrap_or":
        return first_known(part(kind), given[0] if given else None)
    if name == "map_or":
        return first_known(*reversed(given)) if len(given) == 2 else None
    if name == "map":
        return Kind(kind.name, (given[0] if given else None, *kind.parts[1:]))
    if name == "ok_or":
        return Kind("Result", (part(kind), given[0] if given else None))
    if name == "map_err":
        return Kind("Result", (part(kind), given[0] if given else None))
    return Kind("Option", (part(kind),)) if name == "ok" else None


def of_slice(of: Known, inner: Kind, name: str, given: List[Known]) -> Known:
    lent = Kind("&", (part(inner),))
    if name in ("iter", "iter_mut"):
        return iterator(lent)
    if name == "into_iter":
        return iterator(items(of))
    if name in ("chunks", "chunks_exact", "chunks_exact_mut", "windows"):
        return iterator(Kind("&", (inner,)))
    if name in ("split_at", "split_at_mut"):
        return Kind("()", (Kind("&", (inner,)), Kind("&", (inner,))))
    if name == "first":
        return Kind("Option", (lent,))
    return Kind("[]", (given[0] if given else None,)) if name == "map" else None


def of_items(item: Known, name: str, given: List[Known]) -> Known:
    """Of an iterator."""
    if name in SAME_ITEMS:
        return iterator(item)
    if name == "enumerate":
        return iterator(Kind("()", (SIZE, item)))
    if name == "zip":
        return iterator(Kind("()", (item, items(given[0]) if given else None)))
    if name == "map":
        return iterator(given[0] if given else None)
    if name in ("copied", "cloned"):
        return iterator(bare(item))
    if name == "fold":
        return merged(*given) if len(given) == 2 else None
    if name == "position":
        return Kind("Option", (SIZE,))
    if name == "find":
        return Kind("Option", (item,))
    return Kind("Option", (item,)) if name in ("next", "last", "min", "max") else None
