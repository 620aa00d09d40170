#!/usr/bin/env python3
"""scripts/bindings says no where it must: to a copy that differs from the header, to a header that its reader does not know, and to exports whose names,
places or widths are not the header's. And what it makes of a new refusal and a new call is all that it should be.
"""
import re
import shutil
import subprocess
import sys
import tempfile
from pathlib import Path

TOP = Path(__file__).resolve().parents[2]
PLACES = [
    "scripts/bindings", "scripts/header.py", "scripts/exports.py", "include/shuntberry.h", "man/shuntberry.1",
        "man/shuntberry.3", "docs/SPECIFICATION.md",
    "rust/command/refusals.txt", "rust/src/raw.rs", "rust/src/refusals.rs", "python/shuntberry/_raw.py", "js/raw.mjs",
    "crates/core_refusals/specs/Refusals.antt",
    *(str(path.relative_to(TOP)) for path in sorted(TOP.glob("crates/*/src/*.rt")))]
HEADER, EXPORTS, FIELDS = "include/shuntberry.h", "crates/shuntberry/src/lib.rt", "crates/shuntberry_fields/src/lib.rt"
sys.path.insert(0, str(TOP / "scripts"))
sys.dont_write_bytecode = True
import header  # noqa: E402

FILLER, SITE = (refusal.ground for refusal in header.header(TOP).refusals if refusal.name in ("FILLER", "SITE"))
work = Path(tempfile.mkdtemp(prefix="bindings."))
count = 0


def need(holds, *said):
    global count
    count += 1
    if not holds:
        sys.exit("tests/bindings/bindings.py: " + "\n".join(map(str, said)))


def restore():
    for place in PLACES:
        (work / place).parent.mkdir(parents=True, exist_ok=True)
        shutil.copy(TOP / place, work / place)


def bindings(*words):
    ran = subprocess.run([sys.executable, "-B", work / "scripts" / "bindings", *words],
        stdout=subprocess.PIPE, stderr=subprocess.STDOUT, text=True, check=False)
    return ran.returncode, ran.stdout


def edited(place, *edits):
    """The place with each text replaced, which stands there just once."""
    text = (work / place).read_text()
    for old, new in edits:
        need(text.count(old) == 1, f"{place} has {text.count(old)} times: {old}")
        text = text.replace(old, new)
    (work / place).write_text(text)


def refuses(why, place, *edits):
    restore()
    edited(place, *edits)
    status, said = bindings("--check")
    need(status == 1 and why in said, f"{place} after {edits}: expected {why!r}", status, said)


try:
    restore()
    status, said = bindings("--check")
    need(status == 0 and "0 faults" in said, "the places as they are", said)
    need(bindings() == (0, ""), "what is made already is made again")
    need(bindings("--chek")[0] == 1, "a word that is not known")

    # ---- a copy that differs, and is made again

    for place, old, new in (
        (HEADER, f'return "{FILLER}"', 'return "none"'), ("rust/src/raw.rs",
            "pub const MAX_SITE: usize = 65_520", "pub const MAX_SITE: usize = 65_521"),
        ("rust/src/raw.rs", "        k: usize,", "        k: u32,"), ("rust/src/refusals.rs", '(13, "a block',
            '(12, "a block'), ("rust/src/refusals.rs", "FILLER: Refused = Refused(18)",
            "FILLER: Refused = Refused(19)"),
        ("crates/core_refusals/src/lib.rt", "    StrayBit = 17,", "    StrayBit = 18,"),
        ("crates/core_refusals/src/lib.rt", "From<Refusal> for u32", "From<Refusal> for u64"),
        ("crates/core_refusals/specs/Refusals.antt", "number StrayBit = 17\n", "number StrayBit = 18\n"),
        ("crates/core_refusals/specs/Refusals.antt", "number_of (Ok a) = 0", "number_of (Ok a) = 10"),
        ("python/shuntberry/_raw.py", "STRAY_BIT = 17", "STRAY_BIT = 18"), ("python/shuntberry/_raw.py",
            "MAX_WINDOWS = 32", "MAX_WINDOWS = 33"),
        ("js/raw.mjs", '["n", "size_t", 4, 0]', '["n", "size_t", 8, 0]'), ("js/raw.mjs",
            '["STRAY_BIT", ', '["FILLER", '), ("js/raw.mjs", "MAX_SITE = 65520", "MAX_SITE = 65521"),
        ("rust/command/refusals.txt", "\n18|", "\n19|"), ("man/shuntberry.1",
            f"\n{FILLER}.\n", "\nnone.\n"), ("man/shuntberry.3", "size_t k);",
            "size_t l);"),
        ("man/shuntberry.3", ".B 31\n", ".B 32\n"), ("docs/SPECIFICATION.md", "| 28 | a certain step",
            "| 28 | a step"), ("docs/SPECIFICATION.md", "| next open | 31, 30 or 29 |",
            "| next open | 29, 30 or 31 |"),
    ):
        refuses(f"{place} is not as the header has it", place, (old, new))
        need(bindings()[0] == 0 and (work / place).read_text() == (TOP / place).read_text(),
            f"{place} is made otherwise")
    restore()
    (work / "rust/src/refusals.rs").unlink()
    need("rust/src/refusals.rs is not as the header has it" in bindings("--check")[1],
        "a file that is missing")
    for place, line in (("man/shuntberry.1", '.\\" from shuntberry.h: hints\n'), ("man/shuntberry.3",
        '.\\" from shuntberry.h: end of the synopsis\n'), ("docs/SPECIFICATION.md",
        "<!-- from shuntberry.h: orders -->\n")):
        refuses(f"{place}: not one place between", place, (line, ""))

    # ---- a header that is not known

    for why, *edits in (
        ("what is this: typedef", ("/* ---- Verdicts ---- */\n",
            "typedef int verdict;\n/* ---- Verdicts ---- */\n")),
        ("what is this: enum", ("/* ---- Verdicts ---- */\n",
            "enum verdict { SAFE };\n/* ---- Verdicts ---- */\n")),
        ("what is this: // ", ("/* ---- Verdicts ---- */\n", "// verdicts\n/* ---- Verdicts ---- */\n")),
        ("what is this: #include", ("/* ---- Verdicts ---- */\n",
            "#include <stdio.h>\n/* ---- Verdicts ---- */\n")),
        ("what is this: #define SHUNTBERRY_SAFE", ("#define SHUNTBERRY_SAFE 0 ",
            "#define SHUNTBERRY_SAFE 0 // ")),
        ("what is this: #undef", ("/* ---- Verdicts ---- */\n",
            "#undef SHUNTBERRY_MAX_SITE\n/* ---- Verdicts ---- */\n")),
        ("what is this: #ifndef SHUNTBERRY_H", ("#include <stddef.h>\n",
            "#include <stddef.h>\n#include <stdio.h>\n")),
        ("a directive is missing", ("#ifdef __cplusplus\n}\n#endif\n\n#endif\n", "")),
        ("no value: -1", ("#define SHUNTBERRY_MAX_DAYS 64 ", "#define SHUNTBERRY_MAX_DAYS -1 ")),
        ("no value: SHUNTBERRY_NONE", ("#define SHUNTBERRY_MAX_DAYS 64 ",
            "#define SHUNTBERRY_MAX_DAYS SHUNTBERRY_NONE ")),
        ("MAX_DAYS is there twice", ("#define SHUNTBERRY_MAX_WINDOWS 32 ",
            "#define SHUNTBERRY_MAX_DAYS 32 ")),
        ("UNDECIDED has no comment",
            ("#define SHUNTBERRY_UNDECIDED 2 /* the allowance was used up before either was known (decide) */", "#define SHUNTBERRY_UNDECIDED 2")),
        ("is not said of its section: Other", ("/* ---- Verdicts ---- */", "/* ---- Other ---- */")),
        ("no field of the struct within", ("    uint32_t within;", "    int within;")),
        ("no field of the struct set", ("    uint64_t words[SHUNTBERRY_SET_WORDS];",
            "    uint64_t words[8];")),
        ("a name is there twice: refusal, refusal", ("    uint32_t within;  /*",
            "    uint32_t refusal;  /*")),
        ("struct shuntberry_later is not said before", ("    struct shuntberry_set reachable;",
            "    struct shuntberry_later reachable;")),
        ("no parameter of within: int k", ("size_t g, size_t k);", "size_t g, int k);")),
        ("store of within is not followed by its length",
            ("shuntberry_within(const uint64_t *store, size_t store_len, size_t n",
            "shuntberry_within(const uint64_t *store, size_t length, size_t n")),
        ("what is this: struct shuntberry_within shuntberry_within",
            ("SHUNTBERRY_NODISCARD\nstruct shuntberry_within shuntberry_within",
            "struct shuntberry_within shuntberry_within")),
        ("the comment above within has 0 sentences",
            (" * brings no new state. The store is never changed.\n *\n * Refuses with 10, 14, 15 or 17.\n",
            " * brings no new state. The store is never changed.\n")),
        ("31 is a refusal that no call gives", (" * Refuses with 31, 30 or 29.\n",
            " * Refuses with 30 or 29.\n")),
        ("32 is no refusal, and a call gives it", (" * Refuses with 31, 30 or 29.\n",
            " * Refuses with 32, 31, 30 or 29.\n")),
        ("FILLER has no comment", (" */\n#define SHUNTBERRY_FILLER 18\n",
            " */\n\n#define SHUNTBERRY_FILLER 18\n")),
        ("the comment of FILLER is not its ground", (" *   mended by: whoever made the file\n", "")),
        ("the comment of SITE is not its ground", (f" * {SITE}\n", "")),
        ("the words of SITE have a character", (f" * {SITE}\n",
            f' * "{SITE}"\n')),
        ("FILLER is 9, and the numbers rise", ("#define SHUNTBERRY_FILLER 18\n",
            "#define SHUNTBERRY_FILLER 9\n")),
        ("FILLER is 17, and the numbers rise", ("#define SHUNTBERRY_FILLER 18\n",
            "#define SHUNTBERRY_FILLER 17\n")),
    ):
        refuses(why, HEADER, *edits)

    # ---- exports that are not the header's: the mutants that every contract lets pass, since C knows places

    step = "fn shuntberry_add_step(\n    store: &mut [u64],\n    n: usize,\n    g: usize,\n    reachable: SetFields,\n    from: usize,\n    to: usize,\n"
    decide = "    store: &[u64],\n    n: usize,\n    g: usize,\n    allowance: usize,\n"
    for why, place, *edits in (
        ("DecisionFields has (", FIELDS, ("    pub verdict: u32,\n    pub count: u32,\n",
            "    pub count: u32,\n    pub verdict: u32,\n")),
        ("DecisionFields has (", FIELDS, ("    pub size: u32,\n    pub steps: u32,\n    pub reserved: u32,\n",
            "    pub steps: u32,\n    pub size: u32,\n    pub reserved: u32,\n")),
        ("TableFields has (", FIELDS, ("    pub n: u32,\n    pub g: u32,\n",
            "    pub g: u32,\n    pub n: u32,\n")),
        ("TableFields has (", FIELDS, ("    pub n: u32,\n    pub g: u32,\n",
            "    pub n: u64,\n    pub g: u32,\n")),
        ("FileFields has (", FIELDS, ("    pub length: u32,\n", "    pub size: u32,\n")),
        ("SetFields has (", FIELDS, ("    pub words: [u64; WORDS],\n", "    pub words: [u32; WORDS],\n")),
        ("a struct of shuntberry_fields is written in a way", FIELDS, ("#[repr(C)]\n#[derive(Clone, Copy)]\npub struct FileFields",
            "#[derive(Clone, Copy)]\npub struct FileFields")),
        ("PathFields is only in Rattle", FIELDS, ("pub struct ShortestFields", "pub struct PathFields")),
        ("NO_MINUTE is 4_294_967_294 in Rattle", FIELDS, ("4_294_967_295", "4_294_967_294")),
        ("NO_TABLE is 65_000 + 535 in Rattle", FIELDS, ("const NO_TABLE: u32 = 65_535;",
            "const NO_TABLE: u32 = 65_000 + 535;")),
        ("a struct of shuntberry_fields is written in a way", FIELDS, ("#[repr(C)]\n#[derive(Clone, Copy)]\npub struct FileFields",
            "/* no more */\n#[repr(C)]\n#[derive(Clone, Copy)]\npub struct FileFields")),
        ("an export is written in a way", EXPORTS, ("// ---- replay\n", "/* ---- replay */\n")),
        ("SetFields has (words: [u64; 4])", "crates/core_state_set/src/lib.rt",
            ("pub const WORDS: usize = 8;", "pub const WORDS: usize = 4;")),
        ("shuntberry_decide has (", EXPORTS, (decide, decide.replace("    n: usize,\n    g: usize,\n",
            "    g: usize,\n    n: usize,\n"))),
        ("shuntberry_add_step has (", EXPORTS, (step, step.replace("    from: usize,\n    to: usize,\n",
            "    to: usize,\n    from: usize,\n"))),
        ("hands on (store, g, n, site, output)", EXPORTS, ("lay_out_file(write(store, n, g, site, output))",
            "lay_out_file(write(store, g, n, site, output))")),
        ("hands on (store, n, g, reachable, to, from)", EXPORTS,
            ("add_step(store, n, g, handed, from, to)", "add_step(store, n, g, handed, to, from)")),
        ("hands on (store, n, g, other, from, to)", EXPORTS,
            ("add_step(store, n, g, handed, from, to)", "add_step(store, n, g, other, from, to)")),
        ("hands on (store, n, g, handed, from, to)", EXPORTS,
            ("lay_out_session(handed, add_step(store", "lay_out_session(StateSet::empty(), add_step(store"),
            ("    let handed = StateSet::from(reachable);\n    lay_out_session(StateSet", "    lay_out_session(StateSet")),
        ("shuntberry_remove_step does more", EXPORTS, ("lay_out_session(handed, remove_step(store",
            "lay_out_session(StateSet::empty(), remove_step(store")),
        ("hands on (store, g, n)", EXPORTS, ("open(store, n, g)", "open(store, g, n)")),
        ("shuntberry_add_step calls remove_step", EXPORTS, ("fn shuntberry_add_step(", "fn shuntberry_step("),
            ("fn shuntberry_remove_step(", "fn shuntberry_add_step("), ("fn shuntberry_step(",
            "fn shuntberry_remove_step(")),
        ("shuntberry_read calls write", EXPORTS, ("fn shuntberry_read(", "fn shuntberry_file("),
            ("fn shuntberry_write(", "fn shuntberry_read("), ("fn shuntberry_file(", "fn shuntberry_write(")),
        ("has another name than what it imports", EXPORTS, ("use call_edit_session::{add_step, open, remove_step};",
            "use call_edit_session::{open, remove_step, remove_step as add_step};")),
        ("shuntberry_within has (", EXPORTS, ("n: usize, g: usize, k: usize)",
            "n: usize, g: usize, k: u32)")),
        ("shuntberry_replay has (", EXPORTS, ("g: usize, log: &[u8])", "g: usize, log: &mut [u8])")),
        ("shuntberry_within answers TableFields", EXPORTS, ("k: usize) -> WithinFields",
            "k: usize) -> TableFields")),
        ("shuntberry_inside is only in Rattle", EXPORTS, ("fn shuntberry_within(", "fn shuntberry_inside(")),
        ("shuntberry_rewrite does more", EXPORTS, ("    lay_out_file(rewrite(input, output))\n",
            "    let length = 0;\n    lay_out_file(rewrite(input, output))\n")),
        ("written in a way that is not known", EXPORTS,
            ("#[unsafe(no_mangle)]\npub extern \"C\" fn shuntberry_replay",
            "#[inline]\n#[unsafe(no_mangle)]\n#[cold]\npub extern \"C\" fn shuntberry_replay")),
        ("core_table has 17, and the header STRAY_BIT", "crates/core_table/src/lib.rt",
            ("Err(Refusal::StrayBit)", "Err(17)")),
        ("file_writing has 19, and the header OUTPUT_SHORT", "crates/file_writing/src/lib.rt",
            ("Err(Refusal::OutputShort)", "Err(19)")),
        ("call_check has 19, and the header OUTPUT_SHORT", "crates/call_check/src/lib.rt",
            ("Err(Refusal::OutputShort)", "Err(ground(match n {\n        19 => Refusal::OutputShort,\n    }))")),
        ("call_check has 12, and the header BLOCK_NUMBER", "crates/call_check/src/lib.rt",
            ("pub enum FileVerdict {\n", "pub enum FileVerdict {\n    Numbered = 12,\n")),
        ("call_paths has 21, and the header PATH_SHORT", "crates/call_paths/src/lib.rt",
            ("// ---- within\n", "const PATH_SHORT: u8 = 21;\n")),
        ("call_paths makes a refusal of something else", "crates/call_paths/src/lib.rt",
            ("// ---- within\n", "impl From<u8> for Refusal {\n}\n")),
        ("and within takes (store, g, n, k)", "crates/call_paths/src/lib.rt",
            ("pub fn within(store: &[u64], n: usize, g: usize, k: usize)",
            "pub fn within(store: &[u64], g: usize, n: usize, k: usize)")),
    ):
        refuses(why, place, *edits)
        need(not bindings()[0] and bindings("--check")[0], f"{place} after {edits}: bindings mends Rattle")

    # ---- what may be written otherwise

    for place, *edits in (
        (FIELDS, ("#[derive(Clone, Copy)]\npub struct FileFields",
            "#[derive(Clone, Copy, Debug, PartialEq, Eq)]\npub struct FileFields")),
        ("crates/call_paths/src/lib.rt", ("pub fn within(store: &[u64], n: usize, g: usize, k: usize)",
            "pub fn within(\n    store: &[u64],\n    n: usize,\n    g: usize,\n    k: usize,\n)")),
    ):
        restore()
        edited(place, *edits)
        status, said = bindings("--check")
        need(status == 0, f"{place} after {edits}", said)

    # ---- what is made of a new refusal, and of a new call

    restore()
    edited(
        HEADER, ("#define SHUNTBERRY_TIME 31\n",
            "#define SHUNTBERRY_TIME 31\n\n/*\n * the new ground\n *   look whether: it is old\n *   mended by: the buyer\n */\n#define SHUNTBERRY_NEW 32\n"),
        (" * Refuses with 31, 30 or 29.\n", " * Refuses with 32, 31, 30 or 29.\n"))
    need(bindings()[0] == 0 and bindings("--check")[0] == 0, "a new refusal")
    for place, line in {
        HEADER: '    case SHUNTBERRY_NEW:\n        return "the new ground";\n',
            "rust/src/refusals.rs": '    (32, "the new ground"),\n',
        "crates/core_refusals/src/lib.rt": "    Time = 31,\n    New = 32,\n}\n",
        "crates/core_refusals/specs/Refusals.antt": "number Time = 31\nnumber New = 32\n",
        "python/shuntberry/_raw.py": '    NEW = 32, "the new ground"\n',
            "js/raw.mjs": '  [32, ["NEW", "the new ground"]],\n',
            "rust/command/refusals.txt": "\n32|the new ground|it is old\n",
        "man/shuntberry.1": "\n.B 32\nthe new ground.\nLook whether it is old.\n",
            "man/shuntberry.3": "\n.B 32\nthe new ground.\n",
        "docs/SPECIFICATION.md": "\n| 32 | the new ground | next open | the buyer |\n",
    }.items():
        need((work / place).read_text().count(line) == 1, f"{place} has not: {line}")
    restore()
    edited(HEADER, ("/* ---- When a release may be loaded ---- */\n",
        "/* The number. */\nSHUNTBERRY_NODISCARD\nuint32_t shuntberry_new(void);\n\n/* ---- When a release may be loaded ---- */\n"))
    status, said = bindings()
    need(status == 0 and said.count("\n") == 4, "a new call", said)
    for place, line in {
        "rust/src/raw.rs": "    pub fn shuntberry_new() -> u32;\n",
            "python/shuntberry/_raw.py": '    "new": (c_uint32, [\n    ]),\n',
            "man/shuntberry.3": "\nuint32_t \\fBshuntberry_new\\fP(void);\n",
            "js/raw.mjs": '  new: {\n    answer: "uint32_t",\n    parameters: [\n    ],\n  },\n',
    }.items():
        need((work / place).read_text().count(line) == 1, f"{place} has not: {line}")
    status, said = bindings("--check")
    need(status == 1 and re.search(r"^bindings: shuntberry_new is only in the header$", said, re.M),
        "a call that Rattle does not export", said)
    major = re.search(r"#define SHUNTBERRY_VERSION (\d+)", (work / HEADER).read_text())[1]
    new = "#[unsafe(no_mangle)]\npub extern \"C\" fn shuntberry_new() -> u32\n    ensures { result ≡ version }\n{\n    VERSION\n}\n"
    for number, holds in (major, True), (f"{major}1", False):
        shutil.copy(TOP / EXPORTS, work / EXPORTS)
        edited(EXPORTS, ("// ---- replay\n", f"{new}\n// ---- replay\n"),
            (f"const VERSION: u32 = {major};", f"const VERSION: u32 = {number};"))
        status, said = bindings("--check")
        need(status == (0 if holds else 1) and ("VERSION is" in said) != holds, "a call that is a constant",
            said)
    edited(EXPORTS, (new, new.replace("    VERSION\n", "    let version = VERSION;\n    version\n")))
    need("shuntberry_new does more" in bindings("--check")[1], "a call that is no constant")
finally:
    shutil.rmtree(work)
print(f"bindings: {count} facts as expected")
