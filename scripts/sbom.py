"""The bill of materials of what ./dist lays out, as SPDX 2.3: made from the files that were built, by `made`, and held to them and to what SPDX requires, by
`faults`. The tests call `faults` too, of what was unpacked:

  python3 scripts/sbom.py FOLDER    FOLDER is the unpacked archive; each fault is shown, and the status is 1
"""
import base64
import datetime
import hashlib
import html
import json
import re
import subprocess
import sys
from pathlib import Path

DOC = "share/doc/shuntberry"
PLACE = f"{DOC}/audit/sbom.spdx.json"
OURS = ("shuntberry", "shuntberry_command", "shuntberry_text")  # the Rust packages of the repository, in the program
DRAFT = "share/shuntberry/draft.html"  # left out where there are no tools for WebAssembly
PRODUCT, PROGRAM, LIBRARY, KIT, PAGE = (f"SPDXRef-{name}" for name in ("Shuntberry", "Program", "Library", "Kit", "Page"))
RUST, LIBC, LIBGCC, RUST_WASM = "SPDXRef-Rust-std", "SPDXRef-GNU-C-library", "SPDXRef-GCC-runtime", "SPDXRef-Rust-std-wasm"
RLIB = re.compile(r"^lib(.+)-[0-9a-f]{16}\.rlib$")
PAGES = ("COPYRIGHT-library.html", "COPYRIGHT.html")  # of rustc; another packager may leave them out
IN_PAGE = re.compile(r"<h3>📦 ([A-Za-z0-9_-]+?)-(\d[^<]*)</h3>.*?<b>License:</b> ([^<]*)</p>", re.S)


def fail(why):
    sys.exit(f"sbom: {why}")


def said_by(*words):
    asked = subprocess.run(words, capture_output=True, text=True, cwd="/")
    return asked.stdout if asked.returncode == 0 else fail(f"failed: {' '.join(words)}: {asked.stderr}")


def first(pattern, text, what):
    found = re.search(pattern, text)
    return found.group(1).strip() if found else fail(f"{what} is not said: {pattern}")


# ---- what was linked


def rlibs(root):
    """The libraries of Rust that the program was linked of, by the line with which it is linked again."""
    names = [RLIB.match(line) for line in (root / "lib/shuntberry/link").read_text().splitlines() if line.endswith(".rlib")]
    return sorted((name.group(1), name.group()) for name in names)


def comments(file):
    """What compilers and linkers left in a program."""
    return said_by("readelf", "-p", ".comment", str(file))


def in_sysroot(sysroot, name):
    return next(iter(sorted(sysroot.glob(f"lib/rustlib/*/lib/{name}"))), None) or fail(f"{name} is no library of {sysroot}")


def built_of(file, crate):
    """The version in the path of the source that a library was compiled of."""
    found = set(re.findall(rb"/rust/deps/" + crate.replace("_", "[_-]").encode() + rb"-(\d+\.\d+\.\d+)", file.read_bytes()))
    return sorted(version.decode() for version in found)


def crate_of(sysroot, pages, crate, file):
    """Versions and license of a crate that Rust's library has in it, and what is to be said of these; None for one of Rust's own."""
    listed = [(version, html.unescape(text).replace("/", " OR ")) for page in pages for name, version, text in IN_PAGE.findall(page) if name.replace("-", "_") == crate]
    built = built_of(in_sysroot(sysroot, file), crate)
    if not listed and not built:
        return None
    here = [entry for entry in listed if entry[0] in built] or listed
    versions = built or sorted({version for version, _ in listed})
    licenses = {text for _, text in here}
    said = "" if len(versions) == 1 else "The library does not say which version; rustc's pages of copyrights list these."
    if built and not any(entry[0] in built for entry in listed):
        said = f"rustc's pages of copyrights do not list this version; the license is that of those that they list: {', '.join(sorted({v for v, _ in listed})) or 'none'}."
    return versions, licenses.pop() if len(licenses) == 1 else "NOASSERTION", said


# ---- the document


def package(spdx_id, name, version, license_text, **more):
    return {"SPDXID": spdx_id, "name": name, "versionInfo": version, "downloadLocation": "NOASSERTION", "supplier": "NOASSERTION", "filesAnalyzed": False,
            "licenseConcluded": "NOASSERTION", "licenseDeclared": license_text, "copyrightText": "NOASSERTION", **more}


def verification_code(files):
    """That of a package by its files (SPDX 2.3, 7.9): the SHA-1 of their SHA-1s, sorted."""
    sums = sorted(each["checksumValue"] for entry in files for each in entry["checksums"] if each["algorithm"] == "SHA1")
    return {"packageVerificationCodeValue": hashlib.sha1("".join(sums).encode()).hexdigest()}


def file_entry(root, spdx_id, place):
    data = (root / place).read_bytes()
    sums = [{"algorithm": kind, "checksumValue": hashlib.new(kind.lower(), data).hexdigest()} for kind in ("SHA1", "SHA256")]
    return {"SPDXID": spdx_id, "fileName": f"./{place}", "fileTypes": ["TEXT" if place == DRAFT else "BINARY"], "checksums": sums,
            "licenseConcluded": "NOASSERTION", "copyrightText": "NOASSERTION"}


def related(one, kind, other):
    return {"spdxElementId": one, "relationshipType": kind, "relatedSpdxElement": other}


def rust_packages(root, links):
    sysroot = Path(said_by("rustc", "--print", "sysroot").strip())
    pages = [path.read_text() for path in (sysroot / "share/doc/rust" / name for name in PAGES) if path.is_file()]
    version = first(r"release: (.*)", said_by("rustc", "-vV"), "rustc's version")
    first(rf"(rustc version {re.escape(version)} )", comments(root / "bin/shuntberry"), f"that the program was compiled by rustc {version}")
    own, packages = [], []
    for crate, file in rlibs(root):
        if crate in OURS:
            continue
        found = crate_of(sysroot, pages, crate, file)
        if found is None:
            own.append(crate)
            continue
        versions, license_text, said = found
        spdx_id = f"SPDXRef-Rust-{crate.replace('_', '-')}"
        more = {"comment": said} if said else {}
        packages.append(package(spdx_id, crate, " or ".join(versions), license_text, primaryPackagePurpose="LIBRARY", **more))
        links.append(related(RUST, "CONTAINS", spdx_id))
    license_text = first(r"(?s)<code>\.</code>.*?<b>License:</b> ([^<]*)</p>", pages[0], "the license of Rust's library") if pages else "NOASSERTION"
    std = package(RUST, "Rust standard library", version, license_text, primaryPackagePurpose="LIBRARY", comment="Its own crates: " + ", ".join(own))
    links.append(related(PROGRAM, "STATIC_LINK", RUST))
    return [std, *packages]


def system_versions(root):
    """Those of the GNU C library, by the archive that is linked in, and of GCC, by what it left in the program."""
    archive = Path(said_by("cc", "-print-file-name=libc.a").strip())
    return {"libc": first(r"GNU C Library \((.*?)\) stable release", archive.read_bytes().decode("latin-1"), "the version of libc.a"),
            "gcc": first(r"GCC: (\(.*)", comments(root / "bin/shuntberry"), "the version of GCC")}


def system_packages(root, links):
    versions = system_versions(root)
    needed = re.findall(r"\(NEEDED\).*\[(.*)\]", said_by("readelf", "-dW", str(next(root.glob("lib/libshuntberry.so.*.*")))))
    if needed != ["libc.so.6"]:
        fail(f"libshuntberry.so needs {needed}, and not the C library alone")
    links += [related(PROGRAM, "STATIC_LINK", LIBC), related(PROGRAM, "STATIC_LINK", LIBGCC), related("SPDXRef-File-shared", "DYNAMIC_LINK", LIBC)]
    return [package(LIBC, "GNU C library", versions["libc"], "LGPL-2.1-or-later", primaryPackagePurpose="LIBRARY"),
            package(LIBGCC, "GCC runtime library", versions["gcc"], "GPL-3.0-or-later WITH GCC-exception-3.1", primaryPackagePurpose="LIBRARY")]


def module_of(page):
    """The WebAssembly in the page to draft on: its longest text in base64."""
    found = max(re.findall(rb"[A-Za-z0-9+/]{999,}={0,2}", page.read_bytes()), key=len, default=b"")
    data = base64.b64decode(found) if len(found) % 4 == 0 else b""
    return data if data.startswith(b"\0asm") else fail(f"{page.name} has no WebAssembly in it")


def wasm_compiler(root):
    """The version of Rust's library that is in the page, by the places of its sources that the module names."""
    return first(r"/rustc-(\d+\.\d+\.\d+)/library/", module_of(root / DRAFT).decode("latin-1"), "which Rust the WebAssembly is of")


def page_packages(root, links, ours):
    """The page to draft on, where it is there, and Rust's library in it."""
    if not (root / DRAFT).is_file():
        return []
    links += [related(PRODUCT, "CONTAINS", PAGE), related(PAGE, "STATIC_LINK", RUST_WASM)]
    inside = "JavaScript and style (js/, js/page), and a WebAssembly module of rust/portable (the proved source as Rust), rust/portable_c, rust/text and js/wasm."
    return [package(PAGE, "draft.html, the page to draft on", comment=inside, **ours),
            package(RUST_WASM, "Rust standard library for wasm32-unknown-unknown", wasm_compiler(root), "MIT OR Apache-2.0", primaryPackagePurpose="LIBRARY",
                    comment="What the module uses of it: core, alloc, and of std the allocator (dlmalloc) and panics.")]


def with_files(packages, files, links):
    """Each package with what is to be said of it where it contains files."""
    for entry in packages:
        inside = {link["relatedSpdxElement"] for link in links if link["relationshipType"] == "CONTAINS" and link["spdxElementId"] == entry["SPDXID"]}
        own = [file for file in files if file["SPDXID"] in inside]
        yield {**entry, "filesAnalyzed": True, "packageVerificationCode": verification_code(own)} if own else entry


def made(root, facts):
    """facts: version, commit, kit, kit_crates (those of the kit that the library is built of), license, copyright, date (seconds since 1970)."""
    links = [related("SPDXRef-DOCUMENT", "DESCRIBES", PRODUCT), related(PRODUCT, "CONTAINS", PROGRAM), related(PRODUCT, "CONTAINS", LIBRARY),
             related(PROGRAM, "STATIC_LINK", LIBRARY), related(KIT, "BUILD_TOOL_OF", LIBRARY), related(LIBRARY, "STATIC_LINK", KIT)]
    logic = facts["kit"].split()[-1]
    for place in ("lib/libshuntberry.a", "bin/shuntberry"):
        first(rf"(rattle logic={logic})", comments(root / place), f"that {place} was compiled by the kit of {facts['kit']}")
    shared = next(root.glob("lib/libshuntberry.so.*.*")).relative_to(root)
    places = [("program", PROGRAM, "bin/shuntberry"), ("archive", LIBRARY, "lib/libshuntberry.a"), ("shared", LIBRARY, str(shared)), ("page", PAGE, DRAFT)]
    there = [each for each in places if each[2] != DRAFT or (root / DRAFT).is_file()]
    files = [file_entry(root, f"SPDXRef-File-{name}", place) for name, _, place in there]
    links += [related(owner, "CONTAINS", f"SPDXRef-File-{name}") for name, owner, _ in there]
    ours = {"version": facts["version"], "license_text": "NONE", "sourceInfo": f"commit {facts['commit']}", "licenseComments": facts["license"],
            "copyrightText": facts["copyright"], "supplier": "Organization: the Shuntberry maintainers", "primaryPackagePurpose": "APPLICATION"}
    packages = [
        package(PRODUCT, "shuntberry", **ours), package(PROGRAM, "the command shuntberry", **ours),
        package(LIBRARY, "libshuntberry, the proved library", **{**ours, "primaryPackagePurpose": "LIBRARY"}),
        package(KIT, "Rattle kit", facts["kit"], "NOASSERTION", primaryPackagePurpose="FRAMEWORK",
                comment=f"Prover, compiler and proved libraries, of which below the library: {', '.join(facts['kit_crates'])}. The kit states no license."),
        *rust_packages(root, links), *system_packages(root, links), *page_packages(root, links, ours),
    ]
    created = datetime.datetime.fromtimestamp(facts["date"], datetime.timezone.utc).strftime("%Y-%m-%dT%H:%M:%SZ")
    document = {
        "spdxVersion": "SPDX-2.3", "dataLicense": "CC0-1.0", "SPDXID": "SPDXRef-DOCUMENT", "name": f"shuntberry-{facts['version']}",
        "documentNamespace": f"https://shuntberry.example/spdx/shuntberry-{facts['version']}-{files[0]['checksums'][1]['checksumValue']}",
        "creationInfo": {"created": created, "creators": ["Tool: shuntberry-scripts-sbom", "Organization: the Shuntberry maintainers"]},
        "documentDescribes": [PRODUCT], "packages": list(with_files(packages, files, links)), "files": files, "relationships": links,
    }
    return json.dumps(document, indent=2, ensure_ascii=False) + "\n"


# ---- what SPDX 2.3 requires of its fields, and that it is of the files beside it

SPDX_ID = re.compile(r"SPDXRef-[A-Za-z0-9.-]+")
LICENSE = re.compile(r"(?:NONE|NOASSERTION|[A-Za-z0-9.+-]+(?: (?:OR|AND|WITH) [A-Za-z0-9.+-]+)*)")
KINDS = {"DESCRIBES", "CONTAINS", "STATIC_LINK", "DYNAMIC_LINK", "BUILD_TOOL_OF"}
PURPOSES = {"APPLICATION", "FRAMEWORK", "LIBRARY"}
OF_DOCUMENT = {"spdxVersion": r"SPDX-2\.3", "dataLicense": r"CC0-1\.0", "SPDXID": "SPDXRef-DOCUMENT", "name": r"\S+", "documentNamespace": r"https?://[^\s#]+"}
OF_PACKAGE = {"SPDXID": SPDX_ID.pattern, "name": r".+", "downloadLocation": r"NONE|NOASSERTION|\S+://\S+", "licenseConcluded": LICENSE.pattern,
              "licenseDeclared": LICENSE.pattern, "copyrightText": r"(?s).+", "versionInfo": r".+", "supplier": r"NOASSERTION|(?:Person|Organization): .+"}
OF_FILE = {"SPDXID": SPDX_ID.pattern, "fileName": r"\./\S+", "licenseConcluded": LICENSE.pattern, "copyrightText": r"(?s).+"}


def unfit(what, entry, required):
    for field, pattern in required.items():
        value = entry.get(field)
        if not isinstance(value, str) or not re.fullmatch(pattern, value):
            yield f"{what}: {field} is {value!r}"


def analyzed_faults(packages, files, links):
    """SPDX 2.3, 7.8 and 7.9: a package whose files were not analyzed contains none, and of one whose files were the code is that of their sums."""
    by_id = {entry.get("SPDXID"): entry for entry in files}
    for entry in packages:
        inside = [link.get("relatedSpdxElement") for link in links if link.get("relationshipType") == "CONTAINS" and link.get("spdxElementId") == entry.get("SPDXID")]
        own = [by_id[each] for each in inside if each in by_id]
        code = entry.get("packageVerificationCode")
        if entry.get("filesAnalyzed") is not bool(own):
            yield f"package {entry.get('name')}: filesAnalyzed is {entry.get('filesAnalyzed')!r}, and it contains {len(own)} files"
        if code != (verification_code(own) if own else None):
            yield f"package {entry.get('name')}: its packageVerificationCode is another"


def form_faults(document):
    """What the schema requires: fields, ids, relationships."""
    yield from unfit("the document", document, OF_DOCUMENT)
    info = document.get("creationInfo", {})
    yield from unfit("creationInfo", info, {"created": r"\d{4}-\d\d-\d\dT\d\d:\d\d:\d\dZ"})
    if not info.get("creators") or not all(re.fullmatch(r"(?:Person|Organization|Tool): .+", who) for who in info["creators"]):
        yield "creationInfo: creators are missing, or not as SPDX has them"
    packages, files, links = (document.get(part, []) for part in ("packages", "files", "relationships"))
    for entry in packages:
        yield from unfit(f"package {entry.get('name')}", entry, OF_PACKAGE)
        if entry.get("primaryPackagePurpose") not in PURPOSES:
            yield f"package {entry.get('name')}: primaryPackagePurpose"
    for entry in files:
        yield from unfit(f"file {entry.get('fileName')}", entry, OF_FILE)
        if not {"SHA1", "SHA256"} <= {each.get("algorithm") for each in entry.get("checksums", [])}:
            yield f"file {entry.get('fileName')}: no SHA1 and SHA256"
    yield from analyzed_faults(packages, files, links)
    ids = [entry.get("SPDXID") for entry in [document, *packages, *files]]
    yield from (f"{each} is the id of two" for each in sorted({str(each) for each in ids if ids.count(each) > 1}))
    for link in links:
        if link.get("relationshipType") not in KINDS or not {link.get("spdxElementId"), link.get("relatedSpdxElement")} <= set(ids):
            yield f"a relationship of what is not there, or of no kind: {link}"
    reached, more = set(), {"SPDXRef-DOCUMENT"}
    while more:
        reached |= more
        more = {end for link in links for end in (link.get("spdxElementId"), link.get("relatedSpdxElement")) if link.get("spdxElementId") in reached or link.get("relatedSpdxElement") in reached} - reached
    yield from (f"{each} is related to nothing" for each in ids if each not in reached)


def built_faults(root, document):
    """That it is of these files: their sums, and a package for each library that the program was linked of."""
    for entry in document.get("files", []):
        file = root / entry.get("fileName", "")
        sums = {each["algorithm"]: each["checksumValue"] for each in entry.get("checksums", [])}
        if not file.is_file() or any(hashlib.new(kind.lower(), file.read_bytes()).hexdigest() != found for kind, found in sums.items()):
            yield f"{entry.get('fileName')} is another file, or missing"
    places = {entry.get("fileName") for entry in document.get("files", [])}
    built = ["bin/shuntberry", "lib/libshuntberry.a", *(str(path.relative_to(root)) for path in [*root.glob("lib/libshuntberry.so.*.*"), *root.glob(DRAFT)])]
    yield from (f"{place} is not in it" for place in built if f"./{place}" not in places)
    names = {entry.get("name") for entry in document.get("packages", [])}
    own = " ".join(entry.get("comment", "") for entry in document.get("packages", []) if entry.get("SPDXID") == RUST)
    linked = [crate for crate, _ in rlibs(root) if crate not in OURS]
    if not linked:
        yield "the line of the link has no libraries"
    yield from (f"the program was linked of {crate}, which is not in it" for crate in linked if crate not in names and not re.search(rf"\b{crate}\b", own))
    version = {entry["SPDXID"]: entry.get("versionInfo", "") for entry in document.get("packages", [])}
    said = comments(root / "bin/shuntberry")
    for spdx_id, mark in ((RUST, "rustc version {} "), (LIBGCC, "GCC: {}")):
        if mark.format(version.get(spdx_id, "?")) not in said:
            yield f"the program does not say {mark.format(version.get(spdx_id))}"
    if (root / DRAFT).is_file() and version.get(RUST_WASM) != wasm_compiler(root):
        yield f"draft.html is not of Rust {version.get(RUST_WASM)}"
    if f"rattle logic={version.get(KIT, '?').split()[-1]}" not in said:
        yield f"the program is not of the kit {version.get(KIT)}"


def faults(root):
    try:
        document = json.loads((root / PLACE).read_text())
    except (OSError, ValueError) as error:
        return [f"{PLACE}: {error}"]
    return [*form_faults(document), *built_faults(root, document)]


def main():
    if len(sys.argv) != 2:
        sys.exit(__doc__)
    found = faults(Path(sys.argv[1]))
    for each in found:
        print(f"sbom: {each}", file=sys.stderr)
    print(f"sbom: {len(found)} faults")
    sys.exit(1 if found else 0)


if __name__ == "__main__":
    main()
