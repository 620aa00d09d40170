"""How a maker ends: what it made is written or, with --check, compared with what is stored, and a difference is a failure."""

import sys
from pathlib import Path

TOP = Path(__file__).resolve().parents[2]


def keep(made, stored=()):
    """What was made, by its path as bytes; nothing else may be stored in the places `stored`."""
    maker = Path(sys.argv[0]).name
    if sys.argv[1:] not in ([], ["--check"]):
        sys.exit(f"usage: python3 tests/expected/{maker} [--check]")
    if not sys.argv[1:]:
        for path, content in made.items():
            path.write_bytes(content)
        return
    differ = sorted(path for path in {*made, *stored} if not path.exists() or path.read_bytes() != made.get(path))
    for path in differ:
        print(f"{maker}: {path.relative_to(TOP)} DIFFERS", file=sys.stderr)
    print(f"{maker}: {len(made)} files, {len(differ)} differ from what is worked out")
    sys.exit(1 if differ else 0)
