"""The ten lines of Rust, in a package of their own over the wrapper: what they print is what was worked out.

    in_rust.py PREFIX FOLDER       FOLDER has pump.table
"""
import sys
from pathlib import Path

from support import EDITED, TOP, run, same, spec, ten_lines

HERE = Path(sys.argv[2])
package = HERE / "drawing"
(package / "src").mkdir(parents=True)
(package / "src" / "main.rs").write_text(ten_lines("rust"))
(package / "Cargo.toml").write_text(f"""[package]
name = "drawing"
edition = "2024"

[dependencies]
shuntberry = {{ path = "{TOP / 'rust'}" }}

[workspace]
""")
built = TOP / "rust" / "target" / "readme"
run(["cargo", "build", "--offline", "--quiet", "--target-dir", str(built)], folder=package)
program = [str(built / "debug" / "drawing")]
same(run(program, folder=HERE).decode(), "safe\n" + spec.printed(EDITED), "the lines of Rust")

# What goes wrong is no answer: a table that is unsafe from the start, a file that is cut, no file.
file = HERE / "pump.table"
kept = file.read_bytes()
file.write_bytes(spec.encode(EDITED))
same(run(program, folder=HERE).decode(), "not safe\n" + spec.printed(EDITED), "the lines of Rust, of an unsafe table")
file.write_bytes(kept[:-1])
same(run(program, 1, folder=HERE), b"", "the lines of Rust, of a file that is cut")
file.unlink()
same(run(program, 1, folder=HERE), b"", "the lines of Rust, without a file")
file.write_bytes(kept)
print("readme: ten lines of Rust")
