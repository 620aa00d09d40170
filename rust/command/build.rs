//! Gives the program the number that `--version` prints: that of the file VERSION in the root of the repository, or the package's own.

use std::path::Path;
use std::{env, fs};

fn main() {
    let file = Path::new("../../VERSION");
    println!("cargo::rerun-if-changed={}", file.display());
    let number = fs::read_to_string(file)
        .unwrap_or_else(|_| env::var("CARGO_PKG_VERSION").unwrap_or_default());
    println!("cargo::rustc-env=SHUNTBERRY_RELEASE={}", number.trim());
}
