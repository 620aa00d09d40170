//! Links `libshuntberry.a`, on x86-64 Linux and without the feature `portable`: the one in this package's folder, as the package is shipped, else the one that
//! was proved around it. Elsewhere the package `portable_c` has the same functions.

use std::env;
use std::path::Path;

const ARCHIVE: &str = "libshuntberry.a";

fn main() {
    if !is_tried() {
        println!(
            "cargo::error=this package is for targets of 64 bits, and not for WebAssembly: there, call the package in the folder `portable`, whose README.md says how"
        );
        return;
    }
    if is_portable() {
        return;
    }
    let manifest = env::var("CARGO_MANIFEST_DIR").expect("cargo names the package's folder");
    let package = Path::new(&manifest);
    let folder = if package.join(ARCHIVE).is_file() {
        package.to_path_buf()
    } else {
        package.join("../target/staticlib")
    };
    let archive = folder.join(ARCHIVE);
    println!("cargo::rerun-if-changed={}", archive.display());
    if !archive.is_file() {
        println!(
            "cargo::error={ARCHIVE} is missing in {}: copy the package whole from Shuntberry's archive, or with `cp -RL` from the installed one, where it is a link, or set the feature `portable`, or run `scripts/prove shuntberry` in the repository",
            package.display()
        );
        return;
    }
    println!("cargo::rustc-link-search=native={}", folder.display());
    println!("cargo::rustc-link-lib=static=shuntberry");
}

/// What cargo says of the target.
fn target(what: &str) -> String {
    env::var(format!("CARGO_CFG_TARGET_{what}")).unwrap_or_default()
}

/// Whether `raw` declares the functions as they are there. In WebAssembly an answer goes through memory, and numbers of 32 bits were never tried in what
/// is around them.
fn is_tried() -> bool {
    target("POINTER_WIDTH") == "64" && !target("FAMILY").contains("wasm")
}

/// Whether the functions are those of the portable source.
fn is_portable() -> bool {
    env::var_os("CARGO_FEATURE_PORTABLE").is_some() || target("ARCH") != "x86_64" || target("OS") != "linux"
}
