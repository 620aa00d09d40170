//! Names of files as they are shown: each on one line, and as what it is. And numbers of things.

use crate::lines::is_hidden;
use std::ffi::OsStr;
use std::fmt::Write;
use std::os::unix::ffi::OsStrExt;

/// A name as it is; in quotes, with escapes, where it has characters that cannot be seen or change how a line looks, or bytes that are no
/// UTF-8, or begins with a quote itself, or is empty.
pub fn shown(name: impl AsRef<OsStr>) -> String {
    let name = name.as_ref();
    match name.to_str() {
        Some(plain) if is_plain(plain) => plain.to_string(),
        _ => quoted(name.as_bytes()),
    }
}

fn is_plain(name: &str) -> bool {
    !name.is_empty() && !name.starts_with('"') && !name.contains(is_hidden)
}

fn quoted(bytes: &[u8]) -> String {
    let mut out = String::from('"');
    for part in bytes.utf8_chunks() {
        for c in part.valid().chars() {
            match c {
                '\n' => out += "\\n",
                '\t' => out += "\\t",
                '"' | '\\' => out.extend(['\\', c]),
                _ if is_hidden(c) => {
                    let _ = write!(out, "\\u{{{:x}}}", u32::from(c));
                }
                _ => out.push(c),
            }
        }
        for byte in part.invalid() {
            let _ = write!(out, "\\x{byte:02x}");
        }
    }
    out.push('"');
    out
}

/// A number of things.
pub fn counted(count: usize, what: &str) -> String {
    format!("{count} {what}{}", if count == 1 { "" } else { "s" })
}
