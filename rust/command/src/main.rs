//! The program `shuntberry`, and under the name `check` its command check. `man/shuntberry.1` is its page.
//!
//! It begins at C's `main` and not at Rust's, which would put /dev/null in the place of a standard output that is closed: printing there
//! seems to go well.
#![no_main]

use shuntberry_command::{file_may_be_due, run, sys};
use std::ffi::{CStr, OsStr, OsString, c_char, c_int};
use std::os::unix::ffi::OsStrExt;

/// Where the C library begins.
///
/// # Safety
///
/// `words` has `count` words, each one ended by a zero.
#[unsafe(no_mangle)]
pub unsafe extern "C" fn main(count: c_int, words: *const *const c_char) -> c_int {
    let words: Vec<OsString> = (0..usize::try_from(count).unwrap_or_default())
        // SAFETY: as above, which the C library sees to.
        .map(|i| unsafe { CStr::from_ptr(*words.add(i)) })
        .map(|word| OsStr::from_bytes(word.to_bytes()).to_os_string())
        .collect();
    let streams = sys::begin(file_may_be_due(&words));
    run(&words, streams).into()
}
