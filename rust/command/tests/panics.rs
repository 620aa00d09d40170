//! A panic, which is a mistake of the program, is a failure as any other: status 3, lines on standard error,
//! no file that is half written, and a line that is no file where one was due. No shipped code panics for
//! this: the test runs itself, with a command of its own in place of the program's.

use shuntberry_command::failure::{Failure, status};
use shuntberry_command::{ended, files, sys};
use std::env;
use std::ffi::OsStr;
use std::fs;
use std::path::Path;
use std::process::{Command, Output, exit};

/// What is done before the panic.
type Before = fn(&Path);

/// Each case: its name, whether a file may be due on standard output, what is done, and what must be printed.
const CASES: [(&str, bool, Before, &str); 5] = [
    ("where a file is due", true, |_| (), "failed\n"),
    ("where an answer is due", false, |_| (), ""),
    ("behind a file", true, |_| put("whole\n"), "whole\n"),
    ("behind an answer", false, |_| put("safe\n"), "safe\n"),
    ("before a file has its name", false, half_written, ""),
];

fn main() {
    let words: Vec<_> = env::args_os().collect();
    match &words[1..] {
        [name, out] if case(name).is_some() => child(name, Path::new(out)),
        _ => {
            for (name, ..) in CASES {
                look_at(name);
            }
            exit_of_a_failure();
            println!("panics: {} cases as expected", CASES.len() + 1);
        }
    }
}

fn case(name: &OsStr) -> Option<&'static (&'static str, bool, Before, &'static str)> {
    CASES.iter().find(|(other, ..)| name == *other)
}

/// The program of a case.
fn child(name: &OsStr, out: &Path) -> ! {
    let (_, file_may_be_due, before, _) = case(name).expect("a case");
    sys::begin(*file_may_be_due);
    exit(
        ended(|| {
            before(out);
            panic!("made by\nthe test")
        })
        .into(),
    )
}

fn put(said: &str) {
    files::print(said.as_bytes()).expect("it can be printed");
}

fn half_written(out: &Path) {
    let _ = files::replace_after(out, b"new", || panic!("made by\nthe test"));
}

/// Runs a case, and compares what it gives.
fn look_at(name: &str) {
    let folder = env::temp_dir().join(format!("panics.{}", std::process::id()));
    fs::create_dir(&folder).expect("a folder");
    let out = folder.join("out");
    fs::write(&out, "old").expect("a file");
    for backtrace in ["0", "1"] {
        let given = Command::new(env::current_exe().expect("itself"))
            .args([OsStr::new(name), out.as_os_str()])
            .env("RUST_BACKTRACE", backtrace)
            .output()
            .expect("it can be run");
        let (.., printed) = case(OsStr::new(name)).expect("a case");
        let Output { stdout, stderr, .. } = &given;
        let said = String::from_utf8_lossy(stderr);
        let lines: Vec<&str> = said.lines().collect();
        assert_eq!(given.status.code(), Some(3), "{name}: {given:?}");
        assert_eq!(stdout, printed.as_bytes(), "{name}: {given:?}");
        assert_eq!(lines.len(), 2, "{name}: {given:?}");
        assert!(lines[0].starts_with("shuntberry: panicked at "), "{said}");
        assert!(lines[0].contains("tests/panics.rs:"), "{said}");
        assert!(lines[0].ends_with(" made by the test"), "{said}");
        assert!(lines[1].contains("mistake of the program"), "{said}");
    }
    let left: Vec<_> = fs::read_dir(&folder).expect("the folder").collect();
    assert_eq!(left.len(), 1, "{name}: a part is left: {left:?}");
    assert_eq!(fs::read(&out).expect("the file"), b"old", "{name}");
    fs::remove_dir_all(&folder).expect("the folder");
}

/// A failure that is none of the program's mistakes ends as before.
fn exit_of_a_failure() {
    let failed = || ("test", Err(Failure::Failed("by the test".to_string())));
    assert_eq!(ended(failed), status::FAILED);
}
