//! The files of `tests/files` that are of the old form, rewritten as the specification says, and held to those that stand
//! beside them.

use std::fs;

use shuntberry_outside::rewriting::rewritten;

#[test]
fn old_tables_are_rewritten() {
    let (mut accepted, mut refused) = (0, 0);
    for entry in fs::read_dir("../../tests/files").unwrap() {
        let path = entry.unwrap().path();
        let name = path.file_name().unwrap().to_str().unwrap();
        let Some(name) = name
            .strip_prefix("old-")
            .and_then(|name| name.strip_suffix(".table"))
        else {
            continue;
        };
        let beside = |kind: &str| path.with_file_name(format!("rewritten-{name}.{kind}"));
        match rewritten(&fs::read(&path).unwrap()) {
            Ok(new) => {
                assert!(new == fs::read(beside("table")).unwrap(), "{name}");
                accepted += 1;
            }
            Err(number) => {
                let text = fs::read_to_string(beside("expected")).unwrap();
                assert_eq!(text, format!("refused {number}\n"), "{name}");
                refused += 1;
            }
        }
    }
    assert!(
        accepted >= 5 && refused >= 5,
        "only {accepted} old files of tests/files were rewritten, and {refused} refused"
    );
}

#[test]
fn a_draft_stays_one() {
    assert_eq!(rewritten(&[]), Ok(Vec::new()));
}
