//! Answers: what is said of a file is said of the bytes of that file, by two calls of the library that agree, or there is none.

use shuntberry::{Refused, Table};
use shuntberry_command::answer::{Answer, Verdict};
use shuntberry_command::failure::Failure;
use shuntberry_command::lines::Names;
use shuntberry_command::source::Source;

fn source(file: &[u8], table: Result<Table, Refused>) -> Source {
    Source {
        shown: "a test".to_string(),
        site: 0,
        file: file.to_vec(),
        table,
        names: Names::new(),
        names_from: None,
    }
}

/// 0 leads to itself, 1 to 2, which is marked; safe or not by where a session starts.
fn started_in(state: usize) -> Table {
    let table = Table::builder(3).initial([state]).marked([2]);
    table.steps([(0, 0), (1, 2), (2, 2)]).build().unwrap()
}

#[test]
fn of_the_bytes_and_their_table() {
    for (state, verdict) in [
        (0, Verdict::Safe),
        (1, Verdict::Unsafe),
        (2, Verdict::Unsafe),
    ] {
        let table = started_in(state);
        let file = table.to_bytes(0).unwrap();
        let answer = Answer::of(&source(&file, Ok(table))).unwrap();
        assert_eq!(answer.verdict, verdict);
    }
    let refused = Answer::of(&source(b"no table", Err(Refused::INPUT_LENGTH))).unwrap();
    assert_eq!(refused.verdict, Verdict::Refused(Refused::INPUT_LENGTH));
}

/// Another table than that of the bytes, another refusal, or one in place of the other: no verdict comes of it.
#[test]
fn none_where_they_do_not_agree() {
    let file = |state| started_in(state).to_bytes(0).unwrap();
    let draft = Table::from_bytes(b"", 0);
    let short = || Err(Refused::INPUT_LENGTH);
    for (file, table) in [
        (file(1), Ok(started_in(0))),
        (file(0), Ok(started_in(1))),
        (file(1), Ok(started_in(2))),
        (file(0), draft.clone()),
        (Vec::new(), Ok(started_in(0))),
        (file(0), short()),
        (Vec::new(), short()),
        (b"no table".to_vec(), Ok(started_in(0))),
        (b"no table".to_vec(), draft),
        (b"no table".to_vec(), Err(Refused::BLOCK_CHECK)),
    ] {
        let answer = Answer::of(&source(&file, table));
        assert!(matches!(answer, Err(Failure::Failed(_))), "{answer:?}");
    }
}
