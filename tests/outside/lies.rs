//! The Rust package with a library that lies (tests/python/lies.c): it accepts everything, and answers with numbers that stand for nothing. None of them is taken for
//! an answer, and nothing panics.

use shuntberry::checking::{CHECK_TEXT_BYTES, check, rewrite};
use shuntberry::*;

/// Whether a call gave no answer: with a refusal, or with that of an answer that is not known.
fn silent<T: std::fmt::Debug>(call: &str, answer: Result<T, Refused>) {
    assert!(answer.is_err(), "{call}: {answer:?}");
}

#[test]
fn slices() {
    let (mut store, possible) = ([0; STORE_WORDS], [0; POSSIBLE_WORDS]);
    let (mut path, mut output) = ([0; PATH_PLACES], [0; FILE_BYTES]);
    silent("decide", decide(&store, 3, 0, MAX_ALLOWANCE, &mut path));
    silent("shortest path", shortest_path(&store, 3, 0, &mut path));
    silent("distances", distances(&store, 3, 0, &mut path));
    silent("within", within(&store, 3, 0, 1));
    silent("write", write(&store, 3, 0, 0, &mut output));
    silent("generate", generate(1, 3, 1, &mut store));
    silent("replay", replay(&store, 3, 0, &[]));
    silent("open", open(&store, 3, 0));
    silent(
        "decide modal",
        decide_modal(&store, 3, 0, &possible, &mut path),
    );
    silent("next open", next_open(0, &[], &[]));
    silent("check", check(&[], 0, &mut [0; CHECK_TEXT_BYTES]));
    silent("rewrite", rewrite(&[], &mut output));
}

#[test]
fn methods() {
    let builder = |n| Table::builder(n).initial([0]).marked([]).steps([]);
    let table = builder(3)
        .build()
        .expect("the lie is told by the other calls");
    silent("decide", table.decide(MAX_ALLOWANCE));
    silent("check", table.check());
    silent("shortest path", table.shortest_path());
    silent("distances", table.distances());
    silent("within", table.within(1));
    silent("replay", table.replay(&[]));
    silent("to bytes", table.to_bytes(0));
    silent("decide modal", table.decide_modal([]));
    silent("reachable", table.reachable());
    silent("session", table.clone().session());
    silent("from bytes", Table::from_bytes(&[], 0));
    silent("generate", Table::generate(1, 3, 1));
    // what this library accepts has no place in a table all the same
    silent("513 states", builder(MAX_STATES + 1).build());
    silent(
        "65 groups",
        (0..=MAX_GROUPS)
            .fold(builder(3), |table, _| table.group([]))
            .build(),
    );
    silent("state 512", builder(3).resting([MAX_STATES]).build());
    silent(
        "no states",
        Table::from_store(&[0; STORE_WORDS], usize::MAX, usize::MAX),
    );
}
