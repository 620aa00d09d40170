//! Edit sessions: the calls open and edit.

use super::set::{Set, Words};
use super::table::{Table, reached, reached_from};
use super::{HEAD_SETS, MAX_GROUPS, WORDS};
use crate::calls::{Edit, Session};

fn lit_now(set: Set) -> Session {
    Session {
        refusal: 0,
        reachable: set.0,
    }
}

pub(super) fn open(store: &[u64], n: usize, g: usize) -> Session {
    match Table::accept(store, n, g) {
        Err(refusal) => Session {
            refusal,
            reachable: Set::EMPTY.0,
        },
        Ok(table) => lit_now(reached(&table)),
    }
}

pub(super) fn edit(store: &mut [u64], n: usize, g: usize, lit: Words, edit: Edit) -> Session {
    let (from, to, adding) = match edit {
        Edit::Add(from, to) => (from, to, true),
        Edit::Remove(from, to) => (from, to, false),
    };
    let refused = |refusal| Session {
        refusal,
        reachable: lit,
    };
    match Table::accept(store, n, g) {
        Err(refusal) => return refused(refusal),
        Ok(_) if from >= n || to >= n => return refused(27),
        Ok(table) if Set(table.rows[from]).has(to) == adding => return lit_now(Set(lit)),
        Ok(_) => {}
    }
    store[(HEAD_SETS + MAX_GROUPS + from) * WORDS + to / 64] ^= 1 << (to % 64);
    let store = store.first_chunk().expect("a store that was accepted");
    let table = Table::within(store, n, g);
    if !adding {
        return lit_now(reached(&table));
    }
    if !Set(lit).has(from) {
        return lit_now(Set(lit));
    }
    let mut start = Set::EMPTY;
    start.insert(to);
    lit_now(Set(lit).union(reached_from(&table, start)))
}
