//! Logs: the call replay.

use super::MAX_STATES;
use super::set::Set;
use super::table::{Table, reached};
use crate::calls::Replay;

const MAX_LOG: usize = 32_768;

/// How many entries are followed, and the states that they hold.
fn follow(table: &Table, log: &[u8]) -> (u32, Set) {
    let mut next = &table.initial.0;
    let mut seen = Set::EMPTY;
    let (entries, _) = log.as_chunks::<2>();
    for (followed, &entry) in entries.iter().enumerate() {
        let state = u16::from_le_bytes(entry) as usize;
        if state >= MAX_STATES || next[state / 64] >> (state % 64) & 1 == 0 {
            return (followed as u32, seen);
        }
        seen.insert(state);
        next = &table.rows[state];
    }
    (entries.len() as u32, seen)
}

pub(super) fn replay(store: &[u64], n: usize, g: usize, log: &[u8]) -> Replay {
    let table = match Table::accept(store, n, g) {
        Err(refusal) => return Replay::refused(refusal),
        Ok(_) if !log.len().is_multiple_of(2) => return Replay::refused(25),
        Ok(_) if log.len() > MAX_LOG => return Replay::refused(26),
        Ok(table) => table,
    };
    let (followed, seen) = follow(&table, log);
    let (seen, reached) = (seen.size(), reached(&table).size());
    Replay {
        refusal: 0,
        followed,
        seen,
        percent: (100 * seen).checked_div(reached).unwrap_or(0),
        remainder: (100 * seen).checked_rem(reached).unwrap_or(0),
    }
}
