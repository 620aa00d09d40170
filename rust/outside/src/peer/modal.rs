//! Possible steps: the call decide modal.

use super::decide::rounds;
use super::paths::write_path;
use super::set::{Set, Words};
use super::table::Table;
use super::{Looks, MAX_ALLOWANCE, MAX_STATES, PATH_PLACES, WORDS};
use crate::calls::{DEPENDS, Modal, SAFE, UNSAFE};

const POSSIBLE_WORDS: usize = MAX_STATES * WORDS;

/// The rows of possible steps, or the refusal 17 or 28.
fn accept_possible<'p>(
    table: &Table,
    possible: &'p [u64; POSSIBLE_WORDS],
) -> Result<&'p [Words; MAX_STATES], u32> {
    let (rows, _) = possible.as_chunks::<WORDS>();
    let rows: &[Words; MAX_STATES] = rows.try_into().expect("MAX_STATES rows");
    let all = Set::below(table.n);
    let (used, unused) = rows.split_at(table.n);
    let any = |rows: &[Words]| {
        rows.iter()
            .fold(Set::EMPTY, |all, &row| all.union(Set(row)))
    };
    if !any(used).inside(all) || !any(unused).is_empty() {
        return Err(17);
    }
    let mut certain = table.rows.iter().zip(rows);
    if !certain.all(|(&must, &may)| Set(must).inside(Set(may))) {
        return Err(28);
    }
    Ok(rows)
}

/// The answer on accepted buffers.
fn decide_choices(
    certain: &Table,
    rows: &[Words; MAX_STATES],
    path: &mut [u16],
    looks: Looks,
) -> Modal {
    let all = Set::below(certain.n);
    let marked = Table { rows, ..*certain }.forbidden(all);
    // Every state rests, so that no other is forbidden.
    let resting = all;
    let possible = Table {
        marked,
        resting,
        rows,
        ..*certain
    };
    let certain = Table {
        marked,
        resting,
        ..*certain
    };
    let (verdict, _, invariant) = rounds(&possible, MAX_ALLOWANCE, looks);
    let (verdict, invariant, leads) = match verdict {
        SAFE => (SAFE, invariant, None),
        _ => match rounds(&certain, MAX_ALLOWANCE, looks) {
            (SAFE, _, invariant) => (DEPENDS, invariant, Some(possible)),
            _ => (UNSAFE, Set::EMPTY, Some(certain)),
        },
    };
    let steps = leads.and_then(|table| write_path(&table, path));
    Modal {
        invariant: invariant.0,
        refusal: 0,
        verdict,
        size: invariant.size(),
        steps: steps.unwrap_or(0) as u32,
    }
}

pub(super) fn decide_modal(
    store: &[u64],
    n: usize,
    g: usize,
    possible: &[u64],
    path: &mut [u16],
    looks: Looks,
) -> Modal {
    let Some(possible) = possible.first_chunk::<POSSIBLE_WORDS>() else {
        return Modal::refused(10);
    };
    let table = match Table::accept(store, n, g) {
        Err(refusal) => return Modal::refused(refusal),
        Ok(table) => table,
    };
    let rows = match accept_possible(&table, possible) {
        Err(refusal) => return Modal::refused(refusal),
        Ok(_) if path.len() < PATH_PLACES => return Modal::refused(21),
        Ok(rows) => rows,
    };
    decide_choices(&table, rows, path, looks)
}
