//! The refusals of the calls on a store, in their order, and of read's store and site.

use crate::blocks::{Form, MAX_SITE};
use crate::table::{
    INITIAL_AT, MARKED_AT, MAX_GROUPS, MAX_STATES, RESTING_AT, STORE_WORDS, WORDS, group_at, row_at,
};

pub const PATH_PLACES: usize = MAX_STATES;
pub const MAX_ALLOWANCE: usize = MAX_STATES;
pub const MAX_LOG: usize = 32_768;
pub const POSSIBLE_WORDS: usize = possible_at(MAX_STATES);

/// Where the possible steps of a state begin in their buffer.
pub const fn possible_at(s: usize) -> usize {
    WORDS * s
}

pub fn decide(
    store: &[u64],
    n: usize,
    g: usize,
    allowance: usize,
    path_len: usize,
) -> Result<(), u32> {
    table(store, n, g)?;
    refuse_if(allowance > MAX_ALLOWANCE, 20)?;
    refuse_if(path_len < PATH_PLACES, 21)
}

pub fn shortest_path(store: &[u64], n: usize, g: usize, path_len: usize) -> Result<(), u32> {
    table(store, n, g)?;
    refuse_if(path_len < PATH_PLACES, 21)
}

pub fn distances(store: &[u64], n: usize, g: usize, room: usize) -> Result<(), u32> {
    table(store, n, g)?;
    refuse_if(room < n, 23)
}

pub fn within(store: &[u64], n: usize, g: usize) -> Result<(), u32> {
    table(store, n, g)
}

pub fn write(store: &[u64], n: usize, g: usize, site: usize, output_len: usize) -> Result<(), u32> {
    read(store.len(), site)?;
    table(store, n, g)?;
    refuse_if(output_len < Form::New.file_length(n, g), 19)
}

pub fn replay(store: &[u64], n: usize, g: usize, log_len: usize) -> Result<(), u32> {
    table(store, n, g)?;
    refuse_if(log_len % 2 == 1, 25)?;
    refuse_if(log_len > MAX_LOG, 26)
}

pub fn open(store: &[u64], n: usize, g: usize) -> Result<(), u32> {
    table(store, n, g)
}

pub fn edit(store: &[u64], n: usize, g: usize, from: usize, to: usize) -> Result<(), u32> {
    open(store, n, g)?;
    refuse_if(from >= n || to >= n, 27)
}

pub fn decide_modal(
    store: &[u64],
    n: usize,
    g: usize,
    possible: &[u64],
    path_len: usize,
) -> Result<(), u32> {
    refuse_if(possible.len() < POSSIBLE_WORDS, 10)?;
    table(store, n, g)?;
    let rows = (0..MAX_STATES).map(|s| (s < n, possible_at(s)));
    refuse_if(has_stray(possible, n, rows), 17)?;
    let certain_only = |from: usize, to: usize| {
        has(store, row_at(from), to) && !has(possible, possible_at(from), to)
    };
    let uncertain = (0..n).any(|from| (0..n).any(|to| certain_only(from, to)));
    refuse_if(uncertain, 28)?;
    refuse_if(path_len < PATH_PLACES, 21)
}

/// What read asks before it looks at the input: a store to fill, and a site.
pub fn read(store_len: usize, site: usize) -> Result<(), u32> {
    refuse_if(store_len < STORE_WORDS, 10)?;
    refuse_if(site > MAX_SITE, 24)
}

/// What all but read ask of a store with n and g.
fn table(store: &[u64], n: usize, g: usize) -> Result<(), u32> {
    refuse_if(store.len() < STORE_WORDS, 10)?;
    refuse_if(n == 0 && g > 0 || n > MAX_STATES, 14)?;
    refuse_if(g > MAX_GROUPS, 15)?;
    let groups = (0..MAX_GROUPS).map(|j| (j < g, group_at(j)));
    let rows = (0..MAX_STATES).map(|s| (s < n, row_at(s)));
    let heads = [INITIAL_AT, MARKED_AT, RESTING_AT].map(|at| (true, at));
    let sets = heads.into_iter().chain(groups).chain(rows);
    refuse_if(has_stray(store, n, sets), 17)
}

fn has(buffer: &[u64], at: usize, state: usize) -> bool {
    buffer[at + state / 64] & (1 << (state % 64)) != 0
}

/// Whether one of these sets, each in use or not, has a state that it may not have.
fn has_stray(buffer: &[u64], n: usize, mut sets: impl Iterator<Item = (bool, usize)>) -> bool {
    let past_n = |at: usize| (n..MAX_STATES).any(|state| has(buffer, at, state));
    let not_empty = |at: usize| buffer[at..at + WORDS].iter().any(|&word| word != 0);
    sets.any(|(used, at)| if used { past_n(at) } else { not_empty(at) })
}

fn refuse_if(ground: bool, number: u32) -> Result<(), u32> {
    if ground { Err(number) } else { Ok(()) }
}
