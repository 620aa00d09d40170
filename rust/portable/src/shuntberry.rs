// Made by scripts/portable from crates/shuntberry/src/lib.rt, which is proved. Change that one.

// The calls for C (include/shuntberry.h). Each only calls the call of the same name and lays its answer out as C reads it (`shuntberry_fields`).
// kept: n and g beside each store, and add_step and remove_step as two functions: C has them so.

use crate::call_check::check;
use crate::call_decide::decide;
use crate::call_edit_session::{add_step, open, remove_step};
use crate::call_generate::generate;
use crate::call_modal::decide_modal;
use crate::call_paths::{shortest_path, within};
use crate::call_release_windows::next_open;
use crate::call_replay::replay;
use crate::call_rewrite::rewrite;
use crate::core_state_set::StateSet;
use crate::file_reading::read;
use crate::file_writing::write;
use crate::shuntberry_fields::{
    CheckedFields, DecisionFields, FileFields, MinuteFields, ModalFields, ReplayFields,
    SessionFields, SetFields, ShortestFields, TableFields, WithinFields, lay_out_check,
    lay_out_decision, lay_out_done, lay_out_file, lay_out_minute, lay_out_modal, lay_out_replay,
    lay_out_session, lay_out_shortest, lay_out_table, lay_out_within,
};

// ---- the version

const VERSION: u32 = 6;

pub fn shuntberry_version() -> u32
{
    VERSION
}

// ---- decide

pub fn shuntberry_decide(
    store: &[u64],
    n: usize,
    g: usize,
    allowance: usize,
    path: &mut [u16],
) -> DecisionFields
{
    lay_out_decision(decide(store, n, g, allowance, path))
}

// ---- check: from a file's bytes to the text and the verdict

pub fn shuntberry_check(input: &[u8], site: usize, text: &mut [u8]) -> CheckedFields
{
    lay_out_check(check(input, site, text))
}

// ---- shortest path

pub fn shuntberry_shortest_path(
    store: &[u64],
    n: usize,
    g: usize,
    path: &mut [u16],
) -> ShortestFields
{
    lay_out_shortest(shortest_path(store, n, g, path))
}

// ---- distances

pub fn shuntberry_distances(
    store: &[u64],
    n: usize,
    g: usize,
    distances: &mut [u16],
) -> u32
{
    lay_out_done(crate::call_distances::distances(store, n, g, distances))
}

// ---- within

pub fn shuntberry_within(store: &[u64], n: usize, g: usize, k: usize) -> WithinFields
{
    lay_out_within(within(store, n, g, k))
}

// ---- read

pub fn shuntberry_read(input: &[u8], site: usize, store: &mut [u64]) -> TableFields
{
    lay_out_table(read(input, site, store))
}

// ---- write

pub fn shuntberry_write(
    store: &[u64],
    n: usize,
    g: usize,
    site: usize,
    output: &mut [u8],
) -> FileFields
{
    lay_out_file(write(store, n, g, site, output))
}

pub fn shuntberry_rewrite(input: &[u8], output: &mut [u8]) -> FileFields
{
    lay_out_file(rewrite(input, output))
}

// ---- generate

pub fn shuntberry_generate(seed: u32, n: usize, fan_out: usize, store: &mut [u64]) -> u32
{
    lay_out_done(generate(seed, n, fan_out, store))
}

// ---- replay

pub fn shuntberry_replay(store: &[u64], n: usize, g: usize, log: &[u8]) -> ReplayFields
{
    lay_out_replay(replay(store, n, g, log))
}

// ---- edit sessions

pub fn shuntberry_open(store: &[u64], n: usize, g: usize) -> SessionFields
{
    lay_out_session(StateSet::empty(), open(store, n, g))
}

pub fn shuntberry_add_step(
    store: &mut [u64],
    n: usize,
    g: usize,
    reachable: SetFields,
    from: usize,
    to: usize,
) -> SessionFields
{
    let handed = StateSet::from(reachable);
    lay_out_session(handed, add_step(store, n, g, handed, from, to))
}

pub fn shuntberry_remove_step(
    store: &mut [u64],
    n: usize,
    g: usize,
    reachable: SetFields,
    from: usize,
    to: usize,
) -> SessionFields
{
    let handed = StateSet::from(reachable);
    lay_out_session(handed, remove_step(store, n, g, handed, from, to))
}

// ---- decide, with possible steps

pub fn shuntberry_decide_modal(
    store: &[u64],
    n: usize,
    g: usize,
    possible: &[u64],
    path: &mut [u16],
) -> ModalFields
{
    lay_out_modal(decide_modal(store, n, g, possible, path))
}

// ---- next open minute

pub fn shuntberry_next_open(
    time: usize,
    windows: &[u64],
    closed_days: &[u32],
) -> MinuteFields
{
    lay_out_minute(next_open(time, windows, closed_days))
}
