//! The module for JavaScript: the calls of the package `shuntberry-portable-c`, and texts by their one reader
//! and one printer. A text has an instance of its own, so what is given away here is never taken back.

use core::slice::{from_raw_parts, from_raw_parts_mut};
use shuntberry as _;
use shuntberry_text::lines::Names;
use shuntberry_text::table::{
    parse_with_possible, parse_without_possible, print_with_possible, Set, Table, Text,
};
use shuntberry_text::{MAX_GROUPS, MAX_STATES, SET_WORDS};

const HEAD_SETS: usize = 3;
const FIRST_ROW: usize = HEAD_SETS + MAX_GROUPS;
const STORE_WORDS: usize = SET_WORDS * (FIRST_ROW + MAX_STATES);
const POSSIBLE_WORDS: usize = SET_WORDS * MAX_STATES;

const NO_POSSIBLE: &str =
    "a text with possible steps is two tables: Table.fromTextWithPossible reads it";

/// What was read or printed.
#[repr(C)]
pub struct TextFields {
    /// How many mistakes there are; where there is one, there is no table.
    mistakes: u32,
    n: u32,
    g: u32,
    /// Lines. Read: a state's number and its name; or a line's number and its mistake. Printed: the text.
    lines: *const u8,
    lines_len: usize,
}

fn answered(mistakes: usize, n: usize, g: usize, lines: String) -> TextFields {
    let lines = Box::leak(lines.into_boxed_str());
    let number = |value: usize| u32::try_from(value).unwrap_or(u32::MAX);
    TextFields {
        mistakes: number(mistakes),
        n: number(n),
        g: number(g),
        lines: lines.as_ptr(),
        lines_len: lines.len(),
    }
}

/// Lines of a number and words each.
fn numbered<W: core::fmt::Display>(lines: impl Iterator<Item = (usize, W)>) -> String {
    lines
        .map(|(number, words)| format!("{number} {words}\n"))
        .collect()
}

/// Where a table's sets stand in a store, in order.
fn sets(n: usize, g: usize) -> impl Iterator<Item = usize> {
    (0..HEAD_SETS + g)
        .chain(FIRST_ROW..FIRST_ROW + n)
        .map(|set| SET_WORDS * set)
}

fn put(table: &Table, store: &mut [u64]) {
    store.fill(0);
    let head = [table.initial, table.marked, table.resting];
    let all = head.iter().chain(&table.groups).chain(&table.rows);
    for (at, set) in sets(table.rows.len(), table.groups.len()).zip(all) {
        store[at..at + SET_WORDS].copy_from_slice(set);
    }
}

fn taken(store: &[u64], n: usize, g: usize) -> Table {
    let mut all = sets(n, g).map(|at| {
        let mut set = Set::default();
        set.copy_from_slice(&store[at..at + SET_WORDS]);
        set
    });
    let mut next = || all.next().unwrap_or_default();
    let (initial, marked, resting) = (next(), next(), next());
    let groups = (0..g).map(|_| next()).collect();
    let rows = (0..n).map(|_| next()).collect();
    Table {
        initial,
        marked,
        resting,
        groups,
        rows,
    }
}

/// The steps that are only possible, as rows.
fn put_possible(read: &Text, rows: &mut [u64]) {
    rows.fill(0);
    for &(from, to) in &read.possible {
        rows[SET_WORDS * from + to / 64] |= 1 << (to % 64);
    }
}

fn possible_rows(rows: &[u64]) -> Vec<Set> {
    let row = |words: &[u64]| {
        let mut set = Set::default();
        set.copy_from_slice(words);
        set
    };
    rows.chunks_exact(SET_WORDS).map(row).collect()
}

/// Reads a text; its table goes into the store, and the steps that are only possible into the rows. Without
/// rows, which are null then, a line of such steps is a mistake.
///
/// # Safety
/// The text has as many bytes as its length says, and is not empty; the store has STORE_WORDS words, and
/// where there are rows they have POSSIBLE_WORDS.
#[no_mangle]
pub unsafe extern "C" fn shuntberry_text_read(
    answer: *mut TextFields,
    text: *const u8,
    text_len: usize,
    store: *mut u64,
    possible: *mut u64,
) {
    let store = from_raw_parts_mut(store, STORE_WORDS);
    let text = from_raw_parts(text, text_len);
    let read = match possible.is_null() {
        true => parse_without_possible(text, NO_POSSIBLE),
        false => parse_with_possible(text),
    };
    *answer = match read {
        Ok(read) => {
            put(&read.table, store);
            if !possible.is_null() {
                put_possible(&read, from_raw_parts_mut(possible, POSSIBLE_WORDS));
            }
            let names = numbered(read.names.iter().map(|(state, name)| (*state, name)));
            answered(0, read.table.rows.len(), read.table.groups.len(), names)
        }
        Err(mistakes) => {
            let first = mistakes
                .first()
                .iter()
                .map(|mistake| (mistake.line, &mistake.reason));
            answered(mistakes.count.max(1), 0, 0, numbered(first))
        }
    };
}

/// Prints the table of a store, which a call accepts, and the rows of steps that are only possible, where
/// they are not null. The names are lines of a number and a name.
///
/// # Safety
/// The store has STORE_WORDS words, the rows POSSIBLE_WORDS where there are some, and the names as many bytes
/// as their length says, and some.
#[no_mangle]
pub unsafe extern "C" fn shuntberry_text_print(
    answer: *mut TextFields,
    store: *const u64,
    n: usize,
    g: usize,
    names: *const u8,
    names_len: usize,
    possible: *const u64,
) {
    let lines = core::str::from_utf8(from_raw_parts(names, names_len)).unwrap();
    let named = |line: &str| {
        let (number, name) = line.split_once(' ')?;
        Some((number.parse().ok()?, name.into()))
    };
    let names: Names = lines.lines().filter_map(named).collect();
    let table = taken(from_raw_parts(store, STORE_WORDS), n, g);
    let possible = match possible.is_null() {
        true => Vec::new(),
        false => possible_rows(from_raw_parts(possible, POSSIBLE_WORDS)),
    };
    let text = print_with_possible(&table, &names, &possible);
    *answer = answered(0, n, g, text);
}
