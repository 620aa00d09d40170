//! Which states of a table are drawn: all of them, or of a large one those that its answer is about, with their neighbours.

use shuntberry::Table;
use std::collections::BTreeSet;

/// A table of so many states fits on a page, with words that can be read.
pub const WHOLE: usize = 60;
/// So many are drawn of a larger one, each with a line more for the steps that are not.
const MOST: usize = 40;
/// So many of each end, where even what comes first is more.
const EACH_END: usize = MOST / 2;

/// The states that are drawn.
#[derive(Debug)]
pub struct Part {
    /// Their numbers.
    pub states: BTreeSet<usize>,
    /// What they are, where they are not all.
    pub about: Option<String>,
}

impl Part {
    /// All of them.
    pub fn all(table: &Table) -> Part {
        Part {
            states: (0..table.n()).collect(),
            about: None,
        }
    }

    /// All of a table that is not larger than [`WHOLE`]; of a larger one the path, or the starts and the forbidden states, then their neighbours as long as there
    /// is room: those of the path's end first.
    pub fn of(table: &Table, path: &[usize]) -> Part {
        if table.n() <= WHOLE {
            return Part::all(table);
        }
        let (first, what) = match path.is_empty() {
            false => (ends(path), of_path(path.len())),
            true => starts_and_forbidden(table),
        };
        let mut states: BTreeSet<usize> = first.iter().copied().collect();
        let around = first.iter().rev().flat_map(|&s| neighbours(table, s));
        let around: Vec<usize> = around.filter(|s| !states.contains(s)).collect();
        for s in around.iter().copied() {
            if states.len() < MOST {
                states.insert(s);
            }
        }
        let some = match around.iter().all(|s| states.contains(s)) {
            true => "",
            false => "some of ",
        };
        let (drawn, n) = (states.len(), table.n());
        Part {
            states,
            about: Some(format!(
                "{drawn} of {n} states are drawn: {what}, with {some}their neighbours"
            )),
        }
    }
}

/// A list, without its middle where it is too long.
fn ends(list: &[usize]) -> Vec<usize> {
    match list.len() {
        0..=MOST => list.to_vec(),
        length => [&list[..EACH_END], &list[length - EACH_END..]].concat(),
    }
}

fn of_path(length: usize) -> String {
    match length {
        0..=MOST => "those of the path".to_string(),
        _ => format!("the first and the last {EACH_END} of the path"),
    }
}

/// Where a session starts and where it must not come to; where there is neither, the first states.
fn starts_and_forbidden(table: &Table) -> (Vec<usize>, String) {
    let initial = table.initial().states().take(EACH_END);
    let forbidden = table.forbidden().states().take(EACH_END);
    let mut seen = BTreeSet::new();
    let both = initial.chain(forbidden);
    let both: Vec<usize> = both.filter(|&s| seen.insert(s)).collect();
    match both.is_empty() {
        false => (both, "starts and forbidden ones".to_string()),
        true => ((0..EACH_END).collect(), format!("the first {EACH_END}")),
    }
}

/// The states that a step leads to, or comes from, by their numbers.
fn neighbours(table: &Table, s: usize) -> BTreeSet<usize> {
    let beside = |(a, b)| match (a == s, b == s) {
        (true, _) => Some(b),
        (false, true) => Some(a),
        (false, false) => None,
    };
    table.steps().filter_map(beside).collect()
}
