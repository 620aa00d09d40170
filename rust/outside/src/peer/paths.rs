//! Paths and distances: the calls shortest path, distances and within.

use super::set::Set;
use super::table::Table;
use super::{MAX_STATES, PATH_PLACES, WORDS};
use crate::calls::{Shortest, Within};

/// Writes the smallest of the shortest paths and returns its number of steps, if there is one.
///
/// The layers are the states at each distance from the initial ones; cut down to those that lead on to
/// the next layer, back from the first with a forbidden state, they hold the shortest paths and
/// nothing else.
pub(super) fn write_path(table: &Table, path: &mut [u16]) -> Option<usize> {
    let mut layers = [Set::EMPTY; MAX_STATES];
    let mut layer = table.initial;
    let mut seen = layer;
    let mut steps = 0;
    loop {
        let (after, ends) = table.step_on(layer);
        if ends {
            layers[steps] = table.forbidden(layer);
            break;
        }
        if layer.is_empty() {
            return None;
        }
        layers[steps] = layer;
        layer = after.minus(seen);
        seen = seen.union(layer);
        steps += 1;
    }
    for k in (0..steps).rev() {
        let next = layers[k + 1];
        layers[k] = layers[k].filter(|state| !Set(table.rows[state]).meet(next).is_empty());
    }
    let mut choices = layers[0];
    for k in 0..=steps {
        let state = choices.first();
        path[k] = state as u16;
        if k < steps {
            choices = Set(table.rows[state]).meet(layers[k + 1]);
        }
    }
    Some(steps)
}

/// Layers of distances that are found by a look at the row of each state that is left. Behind them, where more
/// than THIN layers of the last one's size are left, the rows are transposed.
const LAYERS_BY_ROWS: u16 = 4;
const THIN: u32 = 32;

/// The distance of each state, backward from the forbidden states.
fn put_distances(table: &Table, out: &mut [u16]) {
    out.fill(u16::MAX);
    let mut layer = table.forbidden(Set::below(table.n));
    let mut rest = Set::below(table.n).minus(layer);
    let mut steps = 0;
    while !layer.is_empty() {
        layer.each(|state| out[state] = steps);
        if steps >= LAYERS_BY_ROWS && rest.size() > THIN * layer.size() {
            return put_further(table, layer, rest, out);
        }
        layer = rest.filter(|state| !Set(table.rows[state]).meet(layer).is_empty());
        rest = rest.minus(layer);
        steps += 1;
    }
}

/// The distances of the states that are left, behind the last layer: state by state in a queue, over the rows of
/// those that are left transposed.
fn put_further(table: &Table, layer: Set, mut rest: Set, out: &mut [u16]) {
    let mut before = [[0; WORDS]; MAX_STATES];
    let ahead = layer.union(rest);
    rest.each(|state| {
        let (word, bit) = (state / 64, 1 << (state % 64));
        let row = Set(table.rows[state]).meet(ahead);
        row.each(|after| before[after][word] |= bit);
    });
    let mut queue = [0; MAX_STATES];
    let mut length = 0;
    layer.each(|state| {
        queue[length] = state;
        length += 1;
    });
    let mut place = 0;
    while place < length {
        let after = queue[place];
        let new = Set(before[after]).meet(rest);
        rest = rest.minus(new);
        new.each(|state| {
            out[state] = out[after] + 1;
            queue[length] = state;
            length += 1;
        });
        place += 1;
    }
}

/// The number of steps of a shortest path, forward from the initial states by layers.
fn steps_to_forbidden(table: &Table) -> Option<usize> {
    let mut layer = table.initial;
    let mut seen = layer;
    let mut steps = 0;
    while !layer.is_empty() {
        let (after, ends) = table.step_on(layer);
        if ends {
            return Some(steps);
        }
        layer = after.minus(seen);
        seen = seen.union(layer);
        steps += 1;
    }
    None
}

pub(super) fn shortest_path(store: &[u64], n: usize, g: usize, path: &mut [u16]) -> Shortest {
    let none = Shortest::default();
    let table = match Table::accept(store, n, g) {
        Err(refusal) => return Shortest::refused(refusal),
        Ok(_) if path.len() < PATH_PLACES => return Shortest::refused(21),
        Ok(table) => table,
    };
    match write_path(&table, path) {
        None => none,
        Some(steps) => Shortest {
            found: 1,
            steps: steps as u32,
            ..none
        },
    }
}

pub(super) fn distances(store: &[u64], n: usize, g: usize, distances: &mut [u16]) -> u32 {
    let table = match Table::accept(store, n, g) {
        Err(refusal) => return refusal,
        Ok(table) => table,
    };
    let Some(out) = distances.get_mut(..n) else {
        return 23;
    };
    put_distances(&table, out);
    0
}

pub(super) fn within(store: &[u64], n: usize, g: usize, k: usize) -> Within {
    match Table::accept(store, n, g) {
        Err(refusal) => Within::refused(refusal),
        Ok(table) => Within {
            refusal: 0,
            within: steps_to_forbidden(&table).is_some_and(|steps| steps <= k) as u32,
        },
    }
}
