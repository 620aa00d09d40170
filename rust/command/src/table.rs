//! What a table is asked beside the library's own calls.

use shuntberry::{Forbidden, StateSet, Table, row};

/// Whether a state has no successor.
pub fn is_dead_end(table: &Table, state: usize) -> bool {
    table.successors(state).is_some_and(StateSet::is_empty)
}

/// Whether a state has no successor and does not rest, marked or not.
pub fn is_hang(table: &Table, state: usize) -> bool {
    is_dead_end(table, state) && !table.resting().contains(state)
}

/// Whether hangs alone are forbidden: a state that nothing reaches may be one by accident, and the forbidden ones be forgotten.
pub fn is_unmarked(table: &Table) -> bool {
    table.marked().is_empty() && !table.forbidden().is_empty()
}

/// Whether two tables are the same but for their steps.
pub fn is_alike(a: &Table, b: &Table) -> bool {
    let before = ..row(0);
    (a.n(), a.g()) == (b.n(), b.g()) && a.store()[before] == b.store()[before]
}

// ---- Why a state is forbidden

/// For programs.
pub fn end_label(end: Forbidden) -> &'static str {
    match end {
        Forbidden::Not => "not forbidden",
        Forbidden::Marked => "marked",
        Forbidden::Hang => "hang",
    }
}

/// For people.
pub fn end_message(end: Forbidden) -> &'static str {
    match end {
        Forbidden::Not => "not forbidden",
        Forbidden::Marked => "forbidden since it is marked",
        Forbidden::Hang => "a hang: no step leads out, and it is not resting",
    }
}
