// Made by scripts/portable from crates/call_first_order/src/lib.rt, which is proved. Change that one.

// The order in which the first round expands states (the specification, "Rounds"): the call first order.
//
//   first_order                         the order in which the first round expands the states of R

use crate::core_fixpoints::{Cover, Expanded, forward};
use crate::core_refusals::Refusal;
use crate::core_rounds::{add_groups, narrow, not_forbidden};
use crate::core_rows::{Steps, forbidden};
use crate::core_state_set::{MAX_STATES, StateSet};
use crate::core_table::{GROUPS_AT, accept};

// The order in which the first round of a table expands the states of R, for programs and tests.
pub fn first_order(store: &[u64], n: usize, g: usize) -> Result<Expanded, Refusal>
{
    let store = accept(store, n, g)?;
    let z = not_forbidden(n, forbidden(store, n));
    // kept: tried `[StateSet::first_states(n).words; MAX_STATES]`; the borrow checker stops at it, as in `run`
    let all = StateSet::first_states(n).words;
    let mut cover = [all; MAX_STATES];
    add_groups(&mut cover, &store.words[GROUPS_AT..], g);
    narrow(&mut cover, z);
    let reached = forward(Steps::of(store), Cover { rows: &cover }, store.initial(), z);
    Ok(reached.expanded)
}
