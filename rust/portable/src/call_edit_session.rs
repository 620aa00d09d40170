// Made by scripts/portable from crates/call_edit_session/src/lib.rt, which is proved. Change that one.

// Edit sessions (docs/SPECIFICATION.md, "Edit sessions"): the states that can be reached, kept while steps are added and removed. The
// table is in the lent store; the set goes in by value and comes back by value.
//
//   has_step                     whether a step exists
//   set_step, clear_step         its bit set, or cleared, in the store
//   from_initial                 what the initial states reach
//   accept_edit                  the store, or the first of the grounds 10, 14, 15, 17 and 27 that holds
//   open, add_step, remove_step  the calls

use crate::core_reach::reached;
use crate::core_refusals::Refusal;
use crate::core_rows::Steps;
use crate::core_state_set::{StateSet, WORD_BITS, WORDS};
use crate::core_table::{ROWS_AT, Store, accept};

// kept: from and to as two numbers, here and below, as C has them: accept_edit takes all, and refuses those from n up
fn has_step(store: Store, from: usize, to: usize) -> bool
{
    Steps::of(store).row(from).contains(to)
}

// The bit of the step, in its one word.
// kept: here and below, a Store is lent to be read; one lent to be written would be a second type, made anew at each call. And two functions, as
// `|=` and `&= !` are two operators: one function with a closure of the word would take its contract, and as many lines
fn set_step(store: &mut [u64], from: usize, to: usize)
{
    store[ROWS_AT + WORDS * from + to / WORD_BITS] |= 1 << (to % WORD_BITS);
}

fn clear_step(store: &mut [u64], from: usize, to: usize)
{
    store[ROWS_AT + WORDS * from + to / WORD_BITS] &= !(1 << (to % WORD_BITS));
}

// What the initial states reach.
fn from_initial(store: Store) -> StateSet
{
    reached(Steps::of(store), store.initial())
}

// The store, where an edit is accepted.
fn accept_edit(
    store: &[u64],
    n: usize,
    g: usize,
    from: usize,
    to: usize,
) -> Result<Store<'_>, Refusal>
{
    let store = accept(store, n, g)?;
    if n <= from || n <= to {
        return Err(Refusal::StepState);
    }
    Ok(store)
}

pub fn open(store: &[u64], n: usize, g: usize) -> Result<StateSet, Refusal>
{
    let store = accept(store, n, g)?;
    Ok(from_initial(store))
}

// From a state outside the set nothing is looked at: the set need not have the states that it leads to.
pub fn add_step(
    store: &mut [u64],
    n: usize,
    g: usize,
    reachable: StateSet,
    from: usize,
    to: usize,
) -> Result<StateSet, Refusal>
{
    let held = accept_edit(store, n, g, from, to)?;
    if has_step(held, from, to) {
        return Ok(reachable);
    }
    set_step(store, from, to);
    if !reachable.contains(from) {
        return Ok(reachable);
    }
    let found = reached(Steps::of(Store { words: store }), StateSet::single(to));
    Ok(reachable.union(found))
}

pub fn remove_step(
    store: &mut [u64],
    n: usize,
    g: usize,
    reachable: StateSet,
    from: usize,
    to: usize,
) -> Result<StateSet, Refusal>
{
    let held = accept_edit(store, n, g, from, to)?;
    if !has_step(held, from, to) {
        return Ok(reachable);
    }
    clear_step(store, from, to);
    let found = from_initial(Store { words: store });
    Ok(found)
}
