// Made by scripts/portable from crates/call_modal/src/lib.rt, which is proved. Change that one.

// Tables some of whose steps are only possible (the specification, "Possible steps"): the call `decide_modal`.
//
//   check_on, path_on              a release check, and the path, on given rows
//   is_malformed, any_impossible     grounds 17 and 28 of the possible steps
//   accept_possible                the store, or the first of the grounds 10, 14, 15, 17, 28 and 21 that holds
//   decide_modal                   the call
//
// The certain rows are those of the store; the possible ones are read where they are lent.

use crate::call_paths::find_path;
use crate::core_refusals::Refusal;
use crate::core_rounds::{Ending, MAX_ALLOWANCE, run};
use crate::core_rows::{Steps, forbidden_by};
use crate::core_state_set::{MAX_STATES, StateSet, WORDS};
use crate::core_table::{GROUPS_AT, Store, accept, any_stored, any_stored_beyond};

// The words that the rows of possible steps take.
pub const POSSIBLE_WORDS: usize = WORDS * MAX_STATES;

// ---- a check, and a path

// A release check of the store's table with these forbidden states and rows: the invariant, where it says safe.
// kept: g with its bound, as `run` asks it
fn check_on(store: Store, n: usize, g: usize, forbidden: StateSet, steps: Steps) -> Option<StateSet>
{
    let ending = run(
        steps,
        &store.words[GROUPS_AT..],
        g,
        n,
        store.initial(),
        forbidden,
        MAX_ALLOWANCE,
    );
    match ending {
        Ending::Safe {
            count: _,
            invariant,
        } => Some(invariant),
        Ending::Unsafe { count: _ } => None,
        Ending::Undecided { count: _ } => None,
    }
}

// The path on those rows at the front of the buffer, and its steps; groups play no part.
// kept: 0 for none, as in decide; and what HoldsTable is of apart, as in all_distances of call_distances
fn path_on(store: Store, n: usize, forbidden: StateSet, steps: Steps, path: &mut [u16]) -> usize
{
    find_path(steps, n, store.initial(), forbidden, path).unwrap_or(0)
}

// ---- refusals

// A 1 bit for a state from n up, or a word of an unused row not 0.
// kept: n with its bound, here, below and in call_distances: the calls take every n, and a type of it would be taken apart here
fn is_malformed(possible: &[u64], n: usize) -> bool
{
    any_stored_beyond(possible, 0, n, n) || any_stored(possible, WORDS * n, MAX_STATES - n)
}

// A certain step is not possible.
fn any_impossible(store: Store, n: usize, possible: Steps) -> bool
{
    let certain = Steps::of(store);
    // kept: by a loop over two rows: the closure of `any` would have a contract of its own, and is no plainer
    for s in 0..n {
        if !certain.row(s).is_subset(possible.row(s)) {
            return true;
        }
    }
    false
}

// The store, where a call is accepted and the path has so much room.
fn accept_possible<'a>(
    store: &'a [u64],
    n: usize,
    g: usize,
    possible: &[u64],
    room: usize,
) -> Result<Store<'a>, Refusal>
{
    if possible.len() < POSSIBLE_WORDS {
        return Err(Refusal::StoreShort);
    }
    let store = accept(store, n, g)?;
    if is_malformed(possible, n) {
        return Err(Refusal::StrayBit);
    }
    if any_impossible(store, n, Steps { words: possible }) {
        return Err(Refusal::NotPossible);
    }
    if room < MAX_STATES {
        return Err(Refusal::PathShort);
    }
    Ok(store)
}

// ---- the call

// Safe with the invariant and the number of its states, unsafe with the steps of the path, depends with all of these.
#[derive(Clone, Copy, Debug, PartialEq, Eq)]
pub enum ModalVerdict {
    Safe {
        invariant: StateSet,
        size: usize,
    },
    Unsafe {
        steps: usize,
    },
    Depends {
        invariant: StateSet,
        size: usize,
        steps: usize,
    },
}

// The buffer gets one path at most: it is written once both checks are made.
pub fn decide_modal(
    store: &[u64],
    n: usize,
    g: usize,
    possible: &[u64],
    path: &mut [u16],
) -> Result<ModalVerdict, Refusal>
{
    let store = accept_possible(store, n, g, possible, path.len())?;
    let possible = Steps { words: possible };
    let certain = Steps::of(store);
    // a hang has no possible step: the same for every choice
    let forbidden = forbidden_by(store, n, possible);
    let on_possible = check_on(store, n, g, forbidden, possible);
    if let Some(invariant) = on_possible {
        return Ok(ModalVerdict::Safe {
            invariant,
            size: invariant.count(),
        });
    }
    let on_certain = check_on(store, n, g, forbidden, certain);
    Ok(match on_certain {
        Some(invariant) => ModalVerdict::Depends {
            invariant,
            size: invariant.count(),
            steps: path_on(store, n, forbidden, possible, path),
        },
        None => ModalVerdict::Unsafe {
            steps: path_on(store, n, forbidden, certain, path),
        },
    })
}
