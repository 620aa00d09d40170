// Made by scripts/portable from crates/call_decide/src/lib.rt, which is proved. Change that one.

// The call `decide`: the rounds of a table that a store holds, and the path where they say unsafe.
//
//   accept_check      the store, where a check is accepted
//   Verdict, decide   the call

use crate::call_paths::find_path;
use crate::core_refusals::Refusal;
use crate::core_rounds::{Ending, MAX_ALLOWANCE, run};
use crate::core_rows::{Steps, forbidden};
use crate::core_state_set::{MAX_STATES, StateSet};
use crate::core_table::{GROUPS_AT, Store, accept};

// The store, where a check with this allowance is accepted and the path has so much room.
fn accept_check(
    store: &[u64],
    n: usize,
    g: usize,
    allowance: usize,
    room: usize,
) -> Result<Store<'_>, Refusal>
{
    let store = accept(store, n, g)?;
    if MAX_ALLOWANCE < allowance {
        return Err(Refusal::Allowance);
    }
    if room < MAX_STATES {
        return Err(Refusal::PathShort);
    }
    Ok(store)
}

// The verdicts, each with its count of refinements: safe with the invariant and the number of its states, unsafe with the steps of the path.
#[derive(Clone, Copy, Debug, PartialEq, Eq)]
pub enum Verdict {
    Safe {
        count: usize,
        invariant: StateSet,
        size: usize,
    },
    Unsafe {
        count: usize,
        steps: usize,
    },
    Undecided {
        count: usize,
    },
}

pub fn decide(
    store: &[u64],
    n: usize,
    g: usize,
    allowance: usize,
    path: &mut [u16],
) -> Result<Verdict, Refusal>
{
    let store = accept_check(store, n, g, allowance, path.len())?;
    let initial = store.initial();
    let forbidden = forbidden(store, n);
    let steps = Steps::of(store);
    let ending = run(
        steps,
        &store.words[GROUPS_AT..],
        g,
        n,
        initial,
        forbidden,
        allowance,
    );
    Ok(match ending {
        Ending::Safe { count, invariant } => Verdict::Safe {
            count,
            invariant,
            size: invariant.count(),
        },
        Ending::Unsafe { count } => Verdict::Unsafe {
            count,
            // kept: unsafe has a path, so the 0 for none is never seen; an Option would be asked for by each who reads the steps
            steps: find_path(steps, n, initial, forbidden, path).unwrap_or(0),
        },
        Ending::Undecided { count } => Verdict::Undecided { count },
    })
}
