// Made by scripts/portable from crates/call_distances/src/lib.rt, which is proved. Change that one.

// The distance of each state to the nearest forbidden one (the specification, "Distances"), and the call distances.
//
//   join_predecessors                    the rows transposed: for each state the states that step to it
//   mark                                 one number as the distance of each state of a set
//   all_distances, sweep_transposed      the distance of each state, layer by layer from the forbidden states outward: by the rows; by the rows transposed
//   transposing_pays                     when the second of these is quicker
//   distances                            the call
//
// What works on a table is lent its rows, and its sets by value; all_distances and sweep_transposed ask that the table is well formed. The call is lent
// a store, works out its forbidden states once, and asks for nothing.

use crate::call_paths::stepping_into;
use crate::core_refusals::Refusal;
use crate::core_rows::{Ones, Rows, Steps, forbidden, union_of};
use crate::core_state_set::{MAX_STATES, StateSet, WORD_BITS, WORDS};
use crate::core_table::accept;

// The distance of a state from which no forbidden state can be reached.
// kept: a number for none, as C reads it in its buffer (include/shuntberry.h)
pub const UNREACHABLE: u16 = 65535;

// The layers of distances that are found with a look at the row of each state that is left, before the rows may be transposed: in most tables the
// layers are few and wide.
const LAYERS_BY_ROWS: usize = 3;

// A layer is thin where the rest is this many layers of its size: to transpose the rows takes as long as some tens of looks at each.
const THIN: usize = 32;

// s joins the predecessors of each of its successors.
// kept: word by word, here and in `mark`: tried `for u in successors.states()`, and distances took 1.38 times as long on many thin layers
// kept: one line, here and in three other crates: a function of the words would take with_bit as its contract, which is longer
fn join_predecessor(before: &mut Rows, s: usize, successors: StateSet)
{
    for w in 0..WORDS {
        for i in Ones(successors.words[w]) {
            before[WORD_BITS * w + i][s / WORD_BITS] |= 1 << (s % WORD_BITS);
        }
    }
}

// Each of the first n states joins the predecessors of its successors.
fn join_predecessors(before: &mut Rows, steps: Steps, n: usize)
{
    for s in 0..n {
        join_predecessor(before, s, steps.row(s));
    }
}

// d is the distance of each state of the layer.
fn mark(distances: &mut [u16; MAX_STATES], layer: StateSet, d: u16)
{
    for w in 0..WORDS {
        for i in Ones(layer.words[w]) {
            distances[WORD_BITS * w + i] = d;
        }
    }
}

// The distance of each state by the rows transposed: the next layer is what steps into this one and is not found yet.
// kept: beside all_distances: one loop for both would give an Option, as a sweep by the rows may be given up, and from here no None comes
fn sweep_transposed(steps: Steps, n: usize, forbidden: StateSet) -> [u16; MAX_STATES]
{
    let mut before = [[0; WORDS]; MAX_STATES];
    join_predecessors(&mut before, steps, n);
    let mut distances = [UNREACHABLE; MAX_STATES];
    let mut found = forbidden;
    let mut layer = forbidden;
    let mut d: u16 = 0;
    // kept: a `for`, as in all_distances, would have its end inside and cast d: no plainer (and 359,316 instructions for 346,539)
    while !layer.is_empty() {
        mark(&mut distances, layer, d);
        layer = union_of(&before, layer).difference(found);
        found = found.union(layer);
        d += 1;
    }
    distances
}

// Whether to transpose the rows is quicker than to go on with a look at each that is left. It decides which way is taken, and not what is found: so it
// promises nothing.
fn transposing_pays(d: usize, layer: StateSet, rest: StateSet) -> bool {
    LAYERS_BY_ROWS <= d && layer.count() <= rest.count() / THIN
}

// The distance of each state, layer by layer from the forbidden states outward: the next layer is what is left and steps into this one. Where that
// would be many thin layers, the sweep begins again by the rows transposed, which look at each state once.
// kept: steps, n and the set, which HoldsTable is of: as one value, for find_path too, they would have an initial set with them, and here there is none
pub fn all_distances(steps: Steps, n: usize, forbidden: StateSet) -> [u16; MAX_STATES]
{
    let mut distances = [UNREACHABLE; MAX_STATES];
    let mut found = forbidden;
    let mut layer = forbidden;
    for d in 0..MAX_STATES {
        if layer.is_empty() {
            break;
        }
        let rest = StateSet::first_states(n).difference(found);
        if transposing_pays(d, layer, rest) {
            return sweep_transposed(steps, n, forbidden);
        }
        mark(&mut distances, layer, d as u16);
        layer = stepping_into(steps, rest, layer);
        found = found.union(layer);
    }
    distances
}

// ---- the call

// The distance of each state to the nearest forbidden one, UNREACHABLE where none can be reached; places past n stay.
pub fn distances(store: &[u64], n: usize, g: usize, out: &mut [u16]) -> Result<(), Refusal>
{
    let store = accept(store, n, g)?;
    if out.len() < n {
        return Err(Refusal::DistancesShort);
    }
    let known = all_distances(Steps::of(store), n, forbidden(store, n));
    out[..n].copy_from_slice(&known[..n]);
    Ok(())
}
