// Made by scripts/portable from crates/core_reach/src/lib.rt, which is proved. Change that one.

// The states that a set of states reaches (forward reachability), by layers: each time only what is new is looked at.
//
//   newly_reached      the next layer: the successors of a layer that are not reached yet
//   reached            all states that a set reaches, itself included

use crate::core_rows::Steps;
use crate::core_state_set::StateSet;

// The successors of the states of the layer that are not among those found. It stays a function of its own, with the loop over the rows in it: apart
// from it, or put into the searches, the sets are held word by word, and open, add step and remove step take half as many instructions again.
#[inline(never)]
pub fn newly_reached(steps: Steps, layer: StateSet, found: StateSet) -> StateSet
{
    steps.successors(layer).difference(found)
}

// The least x with x = from union post(x).
pub fn reached(steps: Steps, from: StateSet) -> StateSet
{
    let mut found = from;
    let mut layer = from;
    while !layer.is_empty() {
        layer = newly_reached(steps, layer, found);
        found = found.union(layer);
    }
    found
}
