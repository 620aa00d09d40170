// Made by scripts/portable from crates/call_rewrite/src/lib.rt, which is proved. Change that one.

// The call `rewrite`: a file of the old form in, the same table in the new form out, with its dead ends resting (the specification, "Rewriting an old
// file").
//
//   rewrite          the new file at the front of the output and its length, or why the call is refused
//   rest_dead_ends   the states without a successor put to rest, and no other

use crate::core_refusals::Refusal;
use crate::core_rows::Steps;
use crate::core_state_set::StateSet;
use crate::core_table::{RESTING_AT, STORE_WORDS, Store, put_set};
use crate::file_reading::read_old;
use crate::file_writing::write;

// The site of both files.
const SITE: usize = 0;

pub fn rewrite(input: &[u8], output: &mut [u8]) -> Result<usize, Refusal>
{
    let mut store = [0u64; STORE_WORDS];
    let size = read_old(input, SITE, &mut store)?;
    rest_dead_ends(&mut store, size.n);
    write(&store, size.n, size.g, SITE, output)
}

// kept: a Store is lent to be read; one lent to be written would be a second type, made anew at each call
fn rest_dead_ends(store: &mut [u64], n: usize)
{
    let steps = Steps::of(Store { words: store });
    let dead = steps.meet_hold(StateSet::first_states(n), StateSet::empty());
    put_set(store, RESTING_AT, dead);
}
