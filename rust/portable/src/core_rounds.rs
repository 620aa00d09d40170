// Made by scripts/portable from crates/core_rounds/src/lib.rt, which is proved. Change that one.

// The rounds (the specification, "Rounds").
//
//   not_forbidden                       Z of the first round
//   narrow                              the cover, a row for each state, once a set is added to the list
//   add_groups                          the cover once the groups of a table are
//   conclude                            what a round comes to
//   run                                 the rounds

use crate::core_fixpoints::{Cover, Leading, WordSteps, backward, forward, steps_by_word};
use crate::core_rows::{Ones, Rows, Steps, row_of};
use crate::core_state_set::{MAX_STATES, StateSet, WORD_BITS, WORDS};
use crate::core_table::set_at;

// As many refinements as there can be states.
pub const MAX_ALLOWANCE: usize = MAX_STATES;

// How the rounds end, with the count of refinements, and R where that is safe.
#[derive(Clone, Copy, Debug, PartialEq, Eq)]
pub enum Ending {
    Safe { count: usize, invariant: StateSet },
    Unsafe { count: usize },
    Undecided { count: usize },
}

// Z of the first round: the states of the table that are not forbidden.
pub fn not_forbidden(n: usize, forbidden: StateSet) -> StateSet
{
    StateSet::first_states(n).difference(forbidden)
}

// The cover once z is added to the list: that of each state of z is met with it.
// kept: word by word, as join_rows of core_rows, and for the same bar
pub fn narrow(cover: &mut Rows, z: StateSet)
{
    for w in 0..WORDS {
        for i in Ones(z.words[w]) {
            let s = WORD_BITS * w + i;
            // kept: tried `cover[s] = row_of(cover, s).meet(z).words`; the borrow checker stops at a call's field that is an array, stored straight
            let words = row_of(cover, s).meet(z).words;
            cover[s] = words;
        }
    }
}

// The cover once g groups are added to the list, from the last to the first.
// kept: g beside the words of the groups, here and in `run`, with its bound, and a group by place: without g both contracts would say
// `groups_in groups (length groups / WORDS)`
pub fn add_groups(cover: &mut Rows, groups: &[u64], g: usize)
{
    for j in (0..g).rev() {
        narrow(cover, set_at(groups, WORDS * j));
    }
}

// What a round comes to: safe with R (step 2), unsafe (step 4), or neither, with the next Z.
// kept: `ControlFlow<Option<StateSet>, StateSet>` has its shape, and none of the three names, which are plainer
#[derive(Clone, Copy, Debug, PartialEq, Eq)]
pub enum Conclusion {
    Safe(StateSet),
    Unsafe,
    Open(StateSet),
}

// Steps 1 to 4 of a round, and the Z of step 6.
fn conclude(
    steps: Steps,
    by_word: &WordSteps,
    cover: Cover,
    initial: StateSet,
    z: StateSet,
) -> Conclusion
{
    let reached = forward(steps, cover, initial, z);
    let r = reached.r;
    let entered = reached.entered;
    if entered.is_subset(z) {
        return Conclusion::Safe(r);
    }
    let leading = Leading {
        steps,
        by_word,
        x: r,
        before: entered,
    };
    let held = backward(leading, cover);
    if !initial.is_subset(held.s) {
        return Conclusion::Unsafe;
    }
    Conclusion::Open(held.next)
}

// The rounds, from 0 on, till one of them says safe or unsafe or the allowance is used. The cover is that of the
// list, which has the groups first, and to which then, as each round begins, its Z is added.
// kept: what a table is made of apart, as in all_distances of call_distances
pub fn run(
    steps: Steps,
    groups: &[u64],
    g: usize,
    n: usize,
    initial: StateSet,
    forbidden: StateSet,
    allowance: usize,
) -> Ending
{
    let all = StateSet::first_states(n);
    let by_word = steps_by_word(steps, all);
    // kept: tried `[all.words; MAX_STATES]`; the borrow checker stops at a field that is an array, made an element
    let row = all.words;
    let mut cover = [row; MAX_STATES];
    add_groups(&mut cover, groups, g);
    let mut z = not_forbidden(n, forbidden);
    for count in 0..=allowance {
        narrow(&mut cover, z);
        match conclude(steps, &by_word, Cover { rows: &cover }, initial, z) {
            Conclusion::Safe(invariant) => return Ending::Safe { count, invariant },
            Conclusion::Unsafe => return Ending::Unsafe { count },
            Conclusion::Open(next) => z = next,
        }
    }
    Ending::Undecided { count: allowance }
}
