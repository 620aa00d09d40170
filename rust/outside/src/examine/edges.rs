//! Sizes at their limits.

use super::{Outcome, Tally, accepted_table, decide, same};
use crate::accept::{MAX_ALLOWANCE, PATH_PLACES};
use crate::calls::Calls;
use crate::expected;
use crate::generate::Random;
use crate::table::{Dialogue, MAX_GROUPS, MAX_STATES, STORE_WORDS};

// tries: Stores.max_groups, Calls.max_allowance, Sets.max_states, PromisesKept.sizes
/// n, g and the allowance at their greatest and one more, n one fewer, the store and the path buffer just long enough and one short.
pub(super) fn edges(libraries: &[&dyn Calls], random: &mut Random, tally: &mut Tally) -> Outcome {
    let corridor: Vec<(usize, usize)> = (1..MAX_STATES).map(|s| (s - 1, s)).collect();
    let singletons: Vec<[usize; 1]> = (0..MAX_GROUPS)
        .map(|j| [j * MAX_STATES / MAX_GROUPS])
        .collect();
    let singletons: Vec<&[usize]> = singletons.iter().map(|group| &group[..]).collect();
    let last = MAX_STATES - 1;
    let largest = Dialogue::of(MAX_STATES, &[0], &[last], &singletons, &corridor);
    accepted_table(libraries, &largest, random, tally)?;
    let plain = Dialogue::of(MAX_STATES, &[0], &[last], &[], &corridor);
    accepted_table(libraries, &plain, random, tally)?;
    let fewer = Dialogue::of(last, &[0], &[last - 1], &[], &corridor[..last - 1]);
    accepted_table(libraries, &fewer, random, tally)?;

    let store = largest.to_store();
    let (words, n, g) = (STORE_WORDS, MAX_STATES, MAX_GROUPS);
    let (most, room) = (MAX_ALLOWANCE, PATH_PLACES);
    for (refusal, length, n, g, allowance, room) in [
        (0, words, n, g, most, room),
        (10, words - 1, n + 1, g + 1, most + 1, room - 1),
        (14, words, n + 1, g + 1, most + 1, room - 1),
        (15, words, n, g + 1, most + 1, room - 1),
        (17, words, n - 1, g, most + 1, room - 1),
        (17, words, n, g - 1, most + 1, room - 1),
        (20, words, n, g, most + 1, room - 1),
        (21, words, n, g, most, room - 1),
    ] {
        let store = &store[..length];
        let expected = expected::decide(store, n, g, allowance, room);
        same("the plain acceptance", expected.answer.refusal, refusal)?;
        for library in libraries {
            let path = random.places(room);
            decide(*library, store, (n, g, allowance), &path, &expected)?;
        }
    }
    Ok(())
}
