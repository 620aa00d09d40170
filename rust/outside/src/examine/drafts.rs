//! Drafts: a table without states.

use super::{
    FAR, Outcome, Tally, accepted_table, answered_file, decide, distances, read, same,
    shortest_path, within, write,
};
use crate::accept::{MAX_ALLOWANCE, PATH_PLACES, POSSIBLE_WORDS};
use crate::blocks;
use crate::calls::Calls;
use crate::expected;
use crate::generate::Random;
use crate::logs;
use crate::modal;
use crate::named;
use crate::sessions;
use crate::table::{MAX_GROUPS, MAX_STATES, STORE_WORDS};

// tries: Draft.read, Draft.decide, Draft.write, Draft.groups_alone, Draft.block-without-states
/// n = 0 in every call that is lent a table: with g 0, 1 and 65, with a stray word at each place of the
/// store, with short buffers, and a file that says it in a block.
pub(super) fn drafts(libraries: &[&dyn Calls], random: &mut Random, tally: &mut Tally) -> Outcome {
    let clean = named::draft().to_store();
    let case =
        |store: &[u64], g, allowance, room, output, refusals: [u32; 3], random: &mut Random| {
            let decision = expected::decide(store, 0, g, allowance, room);
            let shortest = expected::shortest_path(store, 0, g, room);
            let written = expected::write(store, 0, g, 0, output);
            let earned = [
                decision.answer.refusal,
                shortest.answer.refusal,
                written.answer.refusal,
            ];
            same("the plain acceptance of n = 0", earned, refusals)?;
            let (path, output) = (random.places(room), random.bytes(output));
            // No buffer is too short for these, and no log is odd or long: they have the ground that write has.
            let places = random.pick(&[0, 1, MAX_STATES]);
            let out = random.places(places);
            let far = expected::distances(store, 0, g, places);
            let near = [0, 1]
                .into_iter()
                .chain(FAR)
                .map(|k| (k, expected::within(store, 0, g, k)));
            let log = random.pick(&[&[][..], &[0, 0], &[1, 0, 0, 0]]);
            let walk = logs::expected(store, 0, g, log);
            let shared = [far.answer, walk.refusal];
            same("the plain acceptance of n = 0", shared, [refusals[2]; 2])?;
            // Without possible steps, decide modal has the grounds of shortest path.
            let none = vec![0; POSSIBLE_WORDS];
            let modal = modal::expected(store, 0, g, &none, room);
            same(
                "the plain acceptance of n = 0",
                modal.answer.refusal,
                refusals[1],
            )?;
            for (_, answer) in near.clone() {
                same("the plain within of n = 0", answer.refusal, refusals[2])?;
            }
            // Opening has the grounds of within, and no edit names a state of the table.
            let session = sessions::refusals(libraries, store, (0, g), random)?;
            let edit = if refusals[2] == 0 { 27 } else { refusals[2] };
            same("the sessions of n = 0", session, [refusals[2], edit])?;
            libraries.iter().try_for_each(|library| {
                decide(*library, store, (0, g, allowance), &path, &decision)?;
                shortest_path(*library, store, (0, g), &path, &shortest)?;
                write(*library, store, (0, g, 0), &output, &written)?;
                distances(*library, store, (0, g), &out, &far)?;
                within(*library, store, (0, g), near.clone())?;
                logs::replay(*library, store, (0, g), log, walk)?;
                modal::decide_modal(*library, store, (0, g), &none, &path, &modal)
            })
        };
    let (most, over) = (MAX_ALLOWANCE, MAX_ALLOWANCE + 1);
    let (room, short) = (PATH_PLACES, PATH_PLACES - 1);
    case(&clean, 0, most, room, 0, [0, 0, 0], random)?;
    case(&clean, 0, 0, room + 44, 513, [0, 0, 0], random)?;
    case(&clean[1..], 0, most, room, 512, [10, 10, 10], random)?;
    case(&[], 0, over, 0, 0, [10, 10, 10], random)?;
    case(&clean, 1, over, short, 0, [14, 14, 14], random)?;
    case(
        &clean,
        MAX_GROUPS + 1,
        over,
        short,
        512,
        [14, 14, 14],
        random,
    )?;
    case(&clean, usize::MAX, most, room, 512, [14, 14, 14], random)?;
    case(&clean, 0, over, short, 0, [20, 21, 0], random)?;
    case(&clean, 0, most, 0, 1, [21, 21, 0], random)?;
    for at in 0..STORE_WORDS {
        let mut stray = clean.clone();
        stray[at] = 1 << random.below(64);
        case(&stray, 0, over, short, 0, [17, 17, 17], random)?;
    }
    // Words past the table's are none of it.
    let mut longer = clean.clone();
    longer.extend(random.words(3));
    case(&longer, 0, most, room, 0, [0, 0, 0], random)?;

    // Read: every word of the table becomes 0, and 10 comes first.
    for (room, refusal) in [
        (STORE_WORDS, 0),
        (STORE_WORDS + 7, 0),
        (STORE_WORDS - 1, 10),
        (0, 10),
    ] {
        let expected = expected::read(&[], 0, room);
        same(
            "the plain read of no bytes",
            expected.answer.refusal,
            refusal,
        )?;
        let store = random.words(room);
        for library in libraries {
            read(*library, (&[], 0), &store, &expected)?;
        }
    }
    for second in [0, 1, 65, 32_767, 32_768, 32_769, 32_833] {
        let [low, high] = blocks::two_bytes(second);
        let header = [0, 0, low, high];
        answered_file(libraries, (&blocks::file_of(&header, 0), 0), 14, random)?;
    }
    accepted_table(libraries, &named::draft(), random, tally)
}
