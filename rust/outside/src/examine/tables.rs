//! A table through all calls.

use super::arguments::spoiled_arguments;
use super::demands::{SMALL, agreement, demand_2, demand_3, try_everything};
use super::{
    FAR, Outcome, Tally, decide, distances, ensure, random_site, read, same, shortest_path, within,
    write,
};
use crate::accept::{MAX_ALLOWANCE, PATH_PLACES};
use crate::calls::{Calls, Decision, UNSAFE, Written};
use crate::expected::{self, Expected, Judged};
use crate::generate::{Kind, Random};
use crate::logs;
use crate::modal;
use crate::rounds;
use crate::sessions;
use crate::table::{Dialogue, STORE_WORDS, Table};

// tries: Accepting.EveryCall.accepted
/// A random table through all calls, then with spoiled arguments.
pub fn random_table(libraries: &[&dyn Calls], random: &mut Random, tally: &mut Tally) -> Outcome {
    let kind = Kind::random(random);
    let dialogue = kind.dialogue(random);
    tally.count("kind of steps", format!("{:?}", kind.steps));
    tally.count("kind of ends", format!("{:?}", kind.ends));
    tally.count("kind of resting", format!("{:?}", kind.resting));
    tally.count("kind of groups", format!("{:?}", kind.groups));
    accepted_table(libraries, &dialogue, random, tally)
        .and_then(|()| spoiled_arguments(libraries, &dialogue, random, tally))
        .and_then(|()| logs::random_logs(libraries, &dialogue, random, tally))
        .and_then(|()| sessions::random_edits(libraries, &dialogue, random, tally))
        .and_then(|()| modal::random_options(libraries, &dialogue, random, tally))
        .map_err(|fault| format!("{kind:?}: {fault}"))
}

// tries: Promises.stops, Paths.smallest_path, Promises.Demand2.smallest-path
// tries: Promises.Operations.post-members, Promises.Operations.hold-members
// tries: Promises.Operations.cover_of-members, Promises.Operations.cover-members, Promises.Operations.add_in
// tries: Promises.IsFirst, Promises.IsRound.R_least, Promises.FirstStop.at_safe
// tries: Promises.IsRound.S_greatest, Promises.FirstStop.at_unsafe, Promises.FirstStop.at_undecided
// tries: Promises.IsNext, Paths.walk, DecideDemands.DecideDemands, PathDemands.PathDemands, Sets.member
// tries: Stores.dialogue_of, core_state_set::StateSet::count, Promises.first-words
// tries: DistancePromises.first-words, Within.is_within, DistancePromises.WithinIs.path
// tries: DistancePromises.WithinIs.at_zero, Accepting.ExactPlaces.enough, Accepting.ExactPlaces.too_few
// tries: DistancePromises.DistancePromises, Tables.table_from, Promises.PathAnswer, Faithful.Cases
/// The calls on a table, with demands 2 and 3, both round trips, and what distances and within share.
pub fn accepted_table(
    libraries: &[&dyn Calls],
    dialogue: &Dialogue,
    random: &mut Random,
    tally: &mut Tally,
) -> Outcome {
    let (n, g) = (dialogue.n, dialogue.g());
    let table = &dialogue.table();
    let mut store = dialogue.to_store();
    let beyond = random.pick(&[0, 0, 1, 7]);
    store.extend(random.words(beyond));
    let mut judged = Judged::new(table);
    let backward = rounds::backward_number(table);

    // The answers that are expected with each allowance, held to demands 2 and 3.
    let mut allowances = vec![
        0,
        1,
        backward.saturating_sub(1),
        backward,
        backward + 1,
        MAX_ALLOWANCE,
    ];
    allowances.sort();
    allowances.dedup();
    let expected: Vec<(usize, Expected<Decision, u16>)> = allowances
        .iter()
        .filter(|&&allowance| allowance <= MAX_ALLOWANCE)
        .map(|&allowance| (allowance, judged.decide(allowance)))
        .collect();
    demand_2(dialogue, &judged, &expected)?;
    demand_3(&judged, &expected, backward)?;
    if n <= SMALL {
        try_everything(table, &judged)?;
    }
    let far = judged.distances();
    agreement(table, &judged, &far.front)?;
    count_forbidden(dialogue, table, tally);
    tally.count("states", n);
    tally.count("groups", g);
    for &steps in &far.front {
        tally.count("distance", steps);
    }
    tally.count("backward number", backward);
    for (allowance, Expected { answer, .. }) in &expected {
        let verdict = ["safe", "unsafe", "undecided"][answer.verdict as usize];
        tally.count("verdict", verdict);
        if *allowance == MAX_ALLOWANCE {
            tally.count("refinements", answer.count);
        }
        if answer.verdict == UNSAFE {
            tally.count("steps of the path", answer.steps);
        }
    }

    for library in libraries {
        for (allowance, expected) in &expected {
            let room = random.pick(&[PATH_PLACES, PATH_PLACES, PATH_PLACES + 1, PATH_PLACES + 44]);
            let path = random.places(room);
            decide(*library, &store, (n, g, *allowance), &path, expected)?;
        }
        let path = random.places(PATH_PLACES + beyond);
        let shortest = judged.shortest_path();
        shortest_path(*library, &store, (n, g), &path, &shortest)?;
        for room in [n, n + 1, n + beyond] {
            let out = random.places(room);
            distances(*library, &store, (n, g), &out, &far)?;
        }
        // No buffer is too short for the distances of no states.
        if n > 0 {
            let out = random.places(n - 1);
            let short = Expected {
                answer: 23,
                front: Vec::new(),
            };
            distances(*library, &store, (n, g), &out, &short)?;
        }
        let steps = (0..=n + 1).chain(FAR).map(|k| (k, judged.within(k)));
        within(*library, &store, (n, g), steps)?;
        let site = random_site(random);
        let written = expected::written(dialogue, site);
        round_trips(*library, &store, (n, g, site), &written, random)?;
    }
    Ok(())
}

/// Why the states are forbidden, or are not though they have no successor.
fn count_forbidden(dialogue: &Dialogue, table: &Table, tally: &mut Tally) {
    let dead_ends = dialogue.dead_ends();
    for s in 0..dialogue.n {
        let (marked, resting) = (dialogue.marked[s], dialogue.resting[s]);
        let why = match (dead_ends[s], marked, resting) {
            (true, false, false) => "hang",
            (true, false, true) => "dead end at rest",
            (true, true, true) => "dead end, marked and resting",
            (true, true, false) => "dead end, marked",
            (false, true, true) => "leads on, marked and resting",
            (false, true, false) => "leads on, marked",
            (false, false, true) => "leads on, resting",
            (false, false, false) => "leads on",
        };
        tally.count("states of a kind", why);
    }
    let hangs = (0..table.n).filter(|&s| table.forbidden[s] && !dialogue.marked[s]);
    tally.count("hangs in a table", hangs.count());
}

// tries: RoundTrip.WriteRead, RoundTrip.ReadWrite, Buffers.CallsFill.write-past
// tries: Buffers.CallsFill.read_past, file_contents_reading::fill_set, Buffers.CallsFill.write
/// What is written is the expected file and reads back as the store; what is read from the file is
/// written again as the file. With an output that is just long enough, longer, and one byte short.
fn round_trips(
    library: &dyn Calls,
    store: &[u64],
    (n, g, site): (usize, usize, usize),
    expected: &Expected<Written, u8>,
    random: &mut Random,
) -> Outcome {
    let file = &expected.front;
    let room = file.len() + random.pick(&[0, 0, 1, 512]);
    let output = random.bytes(room);
    write(library, store, (n, g, site), &output, expected)?;
    // A draft has no bytes, and no output is too short for it.
    if let Some(too_few) = file.len().checked_sub(1) {
        let short = Expected {
            answer: Written::refused(19),
            front: Vec::new(),
        };
        write(library, store, (n, g, site), &output[..too_few], &short)?;
    }

    let mut written = random.bytes(file.len());
    library.write(store, n, g, site, &mut written);
    let room = STORE_WORDS + random.pick(&[0, 0, 1, 9]);
    let mut filled = random.words(room);
    read(
        library,
        (&written, site),
        &filled,
        &expected::read(file, site, room),
    )?;
    let answer = library.read(&written, site, &mut filled);
    same(
        "read of what was written",
        (answer.n, answer.g),
        (n as u32, g as u32),
    )?;
    ensure(filled[..STORE_WORDS] == store[..STORE_WORDS], || {
        "what was written reads back as another table".to_string()
    })?;
    let output = random.bytes(file.len());
    write(library, &filled, (n, g, site), &output, expected)
}
