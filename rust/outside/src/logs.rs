//! Pump logs: what walking one must answer, from the specification's text, on lists of booleans; logs at
//! random, cut and damaged; and the tests of the call replay.

use std::collections::BTreeSet;

use crate::accept::{self, MAX_ALLOWANCE, MAX_LOG, PATH_PLACES};
use crate::buffer::Lent;
use crate::calls::{Calls, Replay, SAFE};
use crate::examine::{Outcome, Tally};
use crate::generate::Random;
use crate::named;
use crate::table::{Dialogue, MAX_GROUPS, MAX_STATES, STORE_WORDS, Table};

/// What the high byte of an entry counts.
const HIGH: usize = 256;

// ---- What is expected

/// The numbers in a log, low byte first; a last byte by itself is none.
pub fn entries(log: &[u8]) -> Vec<usize> {
    let mut entries = Vec::new();
    let mut bytes = log.iter();
    while let (Some(&low), Some(&high)) = (bytes.next(), bytes.next()) {
        entries.push(usize::from(high) * HIGH + usize::from(low));
    }
    entries
}

/// The bytes of a log that holds these entries.
pub fn bytes(entries: &[usize]) -> Vec<u8> {
    let halves = |&entry: &usize| [(entry % HIGH) as u8, (entry / HIGH) as u8];
    entries.iter().flat_map(halves).collect()
}

/// Whether the first entry is initial, and each later one a successor of the one before.
fn obeys(table: &Table, entries: &[usize]) -> bool {
    entries.iter().all(|&entry| entry < table.n)
        && entries.first().is_none_or(|&first| table.initial[first])
        && entries.windows(2).all(|step| table.rows[step[0]][step[1]])
}

/// How many states can be reached from the initial ones, with these: till a whole look adds none.
fn reachable(table: &Table) -> usize {
    let mut reached = table.initial.clone();
    loop {
        let before = reached.clone();
        for from in 0..table.n {
            for to in 0..table.n {
                reached[to] |= reached[from] && table.rows[from][to];
            }
        }
        if reached == before {
            return reached.iter().filter(|&&held| held).count();
        }
    }
}

/// What walking a log must answer, where it is not refused.
pub fn walk(table: &Table, log: &[u8]) -> Replay {
    let entries = entries(log);
    // The longest front that obeys: a front of one that obeys does too.
    let longest = (1..=entries.len())
        .take_while(|&length| match length {
            1 => obeys(table, &entries[..1]),
            _ => obeys_on(table, entries[length - 2], entries[length - 1]),
        })
        .last();
    let front = &entries[..longest.unwrap_or(0)];
    let seen = front.iter().collect::<BTreeSet<_>>().len();
    let reachable = reachable(table);
    // Percent by taking away, so that no division is trusted.
    let (mut percent, mut remainder) = (0, 100 * seen);
    while reachable > 0 && remainder >= reachable {
        remainder -= reachable;
        percent += 1;
    }
    Replay {
        refusal: 0,
        followed: front.len() as u32,
        seen: seen as u32,
        percent,
        remainder: remainder as u32,
    }
}

/// Whether one entry may follow another.
fn obeys_on(table: &Table, before: usize, entry: usize) -> bool {
    entry < table.n && table.rows[before][entry]
}

/// Replay on any arguments.
pub fn expected(store: &[u64], n: usize, g: usize, log: &[u8]) -> Replay {
    match accept::replay(store, n, g, log.len()) {
        Ok(()) => walk(&Dialogue::from_store(store, n, g).table(), log),
        Err(refusal) => Replay::refused(refusal),
    }
}

// ---- Logs at random

/// A walk through the table of at most so many entries: it ends where a state has no successor.
pub fn random_walk(table: &Table, most: usize, random: &mut Random) -> Vec<usize> {
    let states = |set: &[bool]| -> Vec<usize> { (0..table.n).filter(|&s| set[s]).collect() };
    let mut walk = Vec::new();
    let mut next = states(&table.initial);
    while walk.len() < most && !next.is_empty() {
        let state = random.pick(&next);
        walk.push(state);
        next = states(&table.rows[state]);
    }
    walk
}

/// An entry in place of one of a walk: a state, one that is none, or one with a byte that is right.
fn wrong_entry(n: usize, entry: usize, random: &mut Random) -> usize {
    let high = HIGH * random.within(1, HIGH - 1);
    random.pick(&[
        random.clone().below(n),
        n - 1,
        n,
        MAX_STATES,
        65_535,
        entry % HIGH + high,
        entry % HIGH * HIGH,
    ])
}

/// A walk that is whole, cut, damaged at a place, gone on with after its end, or no walk at all.
pub fn random_log(table: &Table, random: &mut Random) -> Vec<u8> {
    let most = random.pick(&[0, 1, 2, 5, 40, 300]);
    let mut walk = random_walk(table, most, random);
    match random.below(6) {
        0 => {}
        1 => walk.truncate(random.below(walk.len() + 1)),
        2 if !walk.is_empty() => {
            let place = random.below(walk.len());
            walk[place] = wrong_entry(table.n, walk[place], random);
        }
        3 => walk.push(wrong_entry(table.n, 0, random)),
        4 => walk.extend(random_walk(table, 20, random)),
        _ => walk = (0..most).map(|_| random.below(table.n)).collect(),
    }
    let mut log = bytes(&walk);
    match random.below(12) {
        0 => log.push(random.word() as u8),
        1 => log = random.bytes(random.clone().below(40)),
        2 => log.resize(MAX_LOG + random.below(5) - 2, random.word() as u8),
        _ => {}
    }
    log
}

// ---- The tests

// tries: call_replay::replay, Fields.replay_fields
/// One call, with both buffers compared.
pub fn replay(
    library: &dyn Calls,
    store: &[u64],
    (n, g): (usize, usize),
    log: &[u8],
    expected: Replay,
) -> Outcome {
    let length = log.len();
    let what = format!("{}'s replay({n}, {g}) of {length} bytes", library.name());
    let (store, log) = (Lent::new(store), Lent::new(log));
    let answer = library.replay(store.shared(), n, g, log.shared());
    if answer != expected {
        return Err(format!("{what} answered {answer:?}, expected {expected:?}"));
    }
    store.holds(&format!("store after {what}"), &[])?;
    log.holds(&format!("log after {what}"), &[])
}

// tries: Logs.may_hold, Logs.reachable_count, ReplayPromises.WalkIs
// tries: ReplayPromises.ReplayPromises.first-words
/// A random log through an accepted table, and what the specification says of every answer.
pub fn random_logs(
    libraries: &[&dyn Calls],
    dialogue: &Dialogue,
    random: &mut Random,
    tally: &mut Tally,
) -> Outcome {
    let (n, g) = (dialogue.n, dialogue.g());
    let mut store = dialogue.to_store();
    let beyond = random.pick(&[0, 0, 1, 7]);
    store.extend(random.words(beyond));
    let log = random_log(&dialogue.table(), random);
    let answer = expected(&store, n, g, &log);
    let count = log.len() / 2;
    if answer.refusal == 0 {
        let hang = promises(dialogue, &log, &answer)?;
        tally.count("a hang followed", if hang { "yes" } else { "no" });
        let how_far = match answer.followed as usize {
            all if all == count => "all",
            0 => "none",
            _ => "some",
        };
        tally.count("entries followed", how_far);
        tally.count("percent covered", answer.percent);
    }
    tally.count("refusal by replay", answer.refusal);
    for library in libraries {
        replay(*library, &store, (n, g), &log, answer)?;
        follows_none_where_safe(*library, dialogue, &store, &log)?;
    }
    Ok(())
}

// tries: ReplayPromises.ReplayPromises.safe
/// The library's own two answers: where its decide says safe, its replay follows no forbidden entry.
fn follows_none_where_safe(
    library: &dyn Calls,
    dialogue: &Dialogue,
    store: &[u64],
    log: &[u8],
) -> Outcome {
    let (n, g) = (dialogue.n, dialogue.g());
    let decision = library.decide(store, n, g, MAX_ALLOWANCE, &mut [0; PATH_PLACES]);
    let followed = library.replay(store, n, g, log).followed as usize;
    let forbidden = dialogue.table().forbidden;
    match entries(log)[..followed].iter().find(|&&s| forbidden[s]) {
        Some(state) if decision.refusal == 0 && decision.verdict == SAFE => {
            let name = library.name();
            Err(format!(
                "{name}'s replay follows {state}, which is forbidden, and its decide says safe"
            ))
        }
        _ => Ok(()),
    }
}

// tries: ReplayPromises.FollowedIs, ReplayPromises.SeenIs, ReplayPromises.CoverageIs
/// What the specification says of an answer, tried on the definition's own words; whether a state was followed
/// that is forbidden without being marked.
fn promises(dialogue: &Dialogue, log: &[u8], answer: &Replay) -> Result<bool, String> {
    let table = &dialogue.table();
    let entries = entries(log);
    let followed = answer.followed as usize;
    let reachable = reachable(table);
    let holds = obeys(table, &entries[..followed])
        && (followed == entries.len() || !obeys(table, &entries[..=followed]))
        && answer.seen as usize <= reachable
        && answer.percent <= 100
        && (reachable == 0 || (answer.remainder as usize) < reachable);
    let safe = !crate::search::reaches_forbidden(dialogue);
    if !holds {
        return Err(format!("the plain walk gives {answer:?}"));
    }
    match entries[..followed].iter().find(|&&s| table.forbidden[s]) {
        Some(state) if safe => Err(format!("{state} is followed, and the table is safe")),
        state => Ok(state.is_some_and(|&s| !dialogue.marked[s])),
    }
}

/// Replay with spoiled arguments, which its other grounds are met with too.
pub fn spoiled(
    libraries: &[&dyn Calls],
    store: &[u64],
    (n, g): (usize, usize),
    random: &mut Random,
    tally: &mut Tally,
) -> Outcome {
    let length = random.pick(&[0, 1, 2, MAX_LOG - 1, MAX_LOG, MAX_LOG + 1, MAX_LOG + 2]);
    let log = random.bytes(length);
    let answer = expected(store, n, g, &log);
    tally.count("refusal by replay", answer.refusal);
    libraries
        .iter()
        .try_for_each(|library| replay(*library, store, (n, g), &log, answer))
}

// tries: Logs.entry, Logs.max_log, ReplayPromises.ReplayPromises.empty_log
// tries: ReplayPromises.ReplayPromises.draft, Logs.log_grounds, Figures.Figures
/// Lengths about the limit, entries about n, and figures worked out by hand.
pub fn edges(libraries: &[&dyn Calls], random: &mut Random) -> Outcome {
    let each = |dialogue: &Dialogue, log: &[u8], by_hand: Replay| -> Outcome {
        let store = dialogue.to_store();
        let (n, g) = (dialogue.n, dialogue.g());
        let plain = expected(&store, n, g, log);
        if plain != by_hand {
            return Err(format!(
                "the plain walk gives {plain:?}, by hand {by_hand:?}"
            ));
        }
        libraries
            .iter()
            .try_for_each(|library| replay(*library, &store, (n, g), log, plain))
    };
    let answer = |followed, seen, percent, remainder| Replay {
        refusal: 0,
        followed,
        seen,
        percent,
        remainder,
    };
    let refused = |refusal| Replay {
        refusal,
        ..Replay::default()
    };

    // 0 → 1 → 2 → 0, and 3, which nothing leads to.
    let cycle = Dialogue::of(4, &[0], &[3], &[], &[(0, 1), (1, 2), (2, 0), (3, 3)]);
    for (entries, expected) in [
        (&[][..], answer(0, 0, 0, 0)),
        (&[0][..], answer(1, 1, 33, 1)),
        (&[1][..], answer(0, 0, 0, 0)),
        (&[3][..], answer(0, 0, 0, 0)),
        (&[4][..], answer(0, 0, 0, 0)),
        (&[65_535][..], answer(0, 0, 0, 0)),
        (&[HIGH][..], answer(0, 0, 0, 0)),
        (&[0, 1][..], answer(2, 2, 66, 2)),
        (&[0, HIGH + 1, 1][..], answer(1, 1, 33, 1)),
        (&[0, 1, 2, 0, 1][..], answer(5, 3, 100, 0)),
        (&[0, 1, 2, 3][..], answer(3, 3, 100, 0)),
        (&[0, 1, 2, 4][..], answer(3, 3, 100, 0)),
        (&[0, 0, 1][..], answer(1, 1, 33, 1)),
    ] {
        each(&cycle, &bytes(entries), expected)?;
    }
    // A hang is walked into as any other state.
    let hang = named::hang(&[], &[]);
    each(&hang, &bytes(&[0, 1]), answer(2, 2, 100, 0))?;
    // Nothing can be reached: 0 remainder 0.
    let idle = Dialogue::of(2, &[], &[], &[], &[(0, 1)]);
    each(&idle, &[0, 0, 1, 0], answer(0, 0, 0, 0))?;
    // A table without states.
    for log in [&[][..], &[0, 0], &[255, 255], &[0, 0, 0, 0]] {
        each(&named::draft(), log, answer(0, 0, 0, 0))?;
    }
    each(&named::draft(), &[0], refused(25))?;
    // The last state, and the first number that is none.
    let z = MAX_STATES - 1;
    let last = Dialogue::of(MAX_STATES, &[z], &[], &[], &[(z, z), (z, 0)]);
    each(&last, &bytes(&[z, z, 0, z]), answer(3, 2, 100, 0))?;
    each(&last, &bytes(&[z, MAX_STATES]), answer(1, 1, 50, 0))?;

    // The greatest length is walked to its end; past it, the odd length is named first.
    let around: Vec<usize> = (0..MAX_LOG / 2 + 1).map(|i| i % 3).collect();
    let mut long = bytes(&around);
    long.push(0);
    for (length, expected) in [
        (1, refused(25)),
        (MAX_LOG - 2, answer(16_383, 3, 100, 0)),
        (MAX_LOG - 1, refused(25)),
        (MAX_LOG, answer(16_384, 3, 100, 0)),
        (MAX_LOG + 1, refused(25)),
        (MAX_LOG + 2, refused(26)),
        (MAX_LOG + 3, refused(25)),
    ] {
        each(&cycle, &long[..length], expected)?;
    }
    // Every other ground comes before those of the log.
    let store = random.words(STORE_WORDS);
    for (words, n, g, refusal) in [
        (STORE_WORDS - 1, MAX_STATES + 1, MAX_GROUPS + 1, 10),
        (STORE_WORDS, MAX_STATES + 1, MAX_GROUPS + 1, 14),
        (STORE_WORDS, 0, 1, 14),
        (STORE_WORDS, MAX_STATES, MAX_GROUPS + 1, 15),
        (STORE_WORDS, MAX_STATES - 1, MAX_GROUPS, 17),
    ] {
        for length in [1, MAX_LOG + 2] {
            let log = vec![0; length];
            for library in libraries {
                replay(*library, &store[..words], (n, g), &log, refused(refusal))?;
            }
        }
    }
    Ok(())
}
