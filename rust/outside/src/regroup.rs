//! Groups put another way: a table whose groups are in another order, twice over, or with a union or an
//! overlap of two of them added gets the same answer from decide, all of it, and the same path.

use crate::accept::{MAX_ALLOWANCE, PATH_PLACES};
use crate::calls::{Calls, Decision};
use crate::examine::{Outcome, Tally};
use crate::generate::{Kind, Random};
use crate::table::{Dialogue, MAX_GROUPS, Set};

const TABLES: usize = 500;
/// At least so many tables are put another way in each of these ways.
const ENOUGH: usize = 50;

const THING: &str = "groups put another way";
const ORDER: &str = "another order";
const TWICE: &str = "twice over";
const UNION: &str = "a union";
const OVERLAP: &str = "an overlap";
const REWRITINGS: [&str; 4] = [ORDER, TWICE, UNION, OVERLAP];
/// Several rewritings one after the other; some of them to as many groups as there can be.
const SEQUENCE: &str = "one after the other";
const FULL: &str = "up to the greatest g";
/// Tables that get another answer without their groups: these would show one that was lost.
const NEEDED: &str = "groups that the answer needs";

/// Allowances, each with the length of a path buffer: few refinements, a release check, and grounds 20 and 21.
const CALLS: [(usize, usize); 7] = [
    (0, PATH_PLACES),
    (1, PATH_PLACES),
    (2, PATH_PLACES),
    (3, PATH_PLACES),
    (MAX_ALLOWANCE, PATH_PLACES),
    (MAX_ALLOWANCE + 1, PATH_PLACES),
    (MAX_ALLOWANCE, PATH_PLACES - 1),
];

// tries: Regrouping.SameDecisions, Regrouping.rewriting_covers
/// Random tables, each with every rewriting of its groups by itself, and with some in turn.
pub fn regrouped_tables(
    libraries: &[&dyn Calls],
    random: &mut Random,
    tally: &mut Tally,
) -> Outcome {
    for _ in 0..TABLES {
        let table = Kind::random(random).dialogue(random);
        let others = put_another_way(&table, random, tally);
        let path = random.places(PATH_PLACES);
        let more = random.below(4);
        let own = random.places(PATH_PLACES + more);
        let mut needed = false;
        for library in libraries {
            for (allowance, room) in CALLS {
                let call = |table: &Dialogue| decide(*library, table, allowance, &path[..room]);
                let expected = call(&table);
                needed |= call(&regrouped(&table, Vec::new())) != expected;
                for other in &others {
                    let found = call(other);
                    if found != expected {
                        return Err(format!(
                            "{}'s decide at allowance {allowance} answered {:?} for {table:?}, and {:?} with the groups {:?}",
                            library.name(),
                            expected.0,
                            found.0,
                            other.groups,
                        ));
                    }
                    if room == PATH_PLACES {
                        let alone = decide(*library, other, allowance, &own);
                        same_written(library.name(), &expected, &alone, &own)?;
                    }
                }
            }
        }
        if needed {
            tally.count(THING, NEEDED);
        }
    }
    came_up(tally)
}

fn came_up(tally: &Tally) -> Outcome {
    for way in REWRITINGS.iter().chain(&[SEQUENCE, FULL, NEEDED]) {
        let tables = tally.0.get(&(THING, way.to_string())).copied().unwrap_or(0);
        if tables < ENOUGH {
            return Err(format!("only {tables} tables with {way}"));
        }
    }
    Ok(())
}

/// The answer, and the path buffer after it.
fn decide(
    library: &dyn Calls,
    table: &Dialogue,
    allowance: usize,
    path: &[u16],
) -> (Decision, Vec<u16>) {
    let mut path = path.to_vec();
    let answer = library.decide(&table.to_store(), table.n, table.g(), allowance, &mut path);
    (answer, path)
}

// tries: Promises.SameAnswer
/// Two drafters, each with a path buffer of her own: the same answer and the same states written, and no other place.
fn same_written(
    name: &str,
    one: &(Decision, Vec<u16>),
    other: &(Decision, Vec<u16>),
    before: &[u16],
) -> Outcome {
    let written = match (one.0.refusal, one.0.verdict) {
        (0, 1) => one.0.steps as usize + 1,
        _ => 0,
    };
    let expected = [&one.1[..written], &before[written..]].concat();
    if one.0 == other.0 && other.1 == expected {
        return Ok(());
    }
    Err(format!(
        "{name}'s decide answered {:?} and wrote {:?}, and in another path buffer {:?} and {:?}",
        one.0,
        &one.1[..written],
        other.0,
        &other.1[..written],
    ))
}

fn regrouped(table: &Dialogue, groups: Vec<Set>) -> Dialogue {
    Dialogue {
        groups,
        ..table.clone()
    }
}

fn put_another_way(table: &Dialogue, random: &mut Random, tally: &mut Tally) -> Vec<Dialogue> {
    let mut others = Vec::new();
    for rewriting in REWRITINGS {
        if let Some(groups) = rewritten(&table.groups, rewriting, random) {
            tally.count(THING, rewriting);
            others.push(regrouped(table, groups));
        }
    }
    if table.g() > 0 {
        let other = regrouped(table, in_turn(&table.groups, random));
        tally.count(THING, SEQUENCE);
        if table.g() < other.g() && other.g() == MAX_GROUPS {
            tally.count(THING, FULL);
        }
        others.push(other);
    }
    others
}

/// The groups put another way; nothing where there are none, or no room for more.
fn rewritten(groups: &[Set], rewriting: &str, random: &mut Random) -> Option<Vec<Set>> {
    let g = groups.len();
    if g == 0 {
        return None;
    }
    let (x, y) = (&groups[random.below(g)], &groups[random.below(g)]);
    let added = match rewriting {
        ORDER => return Some(random.order(g).iter().map(|&j| groups[j].clone()).collect()),
        TWICE if random.once_in(2) => groups.to_vec(),
        TWICE => vec![x.clone()],
        UNION => vec![pairwise(x, y, |x, y| x || y)],
        _ => vec![pairwise(x, y, |x, y| x && y)],
    };
    if g + added.len() > MAX_GROUPS {
        return None;
    }
    let mut other = groups.to_vec();
    for set in added {
        other.insert(random.within(0, other.len()), set);
    }
    Some(other)
}

/// Rewritings one after the other: a few, or as many as bring the greatest g.
fn in_turn(groups: &[Set], random: &mut Random) -> Vec<Set> {
    let mut other = groups.to_vec();
    let to_the_full = random.once_in(3);
    let mut left = random.within(2, 8);
    while left > 0 || to_the_full && other.len() < MAX_GROUPS {
        if let Some(groups) = rewritten(&other, random.pick(&REWRITINGS), random) {
            other = groups;
        }
        left = left.saturating_sub(1);
    }
    other
}

fn pairwise(x: &Set, y: &Set, join: impl Fn(bool, bool) -> bool) -> Set {
    x.iter().zip(y).map(|(&x, &y)| join(x, y)).collect()
}
