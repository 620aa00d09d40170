//! Tables to measure on: each family is a few tables of one kind, all of one size. Their dead ends rest, so that
//! just the marked states are forbidden.

use crate::generate::{Random, Steps, add_fan_out, rows};
use crate::modal::Optional;
use crate::table::{Dialogue, MAX_GROUPS, MAX_STATES, Set, set_where};

pub struct Family {
    pub name: String,
    pub tables: Vec<Dialogue>,
}

/// Tables of a family that is drawn at random.
const TABLES: usize = 16;

/// The sizes at which the growth of the cost is measured.
pub const GROWTH: [usize; 4] = [MAX_STATES / 8, MAX_STATES / 4, MAX_STATES / 2, MAX_STATES];

fn family(name: impl Into<String>, tables: Vec<Dialogue>) -> Family {
    Family {
        name: name.into(),
        tables: tables
            .into_iter()
            .map(Dialogue::dead_ends_resting)
            .collect(),
    }
}

/// The named families, on which all four calls are measured; growth comes last. In those of many looks
/// decide makes many refinements, and many looks in each.
pub fn named(random: &mut Random) -> Vec<Family> {
    let mut families = vec![
        family(
            format!("corridor of {MAX_STATES}"),
            vec![corridor(MAX_STATES)],
        ),
        family("fan-out 2", some(|| fan_out(MAX_STATES, 2, 0, random))),
        family("fan-out 4", some(|| fan_out(MAX_STATES, 4, 0, random))),
        family("fan-out 16", some(|| fan_out(MAX_STATES, 16, 0, random))),
        family(
            format!("{MAX_GROUPS} random groups"),
            some(|| fan_out(MAX_STATES, 4, MAX_GROUPS, random)),
        ),
        family("dense rows", some(|| dense(MAX_STATES, random))),
        family("many looks forward", vec![many_looks_forward()]),
        family("many looks backward", vec![many_looks_backward()]),
    ];
    for n in GROWTH {
        let tables = some(|| fan_out(n, 4, 0, random));
        families.push(family(format!("growth, fan-out 4, {n}"), tables));
    }
    for n in GROWTH {
        families.push(family(format!("growth, corridor, {n}"), vec![corridor(n)]));
    }
    families
}

/// Beside those for decide: a corridor whose covers are exact, so that one round takes it back state by state, and
/// what is long in other ways.
pub fn more_for_decide() -> Vec<Family> {
    let n = MAX_STATES;
    let exact = Dialogue {
        groups: exact_groups(n, |_| true),
        ..corridor(n)
    };
    vec![
        family(
            format!("corridor, {} groups", exact.groups.len()),
            vec![exact],
        ),
        family(format!("cycle of {n}"), vec![cycle(n)]),
        family("grid of 16 by 32", vec![grid(16, 32)]),
        family(format!("ladder of {}", n / 2), vec![ladder(n / 2)]),
    ]
}

/// Beside those for shortest path: distances of many sizes, and no path.
pub fn more_for_shortest_path(random: &mut Random) -> Vec<Family> {
    vec![
        family("layers", some(|| layers(MAX_STATES, random))),
        family("no path", some(|| no_path(MAX_STATES, random))),
    ]
}

/// Beside those for distances and within: an initial state that leads nowhere, where within has nothing
/// to look at but the table it must accept.
pub fn more_for_distances(random: &mut Random) -> Vec<Family> {
    let mut families = more_for_shortest_path(random);
    families.push(family(
        "leads nowhere",
        some(|| leads_nowhere(MAX_STATES, random)),
    ));
    families
}

/// Beside those for read and write: one block, either side of its end, and the largest file.
pub fn more_for_files(random: &mut Random) -> Vec<Family> {
    [(3, 0), (61, 0), (61, 1), (MAX_STATES, MAX_GROUPS)]
        .into_iter()
        .map(|(n, g)| {
            let tables = some(|| fan_out(n, 4, g, random));
            family(format!("{n} states, {g} groups"), tables)
        })
        .collect()
}

/// For replay: logs of 16,384 entries that are walked to their end, and one that breaks at the corridor's.
pub fn for_logs(random: &mut Random) -> Vec<Family> {
    vec![
        family("16,384 entries, cycle", vec![cycle(MAX_STATES)]),
        family(
            "16,384 entries, dense rows",
            some(|| dense(MAX_STATES, random)),
        ),
        family("16,384 entries, corridor", vec![corridor(MAX_STATES)]),
    ]
}

/// For decide modal: no step that is only possible, one at the end of a corridor, and half of the steps.
pub fn for_options(random: &mut Random) -> Vec<(String, Vec<Optional>)> {
    let n = MAX_STATES;
    let last_off = |mut table: Dialogue| {
        let possible = table.rows.clone();
        table.rows[n - 2].fill(false);
        Optional {
            dialogue: table,
            possible,
        }
    };
    let mut half_off = |mut table: Dialogue| {
        let possible = table.rows.clone();
        let steps = table.rows.iter_mut().flatten();
        steps.for_each(|step| *step &= random.once_in(2));
        Optional {
            dialogue: table,
            possible,
        }
    };
    let equal = |table: Dialogue| Optional {
        possible: table.rows.clone(),
        dialogue: table,
    };
    // Drawn apart from the steps that are off.
    let mut own = Random::new(2);
    let corridor = || family("corridor of 512", vec![corridor(n)]);
    let fan = family("fan-out 4", some(|| fan_out(n, 4, 0, &mut own)));
    let grouped = family(
        "64 random groups",
        some(|| fan_out(n, 4, MAX_GROUPS, &mut own)),
    );
    let dense = family("dense rows", some(|| dense(n, &mut own)));
    let safe = family("no path", some(|| no_path(n, &mut own)));
    let mut rows = Vec::new();
    let mut row = |family: Family, what: &str, options: &mut dyn FnMut(Dialogue) -> Optional| {
        let tables = family.tables.into_iter().map(options).collect();
        rows.push((format!("{}, {what}", family.name), tables));
    };
    row(corridor(), "every step certain", &mut { equal });
    row(corridor(), "the last step possible", &mut { last_off });
    for family in [fan, grouped, dense, safe] {
        row(family, "half of the steps certain", &mut half_off);
    }
    rows
}

fn some(mut table: impl FnMut() -> Dialogue) -> Vec<Dialogue> {
    (0..TABLES).map(|_| table()).collect()
}

/// From state 0 to the marked last state, with no groups.
fn with_rows(rows: Vec<Set>) -> Dialogue {
    let n = rows.len();
    Dialogue {
        n,
        initial: set_where(n, |s| s == 0),
        marked: set_where(n, |s| s == n - 1),
        resting: vec![false; n],
        groups: Vec::new(),
        rows,
    }
}

fn corridor(n: usize) -> Dialogue {
    with_rows((0..n).map(|s| set_where(n, |t| t == s + 1)).collect())
}

fn cycle(n: usize) -> Dialogue {
    with_rows((0..n).map(|s| set_where(n, |t| t == (s + 1) % n)).collect())
}

/// From the first corner to the last, to the right and down.
fn grid(height: usize, width: usize) -> Dialogue {
    let n = height * width;
    let steps = |s, t| t == s + width || t == s + 1 && t % width != 0;
    with_rows((0..n).map(|s| set_where(n, |t| steps(s, t))).collect())
}

/// Two rails of equal length, with a rung both ways at each place.
fn ladder(length: usize) -> Dialogue {
    let n = 2 * length;
    with_rows(
        (0..n)
            .map(|s| set_where(n, |t| t == s + 2 || t == s ^ 1))
            .collect(),
    )
}

fn fan_out(n: usize, fan_out: usize, groups: usize, random: &mut Random) -> Dialogue {
    let mut rows = vec![vec![false; n]; n];
    add_fan_out(&mut rows, fan_out, random);
    let mut group = || (0..n).map(|_| random.once_in(2)).collect();
    Dialogue {
        groups: (0..groups).map(|_| group()).collect(),
        ..with_rows(rows)
    }
}

fn dense(n: usize, random: &mut Random) -> Dialogue {
    with_rows(rows(Steps::Dense, n, random))
}

fn layers(n: usize, random: &mut Random) -> Dialogue {
    with_rows(rows(Steps::Layers, n, random))
}

/// The forbidden state has no predecessor but itself.
fn no_path(n: usize, random: &mut Random) -> Dialogue {
    let mut table = fan_out(n, 4, 0, random);
    for row in &mut table.rows {
        row[n - 1] = false;
    }
    table.rows[n - 1][n - 1] = true;
    table
}

fn leads_nowhere(n: usize, random: &mut Random) -> Dialogue {
    let mut table = fan_out(n, 4, 0, random);
    table.rows[0].fill(false);
    table
}

/// Groups by the bits of a state's number: the cover of each of these states is the state alone.
fn exact_groups(n: usize, exact: impl Fn(usize) -> bool) -> Vec<Set> {
    (0..(n - 1).ilog2() + 1)
        .flat_map(|bit| [0, 1].map(|value| (bit, value)))
        .map(|(bit, value)| set_where(n, |s| exact(s) && s >> bit & 1 == value))
        .collect()
}

/// A corridor whose first half has exact covers, so that each round reaches its states one look at a
/// time, and whose second half has none, so that each round eliminates one state.
fn many_looks_forward() -> Dialogue {
    Dialogue {
        groups: exact_groups(MAX_STATES, |s| s < MAX_STATES / 2),
        ..corridor(MAX_STATES)
    }
}

/// State 0 stays; `ticks` states beside it share its group and lead to the forbidden state, so that
/// each round eliminates one. The one before it leads on to it also by a chain of `length` states with
/// exact covers, which S then loses one look at a time.
fn many_looks_backward() -> Dialogue {
    // as many chains as each is long, and as long as there are states for them
    let ticks = (1..)
        .take_while(|k| 2 + k * (k + 1) <= MAX_STATES)
        .last()
        .unwrap_or(1);
    let length = ticks;
    let n = 2 + ticks * (length + 1);
    let tick = |k: usize| 1 + k;
    let chain = |k: usize, j: usize| 1 + ticks + length * k + j;
    let forbidden = n - 1;
    let mut steps = vec![(0, 0), (tick(ticks - 1), forbidden)];
    for k in 1..ticks {
        steps.push((tick(k - 1), tick(k)));
        steps.push((tick(k - 1), chain(k, 0)));
        steps.extend((1..length).map(|j| (chain(k, j - 1), chain(k, j))));
        steps.push((chain(k, length - 1), tick(k)));
    }
    let mut table = Dialogue::of(n, &[0], &[forbidden], &[], &steps);
    table.groups = exact_groups(n, |s| s > ticks);
    table.groups.push(set_where(n, |s| s <= ticks));
    table
}
