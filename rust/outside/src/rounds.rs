//! The rounds and backward elimination, word for word from the specification (Rounds), on lists of booleans.
//!
//! Nothing is clever here: each cover is worked out anew from the whole list in each round, and the
//! fixpoints are steps repeated until nothing changes.

use crate::table::{Set, Table, set_where};

/// Z, R and S of one round.
#[derive(Clone, Debug)]
pub struct Round {
    pub z: Set,
    pub r: Set,
    pub s: Set,
}

#[derive(Clone, Debug, PartialEq, Eq)]
pub enum Outcome {
    Safe { invariant: Set },
    Unsafe,
    Undecided,
}

/// The rounds of one table, as far as they were asked for.
pub struct Rounds<'t> {
    table: &'t Table,
    list: Vec<Set>,
    rounds: Vec<Round>,
}

impl<'t> Rounds<'t> {
    pub fn new(table: &'t Table) -> Rounds<'t> {
        let mut list = table.groups.clone();
        list.push(not_forbidden(table));
        Rounds {
            table,
            list,
            rounds: Vec::new(),
        }
    }

    /// The outcome and the count with an allowance.
    pub fn decide(&mut self, allowance: usize) -> (Outcome, usize) {
        let table = self.table;
        let init = &table.initial;
        let mut i = 0;
        loop {
            let Round { z, r, s } = self.round(i);
            if inside(&union(post(table, r), init), z) {
                let invariant = r.clone();
                return (Outcome::Safe { invariant }, i);
            }
            if !inside(init, s) {
                return (Outcome::Unsafe, i);
            }
            if i == allowance {
                return (Outcome::Undecided, i);
            }
            i += 1;
        }
    }

    fn round(&mut self, i: usize) -> &Round {
        while self.rounds.len() <= i {
            let table = self.table;
            let z = match self.rounds.last() {
                None => not_forbidden(table),
                Some(Round { s, .. }) => {
                    let next = meet(hold(table, s), s);
                    self.list.push(next.clone());
                    next
                }
            };
            let covers = covers(table.n, &self.list);
            let r = forward(table, &covers, &z);
            let s = backward(table, &covers, &r);
            self.rounds.push(Round { z, r, s });
        }
        &self.rounds[i]
    }
}

/// R: the least X with X = cover(Z meet (Init union post(X))).
fn forward(table: &Table, covers: &[Set], z: &Set) -> Set {
    fixpoint(empty(table.n), |x| {
        cover(covers, &meet(union(post(table, x), &table.initial), z))
    })
}

/// S: the greatest X with X = cover(R meet hold(X)).
fn backward(table: &Table, covers: &[Set], r: &Set) -> Set {
    fixpoint(full(table.n), |x| cover(covers, &meet(hold(table, x), r)))
}

/// The cover of each state: the meet of all listed sets that contain it, or all n states if none does.
fn covers(n: usize, list: &[Set]) -> Vec<Set> {
    let containing = |s: usize| list.iter().filter(move |set| set[s]);
    (0..n).map(|s| containing(s).fold(full(n), meet)).collect()
}

/// The cover of X: the union of the covers of its states.
fn cover(covers: &[Set], x: &Set) -> Set {
    union_at(covers, x)
}

/// All successors of states in X.
fn post(table: &Table, x: &Set) -> Set {
    union_at(&table.rows, x)
}

/// All states whose every successor is in X.
fn hold(table: &Table, x: &Set) -> Set {
    set_where(table.n, |s| inside(&table.rows[s], x))
}

/// The least j for which W is the same after j and after j + 1 rounds of backward elimination.
pub fn backward_number(table: &Table) -> usize {
    let mut w = not_forbidden(table);
    let mut j = 0;
    loop {
        let next = meet(hold(table, &w), &w);
        if next == w {
            return j;
        }
        w = next;
        j += 1;
    }
}

/// Whether a set is what the specification calls an invariant of a safe table: it has the initial states, the
/// successors of each of its states, and no forbidden state.
pub fn is_invariant(table: &Table, x: &Set) -> bool {
    inside(&table.initial, x)
        && inside(&post(table, x), x)
        && (0..table.n).all(|s| !(x[s] && table.forbidden[s]))
}

fn not_forbidden(table: &Table) -> Set {
    set_where(table.n, |s| !table.forbidden[s])
}

fn fixpoint(start: Set, step: impl Fn(&Set) -> Set) -> Set {
    let mut x = start;
    loop {
        let next = step(&x);
        if next == x {
            return x;
        }
        x = next;
    }
}

fn empty(n: usize) -> Set {
    vec![false; n]
}

fn full(n: usize) -> Set {
    vec![true; n]
}

fn union(mut a: Set, b: &Set) -> Set {
    a.iter_mut().zip(b).for_each(|(a, &b)| *a |= b);
    a
}

fn meet(mut a: Set, b: &Set) -> Set {
    a.iter_mut().zip(b).for_each(|(a, &b)| *a &= b);
    a
}

fn inside(a: &Set, b: &Set) -> bool {
    a.iter().zip(b).fold(true, |all, (&a, &b)| all & (!a | b))
}

/// The union of the sets that stand at the states of X.
fn union_at(sets: &[Set], x: &Set) -> Set {
    (0..x.len())
        .filter(|&s| x[s])
        .fold(empty(x.len()), |all, s| union(all, &sets[s]))
}

/// Whether R and S of each round are the least and the greatest of all sets that solve the rounds' equations,
/// by trying all 2^n sets; for small tables.
pub fn extremes_hold(rounds: &Rounds) -> bool {
    let table = rounds.table;
    let n = table.n;
    rounds.rounds.iter().enumerate().all(|(i, round)| {
        let list = &rounds.list[..table.groups.len() + 1 + i];
        let covers = covers(n, list);
        let forward_step = |x: &Set| {
            let reached = union(post(table, x), &table.initial);
            cover(&covers, &meet(reached, &round.z))
        };
        let backward_step = |x: &Set| cover(&covers, &meet(hold(table, x), &round.r));
        let all = || (0..1usize << n).map(|bits| set_where(n, |s| bits >> s & 1 == 1));
        forward_step(&round.r) == round.r
            && backward_step(&round.s) == round.s
            && all().all(|x| forward_step(&x) != x || inside(&round.r, &x))
            && all().all(|x| backward_step(&x) != x || inside(&x, &round.s))
    })
}
