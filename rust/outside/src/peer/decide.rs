//! The rounds, and the call decide.

use super::paths::write_path;
use super::set::{Set, Words};
use super::table::Table;
use super::{Looks, MAX_ALLOWANCE, MAX_STATES, PATH_PLACES, WORDS};
use crate::calls::{Decision, SAFE, UNDECIDED, UNSAFE};

type Covers = [Words; MAX_STATES];

/// Not inlined, so that z is in memory and is met with several words at a time.
#[inline(never)]
fn narrow(covers: &mut Covers, z: &Set) {
    z.each(|state| covers[state] = Set(covers[state]).meet(*z).0);
}

/// The cover of x. A state in the cover of another has its own cover inside that one, so those in the first
/// cover bring nothing; where there are no groups, that one is all.
fn cover(covers: &Covers, x: Set) -> Set {
    match x.first() {
        MAX_STATES => Set::EMPTY,
        state => {
            let first = Set(covers[state]);
            first.union(x.minus(first).gather(covers))
        }
    }
}

/// Looks backward that a run makes with a look at each row that stays, before the rows are transposed.
const LOOKS_BY_ROWS: usize = 12;

/// What has left in a run: a state that has left S never comes back, in this round or in a later one.
struct Leaving {
    looks: usize,
    by_predecessors: Option<Predecessors>,
}

/// The rows transposed, the states that have not left, and those with a step to one that has.
struct Predecessors {
    before: [Words; MAX_STATES],
    inside: Set,
    stepping_out: Set,
}

impl Leaving {
    /// The states of `staying` that step into s, where each of them steps into `before`.
    fn look(&mut self, table: &Table, staying: Set, before: Set, s: Set) -> Set {
        self.looks += 1;
        if self.looks <= LOOKS_BY_ROWS {
            return table.avoiding(staying, before.minus(s));
        }
        let known = self
            .by_predecessors
            .get_or_insert_with(|| Predecessors::of(table));
        known.leave(s);
        staying.minus(known.stepping_out)
    }
}

impl Predecessors {
    fn of(table: &Table) -> Predecessors {
        let inside = Set::below(table.n);
        let mut before = [[0; WORDS]; MAX_STATES];
        inside.each(|state| {
            let (word, bit) = (state / 64, 1 << (state % 64));
            Set(table.rows[state]).each(|after| before[after][word] |= bit);
        });
        Predecessors {
            before,
            inside,
            stepping_out: Set::EMPTY,
        }
    }

    /// All states but those of s have left.
    fn leave(&mut self, s: Set) {
        let leaving = self.inside.minus(s);
        self.stepping_out = self.stepping_out.union(leaving.gather(&self.before));
        self.inside = s;
    }
}

/// R, and Init union post(R).
fn forward(table: &Table, covers: &Covers, z: Set, looks: Looks) -> (Set, Set) {
    let mut r = Set::EMPTY;
    let mut reached = table.initial;
    match looks {
        Looks::Whole => loop {
            let next = reached.meet(z).gather(covers);
            if next == r {
                return (r, reached);
            }
            r = next;
            reached = table.initial.union(table.post(r));
        },
        // A state in R has its cover in R too, so only states outside R can bring new ones.
        Looks::New => {
            let mut fresh = reached.meet(z);
            loop {
                let joined = cover(covers, fresh).minus(r);
                if joined.is_empty() {
                    return (r, reached);
                }
                r = r.union(joined);
                let further = table.post(joined);
                reached = reached.union(further);
                fresh = further.meet(z).minus(r);
            }
        }
    }
}

/// S, and S meet hold(S), where every step from R leads into `reached`.
fn backward(
    table: &Table,
    covers: &Covers,
    r: Set,
    reached: Set,
    looks: Looks,
    leaving: &mut Leaving,
) -> (Set, Set) {
    match looks {
        Looks::Whole => {
            let mut s = Set::below(table.n);
            loop {
                let next = table.holding(r, s).gather(covers);
                if next == s {
                    return (s, table.holding(s, s));
                }
                s = next;
            }
        }
        // S lies inside R, which is a cover, and a state that once stepped out of S stays out: one that
        // stayed steps out only to what left S since.
        Looks::New => {
            let mut before = reached;
            let mut s = r;
            let mut staying = r;
            loop {
                staying = leaving.look(table, staying, before, s);
                let next = cover(covers, staying);
                if next == s {
                    return (s, staying);
                }
                before = s;
                s = next;
            }
        }
    }
}

/// Verdict, count and invariant.
pub(super) fn rounds(table: &Table, allowance: usize, looks: Looks) -> (u32, usize, Set) {
    let mut covers = [Set::below(table.n).0; MAX_STATES];
    for &group in table.groups {
        narrow(&mut covers, &Set(group));
    }
    let all = Set::below(table.n);
    let mut z = all.minus(table.forbidden(all));
    let mut leaving = Leaving {
        looks: 0,
        by_predecessors: None,
    };
    let mut count = 0;
    loop {
        narrow(&mut covers, &z);
        let (r, reached) = forward(table, &covers, z, looks);
        if reached.inside(z) {
            return (SAFE, count, r);
        }
        let (s, next) = backward(table, &covers, r, reached, looks, &mut leaving);
        if !table.initial.inside(s) {
            return (UNSAFE, count, Set::EMPTY);
        }
        if count == allowance {
            return (UNDECIDED, count, Set::EMPTY);
        }
        z = next;
        count += 1;
    }
}

pub(super) fn decide(
    store: &[u64],
    n: usize,
    g: usize,
    allowance: usize,
    path: &mut [u16],
    looks: Looks,
) -> Decision {
    let table = match Table::accept(store, n, g) {
        Err(refusal) => return Decision::refused(refusal),
        Ok(_) if allowance > MAX_ALLOWANCE => return Decision::refused(20),
        Ok(_) if path.len() < PATH_PLACES => return Decision::refused(21),
        Ok(table) => table,
    };
    let (verdict, count, invariant) = rounds(&table, allowance, looks);
    let steps = match verdict {
        UNSAFE => write_path(&table, path).unwrap_or(0),
        _ => 0,
    };
    Decision {
        verdict,
        count: count as u32,
        invariant: invariant.0,
        size: invariant.size(),
        steps: steps as u32,
        ..Decision::default()
    }
}
