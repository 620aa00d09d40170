//! The store and its table, and the states that can be reached in it.

use super::set::{Set, Words};
use super::{HEAD_SETS, MAX_GROUPS, MAX_STATES, STORE_WORDS, WORDS};

/// The sets of an accepted store.
pub(super) struct Table<'s> {
    pub(super) n: usize,
    pub(super) initial: Set,
    pub(super) marked: Set,
    pub(super) resting: Set,
    pub(super) groups: &'s [Words],
    pub(super) rows: &'s [Words; MAX_STATES],
}

impl<'s> Table<'s> {
    /// The table in a store, or the refusal 10, 14, 15 or 17.
    pub(super) fn accept(store: &'s [u64], n: usize, g: usize) -> Result<Table<'s>, u32> {
        let Some(store) = store.first_chunk::<STORE_WORDS>() else {
            return Err(10);
        };
        if n == 0 && g > 0 || n > MAX_STATES {
            return Err(14);
        }
        if g > MAX_GROUPS {
            return Err(15);
        }
        let (sets, _) = store.as_chunks::<WORDS>();
        let (fixed, rest) = sets.split_at(HEAD_SETS);
        let (groups, rows) = rest.split_at(MAX_GROUPS);
        let (used, unused) = groups.split_at(g);
        let (used_rows, unused_rows) = rows.split_at(n);
        let any = |sets: &[Words]| {
            sets.iter()
                .fold(Set::EMPTY, |all, &set| all.union(Set(set)))
        };
        // Where there are as many states as can be, every bit is one of them.
        let held = match n {
            MAX_STATES => Set::EMPTY,
            _ => any(fixed).union(any(used)).union(any(used_rows)),
        };
        let idle = any(unused).union(any(unused_rows));
        if !held.inside(Set::below(n)) || !idle.is_empty() {
            return Err(17);
        }
        Ok(Table::within(store, n, g))
    }

    /// The table in a store that was accepted.
    pub(super) fn within(store: &'s [u64; STORE_WORDS], n: usize, g: usize) -> Table<'s> {
        let (sets, _) = store.as_chunks::<WORDS>();
        let (fixed, rest) = sets.split_at(HEAD_SETS);
        let (groups, rows) = rest.split_at(MAX_GROUPS);
        Table {
            n,
            initial: Set(fixed[0]),
            marked: Set(fixed[1]),
            resting: Set(fixed[2]),
            groups: &groups[..g],
            rows: rows.try_into().expect("MAX_STATES rows"),
        }
    }

    /// The forbidden states of a set of the table's states.
    pub(super) fn forbidden(&self, among: Set) -> Set {
        let hangs = among
            .minus(self.resting)
            .filter(|state| Set(self.rows[state]).is_empty());
        among.meet(self.marked).union(hangs)
    }

    pub(super) fn post(&self, x: Set) -> Set {
        x.gather(self.rows)
    }

    /// The successors of a layer's states, and whether one of these is forbidden, in one pass over their rows.
    #[inline(always)]
    pub(super) fn step_on(&self, layer: Set) -> (Set, bool) {
        let mut after = Set::EMPTY;
        let mut hang = false;
        layer.each(|state| {
            let row = Set(self.rows[state]);
            after = after.union(row);
            hang |= row.is_empty() && !self.resting.has(state);
        });
        (after, hang || !layer.meet(self.marked).is_empty())
    }

    /// The states of a set whose every successor is in x.
    pub(super) fn holding(&self, among: Set, x: Set) -> Set {
        among.filter(|state| Set(self.rows[state]).inside(x))
    }

    /// The states of a set that step to no state of x, by one word of each row where x has states in no other. Inlined
    /// in the rounds it would take half as long again.
    #[inline(never)]
    pub(super) fn avoiding(&self, among: Set, x: Set) -> Set {
        let word = x.first() / 64;
        match word < WORDS && x.minus(Set::below(64 * word + 64)).is_empty() {
            true => among.filter(|state| self.rows[state][word] & x.0[word] == 0),
            false => among.filter(|state| Set(self.rows[state]).meet(x).is_empty()),
        }
    }
}

/// The states that can be reached from the initial ones.
pub(super) fn reached(table: &Table) -> Set {
    reached_from(table, table.initial)
}

/// The states that a set reaches, itself included.
pub(super) fn reached_from(table: &Table, start: Set) -> Set {
    let mut reached = start;
    let mut new = reached;
    while !new.is_empty() {
        new = table.post(new).minus(reached);
        reached = reached.union(new);
    }
    reached
}
