//! A table as plain lists of booleans: a dialogue, as a store or a file holds it, and the transition system
//! that rounds and searches are about. The specification's store is the words that hold a dialogue.

/// A set of the states of a table: one entry for each state.
pub type Set = Vec<bool>;

/// The words of a set, and the sets that stand before the groups.
pub const WORDS: usize = 8;
pub const HEAD_SETS: usize = 3;
pub const MAX_STATES: usize = 64 * WORDS;
pub const MAX_GROUPS: usize = 64;
pub const STORE_WORDS: usize = row_at(MAX_STATES);

/// Where the sets of a store begin.
pub const INITIAL_AT: usize = 0;
pub const MARKED_AT: usize = WORDS;
pub const RESTING_AT: usize = 2 * WORDS;

pub const fn group_at(j: usize) -> usize {
    WORDS * (HEAD_SETS + j)
}

pub const fn row_at(s: usize) -> usize {
    group_at(MAX_GROUPS + s)
}

/// What rounds and searches read: the forbidden states are those that count.
#[derive(Clone, Debug, PartialEq, Eq)]
pub struct Table {
    pub n: usize,
    pub initial: Set,
    pub forbidden: Set,
    pub groups: Vec<Set>,
    /// The successors of each state.
    pub rows: Vec<Set>,
}

/// What a store or a file holds: the states that are marked forbidden, and those that rest.
#[derive(Clone, Debug, PartialEq, Eq)]
pub struct Dialogue {
    pub n: usize,
    pub initial: Set,
    pub marked: Set,
    pub resting: Set,
    pub groups: Vec<Set>,
    /// The successors of each state.
    pub rows: Vec<Set>,
}

impl Dialogue {
    /// A dialogue of n states from lists: its initial and marked states, its groups and its steps. None rests.
    pub fn of(
        n: usize,
        initial: &[usize],
        marked: &[usize],
        groups: &[&[usize]],
        steps: &[(usize, usize)],
    ) -> Dialogue {
        let set = |states: &[usize]| set_where(n, |s| states.contains(&s));
        Dialogue {
            n,
            initial: set(initial),
            marked: set(marked),
            resting: set(&[]),
            groups: groups.iter().map(|states| set(states)).collect(),
            rows: (0..n)
                .map(|s| set_where(n, |t| steps.contains(&(s, t))))
                .collect(),
        }
    }

    /// The same with these states resting, and no other.
    pub fn resting_on(self, states: &[usize]) -> Dialogue {
        Dialogue {
            resting: set_where(self.n, |s| states.contains(&s)),
            ..self
        }
    }

    /// The same with its dead ends resting, and no other state: what an old file is rewritten as.
    pub fn dead_ends_resting(self) -> Dialogue {
        Dialogue {
            resting: self.dead_ends(),
            ..self
        }
    }

    pub fn g(&self) -> usize {
        self.groups.len()
    }

    /// The states without a successor.
    pub fn dead_ends(&self) -> Set {
        self.rows.iter().map(|row| !row.contains(&true)).collect()
    }

    /// A state is forbidden if it is marked so, or if it has no successor and is not resting.
    pub fn table(&self) -> Table {
        let dead_ends = self.dead_ends();
        let hang = |s: usize| dead_ends[s] && !self.resting[s];
        self.read_with(set_where(self.n, |s| self.marked[s] || hang(s)))
    }

    /// As tables were read when files had the old form: the marked states are forbidden, and no other.
    pub fn old_table(&self) -> Table {
        self.read_with(self.marked.clone())
    }

    fn read_with(&self, forbidden: Set) -> Table {
        Table {
            n: self.n,
            initial: self.initial.clone(),
            forbidden,
            groups: self.groups.clone(),
            rows: self.rows.clone(),
        }
    }

    /// The words of a store that holds the dialogue.
    pub fn to_store(&self) -> Vec<u64> {
        let mut store = vec![0; STORE_WORDS];
        put_words(&mut store, INITIAL_AT, &self.initial);
        put_words(&mut store, MARKED_AT, &self.marked);
        put_words(&mut store, RESTING_AT, &self.resting);
        for (j, group) in self.groups.iter().enumerate() {
            put_words(&mut store, group_at(j), group);
        }
        for (s, row) in self.rows.iter().enumerate() {
            put_words(&mut store, row_at(s), row);
        }
        store
    }

    /// The dialogue of n states and g groups that stands in an accepted store.
    pub fn from_store(store: &[u64], n: usize, g: usize) -> Dialogue {
        let set = |at: usize| set_where(n, |s| store[at + s / 64] >> (s % 64) & 1 == 1);
        Dialogue {
            n,
            initial: set(INITIAL_AT),
            marked: set(MARKED_AT),
            resting: set(RESTING_AT),
            groups: (0..g).map(|j| set(group_at(j))).collect(),
            rows: (0..n).map(|s| set(row_at(s))).collect(),
        }
    }
}

/// The states below n that pass the test.
pub fn set_where(n: usize, test: impl Fn(usize) -> bool) -> Set {
    (0..n).map(test).collect()
}

/// The words of a set.
pub fn words(set: &Set) -> [u64; WORDS] {
    let mut words = [0; WORDS];
    put_words(&mut words, 0, set);
    words
}

/// Puts the words of a set into a buffer.
pub fn put_words(words: &mut [u64], at: usize, set: &Set) {
    for s in 0..set.len() {
        if set[s] {
            words[at + s / 64] |= 1 << (s % 64);
        }
    }
}
