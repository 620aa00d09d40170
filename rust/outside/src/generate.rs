//! Tables at random: sizes, steps, initial and marked sets, resting sets and groups are drawn independently,
//! each from a list of kinds, so that all combinations come up.

use crate::table::{Dialogue, MAX_GROUPS, MAX_STATES, Set, WORDS, set_where};

/// A small generator of random numbers (SplitMix64), the same on every machine.
#[derive(Clone)]
pub struct Random(u64);

impl Random {
    pub fn new(seed: u64) -> Random {
        Random(seed)
    }

    /// The generator of one case among many with the same seed.
    pub fn for_case(seed: u64, case: u64) -> Random {
        let mut mixed = Random(seed);
        Random(mixed.word() ^ case.wrapping_mul(0xd134_2543_de82_ef95))
    }

    pub fn word(&mut self) -> u64 {
        self.0 = self.0.wrapping_add(0x9e37_79b9_7f4a_7c15);
        let mut z = self.0;
        z = (z ^ (z >> 30)).wrapping_mul(0xbf58_476d_1ce4_e5b9);
        z = (z ^ (z >> 27)).wrapping_mul(0x94d0_49bb_1331_11eb);
        z ^ (z >> 31)
    }

    /// A number from 0 to bound - 1.
    pub fn below(&mut self, bound: usize) -> usize {
        (self.word() % bound as u64) as usize
    }

    /// A number from low to high, both included.
    pub fn within(&mut self, low: usize, high: usize) -> usize {
        low + self.below(high - low + 1)
    }

    /// True once in a number of times.
    pub fn once_in(&mut self, times: usize) -> bool {
        self.below(times) == 0
    }

    pub fn pick<T: Copy>(&mut self, choices: &[T]) -> T {
        choices[self.below(choices.len())]
    }

    pub fn bytes(&mut self, length: usize) -> Vec<u8> {
        (0..length).map(|_| self.word() as u8).collect()
    }

    /// Numbers of 16 bits, for a buffer of distances.
    pub fn places(&mut self, length: usize) -> Vec<u16> {
        (0..length).map(|_| self.word() as u16).collect()
    }

    pub fn words(&mut self, length: usize) -> Vec<u64> {
        (0..length).map(|_| self.word()).collect()
    }

    /// A set in which each state is with this chance, in parts of 256.
    fn set(&mut self, n: usize, chance: usize) -> Set {
        (0..n).map(|_| self.below(256) < chance).collect()
    }

    /// A set of up to four states.
    fn few(&mut self, n: usize) -> Set {
        let states: Vec<usize> = (0..self.within(1, 4)).map(|_| self.below(n)).collect();
        set_where(n, |s| states.contains(&s))
    }

    /// The numbers below n in a random order.
    pub fn order(&mut self, n: usize) -> Vec<usize> {
        let mut order: Vec<usize> = (0..n).collect();
        for i in (1..n).rev() {
            order.swap(i, self.below(i + 1));
        }
        order
    }
}

/// Shapes that the steps of a table can have.
#[derive(Clone, Copy, Debug, PartialEq, Eq, PartialOrd, Ord)]
pub enum Steps {
    None,
    Sparse,
    FanOut,
    Dense,
    Corridor,
    Cycles,
    Parts,
    Layers,
}

pub const STEPS: [Steps; 8] = [
    Steps::None,
    Steps::Sparse,
    Steps::FanOut,
    Steps::Dense,
    Steps::Corridor,
    Steps::Cycles,
    Steps::Parts,
    Steps::Layers,
];

/// Initial and marked sets.
#[derive(Clone, Copy, Debug, PartialEq, Eq, PartialOrd, Ord)]
pub enum Ends {
    /// The first and the last state, where a corridor or layers begin and end.
    FirstAndLast,
    OneEach,
    Few,
    NoInitial,
    NoMarked,
    Overlapping,
    All,
}

pub const ENDS: [Ends; 7] = [
    Ends::FirstAndLast,
    Ends::OneEach,
    Ends::Few,
    Ends::NoInitial,
    Ends::NoMarked,
    Ends::Overlapping,
    Ends::All,
];

/// Resting sets.
#[derive(Clone, Copy, Debug, PartialEq, Eq, PartialOrd, Ord)]
pub enum Resting {
    /// The dead ends and no other state, as in an old file that was rewritten: no state is a hang.
    DeadEnds,
    /// Every dead end is a hang.
    None,
    All,
    /// All but one of the dead ends, and none of the other states: one hang.
    AllButOne,
    Some,
    /// The states with successors, for which resting means nothing.
    LeadingOn,
    /// The marked states, which are forbidden all the same.
    Marked,
}

pub const RESTING: [Resting; 7] = [
    Resting::DeadEnds,
    Resting::None,
    Resting::All,
    Resting::AllButOne,
    Resting::Some,
    Resting::LeadingOn,
    Resting::Marked,
];

/// Groups of states.
#[derive(Clone, Copy, Debug, PartialEq, Eq, PartialOrd, Ord)]
pub enum Groups {
    None,
    Singletons,
    Intervals,
    Overlapping,
    Nested,
    Trivial,
}

pub const GROUPS: [Groups; 6] = [
    Groups::None,
    Groups::Singletons,
    Groups::Intervals,
    Groups::Overlapping,
    Groups::Nested,
    Groups::Trivial,
];

/// What a table was drawn from.
#[derive(Clone, Copy, Debug)]
pub struct Kind {
    pub n: usize,
    pub steps: Steps,
    pub ends: Ends,
    pub resting: Resting,
    pub groups: Groups,
    /// Whether some states lost their steps.
    pub cut: bool,
    /// Whether the states were renamed at random at the end.
    pub renamed: bool,
}

impl Kind {
    /// A kind at random. Small tables, where everything can be tried, and those at the edges of words
    /// come up more often than others.
    pub fn random(random: &mut Random) -> Kind {
        let n = match random.below(10) {
            0..4 => random.within(1, 6),
            4..8 => random.within(1, 40),
            8 => (64 * random.within(1, WORDS) + random.within(0, 2) - 1).min(MAX_STATES),
            _ => random.within(1, MAX_STATES),
        };
        let ends = match random.below(3) {
            0 => Ends::FirstAndLast,
            _ => random.pick(&ENDS),
        };
        // Hangs end most rounds early, so a good part of the tables has none.
        let resting = match random.below(3) {
            0 => Resting::DeadEnds,
            _ => random.pick(&RESTING),
        };
        Kind {
            n,
            steps: random.pick(&STEPS),
            ends,
            resting,
            cut: random.once_in(3),
            groups: random.pick(&GROUPS),
            renamed: random.once_in(2),
        }
    }

    pub fn dialogue(&self, random: &mut Random) -> Dialogue {
        let n = self.n;
        let (initial, marked) = ends(self.ends, n, random);
        let mut dialogue = Dialogue {
            n,
            initial,
            marked,
            resting: vec![false; n],
            groups: groups(self.groups, n, random),
            rows: rows(self.steps, n, random),
        };
        if self.cut {
            for _ in 0..random.within(1, 4) {
                dialogue.rows[random.below(n)].fill(false);
            }
        }
        dialogue.resting = resting(self.resting, &dialogue, random);
        if self.renamed {
            rename(&dialogue, &random.order(n))
        } else {
            dialogue
        }
    }
}

/// The successors of each state.
pub fn rows(steps: Steps, n: usize, random: &mut Random) -> Vec<Set> {
    let mut rows = vec![vec![false; n]; n];
    match steps {
        Steps::None => {}
        Steps::Sparse => {
            for _ in 0..random.within(n / 2, 2 * n) {
                rows[random.below(n)][random.below(n)] = true;
            }
        }
        Steps::FanOut => {
            let fan_out = random.pick(&[1, 2, 4, 16]);
            add_fan_out(&mut rows, fan_out, random);
        }
        Steps::Dense => {
            let chance = random.pick(&[64, 128, 250, 256]);
            for row in &mut rows {
                *row = random.set(n, chance);
            }
        }
        // Each state to the next, and in some corridors a few steps back or on the spot.
        Steps::Corridor => {
            for s in 1..n {
                rows[s - 1][s] = true;
            }
            if random.once_in(2) {
                for _ in 0..random.within(0, n / 4 + 1) {
                    let from = random.below(n);
                    rows[from][random.below(from + 1)] = true;
                }
            }
            // A gap makes the far end unreachable, but the cover may not see it at once.
            if random.once_in(3) && n > 1 {
                let gap = random.below(n - 1);
                rows[gap][gap + 1] = false;
                rows[gap][random.below(gap + 1)] = true;
            }
        }
        Steps::Cycles => {
            let length = random.within(1, n);
            for s in 0..n {
                let start = s / length * length;
                let next = if s + 1 == n || (s + 1) % length == 0 {
                    start
                } else {
                    s + 1
                };
                rows[s][next] = true;
            }
            if random.once_in(3) {
                rows[random.below(n)][random.below(n)] = true;
            }
        }
        // Steps stay within parts, so most marked states cannot be reached.
        Steps::Parts => {
            let parts = random.within(2, 5);
            for _ in 0..3 * n {
                let (from, to) = (random.below(n), random.below(n));
                if from * parts / n == to * parts / n {
                    rows[from][to] = true;
                }
            }
        }
        // Each state leads to some of the next few, so the distances vary, and dead ends remain.
        Steps::Layers => {
            let reach = random.within(1, 9);
            for s in 0..n {
                for t in s + 1..(s + 1 + reach).min(n) {
                    rows[s][t] = random.once_in(2);
                }
            }
        }
    }
    rows
}

/// Adds a number of successors to each state, some of which may be the same.
pub fn add_fan_out(rows: &mut [Set], fan_out: usize, random: &mut Random) {
    let n = rows.len();
    for row in rows {
        for _ in 0..fan_out {
            row[random.below(n)] = true;
        }
    }
}

fn ends(ends: Ends, n: usize, random: &mut Random) -> (Set, Set) {
    let none = || vec![false; n];
    let one = |state: usize| set_where(n, |s| s == state);
    match ends {
        Ends::FirstAndLast => (one(0), one(n - 1)),
        Ends::OneEach => (one(random.below(n)), one(random.below(n))),
        Ends::Few => (random.few(n), random.few(n)),
        Ends::NoInitial => (none(), random.set(n, 60)),
        Ends::NoMarked => (random.set(n, 60), none()),
        Ends::Overlapping => {
            let both = random.below(n);
            let (mut initial, mut marked) = (random.few(n), random.few(n));
            initial[both] = true;
            marked[both] = true;
            (initial, marked)
        }
        Ends::All => match random.below(3) {
            0 => (vec![true; n], random.set(n, 60)),
            1 => (random.set(n, 60), vec![true; n]),
            _ => (vec![true; n], vec![true; n]),
        },
    }
}

fn resting(resting: Resting, dialogue: &Dialogue, random: &mut Random) -> Set {
    let n = dialogue.n;
    let dead_ends = dialogue.dead_ends();
    match resting {
        Resting::DeadEnds => dead_ends,
        Resting::None => vec![false; n],
        Resting::All => vec![true; n],
        Resting::AllButOne => {
            let one = random.below(n);
            let hang = (0..n).map(|i| (one + i) % n).find(|&s| dead_ends[s]);
            set_where(n, |s| dead_ends[s] && Some(s) != hang)
        }
        Resting::Some => random.set(n, 128),
        Resting::LeadingOn => set_where(n, |s| !dead_ends[s]),
        Resting::Marked => dialogue.marked.clone(),
    }
}

fn groups(groups: Groups, n: usize, random: &mut Random) -> Vec<Set> {
    let count = match random.below(4) {
        0 => random.within(1, 3),
        1 => MAX_GROUPS,
        _ => random.within(0, MAX_GROUPS),
    };
    match groups {
        Groups::None => Vec::new(),
        Groups::Singletons => {
            let order = random.order(n);
            order
                .iter()
                .take(count)
                .map(|&state| set_where(n, |s| s == state))
                .collect()
        }
        Groups::Intervals => (0..count)
            .map(|j| set_where(n, |s| s * count / n == j))
            .collect(),
        Groups::Overlapping => {
            let chance = random.pick(&[16, 64, 128, 200, 250]);
            (0..count).map(|_| random.set(n, chance)).collect()
        }
        Groups::Nested => (0..count)
            .map(|j| set_where(n, |s| s * (count + 1) / n <= j))
            .collect(),
        // Empty, full and repeated groups.
        Groups::Trivial => {
            let repeated = random.set(n, 128);
            (0..count)
                .map(|_| match random.below(3) {
                    0 => vec![false; n],
                    1 => vec![true; n],
                    _ => repeated.clone(),
                })
                .collect()
        }
    }
}

/// The dialogue with state s called order[s].
fn rename(dialogue: &Dialogue, order: &[usize]) -> Dialogue {
    let renamed = |set: &Set| {
        let mut moved = vec![false; set.len()];
        for s in 0..set.len() {
            moved[order[s]] = set[s];
        }
        moved
    };
    let mut rows = vec![Vec::new(); dialogue.n];
    for s in 0..dialogue.n {
        rows[order[s]] = renamed(&dialogue.rows[s]);
    }
    Dialogue {
        n: dialogue.n,
        initial: renamed(&dialogue.initial),
        marked: renamed(&dialogue.marked),
        resting: renamed(&dialogue.resting),
        groups: dialogue.groups.iter().map(renamed).collect(),
        rows,
    }
}
