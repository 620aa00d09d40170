//! Sets of states, as words.

use super::{MAX_STATES, WORDS};

pub(super) type Words = [u64; WORDS];

#[derive(Clone, Copy, PartialEq, Eq)]
pub(super) struct Set(pub(super) Words);

impl Set {
    pub(super) const EMPTY: Set = Set([0; WORDS]);

    pub(super) fn below(n: usize) -> Set {
        Set(std::array::from_fn(|w| match n.saturating_sub(64 * w) {
            0 => 0,
            bits @ 1..64 => (1 << bits) - 1,
            _ => u64::MAX,
        }))
    }

    pub(super) fn union(self, other: Set) -> Set {
        Set(std::array::from_fn(|w| self.0[w] | other.0[w]))
    }

    pub(super) fn meet(self, other: Set) -> Set {
        Set(std::array::from_fn(|w| self.0[w] & other.0[w]))
    }

    pub(super) fn minus(self, other: Set) -> Set {
        Set(std::array::from_fn(|w| self.0[w] & !other.0[w]))
    }

    pub(super) fn is_empty(self) -> bool {
        self.0.iter().fold(0, |all, word| all | word) == 0
    }

    pub(super) fn inside(self, other: Set) -> bool {
        self.minus(other).is_empty()
    }

    pub(super) fn size(self) -> u32 {
        self.0.iter().map(|word| word.count_ones()).sum()
    }

    pub(super) fn has(self, state: usize) -> bool {
        self.0[state / 64] >> (state % 64) & 1 == 1
    }

    pub(super) fn insert(&mut self, state: usize) {
        self.0[state / 64] |= 1 << (state % 64);
    }

    /// The smallest state, or MAX_STATES.
    pub(super) fn first(self) -> usize {
        (0..WORDS)
            .find(|&w| self.0[w] != 0)
            .map_or(MAX_STATES, |w| 64 * w + self.0[w].trailing_zeros() as usize)
    }

    /// Calls `f` on each state, rising.
    #[inline(always)]
    pub(super) fn each(self, mut f: impl FnMut(usize)) {
        for w in 0..WORDS {
            let mut left = self.0[w];
            while left != 0 {
                f(64 * w + left.trailing_zeros() as usize);
                left &= left - 1;
            }
        }
    }

    /// The states that pass the test.
    #[inline(always)]
    pub(super) fn filter(self, test: impl Fn(usize) -> bool) -> Set {
        let mut kept = Set::EMPTY;
        self.each(|state| {
            if test(state) {
                kept.insert(state);
            }
        });
        kept
    }

    /// The union of the sets that stand at the set's states.
    #[inline(always)]
    pub(super) fn gather(self, sets: &[Words; MAX_STATES]) -> Set {
        let mut all = Set::EMPTY;
        self.each(|state| all = all.union(Set(sets[state])));
        all
    }
}
