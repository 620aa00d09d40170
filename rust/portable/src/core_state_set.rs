// Made by scripts/portable from crates/core_state_set/src/lib.rt, which is proved. Change that one.

// Sets of states (docs/SPECIFICATION.md, "Tables and sets"): 64-bit words, in by value and back by value. State s is the bit of value
// 2^(s mod 64) in word s/64.
//
//   empty, single, first_states                     no state; one; the states below a number
//   contains, is_subset, meets, is_empty, equals    tests
//   union, meet, difference                         word by word (by_word)
//   with, without                                   one state more; one fewer
//   count, smallest                                 the number of states; the least of them
//   in_word                                         the states of one word
//   states, States                                  the states, rising, one after the other
//
// Each contract is an equality with the model's definition of the same thing.

// The model's WORDS is the same number.
pub const WORDS: usize = 8;

pub const WORD_BITS: usize = 64;

// As many as a set can hold.
pub const MAX_STATES: usize = WORD_BITS * WORDS;

#[derive(Clone, Copy, Debug, PartialEq, Eq)]
pub struct StateSet {
    pub words: [u64; WORDS],
}

// The word of the states below n, where state `from` is its lowest bit: ones up to n, as far as the word goes.
fn word_below(n: usize, from: usize) -> u64
{
    if n <= from {
        0
    } else if n - from < WORD_BITS {
        (1 << (n - from)) - 1
    } else {
        !0
    }
}

impl StateSet {
    pub fn empty() -> Self
    {
        StateSet { words: [0; WORDS] }
    }

    // The states below n; all that a set can hold where n is past them.
    pub fn first_states(n: usize) -> Self
    {
        let mut words = [0; WORDS];
        for (w, word) in words.iter_mut().enumerate() {
            *word = word_below(n, WORD_BITS * w);
        }
        StateSet { words }
    }

    pub fn contains(self, s: usize) -> bool
    {
        let w = s / WORD_BITS;
        w < WORDS && self.words[w] >> (s % WORD_BITS) & 1 == 1
    }

    // The set with s; the same set where s is a state that no set can hold.
    pub fn with(mut self, s: usize) -> Self
    {
        let w = s / WORD_BITS;
        if w < WORDS {
            self.words[w] |= 1 << (s % WORD_BITS);
        }
        self
    }

    pub fn single(s: usize) -> Self
    {
        StateSet::empty().with(s)
    }

    // Each word made by f of the two at its place.
    // kept: by place and not by `zip`, of which an invariant knows only what its iterators have left
    fn by_word<F: Fn(u64, u64) -> u64>(mut self, other: StateSet, f: F) -> Self
    {
        for (w, x) in self.words.iter_mut().enumerate() {
            *x = f(*x, other.words[w]);
        }
        self
    }

    pub fn union(self, other: StateSet) -> Self
    {
        self.by_word(other, |x, y| x | y)
    }

    pub fn meet(self, other: StateSet) -> Self
    {
        self.by_word(other, |x, y| x & y)
    }

    pub fn difference(self, other: StateSet) -> Self
    {
        self.by_word(other, |x, y| x & !y)
    }

    pub fn without(self, s: usize) -> Self
    {
        self.difference(StateSet::single(s))
    }

    // kept: a public function with a clause of its own (`same`), by which its callers go
    pub fn equals(self, other: StateSet) -> bool
    {
        self == other
    }

    // The words are joined and tested once: a test of each word would often be mispredicted.
    pub fn is_empty(self) -> bool
    {
        self.words.iter().fold(0, |all, word| all | *word) == 0
    }

    pub fn is_subset(self, other: StateSet) -> bool
    {
        self.difference(other).is_empty()
    }

    // A state in common.
    pub fn meets(self, other: StateSet) -> bool
    {
        !self.meet(other).is_empty()
    }

    // The number of states: the ones in all words.
    pub fn count(self) -> usize
    {
        let mut states = 0;
        for word in self.words.iter() {
            states += word.count_ones() as usize;
        }
        states
    }

    // The least state, or the number of states that a set can hold where there is none.
    // kept: a number and no Option, as the model's `smallest` is total: the path (`walk`) is said by it, of sets that may have no state
    pub fn smallest(self) -> usize
    {
        for (w, word) in self.words.iter().enumerate() {
            if *word != 0 {
                return WORD_BITS * w + word.trailing_zeros() as usize;
            }
        }
        MAX_STATES
    }

    // The states of word w.
    pub fn in_word(self, w: usize) -> Self
    {
        let mut set = StateSet::empty();
        set.words[w] = self.words[w];
        set
    }

    pub fn states(self) -> States
    {
        States {
            words: self.words,
            w: 0,
            rest: self.words[0],
        }
    }
}

// The states of a set, rising: what is left are the ones that `rest` has in word w, and the states in the words after it.
#[derive(Clone, Copy)]
pub struct States {
    pub words: [u64; WORDS],
    pub w: usize,
    pub rest: u64,
}

impl Iterator for States {
    type Item = usize;

    fn next(&mut self) -> Option<usize> {
        while self.rest == 0 {
            if WORDS <= self.w + 1 {
                return None;
            }
            self.w += 1;
            self.rest = self.words[self.w];
        }
        let rest = self.rest;
        self.rest = rest & (rest - 1);
        Some(WORD_BITS * self.w + u64::trailing_zeros(rest) as usize)
    }
}
