//! Sets of states, and the states that a set has room for.

use crate::{MAX_STATES, Refused, SET_WORDS};
use std::fmt;
use std::iter::FusedIterator;

/// The number of a state that a set has room for: 0 to [`MAX_STATES`] − 1. A greater one is refused where the state is made, since a set
/// could only lose it, and a marked state that is lost is a wrong *safe*.
///
/// ```
/// use shuntberry::{Refused, State};
///
/// let state = State::try_from(511)?;
/// assert_eq!(usize::from(state), 511);
/// assert_eq!(State::try_from(512), Err(Refused::STRAY_BIT));
/// # Ok::<(), shuntberry::Refused>(())
/// ```
#[derive(Clone, Copy, Debug, PartialEq, Eq, PartialOrd, Ord, Hash)]
pub struct State(u16);

impl State {
    /// The state's word in a set, and its bit there.
    fn place(self) -> (usize, u64) {
        let number = usize::from(self.0);
        (number / 64, 1 << (number % 64))
    }

    /// Puts the state into the set that begins at a word of a buffer.
    pub(crate) fn put_at(self, buffer: &mut [u64], at: usize) {
        let (word, bit) = self.place();
        buffer[at + word] |= bit;
    }
}

/// Refused with 17, as a set is that holds a state from n up: no table has such a state.
impl TryFrom<usize> for State {
    type Error = Refused;

    fn try_from(number: usize) -> Result<State, Refused> {
        match u16::try_from(number) {
            Ok(state) if number < MAX_STATES => Ok(State(state)),
            _ => Err(Refused::STRAY_BIT),
        }
    }
}

impl From<State> for usize {
    fn from(state: State) -> usize {
        usize::from(state.0)
    }
}

impl fmt::Display for State {
    fn fmt(&self, out: &mut fmt::Formatter<'_>) -> fmt::Result {
        self.0.fmt(out)
    }
}

/// A set of states: state s is the bit of value 2^(s mod 64) in word s / 64.
///
/// ```
/// use shuntberry::{Refused, StateSet};
///
/// let mut set = StateSet::from_states([70, 0])?;
/// assert!(set.insert(2)? && !set.insert(2)?);
/// assert!(set.states().eq([0, 2, 70]));
/// assert!(set.remove(70) && !set.remove(70));
/// assert_eq!(set, StateSet([0b101, 0, 0, 0, 0, 0, 0, 0]));
///
/// // A state that no table has is no state that gets lost.
/// assert_eq!(set.insert(512), Err(Refused::STRAY_BIT));
/// assert_eq!(StateSet::from_states([1, 512]), Err(Refused::STRAY_BIT));
///
/// // States that fit are collected as they are.
/// let even: StateSet = set.into_iter().filter(|&state| usize::from(state) % 2 == 0).collect();
/// assert!(even.is_subset(set) && set.difference(even).is_empty());
/// # Ok::<(), shuntberry::Refused>(())
/// ```
#[derive(Clone, Copy, Default, PartialEq, Eq, Hash)]
pub struct StateSet(pub [u64; SET_WORDS]);

impl StateSet {
    /// The empty set.
    pub const fn new() -> StateSet {
        StateSet([0; SET_WORDS])
    }

    /// The set of these states. Refused with 17 if one is [`MAX_STATES`] or more.
    pub fn from_states(states: impl IntoIterator<Item = usize>) -> Result<StateSet, Refused> {
        states.into_iter().map(State::try_from).collect()
    }

    /// Whether the state is in the set.
    pub fn contains(self, state: usize) -> bool {
        self.0
            .get(state / 64)
            .is_some_and(|word| word >> (state % 64) & 1 == 1)
    }

    /// Puts a state into the set, and says whether it is new there. Refused with 17 if it is [`MAX_STATES`] or more; the set is then as it was.
    pub fn insert(&mut self, state: usize) -> Result<bool, Refused> {
        Ok(self.put(State::try_from(state)?))
    }

    fn put(&mut self, state: State) -> bool {
        let (word, bit) = state.place();
        let new = self.0[word] & bit == 0;
        self.0[word] |= bit;
        new
    }

    /// Takes a state out of the set, and says whether it was in it.
    pub fn remove(&mut self, state: usize) -> bool {
        let held = self.contains(state);
        if let Ok(state) = State::try_from(state) {
            let (word, bit) = state.place();
            self.0[word] &= !bit;
        }
        held
    }

    /// The states in the set, rising.
    pub fn states(self) -> impl ExactSizeIterator<Item = usize> {
        self.into_iter().map(usize::from)
    }

    /// How many states are in the set.
    pub fn len(self) -> usize {
        self.0.iter().map(|word| word.count_ones() as usize).sum()
    }

    /// Whether no state is in the set.
    pub fn is_empty(self) -> bool {
        self == StateSet::new()
    }

    /// The states of either set.
    pub fn union(self, other: StateSet) -> StateSet {
        self.with(other, |a, b| a | b)
    }

    /// The states of both sets.
    pub fn intersection(self, other: StateSet) -> StateSet {
        self.with(other, |a, b| a & b)
    }

    /// The states of this set that are not in the other one.
    pub fn difference(self, other: StateSet) -> StateSet {
        self.with(other, |a, b| a & !b)
    }

    /// Whether every state of this set is in the other one.
    pub fn is_subset(self, other: StateSet) -> bool {
        self.difference(other).is_empty()
    }

    fn with(self, other: StateSet, join: fn(u64, u64) -> u64) -> StateSet {
        let mut words = self.0;
        for (word, other) in words.iter_mut().zip(other.0) {
            *word = join(*word, other);
        }
        StateSet(words)
    }
}

/// The states, as in `{0, 2, 70}`.
impl fmt::Debug for StateSet {
    fn fmt(&self, out: &mut fmt::Formatter<'_>) -> fmt::Result {
        out.debug_set().entries(self.states()).finish()
    }
}

impl Extend<State> for StateSet {
    fn extend<I: IntoIterator<Item = State>>(&mut self, states: I) {
        for state in states {
            self.put(state);
        }
    }
}

impl FromIterator<State> for StateSet {
    fn from_iter<I: IntoIterator<Item = State>>(states: I) -> StateSet {
        let mut set = StateSet::new();
        set.extend(states);
        set
    }
}

/// The states that a set has left to give, rising.
#[derive(Clone, Debug)]
pub struct States(StateSet);

impl IntoIterator for StateSet {
    type Item = State;
    type IntoIter = States;

    fn into_iter(self) -> States {
        States(self)
    }
}

impl Iterator for States {
    type Item = State;

    fn next(&mut self) -> Option<State> {
        let words = &mut self.0.0;
        let at = words.iter().position(|&word| word != 0)?;
        let bit = words[at].trailing_zeros() as usize;
        words[at] &= words[at] - 1;
        State::try_from(64 * at + bit).ok()
    }

    fn size_hint(&self) -> (usize, Option<usize>) {
        let left = self.0.len();
        (left, Some(left))
    }
}

impl ExactSizeIterator for States {}
impl FusedIterator for States {}
