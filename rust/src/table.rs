//! A table that owns its store, with the calls as methods.

use crate::builder::{NeedsInitial, TableBuilder, put_step};
use crate::checking::{CHECK_TEXT_BYTES, Checked, check};
use crate::text::Names;
use crate::{
    FILE_BYTES, INITIAL, MARKED, MAX_GROUPS, MAX_STATES, ModalVerdict, OWN_VERSION, PATH_PLACES,
    POSSIBLE_WORDS, RESTING, Refused, Replay, SET_WORDS, STORE_WORDS, State, StateSet, UNREACHABLE,
    Verdict, add_step, decide, decide_modal, distances, generate, group, open, possible_row, read,
    remove_step, replay, row, shortest_path, version, within, write,
};
use std::fmt;
use std::hash::{Hash, Hasher};

/// A dialogue table that the library accepts, in a store of its own.
///
/// It is accepted where it is made, out of states, sets and steps ([`Table::builder`]), a file ([`Table::from_bytes`]), a text ([`Table::from_text`]), a
/// store ([`Table::from_store`]) or a seed ([`Table::generate`]), and never changes after that: so a mistake in it (14, 15 and 17) is refused there, and a method only for what else
/// it is given, as it says. Where a method names no refusal, the proved library gives none; what is left is [`Refused::UNKNOWN_ANSWER`], of a
/// library that is not the one that this package came with. With one of another version no table is made
/// ([`Refused::OTHER_VERSION`]). Nothing panics.
///
/// ```
/// use shuntberry::{Decision, MAX_ALLOWANCE, Table};
///
/// // Three states; 0 is initial, 2 is marked forbidden; steps 0 → 0 and 1 → 2.
/// let table = Table::builder(3).initial([0]).marked([2]).steps([(0, 0), (1, 2)]).build()?;
/// assert!(table.decide(MAX_ALLOWANCE)?.is_safe());
///
/// // With a step 0 → 1, 2 can be reached.
/// let mut session = table.session()?;
/// session.add_step(0, 1)?;
/// let decision = session.table().decide(MAX_ALLOWANCE)?;
/// assert!(matches!(decision, Decision::Unsafe { path, .. } if path == [0, 1, 2]));
///
/// // A file, and the table in it.
/// let file = session.table().to_bytes(17)?;
/// assert_eq!(Table::from_bytes(&file, 17)?, *session.table());
/// # Ok::<(), shuntberry::Refused>(())
/// ```
#[derive(Clone)]
pub struct Table {
    n: usize,
    g: usize,
    /// Just [`STORE_WORDS`] words, which the library accepts with `n` and `g`.
    store: Vec<u64>,
    pub(crate) names: Names,
}

/// Tables are equal that have the same sets. Names make no difference: a file holds none.
impl PartialEq for Table {
    fn eq(&self, other: &Table) -> bool {
        (self.n, self.g, &self.store) == (other.n, other.g, &other.store)
    }
}

impl Eq for Table {}

impl Hash for Table {
    fn hash<H: Hasher>(&self, hasher: &mut H) {
        (self.n, self.g, &self.store).hash(hasher);
    }
}

/// What [`Table::decide`] found. It is no `bool`, has no default, and is warned of where it is not looked at:
///
/// ```compile_fail,E0308
/// # use shuntberry::{MAX_ALLOWANCE, Refused, Table};
/// # fn told(table: &Table) -> Result<(), Refused> {
/// if table.decide(MAX_ALLOWANCE)? {} // a decision is no bool
/// # Ok(()) }
/// ```
///
/// ```compile_fail,E0599
/// let decision = shuntberry::Decision::default(); // nothing was decided
/// ```
///
/// ```compile_fail
/// #![deny(unused_must_use)]
/// # use shuntberry::{MAX_ALLOWANCE, Refused, Table};
/// # fn told(table: &Table) -> Result<(), Refused> {
/// table.decide(MAX_ALLOWANCE)?; // and what is it?
/// # Ok(()) }
/// ```
#[derive(Clone, Debug, PartialEq, Eq)]
#[must_use = "a decision that is not looked at may be unsafe"]
pub enum Decision {
    /// No forbidden state can be reached from an initial one.
    Safe {
        /// The number of refinements.
        count: u32,
        /// A set with the initial states, the successors of each of its states, and no forbidden state.
        invariant: StateSet,
    },
    /// A forbidden state can be reached.
    Unsafe {
        /// The number of refinements.
        count: u32,
        /// The smallest of the shortest paths from an initial to a forbidden state.
        path: Vec<usize>,
    },
    /// The allowance was used up before either was known.
    Undecided {
        /// The number of refinements.
        count: u32,
    },
    /// The table has no states. [`decide`] calls such a draft safe, but it is nothing to release.
    Draft,
}

impl Decision {
    /// Whether no forbidden state can be reached, of a table that has states. A table in which nothing is initial or nothing is forbidden is safe too:
    /// [`Table::is_vacuous`].
    #[must_use]
    pub fn is_safe(&self) -> bool {
        matches!(self, Decision::Safe { .. })
    }
}

/// What [`Table::decide_modal`] found of the choices between the certain and the possible steps.
#[derive(Clone, Debug, PartialEq, Eq)]
#[must_use = "a decision that is not looked at may be unsafe"]
pub enum ModalDecision {
    /// Every choice is safe.
    Safe {
        /// What a release check gives on the possible steps: an invariant of every choice.
        invariant: StateSet,
    },
    /// Every choice is unsafe.
    Unsafe {
        /// The smallest of the shortest paths on the certain steps, so a path of every choice.
        path: Vec<usize>,
    },
    /// The certain steps alone are a safe choice, all possible steps an unsafe one.
    Depends {
        /// What a release check gives on the certain steps: an invariant of that choice.
        invariant: StateSet,
        /// The smallest of the shortest paths on the possible steps.
        path: Vec<usize>,
    },
    /// The table has no states. [`decide_modal`] calls such a draft safe, but it is nothing to release.
    Draft,
}

impl ModalDecision {
    /// Whether every choice is safe, of a table that has states. A table in which nothing is initial or nothing is forbidden is safe too:
    /// [`Table::is_vacuous`], of the table of all possible steps.
    #[must_use]
    pub fn is_safe(&self) -> bool {
        matches!(self, ModalDecision::Safe { .. })
    }
}

/// What a release check says of a table ([`Table::check`]), with the text that the program `check` prints for its file.
#[derive(Clone, Debug, PartialEq, Eq)]
#[must_use = "a report that is not looked at may be of an unsafe table"]
pub enum Report {
    /// No forbidden state can be reached.
    Safe {
        /// The states and groups, the refinements, an invariant: three lines.
        text: String,
    },
    /// A forbidden state can be reached.
    Unsafe {
        /// The states and groups, the refinements, the path: three lines.
        text: String,
    },
    /// The table has no states: nothing to release, though the text says safe.
    Draft {
        /// Three lines, as for a safe table.
        text: String,
    },
}

impl Report {
    /// Whether no forbidden state can be reached, of a table that has states. A table in which nothing is initial or nothing is forbidden is safe too:
    /// [`Table::is_vacuous`].
    #[must_use]
    pub fn is_safe(&self) -> bool {
        matches!(self, Report::Safe { .. })
    }

    /// The three lines.
    pub fn text(&self) -> &str {
        match self {
            Report::Safe { text } | Report::Unsafe { text } | Report::Draft { text } => text,
        }
    }
}

/// Why a state is forbidden, or that it is not.
#[derive(Clone, Copy, Debug, PartialEq, Eq, Hash)]
#[must_use = "an answer that is not looked at may be that the state is forbidden"]
pub enum Forbidden {
    /// It is not forbidden.
    Not,
    /// It is marked, whether it is a hang too or not.
    Marked,
    /// It is a hang: it leads nowhere, and does not rest.
    Hang,
}

/// Where a table comes from.
impl Table {
    /// Begins a table of `n` states, whose initial states, marked states and steps come next: [`TableBuilder`].
    pub fn builder(n: usize) -> NeedsInitial {
        TableBuilder::of(n)
    }

    /// The table in the bytes of a file that was made for a site. No bytes are an untouched draft, a table without states: so a read that failed must
    /// not be passed on as one of no bytes.
    ///
    /// Refused as [`read`] is.
    ///
    /// ```
    /// use shuntberry::{Refused, Table};
    ///
    /// assert!(Table::from_bytes(b"", 0)?.is_draft());
    /// assert_eq!(Table::from_bytes(b"no table", 0), Err(Refused::INPUT_LENGTH));
    /// # Ok::<(), shuntberry::Refused>(())
    /// ```
    pub fn from_bytes(file: &[u8], site: usize) -> Result<Table, Refused> {
        let mut store = vec![0; STORE_WORDS];
        let sizes = read(file, site, &mut store)?;
        Table::of_store(store, sizes.n, sizes.g)
    }

    /// The table of `n` states and `g` groups in a store, of which the first [`STORE_WORDS`] words are copied.
    ///
    /// Refused as [`within`] is.
    pub fn from_store(store: &[u64], n: usize, g: usize) -> Result<Table, Refused> {
        let words = store.get(..STORE_WORDS).ok_or(Refused::STORE_SHORT)?;
        Table::of_store(words.to_vec(), n, g)
    }

    /// The table that a seed gives, as [`generate`] says. Refused as that is.
    ///
    /// ```
    /// use shuntberry::Table;
    ///
    /// let table = Table::generate(7, 3, 2)?;
    /// assert!(table.steps().eq([(0, 0), (0, 1), (1, 1), (1, 2), (2, 1), (2, 2)]));
    /// # Ok::<(), shuntberry::Refused>(())
    /// ```
    pub fn generate(seed: u32, n: usize, fan_out: usize) -> Result<Table, Refused> {
        let mut store = vec![0; STORE_WORDS];
        generate(seed, n, fan_out, &mut store)?;
        Table::of_store(store, n, 0)
    }

    /// Takes a store of [`STORE_WORDS`] words, if the library accepts it.
    pub(crate) fn of_store(store: Vec<u64>, n: usize, g: usize) -> Result<Table, Refused> {
        if version() != OWN_VERSION {
            return Err(Refused::OTHER_VERSION);
        }
        within(&store, n, g, 0)?;
        if n > MAX_STATES || g > MAX_GROUPS {
            return Err(Refused::UNKNOWN_ANSWER); // no library of ours accepts it, and there are no such rows to read
        }
        Ok(Table {
            n,
            g,
            store,
            names: Names::new(),
        })
    }
}

/// What is in it.
impl Table {
    /// The number of states.
    pub fn n(&self) -> usize {
        self.n
    }

    /// The number of groups.
    pub fn g(&self) -> usize {
        self.g
    }

    /// Whether the table has no states: an untouched draft, which is nothing to release.
    pub fn is_draft(&self) -> bool {
        self.n == 0
    }

    /// Whether no state is initial or none is forbidden, so that the table is safe whatever else is in it: release no such table. A draft is vacuous, too.
    /// Beside [`Table::decide_modal`] ask the table of all possible steps, since a state that has one is no hang there.
    ///
    /// ```
    /// use shuntberry::{MAX_ALLOWANCE, Table};
    ///
    /// // Nobody said what is forbidden, and no state is a hang.
    /// let table = Table::builder(2).initial([0]).marked([]).steps([(0, 1), (1, 0)]).build()?;
    /// assert!(table.decide(MAX_ALLOWANCE)?.is_safe() && table.is_vacuous());
    /// # Ok::<(), shuntberry::Refused>(())
    /// ```
    #[must_use]
    pub fn is_vacuous(&self) -> bool {
        self.initial().is_empty() || self.forbidden().is_empty()
    }

    /// The states in which a session can start.
    pub fn initial(&self) -> StateSet {
        self.set(INITIAL)
    }

    /// The states that are marked forbidden. They are not all that is forbidden: [`Table::forbidden`].
    pub fn marked(&self) -> StateSet {
        self.set(MARKED)
    }

    /// The states that may lead nowhere.
    pub fn resting(&self) -> StateSet {
        self.set(RESTING)
    }

    /// The groups.
    pub fn groups(&self) -> impl ExactSizeIterator<Item = StateSet> {
        (0..self.g).map(|j| self.set(group(j)))
    }

    /// The states that one step leads to from a state; none if there is no such state. A state that leads nowhere has an empty set.
    pub fn successors(&self, state: usize) -> Option<StateSet> {
        (state < self.n).then(|| self.set(row(state)))
    }

    /// The steps, rising.
    pub fn steps(&self) -> impl Iterator<Item = (usize, usize)> {
        let from = |state| self.set(row(state)).states().map(move |to| (state, to));
        (0..self.n).flat_map(from)
    }

    /// The states that are forbidden: those that are marked, and those that lead nowhere and do not rest.
    pub fn forbidden(&self) -> StateSet {
        let every = StateSet([u64::MAX; SET_WORDS]).into_iter().take(self.n);
        let leads_nowhere = |&state: &State| self.set(row(state.into())).is_empty();
        let dead_ends: StateSet = every.filter(leads_nowhere).collect();
        self.marked().union(dead_ends.difference(self.resting()))
    }

    /// Why a state is forbidden, if it is; none if there is no such state.
    ///
    /// ```
    /// use shuntberry::{Forbidden, Table};
    ///
    /// let table = Table::builder(4).initial([0]).marked([1]).steps([(0, 1)]).resting([3]).build()?;
    /// assert_eq!(table.why_forbidden(0), Some(Forbidden::Not));
    /// assert_eq!(table.why_forbidden(1), Some(Forbidden::Marked));
    /// assert_eq!(table.why_forbidden(2), Some(Forbidden::Hang));
    /// assert_eq!(table.why_forbidden(3), Some(Forbidden::Not));
    /// assert_eq!(table.why_forbidden(4), None);
    /// # Ok::<(), shuntberry::Refused>(())
    /// ```
    pub fn why_forbidden(&self, state: usize) -> Option<Forbidden> {
        let leads_nowhere = self.successors(state)?.is_empty();
        Some(if self.marked().contains(state) {
            Forbidden::Marked
        } else if leads_nowhere && !self.resting().contains(state) {
            Forbidden::Hang
        } else {
            Forbidden::Not
        })
    }

    /// The store, as the calls that take one expect it with [`Table::n`] and [`Table::g`].
    pub fn store(&self) -> &[u64] {
        &self.store
    }

    /// The store, for a caller who goes on with the calls that take one.
    pub fn into_store(self) -> Vec<u64> {
        self.store
    }

    /// The set that begins at a word of the store.
    fn set(&self, at: usize) -> StateSet {
        let mut words = [0; SET_WORDS];
        words.copy_from_slice(&self.store[at..at + SET_WORDS]);
        StateSet(words)
    }
}

/// The calls.
impl Table {
    /// Decides whether a forbidden state can be reached, with at most `allowance` refinements. With [`MAX_ALLOWANCE`](crate::MAX_ALLOWANCE), a release
    /// check, it is never undecided.
    ///
    /// Refused with 20.
    pub fn decide(&self, allowance: usize) -> Result<Decision, Refused> {
        let mut path = [0; PATH_PLACES];
        let verdict = decide(&self.store, self.n, self.g, allowance, &mut path)?;
        Ok(match verdict {
            Verdict::Safe { .. } if self.is_draft() => Decision::Draft,
            Verdict::Safe { count, invariant } => Decision::Safe { count, invariant },
            Verdict::Unsafe { count, path } => Decision::Unsafe {
                count,
                path: numbers(path),
            },
            Verdict::Undecided { count } => Decision::Undecided { count },
        })
    }

    /// A release check, with the text that the program `check` prints for the table's file, at whatever site. (For bytes that are to be released as they
    /// are, [`checking::check`](check) goes from them to verdict and text in one call.)
    ///
    /// ```
    /// use shuntberry::Table;
    ///
    /// let report = Table::builder(3).initial([0]).marked([2]).steps([(0, 0), (1, 2)]).build()?.check()?;
    /// assert!(report.is_safe());
    /// assert_eq!(report.text(), "states 3 groups 0\nsafe refinements 1\ninvariant 1: 0\n");
    /// # Ok::<(), shuntberry::Refused>(())
    /// ```
    pub fn check(&self) -> Result<Report, Refused> {
        let site = 0; // any: the text does not depend on it
        let file = self.to_bytes(site)?;
        let mut text = [0; CHECK_TEXT_BYTES];
        match check(&file, site, &mut text)? {
            Checked::Safe { n, text } if n == self.n => Ok(if self.is_draft() {
                Report::Draft { text: words(text)? }
            } else {
                Report::Safe { text: words(text)? }
            }),
            Checked::Unsafe { n, text } if n == self.n => Ok(Report::Unsafe { text: words(text)? }),
            Checked::RefusedFile { refusal, .. } => Err(refusal),
            _ => Err(Refused::UNKNOWN_ANSWER),
        }
    }

    /// The smallest of the shortest paths from an initial to a forbidden state, if there is one.
    pub fn shortest_path(&self) -> Result<Option<Vec<usize>>, Refused> {
        let mut path = [0; PATH_PLACES];
        let found = shortest_path(&self.store, self.n, self.g, &mut path)?;
        Ok(found.map(numbers))
    }

    /// For each state the number of steps to the nearest forbidden one, if one can be reached.
    ///
    /// ```
    /// use shuntberry::Table;
    ///
    /// let table = Table::builder(4).initial([0]).marked([2]).steps([(0, 1), (1, 2)]).resting([3]).build()?;
    /// assert_eq!(table.distances()?, [Some(2), Some(1), Some(0), None]);
    /// assert!(table.within(2)? && !table.within(1)?);
    /// # Ok::<(), shuntberry::Refused>(())
    /// ```
    pub fn distances(&self) -> Result<Vec<Option<usize>>, Refused> {
        let mut found = vec![0; self.n];
        distances(&self.store, self.n, self.g, &mut found)?;
        let steps = |&steps: &u16| (steps != UNREACHABLE).then_some(usize::from(steps));
        Ok(found.iter().map(steps).collect())
    }

    /// Whether there is a path of at most `k` steps from an initial to a forbidden state.
    pub fn within(&self, k: usize) -> Result<bool, Refused> {
        within(&self.store, self.n, self.g, k)
    }

    /// Walks a pump's log through the table, as [`replay`] does: a list of state numbers of two bytes each, low byte first.
    ///
    /// Refused with 25 or 26.
    pub fn replay(&self, log: &[u8]) -> Result<Replay, Refused> {
        replay(&self.store, self.n, self.g, log)
    }

    /// The bytes of the table's file for a site; none for a draft.
    ///
    /// Refused with 24.
    pub fn to_bytes(&self, site: usize) -> Result<Vec<u8>, Refused> {
        let mut output = vec![0; FILE_BYTES];
        let length = write(&self.store, self.n, self.g, site, &mut output)?.len();
        output.truncate(length);
        Ok(output)
    }

    /// Decides the table for every choice of steps that exist only on pumps with an option bought, as [`decide_modal`] does. The table's steps are the
    /// certain ones; `possible` has all that are possible, with each certain one among them. A state that has possible steps is no hang here, even in a
    /// choice that gives it none; for [`Table::decide`] it is one if it has no certain step and does not rest. So release each pump's own table, decided by
    /// itself, and not the family.
    ///
    /// Refused with 17 or 28, as [`decide_modal`] is.
    ///
    /// ```
    /// use shuntberry::{ModalDecision, Refused, Table};
    ///
    /// // With an option bought there is a step 0 → 1.
    /// let table = Table::builder(3).initial([0]).marked([2]).steps([(0, 0), (1, 2)]).build()?;
    /// let ModalDecision::Depends { invariant, path } = table.decide_modal(table.steps().chain([(0, 1)]))? else {
    ///     panic!("2 can be reached with the option alone");
    /// };
    /// assert!(invariant.states().eq([0]));
    /// assert_eq!(path, [0, 1, 2]);
    ///
    /// assert!(table.decide_modal(table.steps())?.is_safe());
    /// assert_eq!(table.decide_modal([(0, 1)]), Err(Refused::NOT_POSSIBLE));
    /// # Ok::<(), shuntberry::Refused>(())
    /// ```
    pub fn decide_modal(
        &self,
        possible: impl IntoIterator<Item = (usize, usize)>,
    ) -> Result<ModalDecision, Refused> {
        let mut rows = vec![0; POSSIBLE_WORDS];
        for (from, to) in possible {
            put_step(&mut rows, possible_row, from, to)?;
        }
        let mut path = [0; PATH_PLACES];
        let verdict = decide_modal(&self.store, self.n, self.g, &rows, &mut path)?;
        Ok(match verdict {
            ModalVerdict::Safe { .. } if self.is_draft() => ModalDecision::Draft,
            ModalVerdict::Safe { invariant } => ModalDecision::Safe { invariant },
            ModalVerdict::Unsafe { path } => ModalDecision::Unsafe {
                path: numbers(path),
            },
            ModalVerdict::Depends { invariant, path } => ModalDecision::Depends {
                invariant,
                path: numbers(path),
            },
        })
    }

    /// The states that can be reached from the initial ones, these included.
    pub fn reachable(&self) -> Result<StateSet, Refused> {
        open(&self.store, self.n, self.g)
    }

    /// Opens the table for edits of its steps.
    pub fn session(self) -> Result<TableSession, Refused> {
        let reachable = self.reachable()?;
        Ok(TableSession {
            table: self,
            reachable,
        })
    }
}

/// The sizes and sets, without the words of the store.
impl fmt::Debug for Table {
    fn fmt(&self, out: &mut fmt::Formatter<'_>) -> fmt::Result {
        out.debug_struct("Table")
            .field("n", &self.n)
            .field("initial", &self.initial())
            .field("marked", &self.marked())
            .field("resting", &self.resting())
            .field("groups", &self.groups().collect::<Vec<_>>())
            .field("steps", &self.steps().collect::<Vec<_>>())
            .field("names", &self.names)
            .finish()
    }
}

/// Steps drawn and rubbed out in a table, with the states that can be reached lit throughout: a [`Session`](crate::Session) that owns its table. After
/// every edit, refused ones included, the set is the one that [`Table::reachable`] gives for the table as edited. Any edit may change the verdict:
/// [`TableSession::table`] is the table to decide again.
///
/// ```
/// use shuntberry::{Refused, Table};
///
/// // 0 is initial; steps 0 → 1 and 2 → 3.
/// let mut session = Table::builder(4).initial([0]).marked([]).steps([(0, 1), (2, 3)]).build()?.session()?;
/// assert!(session.reachable().states().eq([0, 1]));
/// session.add_step(1, 2)?;
/// assert!(session.reachable().states().eq([0, 1, 2, 3]));
/// session.remove_step(0, 1)?;
/// assert!(session.reachable().states().eq([0]));
/// assert_eq!(session.add_step(0, 4), Err(Refused::STEP_STATE));
///
/// let table = session.into_table();
/// assert!(table.steps().eq([(1, 2), (2, 3)]));
/// # Ok::<(), shuntberry::Refused>(())
/// ```
#[derive(Clone, Debug, PartialEq, Eq)]
pub struct TableSession {
    table: Table,
    reachable: StateSet,
}

impl TableSession {
    /// Adds a step; nothing changes if it exists. Refused with 27.
    pub fn add_step(&mut self, from: usize, to: usize) -> Result<(), Refused> {
        let Table { n, g, store, .. } = &mut self.table;
        self.reachable = add_step(store, *n, *g, self.reachable, from, to)?;
        Ok(())
    }

    /// Removes a step; nothing changes if there is none. Refused with 27.
    pub fn remove_step(&mut self, from: usize, to: usize) -> Result<(), Refused> {
        let Table { n, g, store, .. } = &mut self.table;
        self.reachable = remove_step(store, *n, *g, self.reachable, from, to)?;
        Ok(())
    }

    /// The states that can be reached from the initial ones, these included.
    pub fn reachable(&self) -> StateSet {
        self.reachable
    }

    /// The table as edited so far.
    pub fn table(&self) -> &Table {
        &self.table
    }

    /// The table as edited.
    pub fn into_table(self) -> Table {
        self.table
    }
}

/// The states of a path as numbers to look up with.
fn numbers(path: &[u16]) -> Vec<usize> {
    path.iter().map(|&state| usize::from(state)).collect()
}

/// A text of the library's, which has no other bytes than ASCII.
fn words(text: &[u8]) -> Result<String, Refused> {
    match std::str::from_utf8(text) {
        Ok(text) if text.is_ascii() => Ok(text.to_string()),
        _ => Err(Refused::UNKNOWN_ANSWER),
    }
}

#[cfg(test)]
mod tests {
    use super::*;

    /// A state is forbidden for a reason just where its distance is 0, and marked before it is a hang.
    #[test]
    fn reasons_are_those_of_the_library() -> Result<(), Refused> {
        let mut seen = [0; 3];
        for seed in 0..50 {
            let load = Table::generate(seed, 100, 1)?;
            // Some states lead nowhere, of which some rest and some are marked.
            let kept = load.steps().filter(|(from, _)| from % 3 > 0);
            let table = Table::builder(100)
                .initial([0])
                .marked((0..100).filter(|state| state % 5 == 0))
                .steps(kept)
                .resting((0..100).filter(|state| state % 2 == 0))
                .build()?;
            for (state, distance) in table.distances()?.into_iter().enumerate() {
                let why = table.why_forbidden(state).expect("there is such a state");
                assert_eq!(why != Forbidden::Not, distance == Some(0));
                assert_eq!(why != Forbidden::Not, table.forbidden().contains(state));
                assert_eq!(why == Forbidden::Marked, table.marked().contains(state));
                seen[why as usize] += 1;
            }
            assert!(!table.is_vacuous());
            assert_eq!(table.why_forbidden(100), None);
        }
        assert!(seen.iter().all(|&count| count > 0));
        Ok(())
    }

    /// A table is vacuous just where an initial state reaches none, or no state reaches a forbidden one.
    #[test]
    fn vacuous_tables_say_nothing() -> Result<(), Refused> {
        let mut seen = [0; 2];
        for n in [1, 2, 64, 65, MAX_STATES] {
            for way in 0..8 {
                let last = |bit: u32| (way >> bit & 1 == 1).then_some(n - 1);
                let hang = last(2);
                let table = Table::builder(n)
                    .initial(last(0))
                    .marked(last(1))
                    .steps([])
                    .resting((0..n).filter(|&state| hang != Some(state)))
                    .build()?;
                let reaches = table.distances()?.iter().any(Option::is_some);
                let vacuous = table.reachable()?.is_empty() || !reaches;
                assert_eq!(table.is_vacuous(), vacuous);
                assert!(!vacuous || table.decide(MAX_STATES)?.is_safe());
                seen[usize::from(vacuous)] += 1;
            }
        }
        assert!(seen.iter().all(|&count| count > 0));
        assert!(Table::from_bytes(b"", 0)?.is_vacuous());
        Ok(())
    }
}
