//! A table put together from its states, sets and steps.

use crate::{INITIAL, MARKED, MAX_GROUPS, RESTING, Refused, STORE_WORDS, State, Table, group, row};

/// A table that is being put together: [`Table::builder`]. What has no place in a table is refused by [`TableBuilder::build`].
///
/// The initial states, the marked ones and the steps come first, and none can be left out: without one of them a table could be safe that should
/// not be. A list may be empty, and each of these methods adds to what is there.
///
/// ```
/// use shuntberry::{Refused, Table};
///
/// let table = Table::builder(4)
///     .initial([0])
///     .marked([2])
///     .steps([(0, 1), (0, 3), (1, 2)])
///     .resting([3])
///     .group([0, 1])
///     .build()?;
/// assert_eq!((table.n(), table.g()), (4, 1));
///
/// let beyond = Table::builder(4).initial([0]).marked([4]).steps([]);
/// assert_eq!(beyond.build(), Err(Refused::STRAY_BIT));
/// # Ok::<(), shuntberry::Refused>(())
/// ```
///
/// ```compile_fail,E0599
/// let forgotten = shuntberry::Table::builder(4).initial([0]).steps([(0, 1)]); // what is marked?
/// ```
#[derive(Clone, Debug)]
#[must_use = "a table comes of `build`"]
pub struct TableBuilder {
    n: usize,
    g: usize,
    store: Vec<u64>,
    /// Whether a state was named for which a store has no place.
    stray: bool,
}

/// A table whose initial states come next.
#[derive(Clone, Debug)]
#[must_use = "a table comes of `build`"]
pub struct NeedsInitial(TableBuilder);

/// A table whose marked states come next.
#[derive(Clone, Debug)]
#[must_use = "a table comes of `build`"]
pub struct NeedsMarked(TableBuilder);

/// A table whose steps come next.
#[derive(Clone, Debug)]
#[must_use = "a table comes of `build`"]
pub struct NeedsSteps(TableBuilder);

impl NeedsInitial {
    /// The states in which a session can start.
    pub fn initial(self, states: impl IntoIterator<Item = usize>) -> NeedsMarked {
        NeedsMarked(self.0.with(INITIAL, states))
    }
}

impl NeedsMarked {
    /// The states that are forbidden whatever they lead to. A state that leads nowhere and does not rest is forbidden too, without a mark.
    pub fn marked(self, states: impl IntoIterator<Item = usize>) -> NeedsSteps {
        NeedsSteps(self.0.with(MARKED, states))
    }
}

impl NeedsSteps {
    /// The steps, each from a state to a state.
    pub fn steps(self, steps: impl IntoIterator<Item = (usize, usize)>) -> TableBuilder {
        self.0.steps(steps)
    }
}

impl TableBuilder {
    pub(crate) fn of(n: usize) -> NeedsInitial {
        NeedsInitial(TableBuilder {
            n,
            g: 0,
            store: vec![0; STORE_WORDS],
            stray: false,
        })
    }

    /// States that may lead nowhere.
    pub fn resting(self, states: impl IntoIterator<Item = usize>) -> TableBuilder {
        self.with(RESTING, states)
    }

    /// One more group.
    pub fn group(mut self, states: impl IntoIterator<Item = usize>) -> TableBuilder {
        let j = self.g;
        self.g = j.saturating_add(1);
        if j < MAX_GROUPS {
            self.with(group(j), states)
        } else {
            self // there is no place for it, and `build` refuses so many
        }
    }

    /// One more step.
    pub fn step(mut self, from: usize, to: usize) -> TableBuilder {
        let placed = put_step(&mut self.store, row, from, to);
        self.stray |= placed.is_err();
        self
    }

    /// More steps, each from a state to a state.
    pub fn steps(self, steps: impl IntoIterator<Item = (usize, usize)>) -> TableBuilder {
        steps
            .into_iter()
            .fold(self, |table, (from, to)| table.step(from, to))
    }

    /// The table, if the library accepts it. Refused with 14 where n is over [`MAX_STATES`](crate::MAX_STATES), or 0 with groups, with 15 for more than
    /// [`MAX_GROUPS`] groups, and with 17 where a set or a step names a state of n or more.
    pub fn build(self) -> Result<Table, Refused> {
        let table = Table::of_store(self.store, self.n, self.g)?;
        if self.stray {
            return Err(Refused::STRAY_BIT);
        }
        Ok(table)
    }

    /// The same with these states in the set that begins at a word of the store.
    fn with(mut self, at: usize, states: impl IntoIterator<Item = usize>) -> TableBuilder {
        for state in states {
            match State::try_from(state) {
                Ok(state) => state.put_at(&mut self.store, at),
                Err(_) => self.stray = true,
            }
        }
        self
    }
}

/// Puts a step into rows of successors, each of which begins at `row` of its state. Refused with 17 if there is no place for it.
pub(crate) fn put_step(
    rows: &mut [u64],
    row: fn(usize) -> usize,
    from: usize,
    to: usize,
) -> Result<(), Refused> {
    let (from, to) = (State::try_from(from)?, State::try_from(to)?);
    to.put_at(rows, row(from.into()));
    Ok(())
}
