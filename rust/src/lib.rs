//! Is a forbidden state of a dialogue table reachable, and by which steps?
//!
//! A safe wrapper around the proved library. A [`Table`] owns its words and has the calls as methods:
//!
//! ```
//! use shuntberry::{Decision, MAX_ALLOWANCE, Table};
//!
//! // Three states; 0 is initial, 2 is marked forbidden; steps 0 → 0, 0 → 1 and 1 → 2.
//! let table = Table::builder(3).initial([0]).marked([2]).steps([(0, 0), (0, 1), (1, 2)]).build()?;
//! match table.decide(MAX_ALLOWANCE)? {
//!     Decision::Safe { invariant, .. } => println!("safe: a session stays in {invariant:?}"),
//!     Decision::Unsafe { path, .. } => assert_eq!(path, [0, 1, 2]),
//!     Decision::Undecided { .. } => println!("not with this allowance"),
//!     Decision::Draft => println!("a table without states: nothing to release"),
//! }
//! # Ok::<(), shuntberry::Refused>(())
//! ```
//!
//! No input makes anything here panic: what the library does not accept, it refuses with a number ([`Refused`]), and every buffer is then as it
//! was before.
//!
//! # The calls on lent words
//!
//! The methods are thin: the calls themselves, as they are proved, take slices and allocate nothing. They are [`decide`], [`shortest_path`],
//! [`distances`], [`within`], [`read`], [`write()`], [`generate`], [`replay`], [`decide_modal`], and [`open`], [`add_step`] and [`remove_step`] with an edit
//! [`Session`].
//!
//! A table has `n` states, numbered 0 to `n` − 1 ([`MAX_STATES`] at most), and `g` groups
//! ([`MAX_GROUPS`] at most); one without states, an untouched draft, has no groups. It stands in a store of at least [`STORE_WORDS`] words of 64 bits, as
//! sets of [`SET_WORDS`] words each: the initial set at [`INITIAL`], the marked set at [`MARKED`], the resting set at
//! [`RESTING`], group j at [`group`]`(j)`, the successors of state s at [`row`]`(s)`. The words of groups from g up and
//! of rows from n up are 0; words past the first [`STORE_WORDS`] are neither read nor written. A path is a list of 16-bit numbers, one for
//! each state.
//!
//! A state is forbidden if it is marked, or if it has no successor and is not resting: such a hang is a screen with
//! no way out. A marked state is forbidden also where it rests, and a state with successors may rest or not.
//!
//! ```
//! use shuntberry::{INITIAL, MARKED, MAX_ALLOWANCE, PATH_PLACES, RESTING, STORE_WORDS};
//! use shuntberry::{Refused, Verdict, decide, row};
//!
//! // Three states; 0 is initial, 2 is marked forbidden; steps 0 → 0 and 1 → 2.
//! let mut store = [0; STORE_WORDS];
//! store[INITIAL] = 1 << 0;
//! store[MARKED] = 1 << 2;
//! store[row(0)] = 1 << 0;
//! store[row(1)] = 1 << 2;
//!
//! let mut path = [0; PATH_PLACES];
//! let Verdict::Safe { count, invariant } = decide(&store, 3, 0, MAX_ALLOWANCE, &mut path)? else {
//!     panic!("2 cannot be reached");
//! };
//! assert_eq!(count, 1);
//! assert!(invariant.states().eq([0]));
//!
//! // With a step 0 → 1 it can.
//! store[row(0)] |= 1 << 1;
//! let verdict = decide(&store, 3, 0, MAX_ALLOWANCE, &mut path)?;
//! assert!(matches!(verdict, Verdict::Unsafe { path: [0, 1, 2], .. }));
//!
//! // Without its mark 2 is forbidden still, since it leads nowhere, unless it rests.
//! store[MARKED] = 0;
//! let verdict = decide(&store, 3, 0, MAX_ALLOWANCE, &mut path)?;
//! assert!(matches!(verdict, Verdict::Unsafe { path: [0, 1, 2], .. }));
//! store[RESTING] = 1 << 2;
//! let verdict = decide(&store, 3, 0, MAX_ALLOWANCE, &mut path)?;
//! assert!(matches!(verdict, Verdict::Safe { count: 0, .. }));
//!
//! // A table of 513 states is refused.
//! let refused = decide(&store, 513, 0, MAX_ALLOWANCE, &mut path).unwrap_err();
//! assert_eq!(refused, Refused::STATES);
//! assert_eq!(refused.to_string(), format!("refused 14: {}", refused.message()));
//! # Ok::<(), shuntberry::Refused>(())
//! ```
//!
//! Where some steps exist only on pumps with an option bought, [`decide_modal`] answers for all of them at once.
//!
//! When a release may be loaded is a question of its own, about weekly windows and closed days:
//! [`next_open`].

pub mod checking;
pub mod raw;

// links the functions that `raw` declares
#[cfg(any(
    feature = "portable",
    not(all(target_arch = "x86_64", target_os = "linux"))
))]
use ::portable_c as _;

mod builder;
mod refusals;
mod set;
mod table;
mod text;

pub use builder::{NeedsInitial, NeedsMarked, NeedsSteps, TableBuilder};
pub use set::{State, StateSet, States};
pub use table::{Decision, Forbidden, ModalDecision, Report, Table, TableSession};
pub use text::{Mistake, Mistakes, Names, TextError};

use std::error::Error;
use std::fmt;

pub use raw::{
    FILE_BYTES, HEAD_SETS, INITIAL, MARKED, MAX_ALLOWANCE, MAX_DAYS, MAX_FAN_OUT, MAX_GROUPS,
    MAX_LOG, MAX_SITE, MAX_STATES, MAX_TIME, MAX_WINDOWS, PATH_PLACES, POSSIBLE_WORDS, RESTING,
    SET_WORDS, STORE_WORDS,
};

/// The first number of this package's version, which is that of the library that it takes.
const OWN_VERSION: u32 = match u32::from_str_radix(env!("CARGO_PKG_VERSION_MAJOR"), 10) {
    Ok(number) => number,
    Err(_) => panic!("the version begins with a number"),
};

/// The first number of the version of the library that is linked. Where it is not this package's, no [`Table`]
/// is made; whoever calls on slices alone compares it once.
///
/// ```
/// assert_eq!(shuntberry::version().to_string(), env!("CARGO_PKG_VERSION_MAJOR"));
/// ```
pub fn version() -> u32 {
    // SAFETY: it is lent nothing.
    unsafe { raw::shuntberry_version() }
}

/// What [`distances`] writes for a state from which no forbidden state can be reached.
pub const UNREACHABLE: u16 = raw::UNREACHABLE as u16;

/// Where group `j` begins in a store, for `j` below [`MAX_GROUPS`].
pub const fn group(j: usize) -> usize {
    j.saturating_add(HEAD_SETS).saturating_mul(SET_WORDS)
}

/// Where the successors of state `s` begin in a store, for `s` below [`MAX_STATES`].
pub const fn row(s: usize) -> usize {
    group(s.saturating_add(MAX_GROUPS))
}

/// Where the possible steps of state `s` begin in their buffer, for `s` below [`MAX_STATES`].
pub const fn possible_row(s: usize) -> usize {
    s.saturating_mul(SET_WORDS)
}

/// What [`decide`] found. `count` is the number of refinements that were made.
#[derive(Clone, Copy, Debug, PartialEq, Eq)]
#[must_use = "a verdict that is not looked at may be unsafe"]
pub enum Verdict<'p> {
    /// No forbidden state can be reached from an initial one; so also of a table without states, a draft, which is nothing to release.
    Safe {
        /// The number of refinements.
        count: u32,
        /// A set with the initial states, the successors of each of its states, and no forbidden
        /// state.
        invariant: StateSet,
    },
    /// A forbidden state can be reached.
    Unsafe {
        /// The number of refinements.
        count: u32,
        /// The smallest of the shortest paths from an initial to a forbidden state: the front of the
        /// path buffer.
        path: &'p [u16],
    },
    /// The allowance was used up before either was known.
    Undecided {
        /// The number of refinements.
        count: u32,
    },
}

/// What [`read`] found: the size of the table that now stands in the store.
#[derive(Clone, Copy, Debug, PartialEq, Eq)]
pub struct TableRead {
    /// The number of states.
    pub n: usize,
    /// The number of groups.
    pub g: usize,
}

/// A weekly window in which releases may be loaded: a length in minutes, from a number of minutes into
/// the week on. Weeks begin on Saturday at 00:00.
#[derive(Clone, Copy, Debug, PartialEq, Eq, Hash)]
#[repr(transparent)]
pub struct Window(u64);

impl Window {
    /// A window of `length` minutes from minute `start` of the week on. A number that does not fit 32 bits
    /// is taken for the greatest that does, which is out of range too: [`next_open`] refuses it.
    ///
    /// ```
    /// use shuntberry::{Refused, Window, next_open};
    ///
    /// // Cut to 32 bits these would be the window from minute 540 on, of 120 minutes.
    /// let beyond = 1 << 32;
    /// for window in [Window::new(beyond + 540, 120), Window::new(540, beyond + 120)] {
    ///     assert_eq!(next_open(0, &[window], &[]), Err(Refused::WINDOW_RANGE));
    /// }
    /// assert_eq!(Window::new(u64::MAX, beyond).start(), u32::MAX);
    /// assert_eq!(Window::new(u64::MAX, beyond).length(), u32::MAX);
    /// ```
    pub const fn new(start: u64, length: u64) -> Window {
        Window(saturated(start) | saturated(length) << 32)
    }

    /// The minutes from the week's beginning to the window's first minute.
    pub const fn start(self) -> u32 {
        self.0 as u32
    }

    /// The window's length in minutes.
    pub const fn length(self) -> u32 {
        (self.0 >> 32) as u32
    }
}

const fn saturated(number: u64) -> u64 {
    let most = u32::MAX as u64;
    if number < most { number } else { most }
}

/// A refused call, by the number of its ground. Every buffer is as before the call.
#[derive(Clone, Copy, Debug, PartialEq, Eq, Hash)]
pub struct Refused(pub u32);

impl Refused {
    /// No ground of the library's: it accepted the call, and then answered with a number that stands for nothing that this
    /// version of the wrapper knows, as a library of a later version might. The proved library gives none.
    pub const UNKNOWN_ANSWER: Refused = Refused(u32::MAX);

    /// No ground of the library's: it is of another version than this package, so no [`Table`] is made with it
    /// ([`version`]).
    pub const OTHER_VERSION: Refused = Refused(u32::MAX - 1);

    /// The ground on which the call was refused.
    pub fn message(self) -> &'static str {
        if self == Refused::OTHER_VERSION {
            return concat!(
                "the library that is linked is not of version ",
                env!("CARGO_PKG_VERSION_MAJOR"),
                ", as this package is"
            );
        }
        if self == Refused::UNKNOWN_ANSWER {
            return "the library answered with a number that this version of the wrapper does not know";
        }
        let known = refusals::GROUNDS
            .iter()
            .find(|(number, _)| *number == self.0);
        known.map_or(
            "no ground that this version of the wrapper knows",
            |(_, ground)| ground,
        )
    }
}

impl fmt::Display for Refused {
    fn fmt(&self, out: &mut fmt::Formatter<'_>) -> fmt::Result {
        write!(out, "refused {}: {}", self.0, self.message())
    }
}

impl Error for Refused {}

/// Decides whether a forbidden state can be reached, with at most `allowance` refinements.
///
/// If unsafe, the path stands at the front of `path`, and no other place of it is touched; if safe or
/// undecided, none is. Refused as [`raw::shuntberry_decide`] says.
pub fn decide<'p>(
    store: &[u64],
    n: usize,
    g: usize,
    allowance: usize,
    path: &'p mut [u16],
) -> Result<Verdict<'p>, Refused> {
    // SAFETY: each pointer and length are those of a slice, and the one that is written is borrowed
    // mutably, so it overlaps no other.
    let decision = unsafe {
        raw::shuntberry_decide(
            store.as_ptr(),
            store.len(),
            n,
            g,
            allowance,
            path.as_mut_ptr(),
            path.len(),
        )
    };
    verdict(decision, path)
}

/// The verdict that the fields of a decision stand for, with the path at the front of its buffer.
fn verdict(decision: raw::Decision, path: &[u16]) -> Result<Verdict<'_>, Refused> {
    accepted(decision.refusal)?;
    let count = decision.count;
    match decision.verdict {
        raw::SAFE => Ok(Verdict::Safe {
            count,
            invariant: StateSet(decision.invariant),
        }),
        raw::UNSAFE => Ok(Verdict::Unsafe {
            count,
            path: states_of_path(path, decision.steps)?,
        }),
        raw::UNDECIDED => Ok(Verdict::Undecided { count }),
        _ => Err(Refused::UNKNOWN_ANSWER),
    }
}

/// The smallest of the shortest paths from an initial to a forbidden state, at the front of `path`;
/// no other place of it is touched, and none if there is no path.
///
/// Refused as [`raw::shuntberry_shortest_path`] says.
///
/// ```
/// use shuntberry::{INITIAL, MARKED, PATH_PLACES, STORE_WORDS, row, shortest_path};
///
/// // Four states; 0 and 1 are initial, 3 is marked; steps 0 → 2, 1 → 2 and 2 → 3.
/// let mut store = [0; STORE_WORDS];
/// store[INITIAL] = 0b0011;
/// store[MARKED] = 0b1000;
/// store[row(0)] = 0b0100;
/// store[row(1)] = 0b0100;
/// store[row(2)] = 0b1000;
///
/// let mut path = [0; PATH_PLACES];
/// assert_eq!(shortest_path(&store, 4, 0, &mut path)?, Some(&[0, 2, 3][..]));
///
/// // With a step back in place of the last one there is none.
/// store[row(2)] = 0b0001;
/// assert_eq!(shortest_path(&store, 4, 0, &mut path)?, None);
/// # Ok::<(), shuntberry::Refused>(())
/// ```
pub fn shortest_path<'p>(
    store: &[u64],
    n: usize,
    g: usize,
    path: &'p mut [u16],
) -> Result<Option<&'p [u16]>, Refused> {
    // SAFETY: as in `decide`.
    let shortest = unsafe {
        raw::shuntberry_shortest_path(
            store.as_ptr(),
            store.len(),
            n,
            g,
            path.as_mut_ptr(),
            path.len(),
        )
    };
    accepted(shortest.refusal)?;
    is_yes(shortest.found)?
        .then(|| states_of_path(path, shortest.steps))
        .transpose()
}

/// The distance of each state, the number of steps to the nearest forbidden one, at the front of
/// `distances`: one place for each of the `n` states, [`UNREACHABLE`] where none can be reached. No
/// other place is touched.
///
/// Refused as [`raw::shuntberry_distances`] says.
///
/// ```
/// use shuntberry::{INITIAL, MARKED, RESTING, STORE_WORDS, UNREACHABLE, distances, row, within};
///
/// // Steps 0 → 1, 1 → 2; 0 is initial, 2 is marked; 3 leads nowhere, and rests.
/// let mut store = [0; STORE_WORDS];
/// store[INITIAL] = 1 << 0;
/// store[MARKED] = 1 << 2;
/// store[RESTING] = 1 << 3;
/// store[row(0)] = 1 << 1;
/// store[row(1)] = 1 << 2;
///
/// let mut found = [0; 4];
/// distances(&store, 4, 0, &mut found)?;
/// assert_eq!(found, [2, 1, 0, UNREACHABLE]);
///
/// assert!(within(&store, 4, 0, 2)?);
/// assert!(!within(&store, 4, 0, 1)?);
///
/// // At rest no longer, 3 is forbidden itself.
/// store[RESTING] = 0;
/// distances(&store, 4, 0, &mut found)?;
/// assert_eq!(found, [2, 1, 0, 0]);
/// # Ok::<(), shuntberry::Refused>(())
/// ```
pub fn distances(store: &[u64], n: usize, g: usize, distances: &mut [u16]) -> Result<(), Refused> {
    // SAFETY: as in `decide`.
    accepted(unsafe {
        raw::shuntberry_distances(
            store.as_ptr(),
            store.len(),
            n,
            g,
            distances.as_mut_ptr(),
            distances.len(),
        )
    })
}

/// Whether there is a path of at most `k` steps from an initial to a forbidden state.
///
/// Refused as [`raw::shuntberry_within`] says.
pub fn within(store: &[u64], n: usize, g: usize, k: usize) -> Result<bool, Refused> {
    // SAFETY: the pointer and the length are those of a slice.
    let answer = unsafe { raw::shuntberry_within(store.as_ptr(), store.len(), n, g, k) };
    accepted(answer.refusal)?;
    is_yes(answer.within)
}

/// Reads a block file of a site, 0 to [`MAX_SITE`], into the first [`STORE_WORDS`] words of `store`; no other word is touched. An
/// input of no bytes is an untouched draft, at every site: `n` and `g` are 0, and so is each of those words. So a read that failed must
/// not be passed on as one of no bytes.
///
/// Refused as [`raw::shuntberry_read`] says. A block that was made for another site and is unaltered is
/// refused with 13 where it stands at its own number, and with 12 where it does not, once all that is looked at before
/// it passes. A file of the old form, which has no resting set, is refused with 15; [`checking::rewrite`] makes a new one of it.
pub fn read(input: &[u8], site: usize, store: &mut [u64]) -> Result<TableRead, Refused> {
    // SAFETY: as in `decide`.
    let table = unsafe {
        raw::shuntberry_read(
            input.as_ptr(),
            input.len(),
            site,
            store.as_mut_ptr(),
            store.len(),
        )
    };
    accepted(table.refusal)?;
    Ok(TableRead {
        n: table.n as usize,
        g: table.g as usize,
    })
}

/// Writes the table as a block file for a site, 0 to [`MAX_SITE`], at the front of `output` and returns the file; no other byte of
/// `output` is touched. An output of [`FILE_BYTES`] is always long enough.
///
/// Refused as [`raw::shuntberry_write`] says.
///
/// ```
/// use shuntberry::{FILE_BYTES, Refused, STORE_WORDS, TableRead, read, write};
///
/// let mut store = [0; STORE_WORDS];
/// store[shuntberry::row(1)] = 0b101; // steps 1 → 0 and 1 → 2
/// let mut output = [0; FILE_BYTES];
/// let file = write(&store, 3, 0, 17, &mut output)?;
/// assert_eq!(file.len(), 512);
///
/// let mut copy = [0; STORE_WORDS];
/// assert_eq!(read(file, 17, &mut copy)?, TableRead { n: 3, g: 0 });
/// assert_eq!(copy, store);
/// // At another site it is refused.
/// assert_eq!(read(file, 18, &mut copy), Err(Refused::BLOCK_CHECK));
/// # Ok::<(), shuntberry::Refused>(())
/// ```
pub fn write<'o>(
    store: &[u64],
    n: usize,
    g: usize,
    site: usize,
    output: &'o mut [u8],
) -> Result<&'o [u8], Refused> {
    // SAFETY: as in `decide`.
    let file = unsafe {
        raw::shuntberry_write(
            store.as_ptr(),
            store.len(),
            n,
            g,
            site,
            output.as_mut_ptr(),
            output.len(),
        )
    };
    accepted(file.refusal)?;
    front(output, file.length as usize)
}

/// Fills the first [`STORE_WORDS`] words of `store` with the table that a seed gives; no other word is
/// touched. It has `n` states and no groups; state 0 is initial, state `n` − 1 marked, none rests, and each
/// state has up to `fan_out` successors: with a fan-out of 0 every state is a hang. Every call that takes a table accepts
/// it, with `g` = 0.
///
/// Refused as [`raw::shuntberry_generate`] says.
///
/// ```
/// use shuntberry::{FILE_BYTES, STORE_WORDS, generate, row, write};
///
/// let mut store = [0; STORE_WORDS];
/// generate(7, 3, 2, &mut store)?;
/// assert_eq!([store[row(0)], store[row(1)], store[row(2)]], [0b011, 0b110, 0b110]);
///
/// let mut output = [0; FILE_BYTES];
/// assert_eq!(write(&store, 3, 0, 0, &mut output)?.len(), 512);
/// # Ok::<(), shuntberry::Refused>(())
/// ```
pub fn generate(seed: u32, n: usize, fan_out: usize, store: &mut [u64]) -> Result<(), Refused> {
    // SAFETY: as in `decide`.
    let refusal =
        unsafe { raw::shuntberry_generate(seed, n, fan_out, store.as_mut_ptr(), store.len()) };
    accepted(refusal)
}

/// What [`replay`] found of a log.
#[derive(Clone, Copy, Debug, PartialEq, Eq)]
pub struct Replay {
    /// The entries before the first that breaks the walk; all of them if none does.
    pub followed: usize,
    /// The different states that those hold.
    pub seen: usize,
    /// 100 times `seen`, divided by the number of states that can be reached; 0 if there are none.
    pub percent: usize,
    /// What that division leaves; 0 if there are none.
    pub remainder: usize,
}

/// Walks a pump's log through the table: a list of state numbers of two bytes each, low byte first.
///
/// The first entry must be initial, each later one a successor of the entry before. On a table that
/// [`decide`] calls safe, no followed entry is forbidden. Refused as [`raw::shuntberry_replay`] says.
///
/// ```
/// use shuntberry::{INITIAL, Replay, STORE_WORDS, replay, row};
///
/// // 0 is initial; steps 0 → 1, 1 → 0 and 1 → 2: three states can be reached.
/// let mut store = [0; STORE_WORDS];
/// store[INITIAL] = 1 << 0;
/// store[row(0)] = 1 << 1;
/// store[row(1)] = 1 << 0 | 1 << 2;
///
/// // 0, 1, 0, then 2, which is no successor of 0.
/// let walk = replay(&store, 3, 0, &[0, 0, 1, 0, 0, 0, 2, 0])?;
/// assert_eq!(walk, Replay { followed: 3, seen: 2, percent: 66, remainder: 2 });
/// # Ok::<(), shuntberry::Refused>(())
/// ```
pub fn replay(store: &[u64], n: usize, g: usize, log: &[u8]) -> Result<Replay, Refused> {
    // SAFETY: as in `decide`; nothing is written.
    let walk = unsafe {
        raw::shuntberry_replay(store.as_ptr(), store.len(), n, g, log.as_ptr(), log.len())
    };
    accepted(walk.refusal)?;
    Ok(Replay {
        followed: walk.followed as usize,
        seen: walk.seen as usize,
        percent: walk.percent as usize,
        remainder: walk.remainder as usize,
    })
}

/// The states that can be reached from the initial ones, these included: what an edit [`Session`] starts from.
///
/// Refused as [`raw::shuntberry_open`] says.
pub fn open(store: &[u64], n: usize, g: usize) -> Result<StateSet, Refused> {
    // SAFETY: as in `decide`; nothing is written.
    let session = unsafe { raw::shuntberry_open(store.as_ptr(), store.len(), n, g) };
    accepted(session.refusal)?;
    Ok(StateSet(session.reachable.words))
}

/// Adds a step to the table, and gives the set that is lit after it: with a set `reachable` of any states,
/// the same if the step exists or `from` is not in it, else the set with all that `to` reaches. At most one
/// word of the store changes.
///
/// Refused as [`raw::shuntberry_add_step`] says; the set that was handed in is then still the one to go on with.
///
/// ```
/// use shuntberry::{SET_WORDS, STORE_WORDS, StateSet, add_step, remove_step, row};
///
/// // A step 1 → 2, and nothing initial. The set is any that the caller likes: here 0 and 1.
/// let mut store = [0; STORE_WORDS];
/// store[row(1)] = 1 << 2;
/// let mut lit = StateSet([0; SET_WORDS]);
/// lit.0[0] = 1 << 0 | 1 << 1;
///
/// // All that 1 reaches is joined, though 1 was lit already.
/// lit = add_step(&mut store, 3, 0, lit, 0, 1)?;
/// assert!(lit.states().eq([0, 1, 2]));
/// // A removal starts from the initial states.
/// lit = remove_step(&mut store, 3, 0, lit, 0, 1)?;
/// assert!(lit.states().eq([]));
/// # Ok::<(), shuntberry::Refused>(())
/// ```
pub fn add_step(
    store: &mut [u64],
    n: usize,
    g: usize,
    reachable: StateSet,
    from: usize,
    to: usize,
) -> Result<StateSet, Refused> {
    let set = raw::Set { words: reachable.0 };
    // SAFETY: as in `decide`; the set goes in by value.
    let session =
        unsafe { raw::shuntberry_add_step(store.as_mut_ptr(), store.len(), n, g, set, from, to) };
    accepted(session.refusal)?;
    Ok(StateSet(session.reachable.words))
}

/// Removes a step from the table, and gives the set that is lit after it: `reachable` if there is no such
/// step, else what the initial states reach. At most one word of the store changes. ([`add_step`] has an example.)
///
/// Refused as [`raw::shuntberry_remove_step`] says; the set that was handed in is then still the one to go on with.
pub fn remove_step(
    store: &mut [u64],
    n: usize,
    g: usize,
    reachable: StateSet,
    from: usize,
    to: usize,
) -> Result<StateSet, Refused> {
    let set = raw::Set { words: reachable.0 };
    // SAFETY: as in `add_step`.
    let session = unsafe {
        raw::shuntberry_remove_step(store.as_mut_ptr(), store.len(), n, g, set, from, to)
    };
    accepted(session.refusal)?;
    Ok(StateSet(session.reachable.words))
}

/// Steps drawn and rubbed out, with the states that can be reached lit throughout. It owns its set and
/// borrows the store, so that nothing else edits the table meanwhile: after every edit, refused ones
/// included, the set is the one that [`open`] gives for the table as edited. A state that loses its last step
/// is a hang, unless it rests: [`Session::store`] is the table to [`decide`] again.
///
/// ```
/// use shuntberry::{INITIAL, Refused, STORE_WORDS, Session, row};
///
/// // 0 is initial; steps 0 → 1 and 2 → 3.
/// let mut store = [0; STORE_WORDS];
/// store[INITIAL] = 1 << 0;
/// store[row(0)] = 1 << 1;
/// store[row(2)] = 1 << 3;
///
/// let mut session = Session::open(&mut store, 4, 0)?;
/// assert!(session.reachable().states().eq([0, 1]));
/// session.add_step(1, 2)?;
/// assert!(session.reachable().states().eq([0, 1, 2, 3]));
/// session.remove_step(0, 1)?;
/// assert!(session.reachable().states().eq([0]));
/// assert_eq!(session.add_step(0, 4), Err(Refused::STEP_STATE));
/// assert!(session.reachable().states().eq([0]));
/// # Ok::<(), shuntberry::Refused>(())
/// ```
#[derive(Debug)]
pub struct Session<'s> {
    store: &'s mut [u64],
    n: usize,
    g: usize,
    reachable: StateSet,
}

impl<'s> Session<'s> {
    /// Opens the table. Refused as [`open`] is.
    pub fn open(store: &'s mut [u64], n: usize, g: usize) -> Result<Session<'s>, Refused> {
        let reachable = open(store, n, g)?;
        Ok(Session {
            store,
            n,
            g,
            reachable,
        })
    }

    /// Adds a step; nothing changes if it exists. Refused with 27.
    pub fn add_step(&mut self, from: usize, to: usize) -> Result<(), Refused> {
        self.reachable = add_step(self.store, self.n, self.g, self.reachable, from, to)?;
        Ok(())
    }

    /// Removes a step; nothing changes if there is none. Refused with 27.
    pub fn remove_step(&mut self, from: usize, to: usize) -> Result<(), Refused> {
        self.reachable = remove_step(self.store, self.n, self.g, self.reachable, from, to)?;
        Ok(())
    }

    /// The states that can be reached from the initial ones, these included.
    pub fn reachable(&self) -> StateSet {
        self.reachable
    }

    /// The store, with the table as edited.
    pub fn store(&self) -> &[u64] {
        self.store
    }
}

/// What [`decide_modal`] found of the choices between the certain and the possible steps.
#[derive(Clone, Copy, Debug, PartialEq, Eq)]
#[must_use = "a verdict that is not looked at may be unsafe"]
pub enum ModalVerdict<'p> {
    /// Every choice is safe; so also of a table without states, a draft, which is nothing to release.
    Safe {
        /// What a release check gives on the possible steps: an invariant of every choice.
        invariant: StateSet,
    },
    /// Every choice is unsafe.
    Unsafe {
        /// The smallest of the shortest paths on the certain steps, so a path of every choice: the front of the path
        /// buffer.
        path: &'p [u16],
    },
    /// The certain steps alone are a safe choice, all possible steps an unsafe one.
    Depends {
        /// What a release check gives on the certain steps: an invariant of that choice.
        invariant: StateSet,
        /// The smallest of the shortest paths on the possible steps: the front of the path buffer.
        path: &'p [u16],
    },
}

/// Decides a table some of whose steps exist only on pumps with an option bought: its certain steps are the rows of
/// `store`, and the possible steps of state s, the certain ones included, stand at [`possible_row`]`(s)` of `possible`. A choice
/// has every certain step of each state, and any of the possible ones beside them.
///
/// Forbidden is the same for every choice: a state that is marked, or that has no *possible* step and does not rest. So a
/// state with possible steps only is not forbidden here, also in a choice that leaves it none. [`decide`] takes it for a hang: a
/// choice that is safe here may be unsafe there, as a table of its own.
///
/// The path stands at the front of `path`, and no other place of it is touched; if safe, none is. Words of `possible` past the
/// first [`POSSIBLE_WORDS`] are not read. Refused as [`raw::shuntberry_decide_modal`] says.
///
/// ```
/// use shuntberry::{INITIAL, MARKED, ModalVerdict, PATH_PLACES, POSSIBLE_WORDS, Refused, STORE_WORDS};
/// use shuntberry::{decide_modal, possible_row, row};
///
/// // 0 is initial, 2 is marked; 0 → 0 and 1 → 2 are certain, and with an option bought there is a step 0 → 1.
/// let mut store = [0; STORE_WORDS];
/// store[INITIAL] = 1 << 0;
/// store[MARKED] = 1 << 2;
/// store[row(0)] = 1 << 0;
/// store[row(1)] = 1 << 2;
/// let mut possible = [0; POSSIBLE_WORDS];
/// possible[possible_row(0)] = 1 << 0 | 1 << 1;
/// possible[possible_row(1)] = 1 << 2;
///
/// let mut path = [0; PATH_PLACES];
/// let ModalVerdict::Depends { invariant, path: states } = decide_modal(&store, 3, 0, &possible, &mut path)? else {
///     panic!("2 can be reached with the option alone");
/// };
/// assert!(invariant.states().eq([0]));
/// assert_eq!(states, [0, 1, 2]);
///
/// // Where the step is certain, every choice is unsafe; where it is not even possible, every one is safe.
/// store[row(0)] |= 1 << 1;
/// let verdict = decide_modal(&store, 3, 0, &possible, &mut path)?;
/// assert_eq!(verdict, ModalVerdict::Unsafe { path: &[0, 1, 2] });
/// store[row(0)] = 1 << 0;
/// possible[possible_row(0)] = 1 << 0;
/// let verdict = decide_modal(&store, 3, 0, &possible, &mut path)?;
/// assert!(matches!(verdict, ModalVerdict::Safe { invariant } if invariant.states().eq([0])));
///
/// // Every certain step must be possible.
/// possible[possible_row(1)] = 0;
/// assert_eq!(decide_modal(&store, 3, 0, &possible, &mut path), Err(Refused::NOT_POSSIBLE));
/// # Ok::<(), shuntberry::Refused>(())
/// ```
pub fn decide_modal<'p>(
    store: &[u64],
    n: usize,
    g: usize,
    possible: &[u64],
    path: &'p mut [u16],
) -> Result<ModalVerdict<'p>, Refused> {
    // SAFETY: as in `decide`.
    let decision = unsafe {
        raw::shuntberry_decide_modal(
            store.as_ptr(),
            store.len(),
            n,
            g,
            possible.as_ptr(),
            possible.len(),
            path.as_mut_ptr(),
            path.len(),
        )
    };
    modal_verdict(decision, path)
}

/// The verdict that the fields of a modal decision stand for, with the path at the front of its buffer.
fn modal_verdict(decision: raw::Modal, path: &[u16]) -> Result<ModalVerdict<'_>, Refused> {
    accepted(decision.refusal)?;
    let invariant = StateSet(decision.invariant);
    match decision.verdict {
        raw::SAFE => Ok(ModalVerdict::Safe { invariant }),
        raw::UNSAFE => Ok(ModalVerdict::Unsafe {
            path: states_of_path(path, decision.steps)?,
        }),
        raw::DEPENDS => Ok(ModalVerdict::Depends {
            invariant,
            path: states_of_path(path, decision.steps)?,
        }),
        _ => Err(Refused::UNKNOWN_ANSWER),
    }
}

/// The first minute at or after `time` that lies in one of the windows, and not on a closed day; `None`,
/// which is never, if there is no window.
///
/// Time is whole minutes since 1 January 2000, 00:00, a Saturday, and days are counted from that one as 0.
/// A window may run over the week's end, and recurs in every week, the one before minute 0 included. With
/// at least one window the answer is less than 655,200 minutes after `time`; it may lie past [`MAX_TIME`].
///
/// Refused as [`raw::shuntberry_next_open`] says.
///
/// ```
/// use shuntberry::{Refused, Window, next_open};
///
/// // Saturdays from 09:00 to 11:00, and Tuesdays from 22:00 to Wednesdays 02:00.
/// let windows = [Window::new(540, 120), Window::new(3 * 1440 + 1320, 240)];
/// assert_eq!(next_open(600, &windows, &[])?, Some(600));
/// assert_eq!(next_open(660, &windows, &[])?, Some(3 * 1440 + 1320));
/// // Day 3, the Tuesday, is closed: from midnight on.
/// assert_eq!(next_open(660, &windows, &[3])?, Some(4 * 1440));
/// assert_eq!(next_open(660, &[], &[])?, None);
///
/// assert_eq!(next_open(0, &[Window::new(10_080, 1)], &[]), Err(Refused::WINDOW_RANGE));
/// # Ok::<(), shuntberry::Refused>(())
/// ```
pub fn next_open(
    time: usize,
    windows: &[Window],
    closed_days: &[u32],
) -> Result<Option<u32>, Refused> {
    // SAFETY: each pointer and length are those of a slice, and a `Window` is the number that it holds.
    let answer = unsafe {
        raw::shuntberry_next_open(
            time,
            windows.as_ptr().cast(),
            windows.len(),
            closed_days.as_ptr(),
            closed_days.len(),
        )
    };
    accepted(answer.refusal)?;
    match (is_yes(answer.never)?, answer.minute) {
        (true, _) => Ok(None),
        (false, raw::NO_MINUTE) => Err(Refused::UNKNOWN_ANSWER),
        (false, minute) => Ok(Some(minute)),
    }
}

/// The refusal of a call, if its number is one.
fn accepted(refusal: u32) -> Result<(), Refused> {
    match refusal {
        raw::ACCEPTED => Ok(()),
        number => Err(Refused(number)),
    }
}

/// Whether a number says yes. Only 1 and 0 say anything: any other, taken for one of them, could be a wrong one.
fn is_yes(number: u32) -> Result<bool, Refused> {
    match number {
        0 => Ok(false),
        1 => Ok(true),
        _ => Err(Refused::UNKNOWN_ANSWER),
    }
}

/// The `steps` + 1 states of a path at the front of its buffer.
fn states_of_path(path: &[u16], steps: u32) -> Result<&[u16], Refused> {
    front(path, (steps as usize).saturating_add(1))
}

/// The first `length` elements. Where there are fewer, the library did not fill what it says.
fn front<T>(buffer: &[T], length: usize) -> Result<&[T], Refused> {
    buffer.get(..length).ok_or(Refused::UNKNOWN_ANSWER)
}

/// The lines of the package's page, tried as all examples are.
#[cfg(doctest)]
#[doc = include_str!("../README.md")]
struct Page;

/// A store is just the sets that it holds, and nothing is cut where a size becomes 16 bits.
const _: () = assert!(STORE_WORDS == row(MAX_STATES) && POSSIBLE_WORDS == possible_row(MAX_STATES));
const _: () = assert!(UNREACHABLE as usize == raw::UNREACHABLE && MAX_STATES == 64 * SET_WORDS);

#[cfg(test)]
mod tests {
    use super::*;

    /// An accepted call's number that stands for no answer is none, whatever else the fields hold.
    #[test]
    fn unknown_numbers_are_no_answers() {
        let unknown = Refused::UNKNOWN_ANSWER;
        for number in [4, 255, 256, u32::MAX] {
            let modal = raw::Modal {
                invariant: [0; SET_WORDS],
                refusal: 0,
                verdict: number,
                size: 0,
                steps: 0,
            };
            assert_eq!(modal_verdict(modal, &[]), Err(unknown));
            assert_eq!(verdict(decision(number), &[]), Err(unknown));
            assert_eq!(is_yes(number), Err(unknown));
        }
        assert_eq!(verdict(decision(raw::DEPENDS), &[]), Err(unknown));
        assert_eq!(is_yes(2), Err(unknown));
    }

    /// A path that is longer than its buffer was not written there.
    #[test]
    fn a_path_past_its_buffer_is_no_answer() {
        let path = [0; PATH_PLACES];
        let found = |steps| {
            let mut long = decision(raw::UNSAFE);
            long.steps = steps;
            verdict(long, &path).is_ok()
        };
        assert!(found(511) && !found(512) && !found(u32::MAX));
    }

    fn decision(verdict: u32) -> raw::Decision {
        raw::Decision {
            invariant: [0; SET_WORDS],
            refusal: 0,
            verdict,
            count: 0,
            size: 0,
            steps: 0,
            reserved: 0,
        }
    }
}
