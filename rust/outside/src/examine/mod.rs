//! The tests: one table or one file at a time, held to what the plain implementations expect.
//!
//! Each examination makes its calls with buffers between guards, compares every field of the answer
//! and every element of every buffer, and says in words what differs.
//!
//! - `tables`: a random table through all calls; `demands`: what is expected of it, held to the demands of the specification;
//! - `arguments`: the calls with faults in their arguments;
//! - `files`: a random file, whole or damaged, and the specification's figures about files;
//! - `named`: the specification's tables; `drafts`, `sites` and `edges`: what it says of these;
//! - `calls`: one call, with all its buffers compared.

mod arguments;
mod calls;
mod demands;
mod drafts;
mod edges;
mod files;
mod named;
mod sites;
mod tables;

use std::collections::BTreeMap;
use std::fmt::Debug;

use crate::blocks::MAX_SITE;
use crate::generate::Random;

use calls::write;
pub(crate) use calls::{decide, distances, read, shortest_path, within};
pub(crate) use files::answered_file;
pub use files::random_file;
pub use named::named_tables;
pub use tables::{accepted_table, random_table};

pub type Outcome = Result<(), String>;

/// How often each kind of a thing came up, so that a reader sees what was tested.
#[derive(Default)]
pub struct Tally(pub BTreeMap<(&'static str, String), usize>);

impl Tally {
    pub fn count(&mut self, thing: &'static str, kind: impl ToString) {
        *self.0.entry((thing, kind.to_string())).or_default() += 1;
    }

    pub fn add(&mut self, other: Tally) {
        for (what, count) in other.0 {
            *self.0.entry(what).or_default() += count;
        }
    }
}

fn same<T: PartialEq + Debug>(what: &str, answer: T, expected: T) -> Outcome {
    if answer == expected {
        Ok(())
    } else {
        Err(format!("{what} answered {answer:?}, expected {expected:?}"))
    }
}

fn ensure(holds: bool, what: impl FnOnce() -> String) -> Outcome {
    if holds { Ok(()) } else { Err(what()) }
}

// ---- Numbers of steps and sites

/// Numbers of steps that no path has: either side of 65,535, which stands for no distance, and past 16
/// and 32 bits.
const FAR: [usize; 6] = [65_534, 65_535, 65_536, 1 << 32, WIDE, usize::MAX];

/// A site, often one at an end of their range.
fn random_site(random: &mut Random) -> usize {
    let any = random.within(0, MAX_SITE);
    random.pick(&[0, 1, MAX_SITE, any, any])
}

/// Sites over the greatest, some of which are a site in their low 16 or 32 bits.
const FAR_SITES: [usize; 6] = [MAX_SITE + 1, 65_535, 1 << 16, 1 << 32, WIDE, usize::MAX];

/// A number past 32 bits, which must not be taken for its low half.
const WIDE: usize = (1 << 32) + 1;
