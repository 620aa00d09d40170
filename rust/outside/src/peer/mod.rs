//! An optimised implementation of the calls, on sets of words, with nothing allocated: what
//! the library is measured against. It uses nothing else of this package but the answers' types.
//!
//! The rounds are the specification's. Their fixpoints are worked out in one of two ways:
//! - `Looks::Whole` repeats the step on the whole set until nothing changes;
//! - `Looks::New` looks again only at what can have changed.

mod decide;
mod files;
mod generate;
mod modal;
mod paths;
mod replay;
mod sessions;
mod set;
mod table;
mod windows;

use crate::calls::{
    Calls, Decision, Edit, Modal, Replay, Session, Shortest, TableRead, Within, Written,
};
use crate::windows::{Minute, NextOpen};
use set::Words;

#[derive(Clone, Copy, Debug, PartialEq, Eq)]
pub enum Looks {
    Whole,
    New,
}

/// The peer as a library.
pub struct Peer(pub Looks);

const WORDS: usize = 8;
const MAX_STATES: usize = 64 * WORDS;
const MAX_GROUPS: usize = 64;
/// The sets that stand before the groups.
const HEAD_SETS: usize = 3;
const STORE_WORDS: usize = (HEAD_SETS + MAX_GROUPS + MAX_STATES) * WORDS;
const MAX_ALLOWANCE: usize = MAX_STATES;
const PATH_PLACES: usize = MAX_STATES;

impl Calls for Peer {
    fn name(&self) -> &'static str {
        match self.0 {
            Looks::Whole => "peer",
            Looks::New => "quick peer",
        }
    }

    fn decide(
        &self,
        store: &[u64],
        n: usize,
        g: usize,
        allowance: usize,
        path: &mut [u16],
    ) -> Decision {
        decide::decide(store, n, g, allowance, path, self.0)
    }

    fn shortest_path(&self, store: &[u64], n: usize, g: usize, path: &mut [u16]) -> Shortest {
        paths::shortest_path(store, n, g, path)
    }

    fn read(&self, input: &[u8], site: usize, store: &mut [u64]) -> TableRead {
        files::read(input, site, store)
    }

    fn distances(&self, store: &[u64], n: usize, g: usize, distances: &mut [u16]) -> u32 {
        paths::distances(store, n, g, distances)
    }

    fn within(&self, store: &[u64], n: usize, g: usize, k: usize) -> Within {
        paths::within(store, n, g, k)
    }

    fn write(&self, store: &[u64], n: usize, g: usize, site: usize, output: &mut [u8]) -> Written {
        files::write(store, n, g, site, output)
    }

    fn generate(&self, seed: u32, n: usize, fan_out: usize, store: &mut [u64]) -> u32 {
        generate::generate(seed, n, fan_out, store)
    }

    fn replay(&self, store: &[u64], n: usize, g: usize, log: &[u8]) -> Replay {
        replay::replay(store, n, g, log)
    }

    fn open(&self, store: &[u64], n: usize, g: usize) -> Session {
        sessions::open(store, n, g)
    }

    fn edit(&self, store: &mut [u64], n: usize, g: usize, lit: Words, edit: Edit) -> Session {
        sessions::edit(store, n, g, lit, edit)
    }

    fn decide_modal(
        &self,
        store: &[u64],
        n: usize,
        g: usize,
        possible: &[u64],
        path: &mut [u16],
    ) -> Modal {
        modal::decide_modal(store, n, g, possible, path, self.0)
    }
}

impl NextOpen for Peer {
    fn name(&self) -> &'static str {
        "peer"
    }

    fn next_open(&self, time: usize, windows: &[u64], closed: &[u32]) -> Minute {
        windows::next_open(time, windows, closed)
    }
}
