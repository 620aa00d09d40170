//! The library's source by rustc (`rust/portable`), by its calls on slices: what the benchmark measures beside the proved archive, in
//! one process. (The tests have it in the archive's place, by the feature `portable`.)

use crate::calls::{
    Calls, Checked, Decision, Edit, Modal, Replay, Session, Shortest, TableRead, Within, Words,
    Written,
};
use crate::windows::{Minute, NextOpen};
use shuntberry_portable as portable;

/// The portable source.
pub struct Portable;

impl Calls for Portable {
    fn name(&self) -> &'static str {
        "portable"
    }

    fn decide(
        &self,
        store: &[u64],
        n: usize,
        g: usize,
        allowance: usize,
        path: &mut [u16],
    ) -> Decision {
        let answer = portable::shuntberry_decide(store, n, g, allowance, path);
        Decision {
            invariant: answer.invariant,
            refusal: answer.refusal,
            verdict: answer.verdict,
            count: answer.count,
            size: answer.size,
            steps: answer.steps,
            reserved: answer.reserved,
        }
    }

    fn check(&self, input: &[u8], site: usize, text: &mut [u8]) -> Option<Checked> {
        let answer = portable::shuntberry_check(input, site, text);
        Some(Checked {
            refusal: answer.refusal,
            verdict: answer.verdict,
            length: answer.length,
        })
    }

    fn shortest_path(&self, store: &[u64], n: usize, g: usize, path: &mut [u16]) -> Shortest {
        let answer = portable::shuntberry_shortest_path(store, n, g, path);
        Shortest {
            refusal: answer.refusal,
            found: answer.found,
            steps: answer.steps,
        }
    }

    fn distances(&self, store: &[u64], n: usize, g: usize, distances: &mut [u16]) -> u32 {
        portable::shuntberry_distances(store, n, g, distances)
    }

    fn within(&self, store: &[u64], n: usize, g: usize, k: usize) -> Within {
        let answer = portable::shuntberry_within(store, n, g, k);
        Within {
            refusal: answer.refusal,
            within: answer.within,
        }
    }

    fn read(&self, input: &[u8], site: usize, store: &mut [u64]) -> TableRead {
        let answer = portable::shuntberry_read(input, site, store);
        TableRead {
            refusal: answer.refusal,
            n: answer.n,
            g: answer.g,
        }
    }

    fn write(&self, store: &[u64], n: usize, g: usize, site: usize, output: &mut [u8]) -> Written {
        let answer = portable::shuntberry_write(store, n, g, site, output);
        Written {
            refusal: answer.refusal,
            length: answer.length,
        }
    }

    fn generate(&self, seed: u32, n: usize, fan_out: usize, store: &mut [u64]) -> u32 {
        portable::shuntberry_generate(seed, n, fan_out, store)
    }

    fn replay(&self, store: &[u64], n: usize, g: usize, log: &[u8]) -> Replay {
        let answer = portable::shuntberry_replay(store, n, g, log);
        Replay {
            refusal: answer.refusal,
            followed: answer.followed,
            seen: answer.seen,
            percent: answer.percent,
            remainder: answer.remainder,
        }
    }

    fn open(&self, store: &[u64], n: usize, g: usize) -> Session {
        laid_out(portable::shuntberry_open(store, n, g))
    }

    fn edit(&self, store: &mut [u64], n: usize, g: usize, lit: Words, edit: Edit) -> Session {
        let lit = portable::SetFields { words: lit };
        laid_out(match edit {
            Edit::Add(from, to) => portable::shuntberry_add_step(store, n, g, lit, from, to),
            Edit::Remove(from, to) => portable::shuntberry_remove_step(store, n, g, lit, from, to),
        })
    }

    fn decide_modal(
        &self,
        store: &[u64],
        n: usize,
        g: usize,
        possible: &[u64],
        path: &mut [u16],
    ) -> Modal {
        let answer = portable::shuntberry_decide_modal(store, n, g, possible, path);
        Modal {
            invariant: answer.invariant,
            refusal: answer.refusal,
            verdict: answer.verdict,
            size: answer.size,
            steps: answer.steps,
        }
    }
}

fn laid_out(answer: portable::SessionFields) -> Session {
    Session {
        refusal: answer.refusal,
        reachable: answer.reachable,
    }
}

impl NextOpen for Portable {
    fn name(&self) -> &'static str {
        "portable"
    }

    fn next_open(&self, time: usize, windows: &[u64], closed: &[u32]) -> Minute {
        let answer = portable::shuntberry_next_open(time, windows, closed);
        Minute {
            refusal: answer.refusal,
            never: answer.never,
            minute: answer.minute,
        }
    }
}
