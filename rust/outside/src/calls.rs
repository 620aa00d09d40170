//! The calls as a trait, so that one test serves the library as it is linked for C, the safe
//! wrapper around it, and the peer.

use crate::table::WORDS;

/// What decide answers; the fields are those of `shuntberry_decision`.
#[derive(Clone, Copy, Debug, Default, PartialEq, Eq)]
pub struct Decision {
    pub invariant: [u64; WORDS],
    pub refusal: u32,
    pub verdict: u32,
    pub count: u32,
    pub size: u32,
    pub steps: u32,
    pub reserved: u32,
}

/// What check answers, as far as it is compared: the text is in its buffer.
#[derive(Clone, Copy, Debug, Default, PartialEq, Eq)]
pub struct Checked {
    pub refusal: u32,
    pub verdict: u32,
    pub length: usize,
}

/// What shortest path answers.
#[derive(Clone, Copy, Debug, Default, PartialEq, Eq)]
pub struct Shortest {
    pub refusal: u32,
    pub found: u32,
    pub steps: u32,
}

/// What within answers.
#[derive(Clone, Copy, Debug, Default, PartialEq, Eq)]
pub struct Within {
    pub refusal: u32,
    pub within: u32,
}

/// What read answers.
#[derive(Clone, Copy, Debug, Default, PartialEq, Eq)]
pub struct TableRead {
    pub refusal: u32,
    pub n: u32,
    pub g: u32,
}

/// What write answers.
#[derive(Clone, Copy, Debug, Default, PartialEq, Eq)]
pub struct Written {
    pub refusal: u32,
    pub length: u32,
}

/// What replay answers.
#[derive(Clone, Copy, Debug, Default, PartialEq, Eq)]
pub struct Replay {
    pub refusal: u32,
    pub followed: u32,
    pub seen: u32,
    pub percent: u32,
    pub remainder: u32,
}

/// The words of a set.
pub type Words = [u64; WORDS];

/// What the calls of an edit session answer.
#[derive(Clone, Copy, Debug, Default, PartialEq, Eq)]
pub struct Session {
    pub refusal: u32,
    pub reachable: Words,
}

/// A step to add or to remove.
#[derive(Clone, Copy, Debug, PartialEq, Eq)]
pub enum Edit {
    Add(usize, usize),
    Remove(usize, usize),
}

/// What decide modal answers.
#[derive(Clone, Copy, Debug, Default, PartialEq, Eq)]
pub struct Modal {
    pub invariant: [u64; WORDS],
    pub refusal: u32,
    pub verdict: u32,
    pub size: u32,
    pub steps: u32,
}

pub const SAFE: u32 = 0;
pub const UNSAFE: u32 = 1;
pub const UNDECIDED: u32 = 2;
pub const DEPENDS: u32 = 3;

// What a refused call has in place of an answer: the numbers of the C interface. All its other numbers are 0 and its set is
// empty, but that a refused edit gives back the set it was handed.

const NO_VERDICT: u32 = 255;
/// In place of a yes or no.
pub const NO_ANSWER: u32 = 255;
/// In place of a number of states or groups.
const NO_TABLE: u32 = 65_535;

impl Decision {
    pub fn refused(refusal: u32) -> Decision {
        Decision {
            refusal,
            verdict: NO_VERDICT,
            ..Decision::default()
        }
    }
}

impl Shortest {
    pub fn refused(refusal: u32) -> Shortest {
        Shortest {
            refusal,
            found: NO_ANSWER,
            steps: 0,
        }
    }
}

impl Within {
    pub fn refused(refusal: u32) -> Within {
        Within {
            refusal,
            within: NO_ANSWER,
        }
    }
}

impl TableRead {
    pub fn refused(refusal: u32) -> TableRead {
        TableRead {
            refusal,
            n: NO_TABLE,
            g: NO_TABLE,
        }
    }
}

impl Written {
    pub fn refused(refusal: u32) -> Written {
        Written { refusal, length: 0 }
    }
}

impl Replay {
    pub fn refused(refusal: u32) -> Replay {
        Replay {
            refusal,
            ..Replay::default()
        }
    }
}

impl Modal {
    pub fn refused(refusal: u32) -> Modal {
        Modal {
            refusal,
            verdict: NO_VERDICT,
            ..Modal::default()
        }
    }
}

pub trait Calls: Sync {
    fn name(&self) -> &'static str;
    fn decide(
        &self,
        store: &[u64],
        n: usize,
        g: usize,
        allowance: usize,
        path: &mut [u16],
    ) -> Decision;
    /// None of an implementation that has no such call, as the peer.
    fn check(&self, _input: &[u8], _site: usize, _text: &mut [u8]) -> Option<Checked> {
        None
    }
    fn shortest_path(&self, store: &[u64], n: usize, g: usize, path: &mut [u16]) -> Shortest;
    /// The refusal, or 0.
    fn distances(&self, store: &[u64], n: usize, g: usize, distances: &mut [u16]) -> u32;
    fn within(&self, store: &[u64], n: usize, g: usize, k: usize) -> Within;
    fn read(&self, input: &[u8], site: usize, store: &mut [u64]) -> TableRead;
    fn write(&self, store: &[u64], n: usize, g: usize, site: usize, output: &mut [u8]) -> Written;
    /// The refusal, or 0.
    fn generate(&self, seed: u32, n: usize, fan_out: usize, store: &mut [u64]) -> u32;
    fn replay(&self, store: &[u64], n: usize, g: usize, log: &[u8]) -> Replay;
    fn open(&self, store: &[u64], n: usize, g: usize) -> Session;
    fn edit(&self, store: &mut [u64], n: usize, g: usize, lit: Words, edit: Edit) -> Session;

    /// What is lit after a table was opened and a list of edits made.
    fn session(&self, store: &mut [u64], n: usize, g: usize, edits: &[Edit]) -> Words {
        let mut lit = self.open(store, n, g).reachable;
        for &edit in edits {
            lit = self.edit(store, n, g, lit, edit).reachable;
        }
        lit
    }

    fn decide_modal(
        &self,
        store: &[u64],
        n: usize,
        g: usize,
        possible: &[u64],
        path: &mut [u16],
    ) -> Modal;
}

#[cfg(feature = "library")]
pub use linked::{Linked, Wrapped};

#[cfg(feature = "library")]
mod linked {
    use super::{
        Calls, Checked, DEPENDS, Decision, Edit, Modal, Replay, SAFE, Session, Shortest, TableRead,
        UNDECIDED, UNSAFE, Within, Words, Written,
    };
    use shuntberry::{ModalVerdict, Refused, StateSet, Verdict, raw};

    /// The library, by its exports for C.
    pub struct Linked;

    // SAFETY of the calls: each pointer and length are those of a slice.
    impl Calls for Linked {
        fn name(&self) -> &'static str {
            "library"
        }

        fn decide(
            &self,
            store: &[u64],
            n: usize,
            g: usize,
            allowance: usize,
            path: &mut [u16],
        ) -> Decision {
            let (words, length) = (store.as_ptr(), store.len());
            let (places, room) = (path.as_mut_ptr(), path.len());
            let answer =
                unsafe { raw::shuntberry_decide(words, length, n, g, allowance, places, room) };
            Decision {
                invariant: answer.invariant,
                refusal: answer.refusal,
                verdict: answer.verdict,
                count: answer.count,
                size: answer.size,
                steps: answer.steps,
                reserved: answer.reserved,
            }
        }

        fn check(&self, input: &[u8], site: usize, text: &mut [u8]) -> Option<Checked> {
            let (bytes, length) = (input.as_ptr(), input.len());
            let (text, room) = (text.as_mut_ptr(), text.len());
            let answer = unsafe { raw::shuntberry_check(bytes, length, site, text, room) };
            Some(Checked {
                refusal: answer.refusal,
                verdict: answer.verdict,
                length: answer.length,
            })
        }

        fn shortest_path(&self, store: &[u64], n: usize, g: usize, path: &mut [u16]) -> Shortest {
            let (words, length) = (store.as_ptr(), store.len());
            let (places, room) = (path.as_mut_ptr(), path.len());
            let answer =
                unsafe { raw::shuntberry_shortest_path(words, length, n, g, places, room) };
            Shortest {
                refusal: answer.refusal,
                found: answer.found,
                steps: answer.steps,
            }
        }

        fn distances(&self, store: &[u64], n: usize, g: usize, distances: &mut [u16]) -> u32 {
            let (words, length) = (store.as_ptr(), store.len());
            let (places, room) = (distances.as_mut_ptr(), distances.len());
            unsafe { raw::shuntberry_distances(words, length, n, g, places, room) }
        }

        fn within(&self, store: &[u64], n: usize, g: usize, k: usize) -> Within {
            let answer = unsafe { raw::shuntberry_within(store.as_ptr(), store.len(), n, g, k) };
            Within {
                refusal: answer.refusal,
                within: answer.within,
            }
        }

        fn read(&self, input: &[u8], site: usize, store: &mut [u64]) -> TableRead {
            let (bytes, length) = (input.as_ptr(), input.len());
            let (words, room) = (store.as_mut_ptr(), store.len());
            let answer = unsafe { raw::shuntberry_read(bytes, length, site, words, room) };
            TableRead {
                refusal: answer.refusal,
                n: answer.n,
                g: answer.g,
            }
        }

        fn write(
            &self,
            store: &[u64],
            n: usize,
            g: usize,
            site: usize,
            output: &mut [u8],
        ) -> Written {
            let (words, length) = (store.as_ptr(), store.len());
            let (bytes, room) = (output.as_mut_ptr(), output.len());
            let answer = unsafe { raw::shuntberry_write(words, length, n, g, site, bytes, room) };
            Written {
                refusal: answer.refusal,
                length: answer.length,
            }
        }

        fn generate(&self, seed: u32, n: usize, fan_out: usize, store: &mut [u64]) -> u32 {
            let (words, room) = (store.as_mut_ptr(), store.len());
            unsafe { raw::shuntberry_generate(seed, n, fan_out, words, room) }
        }

        fn replay(&self, store: &[u64], n: usize, g: usize, log: &[u8]) -> Replay {
            let (words, length) = (store.as_ptr(), store.len());
            let answer =
                unsafe { raw::shuntberry_replay(words, length, n, g, log.as_ptr(), log.len()) };
            Replay {
                refusal: answer.refusal,
                followed: answer.followed,
                seen: answer.seen,
                percent: answer.percent,
                remainder: answer.remainder,
            }
        }

        fn open(&self, store: &[u64], n: usize, g: usize) -> Session {
            laid_out(unsafe { raw::shuntberry_open(store.as_ptr(), store.len(), n, g) })
        }

        fn edit(&self, store: &mut [u64], n: usize, g: usize, lit: Words, edit: Edit) -> Session {
            let (words, length) = (store.as_mut_ptr(), store.len());
            let lit = raw::Set { words: lit };
            laid_out(match edit {
                Edit::Add(from, to) => unsafe {
                    raw::shuntberry_add_step(words, length, n, g, lit, from, to)
                },
                Edit::Remove(from, to) => unsafe {
                    raw::shuntberry_remove_step(words, length, n, g, lit, from, to)
                },
            })
        }

        fn decide_modal(
            &self,
            store: &[u64],
            n: usize,
            g: usize,
            possible: &[u64],
            path: &mut [u16],
        ) -> Modal {
            let (words, length) = (store.as_ptr(), store.len());
            let (rows, more) = (possible.as_ptr(), possible.len());
            let (places, room) = (path.as_mut_ptr(), path.len());
            let answer = unsafe {
                raw::shuntberry_decide_modal(words, length, n, g, rows, more, places, room)
            };
            Modal {
                invariant: answer.invariant,
                refusal: answer.refusal,
                verdict: answer.verdict,
                size: answer.size,
                steps: answer.steps,
            }
        }
    }

    /// The session's fields; an answer that no test expects where the last one is not 0.
    fn laid_out(answer: raw::Session) -> Session {
        Session {
            refusal: match answer.reserved {
                0 => answer.refusal,
                _ => u32::MAX,
            },
            reachable: answer.reachable.words,
        }
    }

    /// The library, by the safe wrapper: its answers laid out as the fields they come from.
    pub struct Wrapped;

    /// The length of what a call returned. That is to be the front of the buffer it was lent; where it
    /// is not, the answer is one that no test expects.
    fn length_of_front<T: PartialEq>(lent: &[T], returned: &[T]) -> u32 {
        if lent.starts_with(returned) {
            returned.len() as u32
        } else {
            u32::MAX
        }
    }

    impl Calls for Wrapped {
        fn name(&self) -> &'static str {
            "wrapper"
        }

        fn decide(
            &self,
            store: &[u64],
            n: usize,
            g: usize,
            allowance: usize,
            path: &mut [u16],
        ) -> Decision {
            let none = Decision::default();
            match shuntberry::decide(store, n, g, allowance, path) {
                Err(Refused(refusal)) => Decision::refused(refusal),
                Ok(Verdict::Safe { count, invariant }) => Decision {
                    verdict: SAFE,
                    count,
                    invariant: invariant.0,
                    size: invariant.states().count() as u32,
                    ..none
                },
                Ok(Verdict::Unsafe {
                    count,
                    path: states,
                }) => {
                    let states = states.to_vec();
                    Decision {
                        verdict: UNSAFE,
                        count,
                        steps: length_of_front(path, &states).wrapping_sub(1),
                        ..none
                    }
                }
                Ok(Verdict::Undecided { count }) => Decision {
                    verdict: UNDECIDED,
                    count,
                    ..none
                },
            }
        }

        fn shortest_path(&self, store: &[u64], n: usize, g: usize, path: &mut [u16]) -> Shortest {
            let none = Shortest::default();
            match shuntberry::shortest_path(store, n, g, path) {
                Err(Refused(refusal)) => Shortest::refused(refusal),
                Ok(None) => none,
                Ok(Some(states)) => {
                    let states = states.to_vec();
                    Shortest {
                        found: 1,
                        steps: length_of_front(path, &states).wrapping_sub(1),
                        ..none
                    }
                }
            }
        }

        fn distances(&self, store: &[u64], n: usize, g: usize, distances: &mut [u16]) -> u32 {
            match shuntberry::distances(store, n, g, distances) {
                Err(Refused(refusal)) => refusal,
                Ok(()) => 0,
            }
        }

        fn within(&self, store: &[u64], n: usize, g: usize, k: usize) -> Within {
            match shuntberry::within(store, n, g, k) {
                Err(Refused(refusal)) => Within::refused(refusal),
                Ok(yes) => Within {
                    refusal: 0,
                    within: yes as u32,
                },
            }
        }

        fn read(&self, input: &[u8], site: usize, store: &mut [u64]) -> TableRead {
            match shuntberry::read(input, site, store) {
                Err(Refused(refusal)) => TableRead::refused(refusal),
                Ok(table) => TableRead {
                    refusal: 0,
                    n: table.n as u32,
                    g: table.g as u32,
                },
            }
        }

        fn write(
            &self,
            store: &[u64],
            n: usize,
            g: usize,
            site: usize,
            output: &mut [u8],
        ) -> Written {
            match shuntberry::write(store, n, g, site, output) {
                Err(Refused(refusal)) => Written::refused(refusal),
                Ok(file) => {
                    let file = file.to_vec();
                    Written {
                        refusal: 0,
                        length: length_of_front(output, &file),
                    }
                }
            }
        }

        fn generate(&self, seed: u32, n: usize, fan_out: usize, store: &mut [u64]) -> u32 {
            match shuntberry::generate(seed, n, fan_out, store) {
                Err(Refused(refusal)) => refusal,
                Ok(()) => 0,
            }
        }

        fn replay(&self, store: &[u64], n: usize, g: usize, log: &[u8]) -> Replay {
            match shuntberry::replay(store, n, g, log) {
                Err(Refused(refusal)) => Replay::refused(refusal),
                Ok(walk) => Replay {
                    refusal: 0,
                    followed: walk.followed as u32,
                    seen: walk.seen as u32,
                    percent: walk.percent as u32,
                    remainder: walk.remainder as u32,
                },
            }
        }

        fn open(&self, store: &[u64], n: usize, g: usize) -> Session {
            answered(shuntberry::open(store, n, g), Words::default())
        }

        fn edit(&self, store: &mut [u64], n: usize, g: usize, lit: Words, edit: Edit) -> Session {
            let set = StateSet(lit);
            let answer = match edit {
                Edit::Add(from, to) => shuntberry::add_step(store, n, g, set, from, to),
                Edit::Remove(from, to) => shuntberry::remove_step(store, n, g, set, from, to),
            };
            answered(answer, lit)
        }

        fn session(&self, store: &mut [u64], n: usize, g: usize, edits: &[Edit]) -> Words {
            let Ok(mut session) = shuntberry::Session::open(store, n, g) else {
                return Words::default();
            };
            for &edit in edits {
                // one that is refused is no edit
                let _ = match edit {
                    Edit::Add(from, to) => session.add_step(from, to),
                    Edit::Remove(from, to) => session.remove_step(from, to),
                };
            }
            session.reachable().0
        }

        fn decide_modal(
            &self,
            store: &[u64],
            n: usize,
            g: usize,
            possible: &[u64],
            path: &mut [u16],
        ) -> Modal {
            let (verdict, invariant, states) =
                match shuntberry::decide_modal(store, n, g, possible, path) {
                    Err(Refused(refusal)) => return Modal::refused(refusal),
                    Ok(ModalVerdict::Safe { invariant }) => (SAFE, invariant, None),
                    Ok(ModalVerdict::Unsafe { path }) => {
                        (UNSAFE, StateSet::default(), Some(path.to_vec()))
                    }
                    Ok(ModalVerdict::Depends { invariant, path }) => {
                        (DEPENDS, invariant, Some(path.to_vec()))
                    }
                };
            Modal {
                invariant: invariant.0,
                refusal: 0,
                verdict,
                size: invariant.states().count() as u32,
                steps: states.map_or(0, |states| length_of_front(path, &states).wrapping_sub(1)),
            }
        }
    }

    /// The wrapper's answer, with the set that a refused call gives.
    fn answered(answer: Result<StateSet, Refused>, refused: Words) -> Session {
        match answer {
            Ok(StateSet(reachable)) => Session {
                refusal: 0,
                reachable,
            },
            Err(Refused(refusal)) => Session {
                refusal,
                reachable: refused,
            },
        }
    }
}
