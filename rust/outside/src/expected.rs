//! What the calls must answer, and what they must leave in the buffer they write, put together
//! from the plain implementations.

use crate::accept;
use crate::blocks::Form;
use crate::calls::{Decision, SAFE, Shortest, TableRead, UNDECIDED, UNSAFE, Within, Written};
use crate::rounds::{Outcome, Rounds};
use crate::search;
use crate::table::{Dialogue, Table, words};

/// An answer, and the front of the written buffer; what lies past the front stays.
pub struct Expected<A, T> {
    pub answer: A,
    pub front: Vec<T>,
}

/// A table with what decide is expected to say of it.
pub struct Judged<'t> {
    pub table: &'t Table,
    pub rounds: Rounds<'t>,
    pub path: Option<Vec<usize>>,
}

impl<'t> Judged<'t> {
    pub fn new(table: &'t Table) -> Judged<'t> {
        Judged {
            table,
            rounds: Rounds::new(table),
            path: search::smallest_shortest_path(table),
        }
    }

    /// Decide on an accepted store.
    pub fn decide(&mut self, allowance: usize) -> Expected<Decision, u16> {
        let (outcome, count) = self.rounds.decide(allowance);
        let mut answer = Decision {
            count: count as u32,
            ..Decision::default()
        };
        let mut front = Vec::new();
        match outcome {
            Outcome::Safe { invariant } => {
                answer.verdict = SAFE;
                answer.size = invariant.iter().filter(|&&held| held).count() as u32;
                answer.invariant = words(&invariant);
            }
            Outcome::Unsafe => {
                answer.verdict = UNSAFE;
                front = path_places(self.path.as_deref().expect("unsafe, so there is a path"));
                answer.steps = front.len() as u32 - 1;
            }
            Outcome::Undecided => answer.verdict = UNDECIDED,
        }
        Expected { answer, front }
    }

    /// Shortest path on an accepted store.
    pub fn shortest_path(&self) -> Expected<Shortest, u16> {
        let front = self.path.as_deref().map(path_places).unwrap_or_default();
        let answer = Shortest {
            refusal: 0,
            found: self.path.is_some() as u32,
            steps: front.len().saturating_sub(1) as u32,
        };
        Expected { answer, front }
    }

    /// Distances on an accepted store, with room enough.
    pub fn distances(&self) -> Expected<u32, u16> {
        let number = |steps: Option<usize>| steps.map_or(65_535, |steps| steps as u16);
        Expected {
            answer: 0,
            front: search::distances(self.table)
                .into_iter()
                .map(number)
                .collect(),
        }
    }

    /// Within on an accepted store: by the shortest path from an initial state, not by distances.
    pub fn within(&self, k: usize) -> Within {
        let yes = self.path.as_ref().is_some_and(|path| path.len() - 1 <= k);
        Within {
            refusal: 0,
            within: yes as u32,
        }
    }
}

/// The table in an accepted store.
fn table_in(store: &[u64], n: usize, g: usize) -> Table {
    Dialogue::from_store(store, n, g).table()
}

/// Decide on any arguments.
pub fn decide(
    store: &[u64],
    n: usize,
    g: usize,
    allowance: usize,
    path_len: usize,
) -> Expected<Decision, u16> {
    match accept::decide(store, n, g, allowance, path_len) {
        Ok(()) => Judged::new(&table_in(store, n, g)).decide(allowance),
        Err(refusal) => Expected {
            answer: Decision::refused(refusal),
            front: Vec::new(),
        },
    }
}

/// Shortest path on any arguments.
pub fn shortest_path(
    store: &[u64],
    n: usize,
    g: usize,
    path_len: usize,
) -> Expected<Shortest, u16> {
    match accept::shortest_path(store, n, g, path_len) {
        Ok(()) => Judged::new(&table_in(store, n, g)).shortest_path(),
        Err(refusal) => Expected {
            answer: Shortest::refused(refusal),
            front: Vec::new(),
        },
    }
}

/// Distances on any arguments.
pub fn distances(store: &[u64], n: usize, g: usize, room: usize) -> Expected<u32, u16> {
    match accept::distances(store, n, g, room) {
        Ok(()) => Judged::new(&table_in(store, n, g)).distances(),
        Err(refusal) => Expected {
            answer: refusal,
            front: Vec::new(),
        },
    }
}

/// Within on any arguments.
pub fn within(store: &[u64], n: usize, g: usize, k: usize) -> Within {
    match accept::within(store, n, g) {
        Ok(()) => Judged::new(&table_in(store, n, g)).within(k),
        Err(refusal) => Within::refused(refusal),
    }
}

/// Write on an accepted store that holds the dialogue, for a site, with output enough.
pub fn written(dialogue: &Dialogue, site: usize) -> Expected<Written, u8> {
    let front = Form::New.encode(dialogue, site);
    let answer = Written {
        refusal: 0,
        length: front.len() as u32,
    };
    Expected { answer, front }
}

/// Write on any arguments.
pub fn write(
    store: &[u64],
    n: usize,
    g: usize,
    site: usize,
    output_len: usize,
) -> Expected<Written, u8> {
    match accept::write(store, n, g, site, output_len) {
        Ok(()) => written(&Dialogue::from_store(store, n, g), site),
        Err(refusal) => Expected {
            answer: Written::refused(refusal),
            front: Vec::new(),
        },
    }
}

/// Read on any arguments.
pub fn read(input: &[u8], site: usize, store_len: usize) -> Expected<TableRead, u64> {
    let read = accept::read(store_len, site).and_then(|()| Form::New.decode(input, site));
    match read {
        Ok(dialogue) => Expected {
            answer: TableRead {
                refusal: 0,
                n: dialogue.n as u32,
                g: dialogue.g() as u32,
            },
            front: dialogue.to_store(),
        },
        Err(refusal) => Expected {
            answer: TableRead::refused(refusal),
            front: Vec::new(),
        },
    }
}

fn path_places(path: &[usize]) -> Vec<u16> {
    path.iter().map(|&state| state as u16).collect()
}
