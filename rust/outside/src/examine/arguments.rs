//! Refusals of arguments.

use super::{
    FAR_SITES, Outcome, Tally, WIDE, decide, distances, random_site, shortest_path, within, write,
};
use crate::accept::{MAX_ALLOWANCE, PATH_PLACES};
use crate::blocks::Form;
use crate::calls::Calls;
use crate::expected;
use crate::generate::Random;
use crate::logs;
use crate::modal;
use crate::sessions;
use crate::table::{
    Dialogue, HEAD_SETS, MAX_GROUPS, MAX_STATES, STORE_WORDS, WORDS, group_at, row_at,
};

/// What can be wrong with the arguments of the calls that are lent a table.
#[derive(Clone, Copy, Debug)]
enum Fault {
    StoreShort,
    States,
    Groups,
    StrayBit,
    UnusedGroup,
    UnusedRow,
    Allowance,
    PathShort,
    OutputShort,
    PlacesShort,
    Site,
    /// One state or group more or fewer than the store was made for.
    OtherSize,
}

const FAULTS: [Fault; 12] = [
    Fault::StoreShort,
    Fault::States,
    Fault::Groups,
    Fault::StrayBit,
    Fault::UnusedGroup,
    Fault::UnusedRow,
    Fault::Allowance,
    Fault::PathShort,
    Fault::OutputShort,
    Fault::PlacesShort,
    Fault::Site,
    Fault::OtherSize,
];

struct Arguments {
    store: Vec<u64>,
    n: usize,
    g: usize,
    allowance: usize,
    path_len: usize,
    output_len: usize,
    places: usize,
    site: usize,
}

impl Arguments {
    fn of(dialogue: &Dialogue, random: &mut Random) -> Arguments {
        let (n, g) = (dialogue.n, dialogue.g());
        Arguments {
            store: dialogue.to_store(),
            n,
            g,
            allowance: random.pick(&[0, 1, MAX_ALLOWANCE]),
            path_len: PATH_PLACES,
            output_len: Form::New.file_length(n, g),
            places: n,
            site: random_site(random),
        }
    }

    fn spoil(&mut self, fault: Fault, random: &mut Random) {
        match fault {
            Fault::StoreShort => {
                let length = match random.below(3) {
                    0 => 0,
                    1 => random.below(STORE_WORDS),
                    _ => STORE_WORDS - 1,
                };
                self.store.truncate(length);
            }
            Fault::States => self.n = random.pick(&[0, MAX_STATES + 1, WIDE, usize::MAX]),
            Fault::Groups => self.g = random.pick(&[MAX_GROUPS + 1, WIDE, usize::MAX]),
            Fault::StrayBit if self.n < MAX_STATES && self.g <= MAX_GROUPS => {
                let last = random.pick(&[self.n, MAX_STATES - 1]);
                let state = random.within(self.n, last);
                let sets = HEAD_SETS + self.g + self.n;
                let bound = random.pick(&[HEAD_SETS, sets]);
                let at = match random.below(bound) {
                    set if set < HEAD_SETS + self.g => WORDS * set,
                    set => row_at(set - HEAD_SETS - self.g),
                };
                self.put(at + state / 64, state % 64);
            }
            Fault::UnusedGroup if self.g < MAX_GROUPS => {
                let at = random.within(group_at(self.g), row_at(0) - 1);
                self.put(at, random.below(64));
            }
            Fault::UnusedRow if self.n < MAX_STATES => {
                let at = random.within(row_at(self.n), STORE_WORDS - 1);
                self.put(at, random.below(64));
            }
            Fault::StrayBit | Fault::UnusedGroup | Fault::UnusedRow => {}
            Fault::Allowance => {
                self.allowance = random.pick(&[MAX_ALLOWANCE + 1, WIDE, usize::MAX])
            }
            Fault::PathShort => self.path_len = random.pick(&[0, PATH_PLACES - 1]),
            Fault::OutputShort => {
                self.output_len = random.pick(&[0, self.output_len.saturating_sub(1)]);
            }
            Fault::PlacesShort => {
                self.places = random.pick(&[0, self.places.saturating_sub(1)]);
            }
            Fault::Site => self.site = random.pick(&FAR_SITES),
            Fault::OtherSize => match random.below(4) {
                0 => self.n = self.n.wrapping_add(1),
                1 => self.n = self.n.wrapping_sub(1),
                2 => self.g = self.g.wrapping_add(1),
                _ => self.g = self.g.wrapping_sub(1),
            },
        }
    }

    /// Sets a bit of a word, if the store still has it.
    fn put(&mut self, at: usize, bit: usize) {
        if let Some(word) = self.store.get_mut(at) {
            *word |= 1 << bit;
        }
    }
}

// tries: Promises.Untouched, Stores.shared_grounds, Grounds.Listed.malformed_store, Calls.write_grounds
// tries: Calls.decide_limits, DecideDemands.refusal, PathDemands.refusal, DistancePromises.refusal
// tries: basics: Refusals.refuse
/// The calls that are lent a table, with one to three faults in their arguments.
pub(super) fn spoiled_arguments(
    libraries: &[&dyn Calls],
    dialogue: &Dialogue,
    random: &mut Random,
    tally: &mut Tally,
) -> Outcome {
    let mut arguments = Arguments::of(dialogue, random);
    let faults: Vec<Fault> = (0..random.within(1, 3))
        .map(|_| random.pick(&FAULTS))
        .collect();
    for &fault in &faults {
        arguments.spoil(fault, random);
    }
    let Arguments {
        store,
        n,
        g,
        allowance,
        path_len,
        output_len,
        places,
        site,
    } = arguments;
    let path = random.places(path_len);
    let output = random.bytes(output_len);
    let out = random.places(places);
    let k = random.pick(&[0, 1, 65_535, usize::MAX]);
    let decision = expected::decide(&store, n, g, allowance, path_len);
    let shortest = expected::shortest_path(&store, n, g, path_len);
    let written = expected::write(&store, n, g, site, output_len);
    let far = expected::distances(&store, n, g, places);
    let near = expected::within(&store, n, g, k);
    tally.count("refusal by decide", decision.answer.refusal);
    tally.count("refusal by shortest path", shortest.answer.refusal);
    tally.count("refusal by write", written.answer.refusal);
    tally.count("refusal by distances", far.answer);
    tally.count("refusal by within", near.refusal);
    for library in libraries {
        decide(*library, &store, (n, g, allowance), &path, &decision)
            .and_then(|()| shortest_path(*library, &store, (n, g), &path, &shortest))
            .and_then(|()| write(*library, &store, (n, g, site), &output, &written))
            .and_then(|()| distances(*library, &store, (n, g), &out, &far))
            .and_then(|()| within(*library, &store, (n, g), [(k, near)]))
            .map_err(|fault| format!("{faults:?}: {fault}"))?;
    }
    logs::spoiled(libraries, &store, (n, g), random, tally)
        .and_then(|()| sessions::spoiled(libraries, &store, (n, g), random, tally))
        .and_then(|()| modal::spoiled(libraries, dialogue, &store, (n, g, path_len), random, tally))
        .map_err(|fault| format!("{faults:?}: {fault}"))
}
