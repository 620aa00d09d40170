//! What is measured: a row is a call on a family of cases.

use std::hint::black_box;

use shuntberry_outside::accept::{MAX_ALLOWANCE, MAX_LOG};
use shuntberry_outside::blocks::{Form, LARGEST};
use shuntberry_outside::calls::{
    Calls, Checked, DEPENDS, Decision, Edit, Modal, Replay, SAFE, Shortest, TableRead, UNSAFE,
    Within, Words, Written,
};
use shuntberry_outside::families::{self, GROWTH};
use shuntberry_outside::generate::Random;
use shuntberry_outside::logs;
use shuntberry_outside::modal::Optional;
use shuntberry_outside::peer::{Looks, Peer};
use shuntberry_outside::table::{Dialogue, MAX_STATES, STORE_WORDS, row_at};
use shuntberry_outside::windows::{self, DAY, Minute, NextOpen, WEEK};

use crate::edits::{self, Kind};

pub const SEED: u64 = 1;
/// More than the longest text of check takes.
const TEXT: usize = 1 << 12;
/// The site of the files.
const SITE: usize = 0;

/// All calls of one implementation.
#[derive(Clone, Copy)]
pub struct Library {
    calls: &'static dyn Calls,
    opener: &'static dyn NextOpen,
}

pub const PEER: Library = Library {
    calls: &Peer(Looks::New),
    opener: &Peer(Looks::New),
};

#[cfg(feature = "library")]
pub const LIBRARY: Library = Library {
    calls: &shuntberry_outside::calls::Linked,
    opener: &windows::Linked,
};

#[cfg(feature = "beside")]
pub const PORTABLE: Library = Library {
    calls: &shuntberry_outside::portable::Portable,
    opener: &shuntberry_outside::portable::Portable,
};

impl Library {
    pub fn name(&self) -> &'static str {
        self.calls.name()
    }
}

#[derive(Clone, Copy, PartialEq, Eq)]
pub enum Call {
    Decide,
    /// The plain peer's decide, whatever is measured.
    DecidePlainly,
    /// A release check, from the file's bytes to the text; the peer has none.
    Check,
    ShortestPath,
    Distances,
    Within,
    /// A call that is refused once its store is accepted: what the acceptance test alone takes.
    Acceptance,
    Read,
    Write,
    Generate,
    Replay,
    /// Each edit of a session.
    Edit(Kind),
    /// What is lit after each edit, worked out afresh: the step's bit is changed by hand, and the table opened again.
    OpenAgain,
    DecideModal,
    /// Decide on the possible steps and on the certain ones, which are laid out as tables already.
    DecideTwice,
    NextOpen,
}

impl Call {
    pub fn name(self) -> &'static str {
        match self {
            Call::Decide => "decide",
            Call::DecidePlainly => "the plain peer",
            Call::Check => "check",
            Call::ShortestPath => "shortest path",
            Call::Distances => "distances",
            Call::Within => "within",
            Call::Acceptance => "acceptance",
            Call::Read => "read",
            Call::Write => "write",
            Call::Generate => "generate",
            Call::Replay => "replay",
            Call::Edit(kind) => kind.name(),
            Call::OpenAgain => "opening again",
            Call::DecideModal => "decide modal",
            Call::DecideTwice => "decide twice",
            Call::NextOpen => "next open",
        }
    }

    /// The greatest ratio to the peer that is aimed at, on every family.
    pub fn target(self) -> Option<f64> {
        match self {
            Call::Decide | Call::ShortestPath | Call::Within | Call::Distances => Some(1.5),
            Call::Generate | Call::NextOpen => Some(1.5),
            Call::DecideModal | Call::Read => Some(1.3),
            Call::Write => Some(2.0),
            _ => None,
        }
    }

    /// The greatest ratio of the portable source to the archive that is aimed at, on every family.
    pub fn portable_target(self) -> Option<f64> {
        match self {
            Call::Decide => Some(2.5),
            Call::Acceptance => None,
            _ => Some(6.0),
        }
    }

    /// The bytes that the call has to read and to write on a case.
    pub fn bytes(self, case: &Case) -> (usize, usize) {
        let store = size_of::<[u64; STORE_WORDS]>();
        match self {
            Call::Decide | Call::DecidePlainly => (store, 0),
            Call::ShortestPath | Call::Within | Call::Acceptance => (store, 0),
            Call::Edit(_) | Call::OpenAgain => (store, 0),
            Call::DecideModal | Call::DecideTwice => (store + size_of_val(&case.possible[..]), 0),
            Call::Distances => (store, size_of::<u16>() * case.n),
            Call::Read => (case.file.len(), store),
            Call::Check => (case.file.len(), 0),
            Call::Write => (store, case.file.len()),
            Call::Generate => (0, store),
            Call::Replay => (store + case.log.len(), 0),
            Call::NextOpen => (
                size_of_val(&case.windows[..]) + size_of_val(&case.closed[..]),
                0,
            ),
        }
    }

    /// Makes the call on a case.
    pub fn answer(self, library: Library, case: &Case, buffers: &mut Buffers) -> Answer {
        let Library { calls, opener } = library;
        let (store, n, g) = (&case.store, case.n, case.g);
        match self {
            Call::Decide => {
                Answer::Decision(calls.decide(store, n, g, MAX_ALLOWANCE, &mut buffers.places))
            }
            Call::DecidePlainly => {
                let plain = Peer(Looks::Whole);
                Answer::Decision(plain.decide(store, n, g, MAX_ALLOWANCE, &mut buffers.places))
            }
            Call::Check => Answer::Checked(calls.check(&case.file, SITE, &mut buffers.text)),
            Call::ShortestPath => {
                Answer::Shortest(calls.shortest_path(store, n, g, &mut buffers.places))
            }
            Call::Distances => Answer::Refusal(calls.distances(store, n, g, &mut buffers.places)),
            Call::Within => Answer::Within(calls.within(store, n, g, n)),
            Call::Acceptance => Answer::Shortest(calls.shortest_path(store, n, g, &mut [])),
            Call::Read => Answer::TableRead(calls.read(&case.file, SITE, &mut buffers.store)),
            Call::Write => Answer::Written(calls.write(store, n, g, SITE, &mut buffers.file)),
            Call::Generate => {
                let (seed, fan_out) = (case.seed, case.fan_out);
                Answer::Refusal(calls.generate(seed, n, fan_out, &mut buffers.store))
            }
            Call::Replay => Answer::Replay(calls.replay(store, n, g, &case.log)),
            Call::Edit(_) => {
                let edited = buffers.edited(store);
                Answer::Lit(calls.session(edited, n, g, &case.edits))
            }
            Call::OpenAgain => Answer::Lit(open_again(calls, case, buffers.edited(store))),
            Call::DecideModal => {
                let possible = &case.possible;
                Answer::Modal(calls.decide_modal(store, n, g, possible, &mut buffers.places))
            }
            Call::DecideTwice => Answer::Modal(decide_twice(calls, case, &mut buffers.places)),
            Call::NextOpen => {
                Answer::Minute(opener.next_open(case.time, &case.windows, &case.closed))
            }
        }
    }
}

fn open_again(calls: &dyn Calls, case: &Case, store: &mut [u64]) -> Words {
    let mut lit = calls.open(store, case.n, case.g).reachable;
    for &edit in &case.edits {
        let (Edit::Add(from, to) | Edit::Remove(from, to)) = edit;
        store[row_at(from) + to / 64] ^= 1 << (to % 64);
        lit = calls.open(store, case.n, case.g).reachable;
    }
    lit
}

/// Decide modal's answer by two calls of decide. The path of the certain steps is written last: it is no shorter.
fn decide_twice(calls: &dyn Calls, case: &Case, path: &mut [u16]) -> Modal {
    let mut decide = |store| calls.decide(store, case.n, case.g, MAX_ALLOWANCE, path);
    let [most, least] = case.checked.each_ref().map(|store| decide(store));
    let (verdict, safe, steps) = match (least.verdict, most.verdict) {
        (_, SAFE) => (SAFE, most, 0),
        (UNSAFE, _) => (UNSAFE, least, least.steps),
        _ => (DEPENDS, least, most.steps),
    };
    Modal {
        invariant: safe.invariant,
        refusal: 0,
        verdict,
        size: safe.size,
        steps,
    }
}

/// What a call answers.
#[derive(Debug, PartialEq)]
pub enum Answer {
    Decision(Decision),
    Checked(Option<Checked>),
    Shortest(Shortest),
    Refusal(u32),
    Within(Within),
    TableRead(TableRead),
    Written(Written),
    Replay(Replay),
    /// What is lit after a session's last edit.
    Lit(Words),
    Modal(Modal),
    Minute(Minute),
}

/// The buffers that calls write into. They are not cleared between runs.
#[derive(PartialEq)]
pub struct Buffers {
    places: [u16; MAX_STATES],
    store: [u64; STORE_WORDS],
    file: [u8; LARGEST],
    text: [u8; TEXT],
}

impl Buffers {
    pub fn new() -> Buffers {
        Buffers {
            places: [0; MAX_STATES],
            store: [0; STORE_WORDS],
            file: [0; LARGEST],
            text: [0; TEXT],
        }
    }

    /// A copy of a store, to edit.
    fn edited(&mut self, store: &[u64]) -> &mut [u64] {
        self.store.copy_from_slice(store);
        &mut self.store
    }
}

/// What a call is given; each reads some of it.
#[derive(Default)]
pub struct Case {
    n: usize,
    g: usize,
    store: Vec<u64>,
    file: Vec<u8>,
    log: Vec<u8>,
    edits: Vec<Edit>,
    possible: Vec<u64>,
    /// The stores with the possible steps and with the certain ones.
    checked: [Vec<u64>; 2],
    seed: u32,
    fan_out: usize,
    time: usize,
    windows: Vec<u64>,
    closed: Vec<u32>,
}

impl Case {
    fn of(dialogue: &Dialogue) -> Case {
        Case {
            store: dialogue.to_store(),
            file: Form::New.encode(dialogue, SITE),
            n: dialogue.n,
            g: dialogue.g(),
            ..Case::default()
        }
    }

    /// With a log as long as can be, which is walked as far as the table leads on.
    fn with_log(dialogue: &Dialogue, random: &mut Random) -> Case {
        let walk = logs::random_walk(&dialogue.table(), MAX_LOG / 2, random);
        let mut log = logs::bytes(&walk);
        log.resize(MAX_LOG, 0);
        Case {
            log,
            ..Case::of(dialogue)
        }
    }

    fn with_edits(dialogue: &Dialogue, kind: Kind) -> Case {
        Case {
            edits: kind.edits(dialogue, &mut Random::new(SEED)),
            ..Case::of(dialogue)
        }
    }

    fn with_options(optional: &Optional) -> Case {
        Case {
            possible: optional.possible_words(),
            checked: [optional.most(), optional.least()].map(|dialogue| dialogue.to_store()),
            ..Case::of(&optional.dialogue)
        }
    }

    /// Whether the table has as many states as can be.
    pub fn is_largest(&self) -> bool {
        self.n == MAX_STATES
    }
}

/// A call of an implementation.
pub type Side = (Call, Library);

pub struct Row {
    pub call: Call,
    /// What the call is measured beside: others of the same implementation that answer the same, or else the peer's.
    pub beside: Option<Call>,
    pub family: String,
    pub cases: Vec<Case>,
}

/// The call, with what it is measured beside where that is not the peer's.
fn label(call: Call, beside: Option<Call>) -> String {
    let beside = beside.map(|other| format!(", beside {}", other.name()));
    format!("{}{}", call.name(), beside.unwrap_or_default())
}

impl Row {
    pub fn label(&self) -> String {
        label(self.call, self.beside)
    }

    pub fn name(&self) -> String {
        format!("{} | {}", self.label(), self.family)
    }

    /// What is measured, and what it is measured beside.
    pub fn sides(&self, [subject, other]: [Library; 2]) -> [Side; 2] {
        let beside = self.beside.map(|call| (call, subject));
        [(self.call, subject), beside.unwrap_or((self.call, other))]
    }

    /// Whether the row is of the portable source beside the archive, or of the library beside the peer, which has no check.
    pub fn is_of(&self, portable: bool) -> bool {
        match portable {
            true => self.beside.is_none(),
            false => self.call != Call::Check,
        }
    }

    /// How many calls a run makes: one on each case, or one for each edit.
    pub fn calls(&self) -> usize {
        self.cases.iter().map(|case| case.edits.len().max(1)).sum()
    }

    /// Makes the call on each case.
    pub fn run(&self, (call, library): Side, buffers: &mut Buffers) {
        for case in &self.cases {
            black_box(call.answer(library, black_box(case), buffers));
        }
    }
}

/// The rows that have some of the words in their names, or all of them where there are no words.
pub fn rows(only: &[String]) -> Vec<Row> {
    let mut rows = Vec::new();
    let mut add_beside = |(call, beside): (Call, Option<Call>),
                          family: &str,
                          cases: &mut dyn FnMut() -> Vec<Case>| {
        let name = format!("{} | {family}", label(call, beside));
        if only.is_empty() || only.iter().any(|words| name.contains(words)) {
            rows.push(Row {
                call,
                beside,
                family: family.to_string(),
                cases: cases(),
            });
        }
    };
    let mut add = |call, family: &str, cases: &mut dyn FnMut() -> Vec<Case>| {
        add_beside((call, None), family, cases);
    };
    let mut random = Random::new(SEED);
    let named = families::named(&mut random);
    let rounds = families::more_for_decide();
    let paths = families::more_for_shortest_path(&mut random);
    let files = families::more_for_files(&mut random);
    let distances = families::more_for_distances(&mut random);
    // What is in a table plays no part in how long a file of it takes: sizes are enough.
    let (all, sizes) = ("", "growth, fan-out");
    for (call, kind, more) in [
        (Call::Decide, all, &rounds),
        (Call::Check, all, &rounds),
        (Call::ShortestPath, all, &paths),
        (Call::Distances, all, &distances),
        (Call::Within, all, &distances),
        (Call::Acceptance, all, &distances),
        (Call::Read, sizes, &files),
        (Call::Write, sizes, &files),
    ] {
        let of_kind = named.iter().filter(|family| family.name.starts_with(kind));
        for family in of_kind.chain(more) {
            add(call, &family.name, &mut || {
                family.tables.iter().map(Case::of).collect()
            });
        }
    }
    for family in named
        .iter()
        .filter(|family| family.name.starts_with("growth"))
    {
        add_beside(
            (Call::Decide, Some(Call::DecidePlainly)),
            &family.name,
            &mut || family.tables.iter().map(Case::of).collect(),
        );
    }
    let mut add = |call, family: &str, cases: &mut dyn FnMut() -> Vec<Case>| {
        add_beside((call, None), family, cases);
    };
    for (family, n, fan_out) in loads() {
        add(Call::Generate, &family, &mut || seeds(n, fan_out));
    }
    for family in families::for_logs(&mut random) {
        add(Call::Replay, &family.name, &mut || {
            let tables = family.tables.iter();
            tables
                .map(|table| Case::with_log(table, &mut random))
                .collect()
        });
    }
    for (family, mut cases) in questions() {
        add(Call::NextOpen, family, &mut || std::mem::take(&mut cases));
    }
    for kind in Kind::ALL {
        for beside in [None, Some(Call::OpenAgain)] {
            if !wanted(only, &label(Call::Edit(kind), beside)) {
                continue;
            }
            for (family, dialogue) in edits::tables(kind, &named) {
                add_beside((Call::Edit(kind), beside), family, &mut || {
                    vec![Case::with_edits(&dialogue, kind)]
                });
            }
        }
    }
    for beside in [None, Some(Call::DecideTwice)] {
        if !wanted(only, &label(Call::DecideModal, beside)) {
            continue;
        }
        for (family, tables) in families::for_options(&mut Random::new(SEED)) {
            add_beside((Call::DecideModal, beside), &family, &mut || {
                tables.iter().map(Case::with_options).collect()
            });
        }
    }
    rows
}

/// Whether some of the words can be in the name of a row with the label: its tables may take long to draw.
fn wanted(only: &[String], label: &str) -> bool {
    let fits = |words: &String| match words.split_once(" |") {
        Some((call, _)) => label.ends_with(call),
        None => true,
    };
    only.is_empty() || only.iter().any(fits)
}

/// Loads by their number of states and fan-out; growth comes last.
fn loads() -> Vec<(String, usize, usize)> {
    let most = [0, 2, 16].map(|fan_out| {
        let family = format!("{MAX_STATES} states, fan-out {fan_out}");
        (family, MAX_STATES, fan_out)
    });
    let growth = GROWTH.map(|n| (format!("growth, fan-out 4, {n}"), n, 4));
    most.into_iter().chain(growth).collect()
}

fn seeds(n: usize, fan_out: usize) -> Vec<Case> {
    let load = |seed| Case {
        seed,
        n,
        fan_out,
        ..Case::default()
    };
    (0..16).map(load).collect()
}

/// Questions for the next open minute. Two windows a week, with and without ten closed days near; 32 windows and 64
/// closed days; and the longest wait that there is.
fn questions() -> [(&'static str, Vec<Case>); 4] {
    let mut random = Random::new(SEED);
    let times: Vec<u64> = (0..64).map(|_| random.word() >> 33).collect();
    let ask = |windows: &dyn Fn(u64) -> Vec<(u64, u64)>, closed: &dyn Fn(u64) -> Vec<u64>| {
        let case = |&time: &u64| Case {
            time: time as usize,
            windows: windows::words(&windows(time)),
            closed: closed(time).into_iter().map(|day| day as u32).collect(),
            ..Case::default()
        };
        times.iter().map(case).collect::<Vec<Case>>()
    };
    let two = |_| vec![(540, 120), (5_000, 240)];
    let many = |_| (0..32).map(|i| (i * 300, 7)).collect();
    let once = |time: u64| vec![((time + WEEK - 1) % WEEK, 1)];
    let days = |time: u64, count: u64| (0..count).map(|k| time / DAY + k).collect();
    let weekly = |time: u64| (1..=64).map(|k| (time + k * WEEK - 1) / DAY).collect();
    [
        ("two windows", ask(&two, &|_| Vec::new())),
        (
            "two windows, ten closed days",
            ask(&two, &|time| days(time, 10)),
        ),
        (
            "32 windows, 64 closed days",
            ask(&many, &|time| days(time, 64)),
        ),
        ("longest wait", ask(&once, &weekly)),
    ]
}
