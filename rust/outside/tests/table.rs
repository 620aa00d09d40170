//! The wrapper's table, its builder and its sets. The methods answer through the tests of the calls, as one more library that is held to the
//! implementations of this package; the readers, the ways to make a table and the sets are held to plain lists.
#![cfg(feature = "library")]

use std::collections::BTreeSet;

use shuntberry::{
    Decision, MAX_ALLOWANCE, MAX_GROUPS, MAX_LOG, MAX_SITE, MAX_STATES, ModalDecision, PATH_PLACES,
    POSSIBLE_WORDS, Refused, Report, SET_WORDS, STORE_WORDS, State, StateSet, Table, TableSession,
};
use shuntberry_outside::accept;
use shuntberry_outside::blocks::Form;
use shuntberry_outside::calls::{
    self, Calls, DEPENDS, Edit, Modal, Replay, SAFE, Session, Shortest, TableRead, UNDECIDED,
    UNSAFE, Within, Words, Wrapped, Written,
};
use shuntberry_outside::examine::{self, Tally};
use shuntberry_outside::expected::Judged;
use shuntberry_outside::generate::{Kind, Random};
use shuntberry_outside::named;
use shuntberry_outside::table::{Dialogue, Set, set_where, words};

/// Tables and files through the tests of the calls.
const CASES: u64 = 1_000;
/// Tables made in each way.
const TABLES: usize = 400;
/// Numbers that a cut, a sum or a product may go wrong on.
const WIDE: [usize; 6] = [65_535, 65_536, 1 << 32, usize::MAX / 8, 1 << 63, usize::MAX];

// ---- The methods as a library

/// Each call makes a table and asks it. A method has no buffer to be lent, so the grounds that are about one are those of this library: they
/// are looked at where the specification has them.
struct Owned;

type Answer<T> = Result<T, Refused>;

fn refuse_if(ground: bool, refused: Refused) -> Answer<()> {
    if ground { Err(refused) } else { Ok(()) }
}

fn put_front<T: Copy>(buffer: &mut [T], front: &[T]) {
    buffer[..front.len()].copy_from_slice(front);
}

/// Puts a path, if there is one, into its buffer: the number of its steps.
fn put_path(buffer: &mut [u16], path: Option<Vec<usize>>) -> u32 {
    let states: Vec<u16> = path.into_iter().flatten().map(|s| s as u16).collect();
    put_front(buffer, &states);
    states.len().saturating_sub(1) as u32
}

/// The steps of the possible rows, those of states that a table does not have included.
fn steps_of(possible: &[u64]) -> Vec<(usize, usize)> {
    let mut steps = Vec::new();
    for at in 0..POSSIBLE_WORDS {
        let (from, first) = (at / SET_WORDS, at % SET_WORDS * 64);
        let held = (0..64).filter(|bit| possible[at] >> bit & 1 == 1);
        steps.extend(held.map(|bit| (from, first + bit)));
    }
    steps
}

fn edit_session(session: &mut TableSession, edit: Edit) -> Answer<()> {
    match edit {
        Edit::Add(from, to) => session.add_step(from, to),
        Edit::Remove(from, to) => session.remove_step(from, to),
    }
}

impl Calls for Owned {
    fn name(&self) -> &'static str {
        "table"
    }

    fn decide(
        &self,
        store: &[u64],
        n: usize,
        g: usize,
        allowance: usize,
        path: &mut [u16],
    ) -> calls::Decision {
        let decided = Table::from_store(store, n, g)
            .and_then(|table| table.decide(allowance))
            .and_then(|decision| {
                refuse_if(path.len() < PATH_PLACES, Refused::PATH_SHORT).map(|()| decision)
            });
        let (verdict, count, invariant, path_found) = match decided {
            Err(Refused(refusal)) => return calls::Decision::refused(refusal),
            Ok(Decision::Safe { count, invariant }) => (SAFE, count, invariant, None),
            Ok(Decision::Unsafe { count, path }) => (UNSAFE, count, StateSet::new(), Some(path)),
            Ok(Decision::Undecided { count }) => (UNDECIDED, count, StateSet::new(), None),
            Ok(Decision::Draft) => (SAFE, 0, StateSet::new(), None),
        };
        calls::Decision {
            invariant: invariant.0,
            verdict,
            count,
            size: invariant.len() as u32,
            steps: put_path(path, path_found),
            ..calls::Decision::default()
        }
    }

    fn shortest_path(&self, store: &[u64], n: usize, g: usize, path: &mut [u16]) -> Shortest {
        let found = Table::from_store(store, n, g).and_then(|table| {
            refuse_if(path.len() < PATH_PLACES, Refused::PATH_SHORT)?;
            table.shortest_path()
        });
        match found {
            Err(Refused(refusal)) => Shortest::refused(refusal),
            Ok(found) => Shortest {
                refusal: 0,
                found: found.is_some() as u32,
                steps: put_path(path, found),
            },
        }
    }

    fn distances(&self, store: &[u64], n: usize, g: usize, distances: &mut [u16]) -> u32 {
        let found = Table::from_store(store, n, g).and_then(|table| {
            refuse_if(distances.len() < n, Refused::DISTANCES_SHORT)?;
            table.distances()
        });
        match found {
            Err(Refused(refusal)) => refusal,
            Ok(found) => {
                let number = |steps: &Option<usize>| steps.map_or(65_535, |steps| steps as u16);
                put_front(distances, &found.iter().map(number).collect::<Vec<_>>());
                0
            }
        }
    }

    fn within(&self, store: &[u64], n: usize, g: usize, k: usize) -> Within {
        match Table::from_store(store, n, g).and_then(|table| table.within(k)) {
            Err(Refused(refusal)) => Within::refused(refusal),
            Ok(yes) => Within {
                refusal: 0,
                within: yes as u32,
            },
        }
    }

    fn read(&self, input: &[u8], site: usize, store: &mut [u64]) -> TableRead {
        let read = refuse_if(store.len() < STORE_WORDS, Refused::STORE_SHORT)
            .and_then(|()| Table::from_bytes(input, site));
        match read {
            Err(Refused(refusal)) => TableRead::refused(refusal),
            Ok(table) => {
                put_front(store, table.store());
                TableRead {
                    refusal: 0,
                    n: table.n() as u32,
                    g: table.g() as u32,
                }
            }
        }
    }

    fn write(&self, store: &[u64], n: usize, g: usize, site: usize, output: &mut [u8]) -> Written {
        let written = refuse_if(store.len() < STORE_WORDS, Refused::STORE_SHORT)
            .and_then(|()| refuse_if(site > MAX_SITE, Refused::SITE))
            .and_then(|()| Table::from_store(store, n, g))
            .and_then(|table| {
                assert_eq!(table.to_bytes(MAX_SITE + 1), Err(Refused::SITE));
                let file = table.to_bytes(site)?;
                refuse_if(output.len() < file.len(), Refused::OUTPUT_SHORT).map(|()| file)
            });
        match written {
            Err(Refused(refusal)) => Written::refused(refusal),
            Ok(file) => {
                put_front(output, &file);
                Written {
                    refusal: 0,
                    length: file.len() as u32,
                }
            }
        }
    }

    fn generate(&self, seed: u32, n: usize, fan_out: usize, store: &mut [u64]) -> u32 {
        let made = refuse_if(store.len() < STORE_WORDS, Refused::STORE_SHORT)
            .and_then(|()| Table::generate(seed, n, fan_out));
        match made {
            Err(Refused(refusal)) => refusal,
            Ok(table) => {
                put_front(store, table.store());
                0
            }
        }
    }

    fn replay(&self, store: &[u64], n: usize, g: usize, log: &[u8]) -> Replay {
        match Table::from_store(store, n, g).and_then(|table| table.replay(log)) {
            Err(Refused(refusal)) => Replay::refused(refusal),
            Ok(walk) => Replay {
                refusal: 0,
                followed: walk.followed as u32,
                seen: walk.seen as u32,
                percent: walk.percent as u32,
                remainder: walk.remainder as u32,
            },
        }
    }

    fn open(&self, store: &[u64], n: usize, g: usize) -> Session {
        match Table::from_store(store, n, g).and_then(|table| table.reachable()) {
            Err(Refused(refusal)) => Session {
                refusal,
                reachable: Words::default(),
            },
            Ok(StateSet(reachable)) => Session {
                refusal: 0,
                reachable,
            },
        }
    }

    /// With another set than the session's own there is only the call.
    fn edit(&self, store: &mut [u64], n: usize, g: usize, lit: Words, edit: Edit) -> Session {
        let opened = Table::from_store(store, n, g).and_then(Table::session);
        let (refusal, reachable) = match opened {
            Err(Refused(refusal)) => (refusal, lit),
            Ok(session) if session.reachable() != StateSet(lit) => {
                return Wrapped.edit(store, n, g, lit, edit);
            }
            Ok(mut session) => {
                let answer = edit_session(&mut session, edit);
                put_front(store, session.table().store());
                (
                    answer.err().map_or(0, |refused| refused.0),
                    session.reachable().0,
                )
            }
        };
        Session { refusal, reachable }
    }

    fn session(&self, store: &mut [u64], n: usize, g: usize, edits: &[Edit]) -> Words {
        let Ok(mut session) = Table::from_store(store, n, g).and_then(Table::session) else {
            return Words::default();
        };
        for &edit in edits {
            let _ = edit_session(&mut session, edit); // one that is refused is no edit
        }
        let lit = session.reachable();
        put_front(store, session.into_table().store());
        lit.0
    }

    fn decide_modal(
        &self,
        store: &[u64],
        n: usize,
        g: usize,
        possible: &[u64],
        path: &mut [u16],
    ) -> Modal {
        let decided = refuse_if(possible.len() < POSSIBLE_WORDS, Refused::STORE_SHORT)
            .and_then(|()| Table::from_store(store, n, g))
            .and_then(|table| table.decide_modal(steps_of(possible)))
            .and_then(|decision| {
                refuse_if(path.len() < PATH_PLACES, Refused::PATH_SHORT).map(|()| decision)
            });
        let (verdict, invariant, found) = match decided {
            Err(Refused(refusal)) => return Modal::refused(refusal),
            Ok(ModalDecision::Safe { invariant }) => (SAFE, invariant, None),
            Ok(ModalDecision::Unsafe { path }) => (UNSAFE, StateSet::new(), Some(path)),
            Ok(ModalDecision::Depends { invariant, path }) => (DEPENDS, invariant, Some(path)),
            Ok(ModalDecision::Draft) => (SAFE, StateSet::new(), None),
        };
        Modal {
            invariant: invariant.0,
            refusal: 0,
            verdict,
            size: invariant.len() as u32,
            steps: put_path(path, found),
        }
    }
}

#[test]
fn methods_answer_as_the_calls() {
    let mut tally = Tally::default();
    examine::named_tables(&[&Owned], &mut Random::new(1), &mut tally).unwrap();
    for case in 0..CASES {
        let mut random = Random::for_case(36, case);
        let examine = match case % 4 {
            0 => examine::random_file,
            _ => examine::random_table,
        };
        examine(&[&Owned], &mut random, &mut tally)
            .unwrap_or_else(|fault| panic!("case {case}: {fault}"));
    }
}

// ---- Making a table, and reading it

fn states(set: &Set) -> Vec<usize> {
    (0..set.len()).filter(|&s| set[s]).collect()
}

fn steps(dialogue: &Dialogue) -> Vec<(usize, usize)> {
    let from = |s: usize| states(&dialogue.rows[s]).into_iter().map(move |t| (s, t));
    (0..dialogue.n).flat_map(from).collect()
}

/// What a builder is given, as lists.
struct Parts {
    n: usize,
    initial: Vec<usize>,
    marked: Vec<usize>,
    resting: Vec<usize>,
    groups: Vec<Vec<usize>>,
    steps: Vec<(usize, usize)>,
}

impl Parts {
    fn of(dialogue: &Dialogue) -> Parts {
        Parts {
            n: dialogue.n,
            initial: states(&dialogue.initial),
            marked: states(&dialogue.marked),
            resting: states(&dialogue.resting),
            groups: dialogue.groups.iter().map(states).collect(),
            steps: steps(dialogue),
        }
    }

    /// The table, with its steps in any order, some of them one by one.
    fn build(&self, random: &mut Random) -> Answer<Table> {
        let order = random.order(self.steps.len());
        let steps: Vec<(usize, usize)> = order.into_iter().map(|i| self.steps[i]).collect();
        let (first, others) = steps.split_at(random.below(steps.len() + 1));
        let mut builder = Table::builder(self.n)
            .initial(self.initial.iter().copied())
            .marked(self.marked.iter().copied())
            .steps(first.iter().copied());
        for group in &self.groups {
            builder = builder.group(group.iter().copied());
        }
        for &(from, to) in others {
            builder = builder.step(from, to);
        }
        for &state in &self.resting {
            builder = builder.resting([state]);
        }
        builder.build()
    }

    /// The ground on which the specification refuses it.
    fn refusal(&self) -> Option<u32> {
        let sets = [&self.initial, &self.marked, &self.resting];
        let listed = sets.into_iter().chain(&self.groups).flatten().copied();
        let ends = self.steps.iter().flat_map(|&(from, to)| [from, to]);
        if self.n > 512 || self.n == 0 && !self.groups.is_empty() {
            Some(14)
        } else if self.groups.len() > 64 {
            Some(15)
        } else if listed.chain(ends).any(|state| state >= self.n) {
            Some(17)
        } else {
            None
        }
    }

    fn spoil(&mut self, random: &mut Random) {
        let state = random.pick(&[self.n, MAX_STATES, random.clone().pick(&WIDE)]);
        match random.below(8) {
            0 => self.n = random.pick(&[0, MAX_STATES + 1, state]),
            1 => self.n -= random.below(self.n.min(3)),
            2 => self.groups.resize(random.within(64, 200), vec![0]),
            3 => self.initial.push(state),
            4 => self.marked.push(state),
            5 => self.resting.push(state),
            6 => self
                .steps
                .push(random.pick(&[(state, 0), (0, state), (state, state)])),
            _ => self.groups.push(vec![state]),
        }
    }
}

fn holds(table: &Table, dialogue: &Dialogue) {
    assert_eq!((table.n(), table.g()), (dialogue.n, dialogue.g()));
    assert_eq!(table.is_draft(), dialogue.n == 0);
    assert_eq!(table.initial().0, words(&dialogue.initial));
    assert_eq!(table.marked().0, words(&dialogue.marked));
    assert_eq!(table.resting().0, words(&dialogue.resting));
    assert_eq!(table.forbidden().0, words(&dialogue.table().forbidden));
    let groups: Vec<Words> = table.groups().map(|group| group.0).collect();
    assert_eq!(
        groups,
        dialogue.groups.iter().map(words).collect::<Vec<_>>()
    );
    assert_eq!(table.groups().len(), dialogue.g());
    for s in 0..dialogue.n {
        assert_eq!(
            table.successors(s),
            Some(StateSet(words(&dialogue.rows[s])))
        );
    }
    for none in [dialogue.n, dialogue.n + 1, MAX_STATES]
        .into_iter()
        .chain(WIDE)
    {
        assert_eq!(table.successors(none), None);
    }
    assert!(table.steps().eq(steps(dialogue)));
    assert_eq!(table.store(), dialogue.to_store());
    assert_eq!(table.clone().into_store(), dialogue.to_store());
}

/// The text of a release check, from the plain rounds.
fn text(dialogue: &Dialogue) -> String {
    let table = dialogue.table();
    let decided = Judged::new(&table).decide(MAX_ALLOWANCE);
    let list = |states: Vec<String>| match states.is_empty() {
        true => "none".to_string(),
        false => states.join(" "),
    };
    let answer = decided.answer;
    let (verdict, third) = if answer.verdict == SAFE {
        let held = (0..dialogue.n).filter(|s| answer.invariant[s / 64] >> (s % 64) & 1 == 1);
        let states = list(held.map(|s| s.to_string()).collect());
        ("safe", format!("invariant {}: {states}", answer.size))
    } else {
        let states = list(decided.front.iter().map(u16::to_string).collect());
        ("unsafe", format!("path {states}"))
    };
    let (n, g, count) = (dialogue.n, dialogue.g(), answer.count);
    format!("states {n} groups {g}\n{verdict} refinements {count}\n{third}\n")
}

// tries: CheckText.release_check, Reported.decided, Reported.safe_line, Reported.safe_call
fn reported(table: &Table, dialogue: &Dialogue) {
    let report = table.check().unwrap();
    let text = text(dialogue);
    assert_eq!(report.text(), text);
    let is_safe = text.contains("\nsafe");
    assert_eq!(report.is_safe(), is_safe && dialogue.n > 0);
    let expected = match (dialogue.n, is_safe) {
        (0, _) => Report::Draft { text },
        (_, true) => Report::Safe { text },
        (_, false) => Report::Unsafe { text },
    };
    assert_eq!(report, expected);
}

#[test]
fn a_table_is_the_same_however_it_is_made() {
    let mut random = Random::new(2);
    for _ in 0..TABLES {
        let dialogue = Kind::random(&mut random).dialogue(&mut random);
        let site = random.pick(&[0, 1, random.clone().below(MAX_SITE + 1), MAX_SITE]);
        let table = Parts::of(&dialogue).build(&mut random).unwrap();
        holds(&table, &dialogue);
        reported(&table, &dialogue);

        let mut store = dialogue.to_store();
        store.extend(random.words(3));
        assert_eq!(
            Table::from_store(&store, table.n(), table.g()),
            Ok(table.clone())
        );
        let file = Form::New.encode(&dialogue, site);
        assert_eq!(table.to_bytes(site).unwrap(), file);
        assert_eq!(Table::from_bytes(&file, site), Ok(table.clone()));

        // a table in which one step is another
        let (from, to) = (random.below(dialogue.n), random.below(dialogue.n));
        let mut other = dialogue.clone();
        other.rows[from][to] = !other.rows[from][to];
        assert_ne!(Parts::of(&other).build(&mut random).unwrap(), table);
    }
    for named in named::decided() {
        let table = Parts::of(&named.dialogue).build(&mut random).unwrap();
        holds(&table, &named.dialogue);
        reported(&table, &named.dialogue);
    }
}

// ---- What is refused

/// Mistakes in what a builder is given, up to three at once.
#[test]
fn a_builder_refuses_what_is_no_table() {
    let mut random = Random::new(3);
    let mut seen = BTreeSet::new();
    for _ in 0..3_000 {
        let mut parts = Parts::of(&Kind::random(&mut random).dialogue(&mut random));
        for _ in 0..random.within(1, 3) {
            if parts.n > 0 {
                parts.spoil(&mut random);
            }
        }
        let answer = parts.build(&mut random).err().map(|Refused(number)| number);
        assert_eq!(answer, parts.refusal(), "{} states", parts.n);
        seen.insert(answer);
    }
    assert_eq!(seen, BTreeSet::from([None, Some(14), Some(15), Some(17)]));
}

#[test]
fn a_store_is_refused_as_the_calls_refuse_it() {
    let mut random = Random::new(4);
    let mut seen = BTreeSet::new();
    for _ in 0..3_000 {
        let dialogue = Kind::random(&mut random).dialogue(&mut random);
        let (mut store, mut n, mut g) = (dialogue.to_store(), dialogue.n, dialogue.g());
        for _ in 0..random.within(1, 2) {
            match random.below(6) {
                0 => store.truncate(random.pick(&[0, 1, STORE_WORDS - 1])),
                1 => n = random.pick(&[0, n - 1, n + 1, MAX_STATES + 1, usize::MAX]),
                2 => g = random.pick(&[0, g + 1, MAX_GROUPS + 1, usize::MAX]),
                3 => store.push(u64::MAX),
                _ if store.is_empty() => {}
                _ => {
                    let at = random.below(store.len());
                    store[at] |= 1 << random.below(64);
                }
            }
            n = n.max(1);
        }
        let answer = Table::from_store(&store, n, g);
        let expected = accept::open(&store, n, g);
        assert_eq!(
            answer.as_ref().map(|_| ()),
            expected.map_err(Refused).as_ref().map(|_| ())
        );
        if let Ok(table) = answer {
            holds(&table, &Dialogue::from_store(&store, n, g));
        }
        seen.insert(expected.err());
    }
    let grounds = [None, Some(10), Some(14), Some(15), Some(17)];
    assert_eq!(seen, BTreeSet::from(grounds));
}

/// Numbers that no table has, wherever a method takes one.
#[test]
fn methods_refuse_numbers_that_are_too_large() {
    let table = Table::generate(7, 3, 2).unwrap();
    for wide in [512, 513].into_iter().chain(WIDE) {
        assert_eq!(table.decide(wide).is_ok(), wide == 512);
        assert_eq!(table.decide(wide.max(513)), Err(Refused::ALLOWANCE));
        assert_eq!(table.decide_modal([(0, wide)]), Err(Refused::STRAY_BIT));
        assert_eq!(table.decide_modal([(wide, 0)]), Err(Refused::STRAY_BIT));
        assert_eq!(table.decide_modal([(3, 0)]), Err(Refused::STRAY_BIT));
        assert_eq!(table.within(wide), Ok(true)); // 0 is initial, 2 marked, and 0 → 1 → 2
        let mut session = table.clone().session().unwrap();
        assert_eq!(session.add_step(wide, 0), Err(Refused::STEP_STATE));
        assert_eq!(session.remove_step(0, wide), Err(Refused::STEP_STATE));
        assert_eq!(*session.table(), table);
        assert_eq!(Table::generate(7, wide.max(513), 2), Err(Refused::STATES));
    }
    for wide in [MAX_SITE + 1].into_iter().chain(WIDE) {
        let beyond = wide.max(MAX_SITE + 1);
        assert_eq!(table.to_bytes(beyond), Err(Refused::SITE));
        assert_eq!(Table::from_bytes(b"", beyond), Err(Refused::SITE));
        assert_eq!(Table::generate(7, 3, beyond), Err(Refused::FAN_OUT));
    }
    assert_eq!(Table::generate(7, 0, 2), Err(Refused::STATES));
    assert_eq!(table.replay(&[0]), Err(Refused::LOG_ODD));
    assert_eq!(table.replay(&vec![0; MAX_LOG + 2]), Err(Refused::LOG_LONG));
    assert_eq!(table.decide_modal([]), Err(Refused::NOT_POSSIBLE));
}

// ---- A draft

// tries: Draft.decide
#[test]
fn a_draft_is_never_safe() {
    let by_builder = Table::builder(0).initial([]).marked([]).steps([]).build();
    let draft = Table::from_bytes(b"", MAX_SITE).unwrap();
    assert_eq!(by_builder, Ok(draft.clone()));
    assert_eq!(
        Table::from_store(&[0; STORE_WORDS], 0, 0),
        Ok(draft.clone())
    );
    holds(&draft, &named::draft());
    reported(&draft, &named::draft());
    for allowance in [0, 1, MAX_ALLOWANCE] {
        let decision = draft.decide(allowance).unwrap();
        assert!(decision == Decision::Draft && !decision.is_safe());
    }
    let modal = draft.decide_modal([]).unwrap();
    assert!(modal == ModalDecision::Draft && !modal.is_safe());
    assert_eq!(draft.decide_modal([(0, 0)]), Err(Refused::STRAY_BIT));
    assert_eq!(draft.shortest_path(), Ok(None));
    assert_eq!(draft.distances(), Ok(vec![]));
    assert_eq!(draft.to_bytes(7), Ok(vec![]));
    assert_eq!(draft.reachable(), Ok(StateSet::new()));
    assert_eq!(
        draft.session().unwrap().add_step(0, 0),
        Err(Refused::STEP_STATE)
    );
    assert_eq!(
        Table::builder(0)
            .initial([])
            .marked([])
            .steps([])
            .group([])
            .build(),
        Err(Refused::STATES)
    );
}

// ---- Sets

/// Random changes, with numbers that no set holds among them, beside a set of the standard library.
#[test]
fn sets_are_sets() {
    let mut random = Random::new(5);
    for _ in 0..200 {
        let (mut set, mut model) = (StateSet::new(), BTreeSet::new());
        for _ in 0..random.within(0, 600) {
            let state = match random.below(10) {
                0 => random.pick(&[MAX_STATES, MAX_STATES + 1, random.clone().pick(&WIDE)]),
                1 => random.pick(&[0, 63, 64, MAX_STATES - 1]),
                _ => random.below(MAX_STATES),
            };
            if random.below(3) == 0 {
                assert_eq!(set.remove(state), model.remove(&state));
            } else if state < MAX_STATES {
                assert_eq!(set.insert(state), Ok(model.insert(state)));
            } else {
                assert_eq!(set.insert(state), Err(Refused::STRAY_BIT));
            }
            assert_eq!(set.contains(state), model.contains(&state));
        }
        same_set(set, &model);
        let listed: Vec<usize> = model.iter().copied().collect();
        assert_eq!(StateSet::from_states(listed.iter().rev().copied()), Ok(set));
        let beyond = listed.into_iter().chain([random.pick(&WIDE)]);
        assert_eq!(StateSet::from_states(beyond), Err(Refused::STRAY_BIT));
        two_sets((set, &model), &mut random);
    }
}

fn same_set(set: StateSet, model: &BTreeSet<usize>) {
    assert!(set.states().eq(model.iter().copied()));
    assert!(set.into_iter().map(usize::from).eq(model.iter().copied()));
    assert_eq!((set.len(), set.is_empty()), (model.len(), model.is_empty()));
    assert_eq!(
        (set.states().len(), set.into_iter().len()),
        (model.len(), model.len())
    );
    assert_eq!(set.0, words(&set_where(MAX_STATES, |s| model.contains(&s))));
    assert_eq!(format!("{set:?}"), format!("{model:?}"));
}

fn two_sets((set, model): (StateSet, &BTreeSet<usize>), random: &mut Random) {
    let times = random.within(1, 9);
    let drawn: BTreeSet<usize> = (0..MAX_STATES).filter(|_| random.once_in(times)).collect();
    let other: StateSet = drawn.iter().map(|&s| State::try_from(s).unwrap()).collect();
    same_set(other, &drawn);
    same_set(set.union(other), &(model | &drawn));
    same_set(set.intersection(other), &(model & &drawn));
    same_set(set.difference(other), &(model - &drawn));
    assert_eq!(set.is_subset(other), model.is_subset(&drawn));
    assert!(set.intersection(other).is_subset(set) && set.is_subset(set.union(other)));
    let mut extended = set;
    extended.extend(other);
    assert_eq!(extended, set.union(other));
}
