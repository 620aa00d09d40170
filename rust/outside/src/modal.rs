//! Tables some of whose steps are only possible: what decide modal must answer, from the specification's text, on lists
//! of booleans; all choices of a small table, some of a larger one; options at random; and the tests of the call.

use crate::accept::{self, MAX_ALLOWANCE, PATH_PLACES, POSSIBLE_WORDS, possible_at};
use crate::buffer::Lent;
use crate::calls::{Calls, DEPENDS, Modal, SAFE, UNSAFE};
use crate::examine::{Outcome, Tally};
use crate::expected::{Expected, Judged};
use crate::generate::Random;
use crate::named;
use crate::rounds;
use crate::search;
use crate::table::{
    Dialogue, MAX_GROUPS, MAX_STATES, STORE_WORDS, Set, Table, WORDS, put_words, set_where, words,
};

/// Up to so many steps that are only possible, all choices are tried: two for each step.
const MOST_OPTIONS: usize = 9;

/// Choices that are drawn where there are more.
const DRAWN: usize = 4;

// ---- What is expected

/// A dialogue, whose rows are the certain steps, with the possible steps of each state beside them.
pub struct Optional {
    pub dialogue: Dialogue,
    pub possible: Vec<Set>,
}

impl Optional {
    /// What stands in accepted buffers.
    fn from_buffers(store: &[u64], n: usize, g: usize, possible: &[u64]) -> Optional {
        let row = |at: usize| set_where(n, |s| possible[at + s / 64] >> (s % 64) & 1 == 1);
        Optional {
            dialogue: Dialogue::from_store(store, n, g),
            possible: (0..n).map(|s| row(possible_at(s))).collect(),
        }
    }

    /// The words of the possible steps.
    pub fn possible_words(&self) -> Vec<u64> {
        let mut buffer = vec![0; POSSIBLE_WORDS];
        for (s, row) in self.possible.iter().enumerate() {
            put_words(&mut buffer, possible_at(s), row);
        }
        buffer
    }

    /// The table of a choice. Which states are forbidden does not depend on it: those that are marked, and those without
    /// a possible step that do not rest.
    fn table(&self, choice: &[Set]) -> Table {
        let Dialogue {
            n,
            initial,
            marked,
            resting,
            groups,
            ..
        } = &self.dialogue;
        let stuck = |s: usize| self.possible[s].iter().all(|&step| !step);
        Table {
            n: *n,
            initial: initial.clone(),
            forbidden: set_where(*n, |s| marked[s] || stuck(s) && !resting[s]),
            groups: groups.clone(),
            rows: choice.to_vec(),
        }
    }

    /// The table with the certain steps, and with the possible ones, as dialogues that decide reads so: the forbidden
    /// states marked, and every state resting.
    pub fn least(&self) -> Dialogue {
        self.as_dialogue(&self.dialogue.rows)
    }

    pub fn most(&self) -> Dialogue {
        self.as_dialogue(&self.possible)
    }

    fn as_dialogue(&self, rows: &[Set]) -> Dialogue {
        Dialogue {
            marked: self.table(rows).forbidden,
            resting: vec![true; self.dialogue.n],
            rows: rows.to_vec(),
            ..self.dialogue.clone()
        }
    }

    /// The steps that are possible and not certain.
    fn options(&self) -> Vec<(usize, usize)> {
        let all = (0..self.dialogue.n).flat_map(|s| (0..self.dialogue.n).map(move |t| (s, t)));
        all.filter(|&(s, t)| self.possible[s][t] && !self.dialogue.rows[s][t])
            .collect()
    }

    /// The certain steps with some of the others.
    fn choice(&self, taken: impl Iterator<Item = (usize, usize)>) -> Vec<Set> {
        let mut rows = self.dialogue.rows.clone();
        for (s, t) in taken {
            rows[s][t] = true;
        }
        rows
    }

    /// All choices, or some of them where there are too many; the certain steps alone first and all possible ones last.
    fn choices(&self, random: &mut Random) -> Vec<Vec<Set>> {
        let options = self.options();
        if options.len() > MOST_OPTIONS {
            let drawn = |random: &mut Random| {
                let times = random.within(1, 4);
                let taken = options.iter().copied().filter(|_| random.once_in(times));
                self.choice(taken)
            };
            let mut choices = vec![self.dialogue.rows.clone()];
            choices.extend((0..DRAWN).map(|_| drawn(random)));
            choices.push(self.possible.clone());
            return choices;
        }
        let taken = |bits: usize| {
            let chosen = (0..options.len()).filter(move |&i| bits >> i & 1 == 1);
            self.choice(chosen.map(|i| options[i]))
        };
        (0..1 << options.len()).map(taken).collect()
    }
}

/// Decide modal on accepted buffers: by the plain rounds on the certain and on the possible steps.
fn judge(optional: &Optional) -> Expected<Modal, u16> {
    let certain = optional.table(&optional.dialogue.rows);
    let possible = optional.table(&optional.possible);
    let least = Judged::new(&certain).decide(MAX_ALLOWANCE);
    let most = Judged::new(&possible).decide(MAX_ALLOWANCE);
    let (verdict, invariant, path) = match (least.answer.verdict, most.answer.verdict) {
        (SAFE, SAFE) => (SAFE, Some(most.answer), None),
        (UNSAFE, UNSAFE) => (UNSAFE, None, Some(least)),
        (SAFE, UNSAFE) => (DEPENDS, Some(least.answer), Some(most)),
        verdicts => panic!("the plain rounds say {verdicts:?}"),
    };
    let invariant = invariant.unwrap_or_default();
    let answer = Modal {
        invariant: invariant.invariant,
        refusal: 0,
        verdict,
        size: invariant.size,
        steps: path.as_ref().map_or(0, |path| path.answer.steps),
    };
    Expected {
        answer,
        front: path.map_or(Vec::new(), |path| path.front),
    }
}

/// Decide modal on any arguments.
pub fn expected(
    store: &[u64],
    n: usize,
    g: usize,
    possible: &[u64],
    path_len: usize,
) -> Expected<Modal, u16> {
    match accept::decide_modal(store, n, g, possible, path_len) {
        Ok(()) => judge(&Optional::from_buffers(store, n, g, possible)),
        Err(refusal) => refused(refusal),
    }
}

fn refused(refusal: u32) -> Expected<Modal, u16> {
    Expected {
        answer: Modal::refused(refusal),
        front: Vec::new(),
    }
}

// ---- Options at random

/// How the possible steps differ from the certain ones.
#[derive(Clone, Copy, Debug, PartialEq, Eq)]
enum Kind {
    /// Both rows of each state are equal.
    Equal,
    One,
    Few,
    Many,
    All,
    /// The table's steps are possible, and some of them certain.
    SomeCertain,
    /// Some states have possible steps only.
    SomeOff,
    /// No step is certain.
    NoneCertain,
}

const KINDS: [Kind; 8] = [
    Kind::Equal,
    Kind::One,
    Kind::Few,
    Kind::Many,
    Kind::All,
    Kind::SomeCertain,
    Kind::SomeOff,
    Kind::NoneCertain,
];

fn optional(kind: Kind, dialogue: &Dialogue, random: &mut Random) -> Optional {
    let n = dialogue.n;
    let mut dialogue = dialogue.clone();
    let mut possible = dialogue.rows.clone();
    let mut add = |steps: usize, random: &mut Random| {
        for _ in 0..steps {
            possible[random.below(n)][random.below(n)] = true;
        }
    };
    match kind {
        Kind::Equal => {}
        Kind::One => add(1, random),
        Kind::Few => add(random.within(2, 6), random),
        Kind::Many => add(random.within(n, 4 * n), random),
        Kind::All => possible.iter_mut().for_each(|row| row.fill(true)),
        Kind::SomeCertain => {
            let times = random.within(2, 8);
            for step in dialogue.rows.iter_mut().flatten() {
                *step &= !random.once_in(times);
            }
        }
        Kind::SomeOff => {
            for _ in 0..random.within(1, 4) {
                dialogue.rows[random.below(n)].fill(false);
            }
        }
        Kind::NoneCertain => dialogue.rows.iter_mut().for_each(|row| row.fill(false)),
    }
    Optional { dialogue, possible }
}

// ---- The tests

// tries: Modal.modal_buffer, Fields.modal_fields
/// One call, with all its buffers compared.
pub fn decide_modal(
    library: &dyn Calls,
    store: &[u64],
    (n, g): (usize, usize),
    possible: &[u64],
    path: &[u16],
    expected: &Expected<Modal, u16>,
) -> Outcome {
    let what = format!("{}'s decide modal({n}, {g})", library.name());
    let (store, possible) = (Lent::new(store), Lent::new(possible));
    let mut path = Lent::new(path);
    let answer = library.decide_modal(store.shared(), n, g, possible.shared(), path.mutable());
    if answer != expected.answer {
        let expected = expected.answer;
        return Err(format!("{what} answered {answer:?}, expected {expected:?}"));
    }
    path.holds(&format!("path after {what}"), &expected.front)?;
    store.holds(&format!("store after {what}"), &[])?;
    possible.holds(&format!("possible steps after {what}"), &[])
}

/// An accepted table with options, and what the specification says of every answer.
pub fn random_options(
    libraries: &[&dyn Calls],
    dialogue: &Dialogue,
    random: &mut Random,
    tally: &mut Tally,
) -> Outcome {
    let kind = random.pick(&KINDS);
    let optional = optional(kind, dialogue, random);
    accepted(libraries, &optional, random, tally).map_err(|fault| format!("{kind:?}: {fault}"))
}

// tries: Modal.possible_row, Modal.modal_answer, ModalPromises.ModalPromises.equal_rows
// tries: ModalPromises.ModalPromises.first-words, Faithful.Cases
fn accepted(
    libraries: &[&dyn Calls],
    optional: &Optional,
    random: &mut Random,
    tally: &mut Tally,
) -> Outcome {
    let (n, g) = (optional.dialogue.n, optional.dialogue.g());
    let (mut store, mut possible) = (optional.dialogue.to_store(), optional.possible_words());
    let beyond = random.pick(&[0, 0, 1, 7]);
    store.extend(random.words(beyond));
    possible.extend(random.words(beyond));
    let expected = judge(optional);
    let verdict = ["every choice safe", "every choice unsafe", "", "depends"];
    tally.count(
        "verdict of decide modal",
        verdict[expected.answer.verdict as usize],
    );
    of_choices(optional, &expected, random, tally)?;
    for library in libraries {
        let path = random.places(PATH_PLACES + beyond);
        decide_modal(*library, &store, (n, g), &possible, &path, &expected)?;
        release_checks(*library, optional, &expected.answer)?;
    }
    Ok(())
}

// tries: ModalPromises.OfChoices.safe, ModalPromises.OfChoices.unsafe, ModalPromises.OfChoices.verdict
// tries: ModalPromises.OfChoices.depends, ModalPromises.ComesWith.invariant_of_each
// tries: ModalPromises.ComesWith.path_of_each
/// The verdict is the one that the choices give, and what comes with it belongs to each of them.
fn of_choices(
    optional: &Optional,
    expected: &Expected<Modal, u16>,
    random: &mut Random,
    tally: &mut Tally,
) -> Outcome {
    let n = optional.dialogue.n;
    let path: Vec<usize> = expected.front.iter().map(|&state| state.into()).collect();
    let words = expected.answer.invariant;
    let invariant = set_where(n, |s| words[s / 64] >> (s % 64) & 1 == 1);
    let choices = optional.choices(random);
    let mut are_safe = Vec::new();
    for choice in &choices {
        let table = optional.table(choice);
        let far = search::distances(&table);
        let is_safe = (0..n).all(|s| !table.initial[s] || far[s].is_none());
        let holds = match expected.answer.verdict {
            SAFE => is_safe && rounds::is_invariant(&table, &invariant),
            UNSAFE => !is_safe && search::is_path(&table, &path),
            // Only the two ends are known: they are looked at below.
            _ => true,
        };
        if !holds {
            return Err(format!("a choice is none of the verdict's: {choice:?}"));
        }
        are_safe.push(is_safe);
    }
    let all = optional.options().len() <= MOST_OPTIONS;
    tally.count("choices tried", if all { "all" } else { "some" });
    let ends = (are_safe[0], are_safe[are_safe.len() - 1]);
    if expected.answer.verdict == DEPENDS && ends != (true, false) {
        return Err(format!(
            "certain steps alone and all possible: safe {ends:?}"
        ));
    }
    Ok(())
}

// tries: ModalPromises.OfChoices.checked_safe, ModalPromises.ComesWith
/// Two release checks by the library itself. Where both rows of each state are equal, one of the store as it is.
fn release_checks(library: &dyn Calls, optional: &Optional, answer: &Modal) -> Outcome {
    let (n, g) = (optional.dialogue.n, optional.dialogue.g());
    let check = |dialogue: &Dialogue| {
        let mut path = [0; PATH_PLACES];
        library.decide(&dialogue.to_store(), n, g, MAX_ALLOWANCE, &mut path)
    };
    let (least, most) = (check(&optional.least()), check(&optional.most()));
    let same = match answer.verdict {
        SAFE => {
            most.verdict == SAFE && (answer.invariant, answer.size) == (most.invariant, most.size)
        }
        UNSAFE => least.verdict == UNSAFE && answer.steps == least.steps,
        _ => {
            (least.verdict, most.verdict) == (SAFE, UNSAFE)
                && (answer.invariant, answer.size) == (least.invariant, least.size)
                && answer.steps == most.steps
        }
    };
    if !same {
        return Err(format!("release checks: {least:?}, {most:?}; {answer:?}"));
    }
    if optional.options().is_empty() {
        let plain = check(&optional.dialogue);
        let told = (plain.verdict, plain.invariant, plain.size, plain.steps);
        if told != (answer.verdict, answer.invariant, answer.size, answer.steps) {
            return Err(format!("equal rows: decide says {plain:?}; {answer:?}"));
        }
    }
    Ok(())
}

// tries: ModalPromises.ModalPromises.refusal
/// Decide modal with spoiled arguments: those of the other calls, and up to three faults of the possible steps.
pub fn spoiled(
    libraries: &[&dyn Calls],
    dialogue: &Dialogue,
    store: &[u64],
    (n, g, path_len): (usize, usize, usize),
    random: &mut Random,
    tally: &mut Tally,
) -> Outcome {
    let kind = random.pick(&KINDS);
    let Optional { possible, .. } = optional(kind, dialogue, random);
    let mut possible = Optional {
        dialogue: dialogue.clone(),
        possible,
    }
    .possible_words();
    for _ in 0..random.below(4) {
        match random.below(4) {
            0 => {
                let length = random.pick(&[0, 1, POSSIBLE_WORDS - 1]);
                possible.truncate(length);
            }
            // A state from n up, or a word of an unused row.
            1 if dialogue.n < MAX_STATES => {
                let state = random.within(dialogue.n, MAX_STATES - 1);
                let used = random.below(dialogue.n);
                let row = random.pick(&[used, dialogue.n, state]);
                put(
                    &mut possible,
                    possible_at(row) + state / 64,
                    1 << (state % 64),
                );
            }
            2 => possible.extend(random.words(3)),
            // Some steps are possible no longer, among them certain ones.
            _ => {
                let at = possible_at(random.below(dialogue.n)) + random.below(WORDS);
                if let Some(word) = possible.get_mut(at) {
                    *word = 0;
                }
            }
        }
    }
    let answer = expected(store, n, g, &possible, path_len);
    tally.count("refusal by decide modal", answer.answer.refusal);
    let path = random.places(path_len);
    libraries
        .iter()
        .try_for_each(|library| decide_modal(*library, store, (n, g), &possible, &path, &answer))
}

/// Sets bits of a word, if the buffer still has it.
fn put(buffer: &mut [u64], at: usize, bits: u64) {
    if let Some(word) = buffer.get_mut(at) {
        *word |= bits;
    }
}

// tries: Modal.modal_forbidden
/// Answers worked out by hand, the order of the grounds, steps that are certain and not possible, and tables without states.
pub fn edges(libraries: &[&dyn Calls], random: &mut Random, tally: &mut Tally) -> Outcome {
    for (name, optional, by_hand) in by_hand() {
        let fault = |fault: String| format!("{name}: {fault}");
        let plain = judge(&optional);
        if (plain.answer, &plain.front) != (by_hand.answer, &by_hand.front) {
            return Err(fault(format!("the plain answer is {:?}", plain.answer)));
        }
        accepted(libraries, &optional, random, tally).map_err(fault)?;
    }
    orders(libraries, random)?;
    uncertain(libraries, random)?;
    drafts(libraries, random)
}

/// Tables with their certain and possible steps, and their answers.
fn by_hand() -> Vec<(&'static str, Optional, Expected<Modal, u16>)> {
    let with = |dialogue: Dialogue, steps: &[(usize, usize)]| {
        let may = Dialogue::of(dialogue.n, &[], &[], &[], steps);
        Optional {
            dialogue,
            possible: may.rows,
        }
    };
    let answer = |verdict, invariant: &[usize], path: &[u16]| Expected {
        answer: Modal {
            invariant: words(&set_where(MAX_STATES, |s| invariant.contains(&s))),
            refusal: 0,
            verdict,
            size: invariant.len() as u32,
            steps: path.len().saturating_sub(1) as u32,
        },
        front: path.to_vec(),
    };
    let bare = |initial, marked| Dialogue::of(2, initial, marked, &[], &[]);
    vec![
        // E's invariant is {0} (the specification's table); with a step 0 → 1 its forbidden state is reached.
        (
            "E with 0 → 1",
            with(named::e(), &[(0, 0), (0, 1), (1, 2)]),
            answer(DEPENDS, &[0], &[0, 1, 2]),
        ),
        (
            "E, equal rows",
            with(named::e(), &[(0, 0), (1, 2)]),
            answer(SAFE, &[0], &[]),
        ),
        // B leads to 3 by certain steps, and by a possible one sooner: the path is that of the certain ones.
        (
            "B with 0 → 3",
            with(named::b(), &[(0, 1), (0, 3), (1, 2), (2, 3), (4, 4)]),
            answer(UNSAFE, &[], &[0, 1, 2, 3]),
        ),
        // No step is certain, and none of the two states is a hang: to decide 0 would be one.
        (
            "around by possible steps",
            with(bare(&[0], &[]), &[(0, 1), (1, 0)]),
            answer(SAFE, &[0, 1], &[]),
        ),
        // Z0 and R are {0}: with the step off, 0 leads nowhere, and is not forbidden for that.
        (
            "to a marked state by a possible step",
            with(bare(&[0], &[1]), &[(0, 1), (1, 1)]),
            answer(DEPENDS, &[0], &[0, 1]),
        ),
        // 1 has no possible step, so it is a hang, whether or not anything leads there.
        (
            "to a hang by a possible step",
            with(bare(&[0], &[]), &[(0, 1)]),
            answer(DEPENDS, &[0], &[0, 1]),
        ),
        (
            "to a resting state by a possible step",
            with(bare(&[0], &[]).resting_on(&[1]), &[(0, 1)]),
            answer(SAFE, &[0, 1], &[]),
        ),
        (
            "an initial hang",
            with(bare(&[0], &[]), &[(1, 1)]),
            answer(UNSAFE, &[], &[0]),
        ),
        ("F", with(named::f(), &[(0, 0)]), answer(UNSAFE, &[], &[0])),
        ("draft", with(named::draft(), &[]), answer(SAFE, &[], &[])),
    ]
}

// tries: Modal.modal_grounds, Grounds.Listed.malformed-possible, Figures.Figures
/// Each ground with all that come after it, and the last state and row in bounds.
fn orders(libraries: &[&dyn Calls], random: &mut Random) -> Outcome {
    let last = MAX_STATES - 1;
    let step = Dialogue::of(last, &[0], &[], &[], &[(0, 1), (1, 0)]);
    let store = step.to_store();
    let mut stray = store.clone();
    stray[0] |= 1 << 63;
    stray[STORE_WORDS - 1] = 1;
    let possible = Optional {
        dialogue: step.clone(),
        possible: vec![vec![false; last]; last],
    }
    .possible_words();
    let with = |at: usize, word: u64| {
        let mut possible = possible.clone();
        possible[at] |= word;
        possible
    };
    let equal = {
        let rows = step.rows.clone();
        let both = Optional {
            dialogue: step.clone(),
            possible: rows,
        };
        both.possible_words()
    };
    let short = &possible[..POSSIBLE_WORDS - 1];
    let (n, g, room) = (last, 0, PATH_PLACES);
    // The last state, of the first row and of the last one in use, and the first and last word of the unused row.
    let strays = [
        possible_at(0) + last / 64,
        possible_at(last - 1) + last / 64,
        possible_at(last),
        POSSIBLE_WORDS - 1,
    ];
    let mut cases = vec![
        (10, &store[1..], short, MAX_STATES + 1, MAX_GROUPS + 1, 0),
        (
            10,
            &store[1..],
            &possible[..],
            MAX_STATES + 1,
            MAX_GROUPS + 1,
            0,
        ),
        (10, &stray[..], short, MAX_STATES + 1, MAX_GROUPS + 1, 0),
        (10, &store[..], &[], n, g, room),
        (
            14,
            &stray[..],
            &possible[..],
            MAX_STATES + 1,
            MAX_GROUPS + 1,
            0,
        ),
        (14, &store[..], &equal[..], 0, 1, room),
        (15, &stray[..], &possible[..], n, MAX_GROUPS + 1, 0),
        (17, &stray[..], &possible[..], n, g, 0),
        (28, &store[..], &possible[..], n, g, 0),
        (28, &store[..], &possible[..], n, g, room),
        (21, &store[..], &equal[..], n, g, room - 1),
        (0, &store[..], &equal[..], n, g, room),
    ];
    let strayed = strays.map(|at| with(at, 1 << 63));
    cases.extend(
        strayed
            .iter()
            .map(|bad| (17, &store[..], &bad[..], n, g, 0)),
    );
    for (refusal, store, possible, n, g, room) in cases {
        let answer = expected(store, n, g, possible, room);
        if answer.answer.refusal != refusal {
            let plain = answer.answer.refusal;
            return Err(format!("the plain refusal is {plain}, by hand {refusal}"));
        }
        let path = random.places(room);
        for library in libraries {
            decide_modal(*library, store, (n, g), possible, &path, &answer)?;
        }
    }
    Ok(())
}

// tries: ModalPromises.ModalPromises.impossible
/// A certain step that is not possible, in each word of a row.
fn uncertain(libraries: &[&dyn Calls], random: &mut Random) -> Outcome {
    let from = random.below(MAX_STATES);
    for word in 0..WORDS {
        let to = 64 * word + random.below(64);
        let step = Dialogue::of(MAX_STATES, &[0], &[], &[], &[(from, to), (to, from)]);
        let store = step.to_store();
        let mut possible = Optional {
            dialogue: step.clone(),
            possible: step.rows.clone(),
        }
        .possible_words();
        possible[possible_at(from) + word] = 0;
        let path = random.places(PATH_PLACES);
        for library in libraries {
            decide_modal(
                *library,
                &store,
                (MAX_STATES, 0),
                &possible,
                &path,
                &refused(28),
            )?;
        }
    }
    Ok(())
}

// tries: ModalPromises.ModalPromises.draft, ModalPromises.ModalPromises.draft_17
/// A table without states: safe where the possible words are all 0, 17 where one is not; what lies past them plays no part.
fn drafts(libraries: &[&dyn Calls], random: &mut Random) -> Outcome {
    let store = named::draft().to_store();
    let mut possible = vec![0; POSSIBLE_WORDS];
    possible.extend(random.words(2));
    let path = random.places(PATH_PLACES);
    let safe = Expected {
        answer: Modal::default(),
        front: Vec::new(),
    };
    for library in libraries {
        decide_modal(*library, &store, (0, 0), &possible, &path, &safe)?;
        for at in 0..POSSIBLE_WORDS {
            let mut stray = possible.clone();
            stray[at] = 1 << random.below(64);
            decide_modal(*library, &store, (0, 0), &stray, &path, &refused(17))?;
        }
    }
    Ok(())
}
