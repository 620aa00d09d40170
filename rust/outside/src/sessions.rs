//! Edit sessions: what a step more or less must leave lit, from the specification's text, on lists of
//! booleans; lists of edits at random, with a fresh search after each; and the tests of the calls.

use crate::accept;
use crate::buffer::Lent;
use crate::calls::{Calls, Edit, Session, Words};
use crate::examine::{Outcome, Tally};
use crate::generate::{Random, add_fan_out};
use crate::named;
use crate::table::{Dialogue, MAX_GROUPS, MAX_STATES, STORE_WORDS, Set, set_where, words};

/// States and edits of the long lists.
const LONG: [(usize, usize); 8] = [
    (1, 100),
    (2, 1000),
    (7, 1000),
    (63, 1000),
    (64, 1000),
    (65, 1000),
    (MAX_STATES - 1, 200),
    (MAX_STATES, 1000),
];

// ---- What is expected

/// The states that these reach, with these: depth first, with a stack.
fn reach(dialogue: &Dialogue, start: &Set) -> Set {
    let mut seen = start.clone();
    let mut stack: Vec<usize> = (0..dialogue.n).filter(|&s| start[s]).collect();
    while let Some(state) = stack.pop() {
        for next in 0..dialogue.n {
            if dialogue.rows[state][next] && !seen[next] {
                seen[next] = true;
                stack.push(next);
            }
        }
    }
    seen
}

fn fresh(dialogue: &Dialogue) -> Words {
    words(&reach(dialogue, &dialogue.initial))
}

/// Opening, on any arguments.
fn opened(store: &[u64], n: usize, g: usize) -> Session {
    match accept::open(store, n, g) {
        Err(refusal) => Session {
            refusal,
            reachable: Words::default(),
        },
        Ok(()) => Session {
            refusal: 0,
            reachable: fresh(&Dialogue::from_store(store, n, g)),
        },
    }
}

/// An edit, on any arguments: the answer, and the first words of the store after it.
fn edited(store: &[u64], (n, g): (usize, usize), lit: Words, edit: Edit) -> (Session, Vec<u64>) {
    let (from, to, adding) = parts(edit);
    let answer = |refusal, reachable| Session { refusal, reachable };
    if let Err(refusal) = accept::edit(store, n, g, from, to) {
        return (answer(refusal, lit), Vec::new());
    }
    let mut dialogue = Dialogue::from_store(store, n, g);
    if dialogue.rows[from][to] == adding {
        return (answer(0, lit), Vec::new());
    }
    dialogue.rows[from][to] = adding;
    let is_lit = lit[from / 64] & (1 << (from % 64)) != 0;
    let target = set_where(n, |s| s == to);
    let after = match (adding, is_lit) {
        (false, _) => fresh(&dialogue),
        (true, false) => lit,
        (true, true) => joined(lit, words(&reach(&dialogue, &target))),
    };
    (answer(0, after), dialogue.to_store())
}

fn parts(edit: Edit) -> (usize, usize, bool) {
    match edit {
        Edit::Add(from, to) => (from, to, true),
        Edit::Remove(from, to) => (from, to, false),
    }
}

fn joined(mut lit: Words, more: Words) -> Words {
    for (word, more) in lit.iter_mut().zip(more) {
        *word |= more;
    }
    lit
}

// ---- Edits at random

/// A step to add or to remove: one that changes the table or not, to itself, or with a number that is none. Steps to
/// remove mostly exist, so that a long list of edits leaves few steps, and what can be reached changes often.
fn random_edit(dialogue: &Dialogue, random: &mut Random) -> Edit {
    let n = dialogue.n;
    let state = |random: &mut Random| match random.below(16) {
        0 => random.pick(&[n, n - 1, MAX_STATES - 1, MAX_STATES, usize::MAX]),
        _ => random.below(n),
    };
    let (from, mut to) = (state(random), state(random));
    let adding = random.once_in(2);
    match random.below(8) {
        0 => to = from,
        draw if from < n && (!adding || draw < 3) => {
            let row = &dialogue.rows[from];
            let steps: Vec<usize> = (0..n).filter(|&s| row[s]).collect();
            if !steps.is_empty() {
                to = random.pick(&steps);
            }
        }
        _ => {}
    }
    match adding {
        true => Edit::Add(from, to),
        false => Edit::Remove(from, to),
    }
}

/// A set of any states: what a caller may hand in, also with states from n up and without initial ones.
fn random_set(n: usize, random: &mut Random) -> Words {
    let mut set = Words::default();
    let fill = random.pick(&[0, 1, 3]);
    for word in &mut set {
        *word = match fill {
            0 => random.word(),
            1 => random.word() & random.word() & random.word(),
            _ => 0,
        };
    }
    if random.below(2) == 0 {
        for state in n..MAX_STATES {
            set[state / 64] &= !(1 << (state % 64));
        }
    }
    set
}

// ---- The tests

// tries: Fields.session_fields, Edits.open_answer
fn open(library: &dyn Calls, store: &[u64], (n, g): (usize, usize), expected: Session) -> Outcome {
    let what = format!("{}'s open({n}, {g})", library.name());
    let store = Lent::new(store);
    let answer = library.open(store.shared(), n, g);
    if answer != expected {
        return Err(format!("{what} answered {answer:?}, expected {expected:?}"));
    }
    store.holds(&format!("store after {what}"), &[])
}

fn edit(
    library: &dyn Calls,
    store: &[u64],
    (n, g): (usize, usize),
    lit: Words,
    change: Edit,
    expected: &(Session, Vec<u64>),
) -> Outcome {
    let what = format!("{}'s {change:?} ({n}, {g}) with {lit:x?}", library.name());
    let mut store = Lent::new(store);
    let answer = library.edit(store.mutable(), n, g, lit, change);
    if answer != expected.0 {
        let expected = expected.0;
        return Err(format!("{what} answered {answer:?}, expected {expected:?}"));
    }
    store.holds(&format!("store after {what}"), &expected.1)
}

/// One edit through all libraries; the store and the set after it.
fn each(
    libraries: &[&dyn Calls],
    store: &mut [u64],
    (n, g): (usize, usize),
    lit: Words,
    change: Edit,
) -> Result<Session, String> {
    let expected = edited(store, (n, g), lit, change);
    for library in libraries {
        edit(*library, store, (n, g), lit, change, &expected)?;
    }
    store[..expected.1.len()].copy_from_slice(&expected.1);
    Ok(expected.0)
}

// tries: Edits.opened, Reached.ReachableIs, SessionPromises.SessionPromises.session
// tries: SessionPromises.counted, SessionPromises.SessionIs.steps, SessionPromises.SessionIs.rows
// tries: SessionPromises.SessionPromises.first-words, SessionPromises.FirstWords.rest
/// A list of edits from an opened table, with a fresh search after each, of a table that is edited beside the
/// store; then the whole list once more, by each library with the sets that it gave itself. The table and
/// the store after it.
fn edit_list(
    libraries: &[&dyn Calls],
    dialogue: &Dialogue,
    edits: usize,
    random: &mut Random,
    tally: &mut Tally,
) -> Result<(Dialogue, Vec<u64>), String> {
    let (n, g) = (dialogue.n, dialogue.g());
    let beyond = random.pick(&[0, 0, 1, 7]);
    let beyond = random.words(beyond);
    let start = [dialogue.to_store(), beyond.clone()].concat();
    let first = opened(&start, n, g);
    for library in libraries {
        open(*library, &start, (n, g), first)?;
    }
    let (mut store, mut dialogue) = (start.clone(), dialogue.clone());
    let mut lit = first.reachable;
    let mut list = Vec::new();
    for _ in 0..edits {
        let change = random_edit(&dialogue, random);
        let answer = each(libraries, &mut store, (n, g), lit, change)?;
        let (from, to, adding) = parts(change);
        if from < n && to < n {
            dialogue.rows[from][to] = adding;
        }
        let now = fresh(&dialogue);
        if answer.reachable != now {
            let lit = answer.reachable;
            return Err(format!(
                "{change:?} leaves {lit:x?} lit, and {now:x?} can be reached"
            ));
        }
        let moved = if lit == now { "same" } else { "other" };
        tally.count("refusal by an edit", answer.refusal);
        tally.count("the set after an edit", moved);
        lit = now;
        list.push(change);
    }
    let after = [dialogue.to_store(), beyond].concat();
    if store != after {
        return Err("the edits leave another table than they name".to_string());
    }
    for library in libraries {
        let what = format!("{}'s session of {edits} edits", library.name());
        let mut own = Lent::new(&start);
        let given = library.session(own.mutable(), n, g, &list);
        if given != lit {
            return Err(format!("{what} gives {given:x?}, expected {lit:x?}"));
        }
        own.holds(&format!("store after {what}"), &after)?;
    }
    Ok((dialogue, store))
}

// tries: SessionPromises.SessionPromises.nothing, SessionPromises.SessionPromises.unreached
// tries: SessionPromises.SessionPromises.reached, SessionPromises.SessionPromises.removed
// tries: SessionPromises.SessionPromises.one_word, Edits.edit_answer
/// A short list of edits, then edits with sets of any states.
pub fn random_edits(
    libraries: &[&dyn Calls],
    dialogue: &Dialogue,
    random: &mut Random,
    tally: &mut Tally,
) -> Outcome {
    let edits = random.pick(&[0, 4, 12]);
    let (dialogue, mut store) = edit_list(libraries, dialogue, edits, random, tally)?;
    let (n, g) = (dialogue.n, dialogue.g());
    for _ in 0..2 {
        let lit = random_set(n, random);
        let change = random_edit(&Dialogue::from_store(&store, n, g), random);
        each(libraries, &mut store, (n, g), lit, change)?;
    }
    Ok(())
}

/// Long lists, on tables with few steps, where what can be reached changes often.
pub fn long_lists(libraries: &[&dyn Calls], random: &mut Random, tally: &mut Tally) -> Outcome {
    for (n, edits) in LONG {
        let mut rows = vec![vec![false; n]; n];
        add_fan_out(&mut rows, 1, random);
        let initial: Vec<usize> = (0..n).step_by(8).collect();
        let dialogue = Dialogue {
            rows,
            ..Dialogue::of(n, &initial, &[n - 1], &[&[n / 2]], &[])
        };
        edit_list(libraries, &dialogue, edits, random, tally)
            .map_err(|fault| format!("{edits} edits of {n} states: {fault}"))?;
    }
    Ok(())
}

/// The calls on a spoiled store.
pub fn spoiled(
    libraries: &[&dyn Calls],
    store: &[u64],
    (n, g): (usize, usize),
    random: &mut Random,
    tally: &mut Tally,
) -> Outcome {
    let [by_open, by_edit] = refusals(libraries, store, (n, g), random)?;
    tally.count("refusal by open", by_open);
    tally.count("refusal by an edit", by_edit);
    Ok(())
}

// tries: SessionPromises.SessionPromises.open_refusal, SessionPromises.SessionPromises.edit-refusal
/// Opening and an edit of any two numbers near n, with any set: why each is refused, or 0.
pub fn refusals(
    libraries: &[&dyn Calls],
    store: &[u64],
    (n, g): (usize, usize),
    random: &mut Random,
) -> Result<[u32; 2], String> {
    let first = opened(store, n, g);
    let most = n.clamp(1, MAX_STATES);
    let state = |random: &mut Random| {
        let some = random.below(most);
        random.pick(&[some, most - 1, n])
    };
    let (from, to) = (state(random), state(random));
    let change = random.pick(&[Edit::Add(from, to), Edit::Remove(from, to)]);
    let lit = random_set(most, random);
    let expected = edited(store, (n, g), lit, change);
    for library in libraries {
        open(*library, store, (n, g), first)?;
        edit(*library, store, (n, g), lit, change, &expected)?;
    }
    Ok([first.refusal, expected.0.refusal])
}

// tries: SessionPromises.SessionPromises.keeps, SessionPromises.SessionPromises.drops, Edits.state_ground
/// Figures worked out by hand, the edges of n, a table without states, and the order of the grounds.
pub fn edges(libraries: &[&dyn Calls], random: &mut Random) -> Outcome {
    let set = |states: &[usize]| {
        let mut set = Words::default();
        for s in states {
            set[s / 64] |= 1 << (s % 64);
        }
        set
    };
    let run = |dialogue: &Dialogue, lit: &[usize], edits: &[(Edit, u32, &[usize])]| -> Outcome {
        let mut store = dialogue.to_store();
        let mut lit = set(lit);
        for &(change, refusal, after) in edits {
            let answer = each(
                libraries,
                &mut store,
                (dialogue.n, dialogue.g()),
                lit,
                change,
            )?;
            if (answer.refusal, answer.reachable) != (refusal, set(after)) {
                return Err(format!(
                    "{change:?} gives {answer:?}, by hand {refusal} {after:?}"
                ));
            }
            lit = answer.reachable;
        }
        Ok(())
    };
    use Edit::{Add, Remove};

    // 0 → 1, 2 → 3 → 2; drawn and rubbed out in turn.
    let two = Dialogue::of(5, &[0], &[4], &[], &[(0, 1), (2, 3), (3, 2)]);
    run(
        &two,
        &[0, 1],
        &[
            (Add(0, 1), 0, &[0, 1]),
            (Remove(1, 0), 0, &[0, 1]),
            (Add(4, 2), 0, &[0, 1]),
            (Add(1, 1), 0, &[0, 1]),
            (Add(1, 2), 0, &[0, 1, 2, 3]),
            (Add(3, 4), 0, &[0, 1, 2, 3, 4]),
            (Add(4, 5), 27, &[0, 1, 2, 3, 4]),
            (Add(5, 4), 27, &[0, 1, 2, 3, 4]),
            (Remove(4, 5), 27, &[0, 1, 2, 3, 4]),
            (Remove(4, 2), 0, &[0, 1, 2, 3, 4]),
            (Remove(1, 1), 0, &[0, 1, 2, 3, 4]),
            (Remove(0, 1), 0, &[0]),
        ],
    )?;
    // Table B, as the specification tells it.
    let b = Dialogue::of(5, &[0], &[3], &[], &[(0, 1), (1, 2), (2, 3), (4, 4)]);
    run(
        &b,
        &[0, 1, 2, 3],
        &[
            (Remove(1, 2), 0, &[0, 1]),
            (Add(4, 2), 0, &[0, 1]),
            (Add(0, 4), 0, &[0, 1, 2, 3, 4]),
        ],
    )?;
    // Any set: nothing is pruned at a lit target, or on the way from it; an unlit source joins nothing, a removal
    // starts afresh.
    run(&b, &[2, 4], &[(Add(4, 1), 0, &[1, 2, 3, 4])])?;
    run(&two, &[1, 2, 9], &[(Add(1, 2), 0, &[1, 2, 3, 9])])?;
    run(&two, &[2, 9], &[(Add(1, 2), 0, &[2, 9])])?;
    run(&two, &[9], &[(Remove(1, 2), 0, &[9])])?;
    run(&two, &[9], &[(Remove(2, 3), 0, &[0, 1])])?;
    // A full row, a step less and a step more.
    let n = MAX_STATES;
    let all: Vec<usize> = (0..n).collect();
    let row: Vec<(usize, usize)> = (0..n).map(|s| (0, s)).collect();
    let full = Dialogue::of(n, &[0], &[], &[], &row);
    let but_last: Vec<usize> = (0..n - 1).collect();
    run(
        &full,
        &all,
        &[
            (Remove(0, n - 1), 0, &but_last),
            (Add(0, n), 27, &but_last),
            (Add(n - 1, 0), 0, &but_last),
            (Add(0, n - 1), 0, &all),
        ],
    )?;
    // A table without states.
    for library in libraries {
        open(
            *library,
            &named::draft().to_store(),
            (0, 0),
            Session::default(),
        )?;
    }
    run(
        &named::draft(),
        &[0, 7],
        &[(Add(0, 0), 27, &[0, 7]), (Remove(0, 0), 27, &[0, 7])],
    )?;
    // Every other ground comes before 27.
    let store = random.words(STORE_WORDS);
    let lit = random_set(n, random);
    for (words, n, g, refusal) in [
        (STORE_WORDS - 1, MAX_STATES + 1, MAX_GROUPS + 1, 10),
        (STORE_WORDS, MAX_STATES + 1, MAX_GROUPS + 1, 14),
        (STORE_WORDS, 0, 1, 14),
        (STORE_WORDS, MAX_STATES, MAX_GROUPS + 1, 15),
        (STORE_WORDS, MAX_STATES - 1, MAX_GROUPS, 17),
    ] {
        let store = &store[..words];
        let refused = |reachable| Session { refusal, reachable };
        for library in libraries {
            open(*library, store, (n, g), refused(Words::default()))?;
            for change in [Add(0, n), Remove(n, 0)] {
                edit(
                    *library,
                    store,
                    (n, g),
                    lit,
                    change,
                    &(refused(lit), Vec::new()),
                )?;
            }
        }
    }
    Ok(())
}
