//! Files of the old form: what rewriting one must give, from the specification (Rewriting an old file), and the
//! tests. An old file, rewritten and read, gets the answers that it had when just the marked states were
//! forbidden: those stored in `old-answers.txt`, and those of the plain implementations on that reading.

use crate::accept::{MAX_ALLOWANCE, PATH_PLACES};
use crate::blocks::{self, Form};
use crate::calls::{Calls, Decision, SAFE, UNDECIDED, UNSAFE};
use crate::examine::{self, Outcome, Tally};
use crate::expected::{self, Expected, Judged};
use crate::generate::{Kind, Random};
use crate::rounds;
use crate::table::{Dialogue, STORE_WORDS, set_where, words};

/// The site of the files that are rewritten, and of what they are rewritten as.
const SITE: usize = 0;

const TABLES: usize = 300;
/// At least so many tables would get another answer if their dead ends did not rest.
const ENOUGH: usize = 50;

const THING: &str = "old files";
const NEEDED: &str = "the answer needs resting states";

const STORED: &str = include_str!("../old-answers.txt");
/// The files and the answers that are stored there.
const STORED_FILES: usize = 240;
const STORED_ANSWERS: usize = 4 * STORED_FILES;

/// The new file of an old one, or the number of the first ground to refuse it.
pub fn rewritten(old: &[u8]) -> Result<Vec<u8>, u32> {
    let dialogue = Form::Old.decode(old, SITE)?;
    Ok(Form::New.encode(&dialogue.dead_ends_resting(), SITE))
}

pub fn old_files(libraries: &[&dyn Calls], random: &mut Random, tally: &mut Tally) -> Outcome {
    stored_answers(libraries, random)?;
    for _ in 0..TABLES {
        random_old_file(libraries, random, tally)?;
    }
    let needed = (THING, NEEDED.to_string());
    let tables = tally.0.get(&needed).copied().unwrap_or(0);
    if tables < ENOUGH {
        return Err(format!("only {tables} tables where {NEEDED}"));
    }
    Ok(())
}

// ---- Stored answers

// tries: Rewriting.decisions
/// Each stored file, rewritten and read by the library, and decided.
fn stored_answers(libraries: &[&dyn Calls], random: &mut Random) -> Outcome {
    let mut store = Vec::new();
    let (mut n, mut g) = (0, 0);
    let (mut files, mut answers) = (0, 0);
    for line in STORED.lines().filter(|line| !line.starts_with('#')) {
        if let Some(contents) = line.strip_prefix("file ") {
            let old = blocks::file_of(&from_hex(contents), SITE);
            let dialogue = Form::Old
                .decode(&old, SITE)
                .map_err(|number| format!("stored file {files} is refused with {number}"))?;
            (n, g) = (dialogue.n, dialogue.g());
            store = read_by_all(libraries, &old, random)?;
            files += 1;
        } else {
            let (allowance, expected) = stored_answer(line, n);
            answers += 1;
            for library in libraries {
                let path = random.places(PATH_PLACES);
                examine::decide(*library, &store, (n, g, allowance), &path, &expected)
                    .map_err(|fault| format!("stored file {files}: {fault}"))?;
            }
        }
    }
    if (files, answers) != (STORED_FILES, STORED_ANSWERS) {
        return Err(format!("{files} files and {answers} answers are stored"));
    }
    Ok(())
}

fn from_hex(digits: &str) -> Vec<u8> {
    let byte =
        |at| u8::from_str_radix(&digits[at..at + 2], 16).expect("two digits of a stored file");
    (0..digits.len()).step_by(2).map(byte).collect()
}

/// The allowance of a stored answer, and the answer.
fn stored_answer(line: &str, n: usize) -> (usize, Expected<Decision, u16>) {
    let stored: Vec<&str> = line.split(' ').collect();
    let number = |word: &str| -> usize { word.parse().expect("a number in a stored answer") };
    let states: Vec<usize> = stored[3..].iter().map(|word| number(word)).collect();
    let mut answer = Decision {
        count: number(stored[2]) as u32,
        ..Decision::default()
    };
    let mut front = Vec::new();
    match stored[1] {
        "safe" => {
            answer.verdict = SAFE;
            answer.invariant = words(&set_where(n, |s| states.contains(&s)));
            answer.size = states.len() as u32;
        }
        "unsafe" => {
            answer.verdict = UNSAFE;
            answer.steps = states.len() as u32 - 1;
            front = states.iter().map(|&state| state as u16).collect();
        }
        _ => answer.verdict = UNDECIDED,
    }
    (number(stored[0]), Expected { answer, front })
}

// tries: Rewriting.accepted
/// The store that every library reads from an old file once it is rewritten; as it is, all refuse it.
fn read_by_all(
    libraries: &[&dyn Calls],
    old: &[u8],
    random: &mut Random,
) -> Result<Vec<u64>, String> {
    examine::answered_file(libraries, (old, SITE), 15, random)?;
    let new = rewritten(old).map_err(|number| format!("an old file is refused with {number}"))?;
    let expected = expected::read(&new, SITE, STORE_WORDS);
    let store = random.words(STORE_WORDS);
    for library in libraries {
        examine::read(*library, (&new, SITE), &store, &expected)?;
    }
    Ok(expected.front)
}

// ---- Old files at random

// tries: Rewriting.decisions
/// Every answer of a rewritten file is that of the old reading.
fn random_old_file(libraries: &[&dyn Calls], random: &mut Random, tally: &mut Tally) -> Outcome {
    let dialogue = Kind::random(random).dialogue(random).resting_on(&[]);
    let (n, g) = (dialogue.n, dialogue.g());
    let store = read_by_all(libraries, &Form::Old.encode(&dialogue, SITE), random)?;
    let read = Dialogue::from_store(&store, n, g);
    let rests = |s: usize| (0..n).all(|t| !dialogue.rows[s][t]);
    if read.resting != set_where(n, rests) {
        return Err("other states rest than the dead ends".to_string());
    }

    let table = dialogue.old_table();
    let mut judged = Judged::new(&table);
    for allowance in [0, 1, 2, rounds::backward_number(&table), MAX_ALLOWANCE] {
        let expected = judged.decide(allowance);
        for library in libraries {
            let path = random.places(PATH_PLACES);
            examine::decide(*library, &store, (n, g, allowance), &path, &expected)?;
        }
    }
    for library in libraries {
        let path = random.places(PATH_PLACES);
        examine::shortest_path(*library, &store, (n, g), &path, &judged.shortest_path())?;
        let out = random.places(n);
        examine::distances(*library, &store, (n, g), &out, &judged.distances())?;
        let near = (0..=n).map(|k| (k, judged.within(k)));
        examine::within(*library, &store, (n, g), near)?;
    }
    let without = dialogue.table();
    let other = Judged::new(&without).decide(MAX_ALLOWANCE);
    let answer = judged.decide(MAX_ALLOWANCE);
    if (other.answer, other.front) != (answer.answer, answer.front) {
        tally.count(THING, NEEDED);
    }
    tally.count(THING, "whole");
    Ok(())
}
