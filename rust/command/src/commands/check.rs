//! `check`: the verdict on one table, in the three lines of the program of the specification. Text and verdict are the proved call's.

use crate::answer::{Answer, Verdict};
use crate::failure::{Done, Failure};
use crate::files::{print, say};
use crate::json::Object;
use crate::lines::Names;
use crate::names::with_names;
use crate::repairs::Repairs;
use crate::source::{JSON, NAMES, QUIET, SITE, Source, TEXT};
use crate::words::{Call, Command, Opt, Output};
use shuntberry::MAX_ALLOWANCE;

const EXPLAIN: Opt = Opt {
    name: "--explain",
    value: None,
    about: "says of an unsafe table which forbidden states can be reached, and what would mend it\n\
        Standard error has a line for each forbidden state that can be reached, with a shortest path to it. \
        Then it has a line for each step of the path without which no forbidden state can be reached. \
        The line says how many other states cannot be reached then either; the fewest come first. \
        A line says if there is no such step. If the path ends in a hang, a last line says what is reached if that state is marked as resting. \
        Mark it so only if a session may end on that screen.",
};
const ALLOWANCE: Opt = Opt {
    name: "--allowance",
    value: Some("K"),
    about: "a draft check, with at most K refinements, which may be undecided\n\
        K is from 0 to 512. If K are not enough, the second and last line is `undecided refinements` and K. The status \
        is then 4. Otherwise the answer is the same as without this option.",
};

/// The command.
pub const CHECK: Command = Command {
    name: "check",
    words: "[FILE]",
    counts: (0, 1),
    about: "is a forbidden state of a table reachable?",
    more: "Prints safe with an invariant, unsafe with a path, or refused with a number.",
    options: &[&SITE, &EXPLAIN, &QUIET, &JSON, &ALLOWANCE, &TEXT, &NAMES],
    needs: &[],
    output: Output::Answer,
    run,
};

fn run(call: &Call) -> Done {
    if call.has(&QUIET) && call.has(&JSON) {
        return Err(Failure::Wrong(
            "--quiet and --json do not go together".to_string(),
        ));
    }
    let allowance = call.number(&ALLOWANCE, MAX_ALLOWANCE)?;
    let source = Source::or_nothing(call, call.name(0))?;
    let answer = match undecided(&source, allowance)? {
        Some(answer) => answer,
        None => Answer::of(&source)?,
    };
    let repairs = match &source.table {
        Ok(table) if call.has(&EXPLAIN) || call.has(&JSON) => Repairs::of(table, &answer)?,
        _ => None,
    };
    if call.has(&JSON) {
        print(
            object(&answer, repairs.as_ref(), &source.names)
                .line()
                .as_bytes(),
        )?;
    } else if !call.has(&QUIET) {
        print(answer.with_names(&source.names).as_bytes())?;
    }
    if !call.has(&QUIET) || answer.is_always_said() {
        let repairs = repairs.filter(|_| call.has(&EXPLAIN));
        let repairs = repairs.map_or(Vec::new(), |repairs| repairs.lines(&source.names));
        for line in answer.explanation(&source).into_iter().chain(repairs) {
            say(&format!("check: {line}\n"));
        }
    }
    Ok(answer.verdict.status())
}

/// As JSON, with what is wrong with the table.
fn object(answer: &Answer, repairs: Option<&Repairs>, names: &Names) -> Object {
    let Some(repairs) = repairs else {
        return answer.object(Object::default(), names);
    };
    let object = repairs.object(answer.facts(Object::default()));
    with_names(object, names, answer.states().chain(repairs.states()))
}

/// The answer of a draft check where it is undecided. Where it is not, it is that of a release check, which a larger allowance never changes.
fn undecided(source: &Source, allowance: Option<usize>) -> Result<Option<Answer>, Failure> {
    let (Ok(table), Some(allowance)) = (&source.table, allowance) else {
        return Ok(None);
    };
    let answer = Answer::within(table, allowance)?;
    Ok(Some(answer).filter(|answer| answer.verdict == Verdict::Undecided))
}
