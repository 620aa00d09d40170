//! `release`: what was checked, and just that, is written to another name.

use crate::answer::{Answer, VACUOUS, Vacuous, Verdict};
use crate::failure::{Done, Failure, status};
use crate::files::{Input, need_apart, need_place, print, replace_after, say};
use crate::sha256::sha256;
use crate::source::{SITE, Source, site};
use crate::table::is_unmarked;
use crate::words::{Call, Command, Output};
use shuntberry::Table;

/// The command.
pub const RELEASE: Command = Command {
    name: "release",
    words: "FILE OUT",
    counts: (2, 2),
    about: "check a file, and write it to OUT if it is safe",
    more: "Exactly the bytes that were checked are written. Their SHA-256 is printed before OUT has \
        them.",
    options: &[&SITE, &VACUOUS],
    needs: &[],
    output: Output::Answer,
    run,
};

fn run(call: &Call) -> Done {
    let (Some(from), Some(to)) = (call.name(0), call.name(1)) else {
        return Err(Failure::Wrong("expected FILE OUT".to_string()));
    };
    let site = site(call)?;
    need_apart(to)?;
    need_place(to)?;
    let source = Source::of_file(Input::named(from), site)?;
    let answer = Answer::of(&source)?;
    print(answer.text.as_bytes())?;
    if let Some(why) = why_not(&answer, &source, call.has(&VACUOUS)) {
        let name = &source.shown;
        say(&format!("release: {name}: nothing was released: {why}\n"));
        let status = match answer.verdict {
            Verdict::Safe => status::NO_RELEASE,
            verdict => verdict.status(),
        };
        return Ok(status);
    }
    for remark in remarks(&answer, source.table()?) {
        say(&format!(
            "release: {}: look at it: {remark}\n",
            source.shown
        ));
    }
    // Of the bytes that were checked, so that it is true also where they do not get their name; behind that nothing may fail.
    let sum = format!("SHA-256 {}\n", sha256(&source.file));
    replace_after(to, &source.file, || print(sum.as_bytes()))?;
    Ok(status::DONE)
}

/// What is said of a table that is released.
fn remarks(answer: &Answer, table: &Table) -> impl Iterator<Item = &'static str> {
    let vacuous = answer.vacuous.map(Vacuous::message);
    let unmarked = is_unmarked(table).then_some("no state is marked as forbidden, only hangs are");
    vacuous.into_iter().chain(unmarked)
}

/// Why nothing is released: only what is safe is, and only where that says something.
fn why_not(answer: &Answer, source: &Source, even_if_vacuous: bool) -> Option<String> {
    let why = answer.explanation(source).unwrap_or_default();
    match (answer.verdict, answer.vacuous) {
        (Verdict::Safe, Some(why)) if !even_if_vacuous => {
            Some(format!("{} ({})", why.message(), VACUOUS.name))
        }
        (Verdict::Safe, _) => None,
        (Verdict::Draft, _) => Some("the table has no states".to_string()),
        (Verdict::Refused(_), _) => Some(format!("it is {why}")),
        (verdict, _) => Some(format!("it is {}: {why}", verdict.label())),
    }
}
