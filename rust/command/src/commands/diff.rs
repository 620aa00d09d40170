//! `diff`: what differs between two tables, and both verdicts.

use crate::answer::{Answer, Vacuous, Verdict, vacuous_facts};
use crate::difference::{Difference, Side, difference};
use crate::failure::{Done, Failure, status};
use crate::files::{Input, print, say};
use crate::json::Object;
use crate::lines::Names;
use crate::names::with_names;
use crate::source::{JSON, NAMES, SITE, Source, TEXT, alone, for_text, parsed};
use crate::text::{parse_with_possible, table_of};
use crate::words::{Call, Command, Opt, Output};
use shuntberry::{MAX_ALLOWANCE, Table};
use std::collections::BTreeSet;

/// `--old-names TEXT`
pub const OLD_NAMES: Opt = Opt {
    name: "--old-names",
    value: Some("TEXT"),
    about: "takes the names of the screens of OLD from TEXT, the text of that table",
};

/// The command.
pub const DIFF: Command = Command {
    name: "diff",
    words: "OLD NEW",
    counts: (2, 2),
    about: "what differs between two tables, with both verdicts",
    more: "The status is 0 if they are the same, safe or not, and 4 if they differ or both have no states. It is 3 if they \
        could not be compared.",
    options: &[&SITE, &TEXT, &OLD_NAMES, &NAMES, &JSON],
    needs: &[],
    output: Output::Answer,
    run,
};

fn run(call: &Call) -> Done {
    let (old, new) = read(call).map_err(not_compared)?;
    let found = compared(&old, &new)?;
    let said = match call.has(&JSON) {
        true => object(&old, &new, &found).line(),
        false => lines(&old, &new, &found),
    };
    print(said.as_bytes())?;
    let are_drafts = [&old, &new]
        .iter()
        .all(|draft| draft.verdict == Verdict::Draft);
    if are_drafts {
        say(
            "diff: both tables have no states, so that nothing was compared: an empty input is a draft\n",
        );
    }
    Ok(match found.is_empty() && !are_drafts {
        true => status::DONE,
        false => status::NO_RELEASE,
    })
}

/// What differs between two tables. There are two ways to say that nothing does, and a 0 takes both.
pub fn compared(old: &Draft, new: &Draft) -> Result<Difference, Failure> {
    let found = difference(old.side(), new.side());
    match found.is_empty() == old.is_same(new) {
        true => Ok(found),
        false => Err(Failure::Failed(
            "two comparisons do not agree: there is no answer".to_string(),
        )),
    }
}

/// What cannot be compared has no verdict, whatever kept it from being read.
pub fn not_compared(failure: Failure) -> Failure {
    match failure {
        Failure::Refused(_, why) => Failure::Failed(why),
        Failure::Mistakes(lines, why) => Failure::Failed([vec![why], lines].concat().join("\n")),
        other => other,
    }
}

/// One of the two, as it was read.
#[derive(Debug)]
pub struct Draft {
    table: Table,
    names: Option<Names>,
    possible: BTreeSet<(usize, usize)>,
    /// What was found of it.
    pub verdict: Verdict,
    /// Why it says little that it is safe.
    pub vacuous: Option<Vacuous>,
}

fn read(call: &Call) -> Result<(Draft, Draft), Failure> {
    let (Some(old), Some(new)) = (call.name(0), call.name(1)) else {
        return Err(Failure::Wrong("expected OLD NEW".to_string()));
    };
    if call.has(&TEXT) {
        alone(call)?;
        if call.has(&OLD_NAMES) {
            return Err(Failure::Wrong(
                "--text and --old-names do not go together".to_string(),
            ));
        }
        return Ok((
            Draft::of_text(Input::named(old))?,
            Draft::of_text(Input::named(new))?,
        ));
    }
    let checked = |path, names| {
        let source = Source::with_names(call, path, names)?;
        Draft::of(&source, &Answer::of(&source)?)
    };
    Ok((checked(old, &OLD_NAMES)?, checked(new, &NAMES)?))
}

impl Draft {
    /// What a file holds, with the names that were given and what was found of it.
    pub fn of(source: &Source, answer: &Answer) -> Result<Draft, Failure> {
        Ok(Draft {
            table: source.table()?.clone(),
            names: source.names_from.as_ref().map(|_| source.names.clone()),
            possible: BTreeSet::new(),
            verdict: answer.verdict,
            vacuous: answer.vacuous,
        })
    }

    /// What a text says; where it has possible steps, the verdict is that of the command options.
    fn of_text(input: Input) -> Result<Draft, Failure> {
        let text = parsed(input, parse_with_possible, for_text)?;
        let table = table_of(&text.table, [])?;
        let answer = match text.possible.is_empty() {
            true => Answer::within(&table, MAX_ALLOWANCE)?,
            false => Answer::of_choices(
                &table,
                &table_of(&text.table, text.possible.iter().copied())?,
            )?,
        };
        Ok(Draft {
            table,
            names: Some(text.names),
            possible: text.possible,
            verdict: answer.verdict,
            vacuous: answer.vacuous,
        })
    }

    /// As a side of a comparison.
    pub fn side(&self) -> Side<'_> {
        Side {
            table: &self.table,
            names: self.names.as_ref(),
            possible: &self.possible,
        }
    }

    /// Whether another one is the same, by what they are stored as.
    fn is_same(&self, other: &Draft) -> bool {
        let same_names = match (&self.names, &other.names) {
            (Some(names), Some(others)) => names == others,
            _ => true,
        };
        same_names && self.table == other.table && self.possible == other.possible
    }
}

// ---- As lines, and as JSON

/// What is said where screens have other numbers.
const RENUMBERED: &str =
    "renumbered: logs go by number, so that a log of the old table is none of the new one";
/// What is said where they have them by their names alone, as two screens that exchanged theirs.
const ONLY_NAMES: &str = "only names differ: by number the tables are the same, and so are logs";

/// What differs, a line each, and what that means for logs; and whose names were missing.
pub fn changes(old: &Draft, new: &Draft, found: &Difference) -> Vec<String> {
    let mut lines = found.lines(old.names.as_ref(), new.names.as_ref());
    let meaning = match found.renumbered.is_empty() {
        _ if only_names(old, new, found) => Some(ONLY_NAMES.to_string()),
        true => None,
        false => Some(RENUMBERED.to_string()),
    };
    let missing = match (&old.names, &new.names) {
        (None, Some(_)) => Some(("old", &OLD_NAMES)),
        (Some(_), None) => Some(("new", &NAMES)),
        _ => None,
    };
    let by_number = missing.map(|(table, option)| {
        let option = option.form();
        format!("compared by number: the names of the {table} table are not known ({option})")
    });
    lines.extend(meaning.into_iter().chain(by_number));
    lines
}

/// Whether nothing differs but what screens are named.
fn only_names(old: &Draft, new: &Draft, found: &Difference) -> bool {
    !found.is_empty() && old.table == new.table && old.possible == new.possible
}

fn lines(old: &Draft, new: &Draft, found: &Difference) -> String {
    let head = |word: &str, draft: &Draft| {
        let (n, g) = (draft.table.n(), draft.table.g());
        let verdict = draft.verdict.label();
        let why = draft.vacuous.map(|why| format!(" ({})", why.label()));
        let why = why.unwrap_or_default();
        format!("{word}: {verdict}{why}, states {n} groups {g}")
    };
    let mut lines = vec![head("old", old), head("new", new)];
    lines.extend(changes(old, new, found));
    lines.push(found.summary());
    lines.join("\n") + "\n"
}

fn object(old: &Draft, new: &Draft, found: &Difference) -> Object {
    let side = |draft: &Draft, listed: Vec<usize>| {
        let object = Object::default()
            .text("verdict", draft.verdict.label())
            .plain("states", draft.table.n())
            .plain("groups", draft.table.g());
        let object = vacuous_facts(object, draft.verdict, draft.vacuous);
        match &draft.names {
            Some(names) => with_names(object, names, listed),
            None => object,
        }
    };
    let (in_old, in_new) = found.listed();
    let object = Object::default()
        .plain("same", found.is_empty())
        .plain("by_name", old.names.is_some() && new.names.is_some())
        .plain("only_names", only_names(old, new, found))
        .object("old", side(old, in_old))
        .object("new", side(new, in_new));
    found.object(object)
}
