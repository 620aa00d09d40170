//! `options`: a table some of whose steps exist only on pumps with an option bought, decided for every choice between them.

use crate::answer::{Answer, NO_STATES, Verdict};
use crate::failure::{Done, Failure};
use crate::files::{Input, print, say};
use crate::json::Object;
use crate::lines::Names;
use crate::names::screen;
use crate::source::{JSON, NAMES, SITE, Source, TEXT, alone, for_text, parsed};
use crate::table::is_alike;
use crate::text::{parse_with_possible, table_of};
use crate::words::{Call, Command, Opt, Output};
use shuntberry::{Forbidden, Table};
use std::path::Path;

const POSSIBLE: Opt = Opt {
    name: "--possible",
    value: Some("FILE2"),
    about: "the file of the same table with every possible step in it, the certain ones too",
};

/// The command.
pub const OPTIONS: Command = Command {
    name: "options",
    words: "[FILE]",
    counts: (0, 1),
    about: "is a table with possible steps safe for every choice between them?",
    more: "FILE has the certain steps. With --text a text has both, the possible ones as lines possible STATE -> STATE..",
    options: &[&POSSIBLE, &SITE, &TEXT, &NAMES, &JSON],
    needs: &[],
    output: Output::Answer,
    run,
};

fn run(call: &Call) -> Done {
    let modal = match (call.path(&POSSIBLE), call.has(&TEXT)) {
        (Some(_), true) => Err(Failure::Wrong(
            "--text and --possible do not go together: a text has lines possible STATE -> STATE.."
                .to_string(),
        )),
        (None, false) => Err(Failure::Wrong(
            "no possible steps: expected --possible FILE2, or --text".to_string(),
        )),
        (Some(possible), false) => Modal::of_files(call, possible),
        (None, true) => Modal::of_text(call),
    }?;
    let answer = Answer::of_choices(&modal.table, &modal.more)?;
    let why = match answer.verdict {
        Verdict::Safe => answer.why_vacuous(),
        Verdict::Draft => Some(NO_STATES.to_string()),
        _ => answer.why_unsafe(&modal.names),
    };
    let unfinished = modal
        .unfinished()
        .filter(|_| answer.verdict != Verdict::Unsafe);
    for message in why.into_iter().chain(unfinished) {
        say(&format!("options: {message}\n"));
    }
    let lines = match call.has(&JSON) {
        true => answer.object(Object::default(), &modal.names).line(),
        false => answer.with_names(&modal.names),
    };
    print(lines.as_bytes())?;
    Ok(answer.verdict.status())
}

/// A table and its possible steps.
struct Modal {
    table: Table,
    /// The same table with every possible step in it: whether a state hangs goes by these.
    more: Table,
    names: Names,
}

impl Modal {
    fn of_files(call: &Call, possible: &Path) -> Result<Modal, Failure> {
        let source = Source::of(call, call.name(0))?;
        let other = Source::of_file(Input::named(possible), source.site)?;
        let (table, more) = (source.table()?.clone(), other.table()?.clone());
        if !is_alike(&table, &more) {
            return Err(Failure::Mistakes(
                Vec::new(),
                format!(
                    "{} and {} are not the same table but for their steps",
                    source.shown, other.shown
                ),
            ));
        }
        Ok(Modal {
            table,
            more,
            names: source.names,
        })
    }

    /// The screens that hang on a pump without options: beside possible steps they count as no hangs.
    fn unfinished(&self) -> Option<String> {
        let hangs = |table: &Table, state| table.why_forbidden(state) == Some(Forbidden::Hang);
        let screens: Vec<String> = (0..self.table.n())
            .filter(|&state| hangs(&self.table, state) && !hangs(&self.more, state))
            .map(|state| screen(&self.names, state))
            .collect();
        (!screens.is_empty()).then(|| {
            format!(
                "without possible steps these are hangs, which are not looked at here: {}; check the table of each pump too",
                screens.join(", ")
            )
        })
    }

    fn of_text(call: &Call) -> Result<Modal, Failure> {
        alone(call)?;
        let input = Input::of(call, call.name(0));
        let text = parsed(input, parse_with_possible, for_text)?;
        Ok(Modal {
            table: table_of(&text.table, [])?,
            more: table_of(&text.table, text.possible)?,
            names: text.names,
        })
    }
}
