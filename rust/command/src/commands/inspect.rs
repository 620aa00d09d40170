//! `inspect`: what is in a table, screen by screen, and what a reviewer should look at.

use crate::answer::Answer;
use crate::failure::{Done, status};
use crate::files::print;
use crate::inspection::Inspection;
use crate::source::{JSON, NAMES, SITE, Source, TEXT};
use crate::words::{Call, Command, Output};

/// The command.
pub const INSPECT: Command = Command {
    name: "inspect",
    words: "[FILE]",
    counts: (0, 1),
    about: "a line for each screen, and what a reviewer should look at",
    more: "",
    options: &[&SITE, &TEXT, &NAMES, &JSON],
    needs: &[],
    output: Output::Answer,
    run,
};

fn run(call: &Call) -> Done {
    let source = Source::of(call, call.name(0))?;
    let table = source.table()?;
    let found = Inspection::of(table, &Answer::of(&source)?, &source.names)?;
    let lines = match call.has(&JSON) {
        true => found.object().line(),
        false => found.lines(),
    };
    print(lines.as_bytes())?;
    Ok(status::DONE)
}
