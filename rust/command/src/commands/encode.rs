//! `encode`: the file of a text.

use crate::failure::{Done, status};
use crate::files::{Input, OUT, put_file};
use crate::source::{SITE, parsed, site};
use crate::text::{looks_like_file, parse, table_of};
use crate::words::{Call, Command, Output};

/// The command.
pub const ENCODE: Command = Command {
    name: "encode",
    words: "[TEXT]",
    counts: (0, 1),
    about: "a text as a file",
    more: "A text with mistakes gives none: standard error has up to 100 of them, each with its line.",
    options: &[&SITE, &OUT],
    needs: &[],
    output: Output::File,
    run,
};

fn run(call: &Call) -> Done {
    let site = site(call)?;
    let text = parsed(Input::of(call, call.name(0)), parse, |bytes| {
        looks_like_file(bytes).then_some(
            "this looks like a table's file already: the command decode makes a text of it",
        )
    })?;
    put_file(call, &table_of(&text.table, [])?.to_bytes(site)?)?;
    Ok(status::DONE)
}
