//! `decode`: the text of a file.

use crate::failure::{Done, status};
use crate::files::{OUT, put};
use crate::source::{NAMES, SITE, Source, TEXT};
use crate::text;
use crate::words::{Call, Command, Output};

/// The command.
pub const DECODE: Command = Command {
    name: "decode",
    words: "[FILE]",
    counts: (0, 1),
    about: "a file as text",
    more: "The text, encoded again, is the same file.",
    options: &[&SITE, &OUT, &TEXT, &NAMES],
    needs: &[],
    output: Output::File,
    run,
};

fn run(call: &Call) -> Done {
    let source = Source::of(call, call.name(0))?;
    put(call, text::print(source.table()?, &source.names).as_bytes())?;
    Ok(status::DONE)
}
