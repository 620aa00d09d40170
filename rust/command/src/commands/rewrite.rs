//! `rewrite`: a file of the old form in the new one.

use crate::failure::{Done, Failure, status};
use crate::files::{Input, OUT, put_file};
use crate::refusals::old_ground;
use crate::words::{Call, Command, Output};
use shuntberry::FILE_BYTES;
use shuntberry::checking::rewrite;

/// The command.
pub const REWRITE: Command = Command {
    name: "rewrite",
    words: "[OLD]",
    counts: (0, 1),
    about: "a file of the old form in the new one, with its dead ends resting",
    more: "OLD is a file of site 0, as versions 1 to 3 wrote it.",
    options: &[&OUT],
    needs: &[],
    output: Output::File,
    run,
};

fn run(call: &Call) -> Done {
    let input = Input::of(call, call.name(0));
    let old = input.take(FILE_BYTES + 1)?;
    let mut room = vec![0; FILE_BYTES];
    let new = rewrite(&old, &mut room).map_err(|refused| {
        let why = old_ground(refused, &old);
        Failure::Refused(refused, format!("{}: {why}", input.shown()))
    })?;
    put_file(call, new)?;
    Ok(status::DONE)
}
