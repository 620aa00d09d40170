//! The command `shuntberry`, over the safe wrapper.
//!
//! - [`commands`]: one module for each command;
//! - [`words`], [`source`], [`files`], [`sys`]: the words of a call, the table that it is about, input and output, signals;
//! - [`answer`], [`inspection`], [`repairs`]: what the library finds of a table, of which all that is printed are views;
//! - [`table`], [`text`], [`picture`], [`part`], [`difference`], [`house`]: a table, as text, as a picture or a part of it, and beside another one;
//!   a house's windows and closed days;
//! - [`record`], [`drawing`], [`svg`], [`sha256`]: the record of a check, with a drawing by Graphviz in it;
//! - [`names`], [`lines`], [`shown`], [`json`], [`html`], [`calendar`], [`refusals`], [`failure`]: what they share.

pub mod answer;
pub mod calendar;
pub mod commands;
pub mod difference;
pub mod drawing;
pub mod failure;
pub mod files;
pub mod html;
pub mod inspection;
pub mod json;
pub mod names;
pub mod part;
pub mod picture;
pub mod record;
pub mod refusals;
pub mod repairs;
pub mod sha256;
pub mod shown;
pub mod source;
pub mod svg;
pub mod sys;
pub mod table;
pub mod text;
pub mod words;

use crate::commands::{COMMANDS, about};
use crate::failure::{Done, Failure, status};
use crate::shown::shown;
use crate::sys::Streams;
use crate::words::{Call, Command, Output, did_you_mean};
pub use shuntberry_text::{house, lines};
use std::ffi::{OsStr, OsString};
use std::panic::{self, AssertUnwindSafe};
use std::path::Path;

/// Whether a file may be due on standard output: not where the words name a command that answers.
pub fn file_may_be_due(words: &[OsString]) -> bool {
    let answers = |name: &OsStr| {
        let command = COMMANDS.iter().find(|command| name == command.name);
        command.is_some_and(|command| command.output == Output::Answer)
    };
    !is_check(words) && !words.get(1).is_some_and(|name| answers(name))
}

/// Whether the program was called by the name `check`.
fn is_check(words: &[OsString]) -> bool {
    let own = words.first().and_then(|word| Path::new(word).file_name());
    own.is_some_and(|own| own == "check")
}

/// Runs the command that the words name, the program's own name before them, and gives the status that it ends with.
pub fn run(words: &[OsString], streams: Streams) -> u8 {
    let check = is_check(words);
    let words = words.get(1..).unwrap_or_default();
    ended(|| match check {
        true => (
            "check",
            call("check", &commands::check::CHECK, words, streams),
        ),
        false => by_name(words, streams),
    })
}

/// Does what a command does, by its name, and gives the status. Where it fails standard error says why, and a
/// line stands in place of the file that was due. A panic, which is a mistake of this program, is a failure
/// as any other.
pub fn ended(does: impl FnOnce() -> (&'static str, Done)) -> u8 {
    panic::set_hook(Box::new(|mistake| {
        let line = mistake.to_string().replace('\n', " ");
        files::say(&format!("{OWN}: {}\n", shown(line)));
    }));
    let (name, done) = panic::catch_unwind(AssertUnwindSafe(does)).unwrap_or_else(|_| {
        let why = "this is a mistake of the program: what it printed does not count";
        (OWN, Err(Failure::Failed(why.to_string())))
    });
    let done = done.and_then(|status| {
        sys::close_output().map(|()| status).map_err(|error| {
            Failure::Failed(format!("standard output could not be written: {error}"))
        })
    });
    done.unwrap_or_else(|failure| {
        files::say(&failure.message(name));
        if sys::is_file_due() {
            let _ = sys::print(failure.line().as_bytes());
        }
        failure.status()
    })
}

/// What it calls itself where no command is known.
const OWN: &str = "shuntberry";

fn by_name(words: &[OsString], streams: Streams) -> (&'static str, Done) {
    let Some((first, rest)) = words.split_first() else {
        let why = format!("no command\n{}", about::USAGE);
        return (OWN, Err(Failure::Wrong(why)));
    };
    match first.to_str() {
        Some("help" | "--help" | "-h") => (OWN, about::help(rest, streams)),
        Some("--version") => (OWN, about::version(rest, streams)),
        name => match COMMANDS.iter().find(|command| Some(command.name) == name) {
            Some(command) => {
                let program = format!("shuntberry {}", command.name);
                (command.name, call(&program, command, rest, streams))
            }
            None => (OWN, Err(unknown(first))),
        },
    }
}

/// What is said of a word that is no command.
fn unknown(word: &OsString) -> Failure {
    let names = COMMANDS.iter().map(|command| command.name);
    Failure::Wrong(format!(
        "unknown command '{}'{}\n{}",
        shown(word),
        did_you_mean(&word.to_string_lossy(), names.chain(["help"])),
        about::USAGE
    ))
}

/// Runs a command. Asked about itself it ends with 3: a 0 says that a table is safe, or that something was made.
fn call(program: &str, command: &'static Command, words: &[OsString], streams: Streams) -> Done {
    need_output(streams)?;
    let options = words.iter().take_while(|word| *word != "--");
    for word in options {
        match word.to_str() {
            Some("--help") => return about::help_of(program, command).map(|_| status::FAILED),
            Some("--version") => return about::version_of(program).map(|_| status::FAILED),
            _ => {}
        }
    }
    let call = Call::of(command, words, streams.no_input).map_err(|failure| match failure {
        Failure::Wrong(why) => Failure::Wrong(format!("{why}\n{}", command.usage(program))),
        other => other,
    })?;
    if let Some(out) = call.path(&files::OUT) {
        sys::no_file_due();
        files::need_apart(out)?;
    }
    (command.run)(&call).map_err(|failure| match failure {
        Failure::Wrong(why) => Failure::Wrong(format!("{why}\n{}", command.usage(program))),
        other => other,
    })
}

/// Printing on a closed output would seem to go well.
fn need_output(streams: Streams) -> Result<(), Failure> {
    match streams.no_output {
        true => Err(Failure::Failed("standard output is closed".to_string())),
        false => Ok(()),
    }
}
