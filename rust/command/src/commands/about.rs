//! The program about itself: help and version.

use crate::commands::COMMANDS;
use crate::failure::{Done, Failure, status};
use crate::files::print;
use crate::shown::shown;
use crate::sys::{self, Streams};
use crate::words::{Command, did_you_mean};
use std::ffi::OsString;

/// The usage of the program.
pub const USAGE: &str = "usage: shuntberry COMMAND .., or shuntberry help [COMMAND]";

/// What each status means, for every command, in their order.
pub const STATUSES: [&str; 5] = [
    "safe, and all of it printed; or what was asked for was completely printed or written",
    "unsafe, or a log that shows a forbidden screen",
    "refused, or mistakes in a text",
    "no answer: called wrongly, or could not read, decide, print or write",
    "answered, but nothing that may be released: no states, declined by release, undecided, depends, \
        not within K, different, a log that breaks off or has no entries, not in PLACE",
];

fn statuses() -> String {
    let line = |(status, means): (usize, &&str)| match status {
        0 => format!("status: {status}  {means}\n"),
        _ => format!("        {status}  {means}\n"),
    };
    STATUSES.iter().enumerate().map(line).collect()
}

/// What `help` has beside the commands: how texts are written.
const TEXT: &str = "text";

/// `help`, `help COMMAND`, `help text` and `--help`
pub fn help(words: &[OsString], streams: Streams) -> Done {
    begin(streams)?;
    let [word] = words else {
        return match words {
            [] => print(overview().as_bytes()).map(|()| status::DONE),
            _ => Err(Failure::Wrong(format!("one command at a time\n{USAGE}"))),
        };
    };
    if word == TEXT {
        return print(shuntberry_text::LANGUAGE.as_bytes()).map(|()| status::DONE);
    }
    let names = COMMANDS.iter().map(|command| command.name).chain([TEXT]);
    let found = COMMANDS.iter().find(|command| command.name == word);
    let Some(command) = found else {
        return Err(Failure::Wrong(format!(
            "unknown command '{}'{}\n{USAGE}",
            shown(word),
            did_you_mean(&word.to_string_lossy(), names)
        )));
    };
    help_of(&format!("shuntberry {}", command.name), command)
}

/// `--version`
pub fn version(words: &[OsString], streams: Streams) -> Done {
    begin(streams)?;
    match words {
        [] => version_of("shuntberry"),
        _ => Err(Failure::Wrong(format!(
            "--version goes with no other word\n{USAGE}"
        ))),
    }
}

fn begin(streams: Streams) -> Result<(), Failure> {
    sys::no_file_due();
    match streams.no_output {
        true => Err(Failure::Failed("standard output is closed".to_string())),
        false => Ok(()),
    }
}

/// The version, three numbers.
pub const VERSION: &str = env!("SHUNTBERRY_RELEASE");

/// The version, under the name that the program was called by.
pub fn version_line(program: &str) -> String {
    format!("{program} (Shuntberry) {VERSION}")
}

/// Prints it.
pub fn version_of(program: &str) -> Done {
    print((version_line(program) + "\n").as_bytes()).map(|()| status::DONE)
}

fn overview() -> String {
    let mut said = format!("{USAGE}\n\n");
    for command in COMMANDS {
        said += &format!("  {:<10}  {}\n", command.name, command.about);
    }
    said += "\nshuntberry help text says how a table is written.\n\n";
    said + &statuses() + "\nThe manual page shuntberry(1) has all of it.\n"
}

/// Prints the help of a command.
pub fn help_of(program: &str, command: &Command) -> Done {
    let mut said = format!("{}\n\n{}\n", command.usage(program), ended(command.about));
    for more in [command.more, &command.streams()] {
        if !more.is_empty() {
            said += &format!("{more}\n");
        }
    }
    said += "\n";
    for option in command.options {
        let (line, _) = option.sentences();
        said += &format!("  {:<20}  {line}\n", option.form());
    }
    let (name, about) = NAMES_FOLLOW;
    said += &format!("  {name:<20}  {about}\n\n");
    print((said + &statuses()).as_bytes()).map(|()| status::DONE)
}

/// What every command takes besides its options.
pub const NAMES_FOLLOW: (&str, &str) = (
    "--",
    "all words behind it are names, also those that begin with a dash",
);

/// A sentence with its end.
pub fn ended(said: &str) -> String {
    match said.ends_with(['.', '?']) {
        true => said.to_string(),
        false => format!("{said}."),
    }
}
