//! The words of a call: commands and their options, each said once, for reading them, for the help and for what a mistyped word is near to.

use crate::failure::{Done, Failure};
use crate::files::OUT;
use crate::lines::number;
use crate::shown::shown;
pub use shuntberry_text::near::did_you_mean;
use std::ffi::{OsStr, OsString};
use std::os::unix::ffi::OsStrExt;
use std::path::Path;

/// An option of a command.
#[derive(Debug)]
pub struct Opt {
    /// `--site`
    pub name: &'static str,
    /// What stands behind it, if anything does: `N`.
    pub value: Option<&'static str>,
    /// What it does: a line for the help, and behind a line feed, if need be, what the manual page says beyond it.
    pub about: &'static str,
}

impl Opt {
    /// It with what stands behind it: `--site N`.
    pub fn form(&self) -> String {
        match self.value {
            Some(value) => format!("{} {value}", self.name),
            None => self.name.to_string(),
        }
    }

    /// What the help says of it, and what only the manual page does.
    pub fn sentences(&self) -> (&'static str, &'static str) {
        self.about.split_once('\n').unwrap_or((self.about, ""))
    }
}

/// What a command has on standard output.
#[derive(Clone, Copy, Debug, PartialEq, Eq)]
pub enum Output {
    /// An answer, in words.
    Answer,
    /// What a file could be made of: where there is none, a line that is no file stands in its place.
    File,
}

/// A command.
#[derive(Debug)]
pub struct Command {
    /// Its name.
    pub name: &'static str,
    /// The words beside the options, as the usage has them.
    pub words: &'static str,
    /// The least and the greatest number of them.
    pub counts: (usize, usize),
    /// What it does, in a line.
    pub about: &'static str,
    /// More about it, for the help and the manual page.
    pub more: &'static str,
    /// Its options.
    pub options: &'static [&'static Opt],
    /// Those of them that must be given.
    pub needs: &'static [&'static Opt],
    /// What it has on standard output.
    pub output: Output,
    /// What it does.
    pub run: fn(&Call) -> Done,
}

impl Command {
    /// How it is called, in a line.
    pub fn form(&self, program: &str) -> String {
        let form = |option: &&Opt| match self.needs.iter().any(|other| other.name == option.name) {
            true => format!(" {}", option.form()),
            false => format!(" [{}]", option.form()),
        };
        let options: String = self.options.iter().map(form).collect();
        format!("{program}{options} {}", self.words)
    }

    /// The same, as it is said to who called it in another way.
    pub fn usage(&self, program: &str) -> String {
        format!("usage: {}", self.form(program))
    }

    /// What it reads and writes where no name is given.
    pub fn streams(&self) -> String {
        let last = self.words.split(' ').next_back().unwrap_or_default();
        let optional = last
            .strip_prefix('[')
            .and_then(|word| word.strip_suffix(']'));
        match (optional.filter(|word| !word.ends_with("..")), self.output) {
            (Some(name), Output::File) => format!(
                "Without {name} standard input is read, without -o standard output written."
            ),
            (Some(name), Output::Answer) => format!("Without {name} standard input is read."),
            (None, Output::File) => "Without -o standard output is written.".to_string(),
            (None, Output::Answer) => String::new(),
        }
    }
}

/// A call of a command: its words.
#[derive(Debug)]
pub struct Call {
    command: &'static Command,
    options: Vec<(&'static str, OsString)>,
    names: Vec<OsString>,
    /// Whether standard input is closed.
    pub no_input: bool,
}

impl Call {
    /// The words of a call, or what was expected in their place.
    pub fn of(
        command: &'static Command,
        words: &[OsString],
        no_input: bool,
    ) -> Result<Call, Failure> {
        let mut call = Call {
            command,
            options: Vec::new(),
            names: Vec::new(),
            no_input,
        };
        let mut rest = words.iter();
        let mut options = true;
        while let Some(word) = rest.next() {
            match word.to_str() {
                Some("--") if options => options = false,
                Some(option) if options && option.starts_with('-') => {
                    call.option(command, option, &mut rest)?
                }
                None if options && word.as_bytes().starts_with(b"-") => {
                    return Err(Failure::Wrong(format!("unknown option {}", shown(word))));
                }
                _ => call.names.push(word.clone()),
            }
        }
        let (least, most) = command.counts;
        match call.names.get(most) {
            Some(word) => Err(Failure::Wrong(format!(
                "unexpected argument '{}': expected {}{}",
                shown(word),
                command.words,
                match call.takes(&OUT) {
                    true => format!(", and {} for what is written", OUT.form()),
                    false => String::new(),
                }
            ))),
            None if call.names.len() < least => Err(Failure::Wrong(format!(
                "missing argument: expected {}",
                command.words
            ))),
            None => Ok(call),
        }
    }

    fn option<'w>(
        &mut self,
        command: &'static Command,
        word: &str,
        rest: &mut impl Iterator<Item = &'w OsString>,
    ) -> Result<(), Failure> {
        let (name, joined) = match word.split_once('=') {
            Some((name, value)) => (name, Some(OsString::from(value))),
            None => (word, None),
        };
        let found = command.options.iter().find(|option| option.name == name);
        let Some(option) = found else {
            let known = command.options.iter().map(|option| option.name);
            return Err(Failure::Wrong(format!(
                "unknown option '{}'{}",
                shown(word),
                did_you_mean(name, known)
            )));
        };
        if self.value(option).is_some() {
            return Err(Failure::Wrong(format!("{name} is given twice")));
        }
        let value = match (option.value, joined) {
            (None, None) => OsString::new(),
            (None, Some(_)) => {
                return Err(Failure::Wrong(format!("{name} takes no value")));
            }
            (Some(_), Some(value)) => value,
            (Some(value), None) => rest
                .next()
                .filter(|next| command.options.iter().all(|other| *next != other.name))
                .ok_or_else(|| Failure::Wrong(format!("{name} needs a value: {name} {value}")))?
                .clone(),
        };
        self.options.push((option.name, value));
        Ok(())
    }

    /// The word behind an option, where it was given; an empty one for an option without.
    pub fn value(&self, option: &Opt) -> Option<&OsStr> {
        let given = self.options.iter().find(|(name, _)| *name == option.name);
        given.map(|(_, value)| value.as_os_str())
    }

    /// Whether an option was given.
    pub fn has(&self, option: &Opt) -> bool {
        self.value(option).is_some()
    }

    /// Whether the command has an option.
    pub fn takes(&self, option: &Opt) -> bool {
        let mut options = self.command.options.iter();
        options.any(|other| other.name == option.name)
    }

    /// The file that an option names.
    pub fn path(&self, option: &Opt) -> Option<&Path> {
        self.value(option).map(Path::new)
    }

    /// The number behind an option, up to a greatest one.
    pub fn number(&self, option: &Opt, most: usize) -> Result<Option<usize>, Failure> {
        self.value(option)
            .map(|word| number_up_to(word, option.name, most))
            .transpose()
    }

    /// The words beside the options.
    pub fn names(&self) -> &[OsString] {
        &self.names
    }

    /// The i-th of them, if there is one.
    pub fn name(&self, i: usize) -> Option<&Path> {
        self.names.get(i).map(Path::new)
    }
}

/// The number that a word stands for.
pub fn number_up_to(word: &OsStr, what: &str, most: usize) -> Result<usize, Failure> {
    let found = word
        .to_str()
        .and_then(number)
        .filter(|&found| found <= most);
    found.ok_or_else(|| {
        let range = match most {
            usize::MAX => String::new(),
            _ => format!(" from 0 to {most}"),
        };
        Failure::Wrong(format!(
            "'{}' is no {what}: expected a number{range}",
            shown(word)
        ))
    })
}
