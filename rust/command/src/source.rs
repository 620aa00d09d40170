//! The table that a command is about: a file, or a text, with the names of its screens where they are known.

use crate::difference::first_difference;
use crate::failure::Failure;
use crate::files::{Input, TEXT_BYTES};
use crate::lines::{Mistake, Mistakes, Names};
use crate::refusals::explained;
use crate::sha256::sha256;
use crate::shown::counted;
use crate::text::{looks_like_file, parse, table_of};
use crate::words::{Call, Opt};
use shuntberry::{FILE_BYTES, MAX_SITE, Refused, Table};
use std::path::Path;

/// `--site N`
pub const SITE: Opt = Opt {
    name: "--site",
    value: Some("N"),
    about: "the site that the file is made for, 0 if not given\n\
        A site is a number from 0 to 65520, such as one for each hospital of a group. A file of another site is \
        refused.",
};
/// `--text`
pub const TEXT: Opt = Opt {
    name: "--text",
    value: None,
    about: "what is read is a text and not a file\n\
        Without it the bytes are read as a file, whatever they look like. A text has no site and has its own names: \
        --site and --names are errors with it.",
};
/// `--names TEXT`
pub const NAMES: Opt = Opt {
    name: "--names",
    value: Some("TEXT"),
    about: "takes the names of the screens from TEXT, the text of the same table\n\
        A file holds no names. Names are printed with the numbers of states, never in their place.",
};
/// `--quiet`
pub const QUIET: Opt = Opt {
    name: "--quiet",
    value: None,
    about: "for scripts: explains nothing on standard error, but says what failed; check prints nothing either\n\
        It still says that a table has no states, or is safe whatever else is in it, and what was not checked.",
};
/// `--json`
pub const JSON: Opt = Opt {
    name: "--json",
    value: None,
    about: "prints an object of JSON on one line\n\
        The section JSON says what is in it.",
};

/// What was read: the bytes of a file, the table in them, and names.
#[derive(Debug)]
pub struct Source {
    /// The input, as it is shown.
    pub shown: String,
    /// The site that the file is of.
    pub site: usize,
    /// The bytes of the file; of a text the file that it stands for.
    pub file: Vec<u8>,
    /// The table in them, or why it is refused.
    pub table: Result<Table, Refused>,
    /// Names of its states.
    pub names: Names,
    /// The text that `--names` takes them from, as it is shown, and the sum of its bytes.
    pub names_from: Option<(String, String)>,
}

impl Source {
    /// What a call names, or standard input, as `--text`, `--site` and `--names` say.
    pub fn of(call: &Call, path: Option<&Path>) -> Result<Source, Failure> {
        Source::taken(call, path, &NAMES, Input::take)
    }

    /// The same of a file, with the names that another option gives.
    pub fn with_names(call: &Call, path: &Path, names: &Opt) -> Result<Source, Failure> {
        Source::taken(call, Some(path), names, Input::take)
    }

    /// The same, where standard input may be empty.
    pub fn or_nothing(call: &Call, path: Option<&Path>) -> Result<Source, Failure> {
        Source::taken(call, path, &NAMES, Input::take_or_nothing)
    }

    fn taken<'c>(
        call: &'c Call,
        path: Option<&'c Path>,
        names: &Opt,
        take: fn(Input<'c>, usize) -> Result<Vec<u8>, Failure>,
    ) -> Result<Source, Failure> {
        let site = site(call)?;
        let input = Input::of(call, path);
        if call.has(&TEXT) {
            alone(call)?;
            let text = parsed(input, parse, for_text)?;
            let file = table_of(&text.table, [])?.to_bytes(site)?;
            let mut source = Source::of_bytes(input, file, site);
            source.names = text.names;
            return Ok(source);
        }
        let mut source = Source::of_bytes(input, take(input, FILE_BYTES + 1)?, site);
        if let Some(path) = call.path(names) {
            source.take_names(Input::of(call, Some(path)))?;
        }
        Ok(source)
    }

    /// What a file holds at a site.
    pub fn of_file(input: Input, site: usize) -> Result<Source, Failure> {
        Ok(Source::of_bytes(input, input.take(FILE_BYTES + 1)?, site))
    }

    fn of_bytes(input: Input, file: Vec<u8>, site: usize) -> Source {
        Source {
            shown: input.shown(),
            site,
            table: Table::from_bytes(&file, site),
            file,
            names: Names::new(),
            names_from: None,
        }
    }

    /// Takes the names that a text has; of a file that is refused none, since there is no table to compare.
    fn take_names(&mut self, input: Input) -> Result<(), Failure> {
        let name = input.shown();
        let bytes = text_bytes(input)?;
        let text = parsed_of(&name, &bytes, parse, for_names)?;
        let other = table_of(&text.table, [])?;
        match &self.table {
            Ok(table) if *table != other => {
                let first = first_difference(table, &other, &text.names);
                return Err(Failure::Mistakes(
                    Vec::new(),
                    format!(
                        "{name} is the text of another table, so its names say nothing here: {first}"
                    ),
                ));
            }
            Ok(_) => self.names = text.names,
            Err(_) => {}
        }
        self.names_from = Some((name, sha256(&bytes)));
        Ok(())
    }

    /// The table.
    pub fn table(&self) -> Result<&Table, Failure> {
        self.table.as_ref().map_err(|&refused| {
            let why = self.why_refused(refused);
            Failure::Refused(refused, format!("{}: {why}", self.shown))
        })
    }

    /// Why the file is refused, and what to do.
    pub fn why_refused(&self, refused: Refused) -> String {
        explained(refused, &self.file, self.site)
    }
}

/// The site that a call names, or 0.
pub fn site(call: &Call) -> Result<usize, Failure> {
    Ok(call.number(&SITE, MAX_SITE)?.unwrap_or(0))
}

/// With `--text` goes neither a site, which a text does not have, nor the names of another one.
pub fn alone(call: &Call) -> Result<(), Failure> {
    match [&SITE, &NAMES].into_iter().find(|option| call.has(option)) {
        Some(option) => Err(Failure::Wrong(format!(
            "--text and {} do not go together",
            option.name
        ))),
        None => Ok(()),
    }
}

/// What bytes look like that are no text, and what to do, if that can be told.
pub type Other = fn(&[u8]) -> Option<&'static str>;

/// That of a table's file behind `--text`.
pub fn for_text(bytes: &[u8]) -> Option<&'static str> {
    looks_like_file(bytes).then_some("this looks like a table's file: leave out --text")
}

/// That of a table's file that names should come from.
fn for_names(bytes: &[u8]) -> Option<&'static str> {
    looks_like_file(bytes).then_some(
        "this looks like a table's file, which holds no names: expected the text of the table",
    )
}

/// What a text says; else its mistakes, a line each, or what is in its place.
pub fn parsed<T>(
    input: Input,
    parse: fn(&[u8]) -> Result<T, Mistakes>,
    other: Other,
) -> Result<T, Failure> {
    parsed_of(&input.shown(), &text_bytes(input)?, parse, other)
}

/// The bytes of a text.
fn text_bytes(input: Input) -> Result<Vec<u8>, Failure> {
    let bytes = input.take(TEXT_BYTES + 1)?;
    if bytes.len() > TEXT_BYTES {
        return Err(Failure::Failed(format!(
            "{} is longer than {TEXT_BYTES} bytes, and no text",
            input.shown()
        )));
    }
    Ok(bytes)
}

fn parsed_of<T>(
    name: &str,
    bytes: &[u8],
    parse: fn(&[u8]) -> Result<T, Mistakes>,
    other: Other,
) -> Result<T, Failure> {
    parse(bytes).map_err(|mistakes| {
        if let Some(other) = other(bytes) {
            return Failure::Mistakes(Vec::new(), format!("{name}: {other}"));
        }
        let line = |Mistake { line, reason }: &Mistake| format!("{name}:{line}: {reason}");
        let (shown, count) = (mistakes.first(), mistakes.count);
        let cut = match count - shown.len() {
            0 => String::new(),
            _ => format!(", of which the first {} are shown", shown.len()),
        };
        let count = counted(count, "mistake");
        Failure::Mistakes(
            shown.iter().map(line).collect(),
            format!("{name}: {count}{cut}"),
        )
    })
}
