//! `replay`: a pump's log walked through a table, and how much of it that covers.

use crate::failure::{Done, Failure, status};
use crate::files::{Input, TEXT_BYTES, print, say};
use crate::json::Object;
use crate::lines::{Mistake, Mistakes, Names, number, quoted, said};
use crate::names::{screen, with_names};
use crate::source::{JSON, NAMES, SITE, Source, TEXT, parsed};
use crate::text::{is_printed, looks_like_new_file};
use crate::words::{Call, Command, Opt, Output};
use shuntberry::{FILE_BYTES, MAX_LOG, Refused, StateSet, Table};
use std::collections::BTreeMap;

const TEXT_LOG: Opt = Opt {
    name: "--text-log",
    value: None,
    about: "LOG is a text of numbers and names of screens with a last line end, and not of two-byte numbers\n\
        It has at most 515 of them on a line, and 16 MiB in all. What follows a # is a comment.",
};

/// The command.
pub const REPLAY: Command = Command {
    name: "replay",
    words: "FILE LOG",
    counts: (2, 2),
    about: "a pump's log walked through a table",
    more: "LOG has a state number of two bytes, low byte first, for each screen that was shown. The status is 1 if it shows a \
        forbidden screen, else 4 if it breaks off or has no entries.",
    options: &[&SITE, &TEXT, &NAMES, &TEXT_LOG, &JSON],
    needs: &[],
    output: Output::Answer,
    run,
};

fn run(call: &Call) -> Done {
    let (Some(file), Some(log)) = (call.name(0), call.name(1)) else {
        return Err(Failure::Wrong("expected FILE LOG".to_string()));
    };
    let source = Source::of(call, Some(file))?;
    let log_input = Input::named(log);
    let table = source
        .table()
        .map_err(|failure| exchanged(failure, log_input))?;
    let log = match call.has(&TEXT_LOG) {
        true => text_log(log_input, &source.names)?,
        false => log_input.take(TEXT_BYTES)?,
    };
    if !call.has(&TEXT_LOG) && is_printed(&log) {
        say(&format!(
            "replay: {} looks like a text, which --text-log reads\n",
            log_input.shown()
        ));
    }
    if !call.has(&TEXT_LOG) && looks_like_new_file(&log) {
        let name = log_input.shown();
        say(&format!(
            "replay: {name} looks like a table's file, and no log\n"
        ));
    }
    let walk = Walk::of(table, &source.names, &log).map_err(|refused| {
        let about = match refused {
            Refused::LOG_ODD | Refused::LOG_LONG => log_input.shown(),
            _ => source.shown.clone(),
        };
        Failure::Refused(refused, format!("{about}: {refused}"))
    })?;
    let lines = match call.has(&JSON) {
        true => walk.object().line(),
        false => walk.lines(),
    };
    print(lines.as_bytes())?;
    if walk.entries.is_empty() {
        say(&format!(
            "replay: {}: the log has no entries\n",
            log_input.shown()
        ));
    }
    Ok(walk.status())
}

/// What is said of a file that is refused where the log looks like one.
fn exchanged(failure: Failure, log: Input) -> Failure {
    let is_file = || {
        log.take(FILE_BYTES)
            .is_ok_and(|log| looks_like_new_file(&log))
    };
    match failure {
        Failure::Refused(refused, why) if is_file() => {
            let log = log.shown();
            let order = "expected FILE LOG, in this order";
            Failure::Refused(refused, format!("{why}; {log} looks like one: {order}"))
        }
        failure => failure,
    }
}

/// What is said of bytes in the place of a log that is a text. In a log of numbers every second byte is a high one, 0 or 1.
fn for_log(bytes: &[u8]) -> Option<&'static str> {
    let is_high = |&byte: &u8| byte <= 1;
    if looks_like_new_file(bytes) {
        Some("this looks like a table's file, and no log: expected FILE LOG, in this order")
    } else if bytes.len() > 1 && bytes.iter().skip(1).step_by(2).all(is_high) {
        Some("this looks like a log of two-byte numbers: leave out --text-log")
    } else {
        None
    }
}

/// The bytes of a log that is written in words, with the names that are known of the table's screens.
fn text_log(input: Input, names: &Names) -> Result<Vec<u8>, Failure> {
    let words = parsed(input, words_of, for_log)?;
    let hint = match names.is_empty() {
        true => "; --names TEXT has the names of a file's screens",
        false => "",
    };
    let mut mistakes = Mistakes::default();
    let mut log = Vec::new();
    let states: BTreeMap<&str, usize> = names.iter().map(|(s, name)| (&**name, *s)).collect();
    for (line, word) in words {
        let state = number(&word).or_else(|| states.get(&*word).copied());
        match state.map(u16::try_from) {
            Some(Ok(state)) => log.extend(state.to_le_bytes()),
            Some(Err(_)) => mistakes.push(Mistake {
                line,
                reason: format!("{} is too large: an entry has two bytes", quoted(&word)),
            }),
            None => mistakes.push(Mistake {
                line,
                reason: format!("{} is no number, and no screen's name{hint}", quoted(&word)),
            }),
        }
    }
    match mistakes.first() {
        [] => Ok(log),
        first => Err(Failure::Mistakes(
            first
                .iter()
                .map(|mistake| format!("{}:{}: {}", input.shown(), mistake.line, mistake.reason))
                .collect(),
            format!(
                "{}: {} of its words are no screens",
                input.shown(),
                mistakes.count
            ),
        )),
    }
}

/// The most entries of a log.
const MAX_ENTRIES: usize = MAX_LOG / 2;

/// The words of a text, each with its line; of a log that is too long no more than show that it is.
fn words_of(text: &[u8]) -> Result<Vec<(usize, String)>, Mistakes> {
    let mut mistakes = Mistakes::default();
    let mut words = Vec::new();
    for (line, found) in said(text)? {
        if words.len() > MAX_ENTRIES {
            break; // too long a log, whatever follows
        }
        match found {
            Ok(found) => words.extend(found.into_iter().map(|word| (line, word.to_string()))),
            Err(reason) => mistakes.push(Mistake {
                line,
                reason: reason.to_string(),
            }),
        }
    }
    match mistakes.is_empty() {
        true => Ok(words),
        false => Err(mistakes),
    }
}

/// What is found of a log.
struct Walk<'t> {
    table: &'t Table,
    names: &'t Names,
    entries: Vec<usize>,
    found: shuntberry::Replay,
    reachable: StateSet,
}

impl<'t> Walk<'t> {
    fn of(table: &'t Table, names: &'t Names, log: &[u8]) -> Result<Walk<'t>, Refused> {
        let found = table.replay(log)?;
        let entry = |two: &[u8]| usize::from(u16::from_le_bytes([two[0], two[1]]));
        Ok(Walk {
            table,
            names,
            entries: log.chunks_exact(2).map(entry).collect(),
            found,
            reachable: table.reachable()?,
        })
    }

    fn screen(&self, s: usize) -> String {
        screen(self.names, s)
    }

    /// The first entry that breaks the walk, and why it does.
    fn broken(&self) -> Option<(usize, usize, String)> {
        let at = self.found.followed;
        let &entry = self.entries.get(at)?;
        let before = at.checked_sub(1).map(|before| self.entries[before]);
        let why = match before {
            _ if entry >= self.table.n() => "there is no such state".to_string(),
            None => "it is not initial".to_string(),
            Some(before) => format!("no step leads there from {}", self.screen(before)),
        };
        Some((at + 1, entry, why))
    }

    /// The first entry that shows a forbidden screen, followed or not: the pump was there, also if the table has no step that leads there.
    fn forbidden(&self) -> Option<usize> {
        let forbidden = self.table.forbidden();
        self.entries.iter().position(|&s| forbidden.contains(s))
    }

    /// The worst that it shows. A log of no entries is mostly what a copy that failed left, and says nothing of a pump.
    fn status(&self) -> u8 {
        match self {
            _ if self.forbidden().is_some() => status::UNSAFE,
            _ if self.broken().is_some() || self.entries.is_empty() => status::NO_RELEASE,
            _ => status::DONE,
        }
    }

    /// The screens that can be reached and that no followed entry shows.
    fn not_seen(&self) -> Vec<usize> {
        let followed = &self.entries[..self.found.followed];
        let is_new = |s: &usize| !followed.contains(s);
        self.reachable.states().filter(is_new).collect()
    }

    fn lines(&self) -> String {
        let (n, g) = (self.table.n(), self.table.g());
        let found = &self.found;
        let mut lines = format!(
            "states {n} groups {g}\nentries {} followed {}\n",
            self.entries.len(),
            found.followed
        );
        if let Some(at) = self.forbidden() {
            let screen = self.screen(self.entries[at]);
            lines += &format!("entry {} is forbidden: {screen}\n", at + 1);
        }
        if let Some((place, entry, why)) = self.broken() {
            lines += &format!(
                "entry {place} breaks the walk: {}: {why}\n",
                self.screen(entry)
            );
        }
        lines += &format!(
            "coverage {} percent remainder {}: {} of {}\n",
            found.percent,
            found.remainder,
            found.seen,
            self.reachable.len()
        );
        let left: Vec<String> = self.not_seen().iter().map(|s| self.screen(*s)).collect();
        let listed = if left.is_empty() {
            "none".to_string()
        } else {
            left.join(", ")
        };
        lines + &format!("not seen {}: {listed}\n", left.len())
    }

    fn object(&self) -> Object {
        let found = &self.found;
        let object = Object::default()
            .plain("states", self.table.n())
            .plain("groups", self.table.g())
            .plain("entries", self.entries.len())
            .plain("followed", found.followed);
        let object = match self.forbidden() {
            None => object.plain("forbidden", "null"),
            Some(at) => object.plain("forbidden", at + 1),
        };
        let object = match self.broken() {
            None => object.plain("breaks", "null"),
            Some((place, entry, why)) => object.object(
                "breaks",
                Object::default()
                    .plain("entry", place)
                    .plain("state", entry)
                    .text("why", &why),
            ),
        };
        let object = object
            .plain("seen", found.seen)
            .plain("reachable", self.reachable.len())
            .plain("percent", found.percent)
            .plain("remainder", found.remainder)
            .numbers("not_seen", self.not_seen());
        with_names(object, self.names, 0..self.table.n())
    }
}
