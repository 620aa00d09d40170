//! `report`: the record of a check, as a page. What is checked, summed up, looked at and drawn are the bytes of one read.

use crate::answer::{Answer, Verdict};
use crate::calendar::utc;
use crate::commands::about::{VERSION, version_line};
use crate::commands::diff::{Draft, OLD_NAMES, changes, compared, not_compared};
use crate::commands::picture::say_drawing;
use crate::drawing::{Limits, NotDrawn, drawn};
use crate::failure::{Done, Failure, status};
use crate::files::{Input, OUT, is_one_file, need_file, need_place, print, replace, say};
use crate::inspection::Inspection;
use crate::lines::{cut, number};
use crate::picture::{Options, Picture};
use crate::record::{Record, Released, Since};
use crate::sha256::sha256;
use crate::shown::shown;
use crate::source::{NAMES, SITE, Source};
use crate::svg::Drawing;
use crate::words::{Call, Command, Opt, Output};
use shuntberry::{FILE_BYTES, Table};
use std::path::Path;
use std::time::{Duration, SystemTime, UNIX_EPOCH};
use std::{env, io};

const TITLE: Opt = Opt {
    name: "--title",
    value: Some("WORDS"),
    about: "pump and table in words of your own, for the head of the record\n\
        They are 1 to 200 characters, and are shown as they are.",
};
const RELEASED: Opt = Opt {
    name: "--released",
    value: Some("PLACE"),
    about: "says in the record whether the file PLACE has the bytes that were checked\n\
        PLACE is what release wrote, and not FILE itself. If the record of a safe table says no, the status is 4, and \
        standard error says why. A record without this option does not say whether the file was released.",
};
const SINCE: Opt = Opt {
    name: "--since",
    value: Some("OLD"),
    about: "says in the record what has changed since the file OLD, as diff does\n\
        If OLD is refused or cannot be read, there is no record, and the status is 3.",
};

/// The command.
pub const REPORT: Command = Command {
    name: "report",
    words: "FILE",
    counts: (1, 1),
    about: "check a file, and write the record of that as a page",
    more: "OUT is the page, in HTML, which needs no other file. If FILE is refused, there is none. dot of Graphviz draws \
        the picture, if it is installed.",
    options: &[&OUT, &SITE, &NAMES, &TITLE, &RELEASED, &SINCE, &OLD_NAMES],
    needs: &[&OUT],
    output: Output::Answer,
    run,
};

/// What the picture may take: a record is not worth a longer wait, and no browser a longer page.
const PICTURE: Limits = Limits {
    within: Duration::from_secs(30),
    bytes: 16 << 20,
};

fn run(call: &Call) -> Done {
    let (Some(from), Some(to)) = (call.name(0), call.path(&OUT)) else {
        return Err(Failure::Wrong(
            "no place for the record is given: expected -o OUT, as -o record.html".to_string(),
        ));
    };
    let date = date()?;
    for path in [&RELEASED, &SINCE]
        .into_iter()
        .filter_map(|option| call.path(option))
    {
        need_file(path)?;
    }
    let source = Source::of(call, Some(from))?;
    need_place(to)?;
    let answer = Answer::of(&source)?;
    let (title, released) = (title(call)?, released(call, from)?);
    let since = since(call, &source, &answer).map_err(not_compared)?;
    print(answer.text.as_bytes())?;
    if let Verdict::Refused(refused) = answer.verdict {
        let why = source.why_refused(refused);
        let name = &source.shown;
        say(&format!(
            "report: {name}: there is no record: it is {why}\n"
        ));
        return Ok(answer.verdict.status());
    }
    if let Some(why) = answer
        .explanation(&source)
        .filter(|_| answer.is_always_said())
    {
        say(&format!("report: {}: {why}\n", source.shown));
    }
    let table = source.table()?;
    let record = Record {
        file: source.shown.clone(),
        length: source.file.len(),
        sum: sha256(&source.file),
        site: source.site,
        answer: &answer,
        found: &Inspection::of(table, &answer, &source.names)?,
        names_from: source.names_from.clone(),
        picture: pictured(table, &answer, &source, from)?,
        date,
        version: version_line("shuntberry"),
        proved: proved(),
        title,
        released,
        since,
    };
    replace(to, record.page().as_bytes())?;
    let Some(why) = record.not_released() else {
        return Ok(answer.verdict.status());
    };
    say(&format!("report: {}: not released{why}\n", record.file));
    Ok(match answer.verdict {
        Verdict::Safe => status::NO_RELEASE,
        verdict => verdict.status(),
    })
}

/// The picture, or why there is none: a record is one without it too.
fn pictured(
    table: &Table,
    answer: &Answer,
    source: &Source,
    from: &Path,
) -> Result<Result<Drawing, String>, Failure> {
    if table.n() == 0 {
        return Ok(Err("the table has no states".to_string()));
    }
    // The whole name stands above; a long one would make all else small.
    let title = cut(&shown(from.file_name().unwrap_or(from.as_os_str())));
    let picture = Picture::of(table, answer, &source.names, &title, Options::default())?;
    say_drawing(REPORT.name, &picture);
    let drawn = drawn(&picture, PICTURE).map_err(|why| match why {
        NotDrawn::Other(why) => format!("what dot printed is left out, since {why}"),
        _ => why.to_string(),
    });
    Ok(drawn.map(|drawn| drawn.drawing))
}

// ---- What is asked for beside the check

/// More is no title.
const TITLE_LETTERS: usize = 200;

/// The words of `--title`, as they are shown.
fn title(call: &Call) -> Result<Option<String>, Failure> {
    let Some(words) = call.value(&TITLE) else {
        return Ok(None);
    };
    match words.to_string_lossy().trim().chars().count() {
        1..=TITLE_LETTERS => Ok(Some(shown(words))),
        _ => Err(Failure::Wrong(format!(
            "{} needs 1 to {TITLE_LETTERS} characters",
            TITLE.name
        ))),
    }
}

/// What is in the place of `--released`. That it cannot be read is no answer, and that a file has its own bytes is none either.
fn released(call: &Call, from: &Path) -> Result<Option<Released>, Failure> {
    let Some(place) = call.path(&RELEASED) else {
        return Ok(None);
    };
    if is_one_file(from, place) {
        return Err(Failure::Wrong(
            "PLACE is FILE itself: expected what release wrote, and as FILE what it was given"
                .to_string(),
        ));
    }
    let is_gone = |error: &io::Error| error.kind() == io::ErrorKind::NotFound;
    let sum = match place.symlink_metadata() {
        Err(error) if is_gone(&error) && !place.as_os_str().is_empty() => None,
        _ => {
            let bytes = Input::of(call, Some(place)).take(FILE_BYTES + 1)?;
            if bytes.len() > FILE_BYTES {
                let place = shown(place);
                return Err(Failure::Failed(format!(
                    "{place} is longer than any table's file"
                )));
            }
            Some(sha256(&bytes))
        }
    };
    Ok(Some(Released {
        place: shown(place),
        sum,
    }))
}

/// What has changed since the file of `--since`.
fn since(call: &Call, source: &Source, answer: &Answer) -> Result<Option<Since>, Failure> {
    let Some(path) = call.path(&SINCE) else {
        return match call.has(&OLD_NAMES) {
            true => Err(Failure::Wrong(
                "--old-names goes with --since OLD".to_string(),
            )),
            false => Ok(None),
        };
    };
    let old = Source::with_names(call, path, &OLD_NAMES)?;
    let before = Draft::of(&old, &Answer::of(&old)?)?;
    if matches!(answer.verdict, Verdict::Refused(_)) {
        return Ok(None);
    }
    let now = Draft::of(source, answer)?;
    let found = compared(&before, &now)?;
    Ok(Some(Since {
        file: old.shown,
        sum: sha256(&old.file),
        verdict: before.verdict,
        vacuous: before.vacuous,
        summary: found.summary(),
        lines: changes(&before, &now, &found),
    }))
}

/// A variable that gives the date, for records that must come out the same.
const GIVEN_DATE: &str = "SOURCE_DATE_EPOCH";

/// When it is now; or the date that was given, and that it was.
fn date() -> Result<String, Failure> {
    let Some(word) = env::var_os(GIVEN_DATE) else {
        let now = SystemTime::now().duration_since(UNIX_EPOCH).ok();
        let seconds = now.and_then(|now| usize::try_from(now.as_secs()).ok());
        return seconds.and_then(utc).ok_or_else(|| {
            Failure::Failed("the clock shows no time from 1970 to 9999: set it".to_string())
        });
    };
    let given = word.to_str().and_then(number).and_then(utc);
    given
        .map(|date| format!("{date} (given by {GIVEN_DATE}, not by the clock)"))
        .ok_or_else(|| {
            Failure::Failed(format!(
                "{GIVEN_DATE} is '{}', and no number of seconds from 1970 to 9999: mend or unset it",
                shown(&word)
            ))
        })
}

// ---- What was proved

/// From the folder of the program, where it is installed.
const PROVED: &str = "../share/doc/shuntberry/PROVED";
/// Far more than the file has.
const PROVED_BYTES: usize = 1 << 16;

/// What the file PROVED of this installation says of its sources: its first paragraphs, or why they are not shown.
fn proved() -> Result<Vec<String>, String> {
    let program = env::current_exe()
        .map_err(|error| format!("where it is installed is not known: {error}"))?;
    let path = program.parent().unwrap_or(Path::new("/")).join(PROVED);
    if !path.exists() {
        return Err(
            "there is no file PROVED beside the program, as an installed one has".to_string(),
        );
    }
    let bytes = Input::named(&path)
        .take(PROVED_BYTES)
        .map_err(|_| "the file PROVED could not be read".to_string())?;
    let text = String::from_utf8(bytes).map_err(|_| "the file PROVED is no text".to_string())?;
    let mut lines = text.lines();
    let own = format!("Shuntberry {VERSION} ");
    if !lines.next().is_some_and(|line| line.starts_with(&own)) {
        return Err("the file PROVED beside the program is that of another version".to_string());
    }
    let facts = lines
        .skip_while(|line| line.is_empty())
        .take_while(|line| !line.is_empty());
    Ok(facts.map(shown).collect())
}
