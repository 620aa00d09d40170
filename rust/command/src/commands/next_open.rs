//! `next-open`: when a release may be loaded next, by a house's windows and closed days.

use crate::failure::{Done, Failure, status};
use crate::files::{Input, print};
use crate::house::{self, House, Moment};
use crate::json::Object;
use crate::shown::shown;
use crate::source::{JSON, parsed};
use crate::text::{looks_like_file, looks_like_text};
use crate::words::{Call, Command, Opt, Output};
use shuntberry::{Refused, Window, next_open};

const AT: Opt = Opt {
    name: "--at",
    value: Some("DATE-TIME"),
    about: "the time from which on, as 2026-12-24T13:05, by the house's own clock; required",
};

/// The command.
pub const NEXT_OPEN: Command = Command {
    name: "next-open",
    words: "HOUSE",
    counts: (1, 1),
    about: "when a release may be loaded next",
    more: "HOUSE is a text with lines window monday 22:00 for 6h, and closed 2026-12-25, and a last line end.",
    options: &[&AT, &JSON],
    needs: &[&AT],
    output: Output::Answer,
    run,
};

fn run(call: &Call) -> Done {
    let Some(word) = call.value(&AT) else {
        return Err(Failure::Wrong(
            "no time is given: expected --at DATE-TIME, as --at 2026-12-24T13:05".to_string(),
        ));
    };
    let at = word.to_str().and_then(Moment::of).ok_or_else(|| {
        let amiss = word.to_str().and_then(Moment::amiss);
        Failure::Wrong(format!(
            "'{}' is no time: expected one from 2000 on, as 2026-12-24T13:05{}",
            shown(word),
            amiss.map_or_else(String::new, |why| format!("; {why}"))
        ))
    })?;
    let input = Input::of(call, call.name(0));
    let house = parsed(input, house::parse, for_house)?;
    let window = |window: &house::Window| Window::new(window.start as u64, window.length as u64);
    let hours = Hours {
        windows: house.windows.iter().map(window).collect(),
        house,
    };
    let opens = hours.next_open(at.minute()).map_err(|refused| {
        let about = match refused {
            Refused::TIME => format!("{} {}", AT.name, shown(word)),
            _ => input.shown(),
        };
        Failure::Refused(refused, format!("{about}: {refused}"))
    })?;
    let closes = opens.map(|minute| hours.closes(minute)).transpose()?;
    let lines = match call.has(&JSON) {
        true => object(at, opens, closes).line(),
        false => lines(opens, closes),
    };
    print(lines.as_bytes())?;
    Ok(status::DONE)
}

/// What is said of a table in the place of a house, as a file or as a text.
fn for_house(bytes: &[u8]) -> Option<&'static str> {
    match (looks_like_file(bytes), looks_like_text(bytes)) {
        (true, _) => Some("this looks like a table's file: expected the text of a house"),
        (_, true) => Some("this looks like the text of a table: expected that of a house"),
        _ => None,
    }
}

/// The windows and closed days of a house.
struct Hours {
    windows: Vec<Window>,
    house: House,
}

/// When what is open closes.
#[derive(Clone, Copy)]
enum Closes {
    At(usize),
    Never,
    /// At a time that the library is not asked about.
    TooLate,
}

impl Hours {
    fn next_open(&self, minute: usize) -> Result<Option<usize>, Refused> {
        let found = next_open(minute, &self.windows, &self.house.closed)?;
        Ok(found.map(|minute| minute as usize))
    }

    /// When it closes, of a minute at which it is open: only where a window ends, within a week, or a closed day begins can that be, and
    /// the library says of each whether it is.
    fn closes(&self, opened: usize) -> Result<Closes, Refused> {
        let ends = self.house.windows.iter().map(|window| {
            let end = (window.start + window.length) % WEEK;
            opened + 1 + (end + WEEK - (opened + 1) % WEEK) % WEEK
        });
        let days = self.house.closed.iter().map(|&day| day as usize * DAY);
        let mut may_close: Vec<usize> = ends.chain(days).filter(|&end| end > opened).collect();
        may_close.sort_unstable();
        for minute in may_close {
            match self.next_open(minute) {
                Ok(Some(next)) if next == minute => {}
                Ok(_) => return Ok(Closes::At(minute)),
                Err(Refused::TIME) => return Ok(Closes::TooLate),
                Err(refused) => return Err(refused),
            }
        }
        Ok(Closes::Never)
    }
}

const DAY: usize = 24 * 60;
const WEEK: usize = 7 * DAY;

fn lines(opens: Option<usize>, closes: Option<Closes>) -> String {
    let written = |minute| {
        let moment = Moment::at(minute);
        format!("{} {}", moment.written(' '), moment.weekday())
    };
    let until = match closes {
        Some(Closes::At(minute)) => format!("until {}\n", written(minute)),
        Some(Closes::Never) => "until never: from then on some window is always open\n".to_string(),
        Some(Closes::TooLate) | None => String::new(),
    };
    match opens {
        Some(minute) => format!("open {}\n{until}", written(minute)),
        None => "never\n".to_string(),
    }
}

fn object(at: Moment, opens: Option<usize>, closes: Option<Closes>) -> Object {
    let object = Object::default().text("at", &at.written('T'));
    let Some(moment) = opens.map(Moment::at) else {
        return object.plain("open", "null");
    };
    let object = object
        .text("open", &moment.written('T'))
        .text("weekday", moment.weekday())
        .plain("minute", moment.minute());
    match closes {
        Some(Closes::At(minute)) => object.text("until", &Moment::at(minute).written('T')),
        Some(Closes::Never) => object.plain("until", "null"),
        Some(Closes::TooLate) | None => object,
    }
}
