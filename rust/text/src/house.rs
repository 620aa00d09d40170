//! The text of a house: when releases may be loaded there.
//!
//! ```text
//! window monday 22:00 for 6h     # each week; it may run into the next day, and over the week's end
//! window saturday 00:00 for 1d12h30m
//! closed 2026-12-25              # all day
//! end
//! ```
//!
//! At least one window must be said, or `window none`: a text that was emptied is found.

use crate::calendar;
use crate::lines::{keyword, miswritten, number, quoted, said, Mistake, Mistakes, END};
use crate::near::did_you_mean;
use crate::{MAX_DAYS, MAX_WINDOWS};
use alloc::collections::BTreeMap;
use alloc::format;
use alloc::string::{String, ToString};
use alloc::vec::Vec;

/// From Saturday on, as the weeks of the library are.
const WEEKDAYS: [&str; 7] = [
    "saturday",
    "sunday",
    "monday",
    "tuesday",
    "wednesday",
    "thursday",
    "friday",
];

/// The words that a line begins with.
const FACTS: [&str; 2] = ["window", "closed"];

const HOURS: usize = 24;
const DAY: usize = HOURS * 60;
const WEEK: usize = 7 * DAY;

/// A window of every week.
#[derive(Clone, Copy, Debug, PartialEq, Eq)]
pub struct Window {
    /// Its first minute, from the beginning of Saturday on.
    pub start: usize,
    /// Its minutes, a week's at most.
    pub length: usize,
}

/// What a text says.
#[derive(Debug, Default)]
pub struct House {
    /// Its windows.
    pub windows: Vec<Window>,
    /// Its closed days, as the library counts them.
    pub closed: Vec<u32>,
}

/// What a text says, or its mistakes.
pub fn parse(text: &[u8]) -> Result<House, Mistakes> {
    let mut reader = Reader::default();
    for (number, words) in said(text)? {
        reader.at = number;
        let done = words
            .map_err(str::to_string)
            .and_then(|words| match &words[..] {
                [] => Ok(()),
                [word, words @ ..] => reader.fact(word, words),
            });
        if let Err(reason) = done {
            reader.mistake(reason);
        }
    }
    if reader.first.is_none() {
        reader.mistake(
            "the text ends, and no line says when it is open: window none if it never is"
                .to_string(),
        );
    }
    match reader.mistakes.is_empty() {
        true => Ok(reader.house),
        false => Err(reader.mistakes),
    }
}

#[derive(Default)]
struct Reader {
    at: usize,
    house: House,
    mistakes: Mistakes,
    /// The first line about windows, and whether it says none.
    first: Option<(usize, bool)>,
    /// What was said, and on which line.
    lines: BTreeMap<(usize, usize), usize>,
}

impl Reader {
    fn mistake(&mut self, reason: String) {
        self.mistakes.push(Mistake {
            line: self.at,
            reason,
        });
    }

    /// A line that begins with this word.
    fn fact(&mut self, word: &str, words: &[&str]) -> Result<(), String> {
        let fact = keyword(word, &FACTS).unwrap_or(word);
        if let Some(reason) = miswritten(word, fact) {
            self.mistake(reason);
        }
        match (fact, words) {
            ("window", ["none"]) => self.no_window(),
            ("window", words) => self.window(words),
            ("closed", words) => self.closed(words),
            _ => Err(format!(
                "a line begins with window or closed, and not with {}{}",
                quoted(word),
                did_you_mean(word, FACTS.into_iter().chain([END]))
            )),
        }
    }

    /// `window none` stands alone.
    fn first(&mut self, none: bool) -> Result<(), String> {
        let &mut (line, first_none) = self.first.get_or_insert((self.at, none));
        let other = match first_none {
            true => "says none",
            false => "is one",
        };
        match line != self.at && (none || first_none) {
            true => Err(format!(
                "window none goes with no other window, and line {line} {other}"
            )),
            false => Ok(()),
        }
    }

    fn no_window(&mut self) -> Result<(), String> {
        self.first(true)
    }

    /// `window WEEKDAY HH:MM for LENGTH`
    fn window(&mut self, words: &[&str]) -> Result<(), String> {
        self.first(false)?;
        let (day, time, length) = match *words {
            [day, time, "for", length] => (day, time, length),
            [_, "for", _] => return Err(format!("the time is missing: {WINDOW}")),
            _ => return Err(WINDOW.to_string()),
        };
        let day = WEEKDAYS
            .iter()
            .position(|name| *name == day)
            .ok_or_else(|| no_day(day))?;
        let time = minute_of_day(time).ok_or_else(|| no_time(time))?;
        let length = length_of(length)
            .filter(|length| (1..=WEEK).contains(length))
            .ok_or_else(|| no_length(length))?;
        let start = day * DAY + time;
        self.once((start, length), MAX_WINDOWS, self.house.windows.len())?;
        self.house.windows.push(Window { start, length });
        Ok(())
    }

    /// `closed DATE`
    fn closed(&mut self, words: &[&str]) -> Result<(), String> {
        let word = match *words {
            [word] => word,
            _ => {
                return Err("a closed day is written closed DATE, as closed 2026-12-25".to_string())
            }
        };
        let day = day_of(word).ok_or_else(|| {
            format!(
                "{} is no date from 2000-01-01 on, as 2026-12-25{}",
                quoted(word),
                date_amiss(word).map_or_else(String::new, |why| format!(": {why}"))
            )
        })?;
        self.once((day, 0), MAX_DAYS, self.house.closed.len())?;
        self.house.closed.push(day as u32);
        Ok(())
    }

    /// Nothing is said twice, or too often. A length is never 0, so that windows and days do not meet.
    fn once(&mut self, what: (usize, usize), most: usize, so_far: usize) -> Result<(), String> {
        match self.lines.insert(what, self.at) {
            Some(line) => Err(format!("this stands on line {line} already")),
            None if so_far == most => {
                Err(format!("this is one too many: there are at most {most}"))
            }
            None => Ok(()),
        }
    }
}

// ---- What is said of words that are none

const WINDOW: &str =
    "a window is written window WEEKDAY HH:MM for LENGTH, as window monday 22:00 for 6h";

fn no_day(word: &str) -> String {
    let lower = word.to_lowercase();
    let hint = match WEEKDAYS.contains(&lower.as_str()) {
        true => format!("it is written in lower case, {lower}"),
        false => format!("they are {}", WEEKDAYS.join(", ")),
    };
    format!("{} is no day of the week: {hint}", quoted(word))
}

fn no_time(word: &str) -> String {
    format!(
        "{} is no time from 00:00 to 23:59{}",
        quoted(word),
        amiss(word).map_or_else(String::new, |why| format!(": {why}"))
    )
}

/// What is amiss with the hour or the minute of a time that is none, as far as that can be told.
fn amiss(word: &str) -> Option<String> {
    let (hour, minute) = match word.split_once(&[':', '.', 'h'][..]) {
        Some((hour, minute)) => (hour, minute),
        None => (word, ""),
    };
    let (minute, seconds) = match minute.split_once(':') {
        Some((minute, _)) => (minute, ", without seconds"),
        None => (minute, ""),
    };
    let fits =
        |digits: &str, most| number(digits).filter(|&number| digits.len() <= 2 && number < most);
    match (fits(hour, HOURS), fits(minute, 60)) {
        (None, Some(minute)) if hour.is_empty() => {
            Some(format!("its hour is missing, as in 00:{minute:02}"))
        }
        (Some(hour), None) if minute.is_empty() => {
            Some(format!("its minute is missing, as in {hour:02}:00"))
        }
        (Some(hour), Some(minute)) => Some(format!("it is written {hour:02}:{minute:02}{seconds}")),
        _ if number(hour) == Some(HOURS) => Some("midnight is 00:00 of the next day".to_string()),
        _ => None,
    }
}

fn no_length(word: &str) -> String {
    let hint = match number(word) {
        Some(_) => "; its unit is missing, d, h or m",
        None => "",
    };
    format!(
        "{} is no length from 1m to 7d, as 6h or 1d12h30m{hint}",
        quoted(word)
    )
}

// ---- Words

/// `6h`, `90m`, `1d12h30m`
fn length_of(word: &str) -> Option<usize> {
    let mut rest = word;
    let mut length: usize = 0;
    for (unit, minutes) in [('d', DAY), ('h', 60), ('m', 1)] {
        if let Some((count, behind)) = rest.split_once(unit) {
            length = length.saturating_add(number(count)?.saturating_mul(minutes));
            rest = behind;
        }
    }
    (rest.is_empty() && !word.is_empty()).then_some(length)
}

/// `22:00`
fn minute_of_day(word: &str) -> Option<usize> {
    let (hour, minute) = word.split_once(':')?;
    let (hour, minute) = (two_digits(hour)?, two_digits(minute)?);
    (hour < HOURS && minute < 60).then_some(hour * 60 + minute)
}

fn two_digits(word: &str) -> Option<usize> {
    number(word).filter(|_| word.len() == 2)
}

// ---- Days, counted from 1 January 2000, a Saturday

const FIRST_YEAR: usize = 2000;

/// `2026-12-25`
fn day_of(word: &str) -> Option<usize> {
    let mut parts = word.split('-');
    let (year, month, day) = (parts.next()?, parts.next()?, parts.next()?);
    let year = number(year).filter(|_| year.len() == 4)?;
    let fits = parts.next().is_none() && year >= FIRST_YEAR;
    let day = calendar::day_of(year, two_digits(month)?, two_digits(day)?)?;
    fits.then(|| day - calendar::new_year(FIRST_YEAR))
}

/// What is amiss with a word that is no date, as far as that can be told: year, month and day are known where the year has four digits and
/// stands first, or last behind points.
fn date_amiss(word: &str) -> Option<String> {
    let parts: Vec<&str> = word.split(&['-', '.', '/'][..]).collect();
    let is_year = |part: &str| part.len() == 4;
    let (year, month, day) = match parts[..] {
        [year, month, day] if is_year(year) => (year, month, day),
        [day, month, year] if is_year(year) && word.contains('.') => (year, month, day),
        _ => return None,
    };
    let (year, month, day) = (number(year)?, number(month)?, number(day)?);
    let name = match month.checked_sub(1).and_then(|at| calendar::MONTHS.get(at)) {
        Some(name) => name,
        None => return Some(format!("there is no month {month}")),
    };
    match calendar::days_of(year, month) {
        _ if year < FIRST_YEAR => None,
        days if !(1..=days).contains(&day) => Some(format!("{name} {year} has {days} days")),
        _ => Some(format!("it is written {year:04}-{month:02}-{day:02}")),
    }
}

/// A minute, as the library counts them from 2000 on.
#[derive(Clone, Copy, Debug, PartialEq, Eq)]
pub struct Moment(usize);

impl Moment {
    /// `2026-12-24T13:05`, or with a space.
    pub fn of(word: &str) -> Option<Moment> {
        let (date, time) = word.split_once(&['T', ' '][..])?;
        Some(Moment(day_of(date)? * DAY + minute_of_day(time)?))
    }

    /// What is amiss with a word that is no moment, as far as that can be told.
    pub fn amiss(word: &str) -> Option<String> {
        let (date, time) = word.split_once(&['T', ' '][..]).unwrap_or((word, ""));
        day_of(date)?;
        match time {
            "" => Some("its hour and minute are missing".to_string()),
            _ => amiss(time),
        }
    }

    /// The minute of this number.
    pub fn at(minute: usize) -> Moment {
        Moment(minute)
    }

    /// Its number.
    pub fn minute(self) -> usize {
        self.0
    }

    /// The day of the week.
    pub fn weekday(self) -> &'static str {
        WEEKDAYS[self.0 / DAY % 7]
    }

    /// Date and time, with a character between them.
    pub fn written(self, between: char) -> String {
        let (day, minute) = (self.0 / DAY, self.0 % DAY);
        let date = calendar::date(calendar::new_year(FIRST_YEAR) + day);
        let (hour, minute) = (minute / 60, minute % 60);
        format!("{date}{between}{hour:02}:{minute:02}")
    }
}
