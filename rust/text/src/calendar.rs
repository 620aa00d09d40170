//! Days of the common calendar, counted from 1 January 1600 on: a year before all that are asked for, from which its 400 years begin anew.

use alloc::format;
use alloc::string::String;

const FIRST_YEAR: usize = 1600;

fn is_leap(year: usize) -> bool {
    year % 4 == 0 && (year % 100 != 0 || year % 400 == 0)
}

/// The months by their names.
pub const MONTHS: [&str; 12] = [
    "January",
    "February",
    "March",
    "April",
    "May",
    "June",
    "July",
    "August",
    "September",
    "October",
    "November",
    "December",
];

/// How many days a month has.
pub fn days_of(year: usize, month: usize) -> usize {
    match month {
        2 if is_leap(year) => 29,
        2 => 28,
        4 | 6 | 9 | 11 => 30,
        _ => 31,
    }
}

/// The first day of a year.
pub fn new_year(year: usize) -> usize {
    let years = year - FIRST_YEAR;
    let every = |count: usize| (years + count - 1) / count;
    365 * years + every(4) - every(100) + every(400)
}

/// The day of a date, if there is such a date from 1600 on.
pub fn day_of(year: usize, month: usize, day: usize) -> Option<usize> {
    let fits = year >= FIRST_YEAR && (1..=12).contains(&month);
    (fits && (1..=days_of(year, month)).contains(&day)).then(|| {
        let months: usize = (1..month).map(|month| days_of(year, month)).sum();
        new_year(year) + months + day - 1
    })
}

/// The date of a day, as `2026-12-25`.
pub fn date(day: usize) -> String {
    let mut year = FIRST_YEAR + day / 366;
    while new_year(year + 1) <= day {
        year += 1;
    }
    let mut left = day - new_year(year);
    let mut month = 1;
    while left >= days_of(year, month) {
        left -= days_of(year, month);
        month += 1;
    }
    format!("{year:04}-{month:02}-{:02}", left + 1)
}
