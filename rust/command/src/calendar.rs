//! The time of a record, by the calendar of texts.

use shuntberry_text::calendar::{date, new_year};

const DAY: usize = 24 * 60 * 60;
const LAST_YEAR: usize = 9999;

/// Date and time of UTC as ISO 8601 writes them, `2026-12-24T13:05:07Z`, by the seconds since 1970; none past the year 9999.
pub fn utc(seconds: usize) -> Option<String> {
    let day = new_year(1970) + seconds / DAY;
    let (minutes, second) = (seconds % DAY / 60, seconds % 60);
    let time = format!("{:02}:{:02}:{second:02}", minutes / 60, minutes % 60);
    (day < new_year(LAST_YEAR + 1)).then(|| format!("{}T{time}Z", date(day)))
}
