//! Release windows, from the request's text: which minutes are open, by the calendar of weeks, and the
//! tests of the call that says when the next one is.
//!
//! The library jumps from one closed day or window to the next; `Calendar` paints the open minutes of 70 weeks
//! and more, week by week, and reads the answers off from the last minute backward, and `minute_by_minute` asks
//! of one minute after the other whether a window of some week holds it. Neither takes a remainder of weeks.

use crate::buffer::Lent;
use crate::calls::NO_ANSWER;
use crate::examine::{Outcome, Tally};
use crate::generate::Random;

pub const DAY: u64 = 1440;
pub const WEEK: u64 = 7 * DAY;
/// With a window, the answer is less than this many minutes later.
pub const SPAN: u64 = 65 * WEEK;
pub const MAX_TIME: u64 = (1 << 31) - 1;
pub const MAX_WINDOWS: usize = 32;
pub const MAX_DAYS: usize = 64;

/// A window's start in the week, and its length.
pub type Window = (u64, u64);

/// What the call answers; the fields are those of `shuntberry_minute`.
#[derive(Clone, Copy, Debug, PartialEq, Eq)]
pub struct Minute {
    pub refusal: u32,
    pub never: u32,
    pub minute: u32,
}

/// In place of a minute, of never and of a refused call: the number of the C interface, later than any open minute.
const NO_MINUTE: u32 = u32::MAX;

impl Minute {
    pub const NEVER: Minute = Minute {
        refusal: 0,
        never: 1,
        minute: NO_MINUTE,
    };

    pub fn refused(refusal: u32) -> Minute {
        Minute {
            refusal,
            never: NO_ANSWER,
            minute: NO_MINUTE,
        }
    }

    pub fn found(minute: u32) -> Minute {
        Minute {
            refusal: 0,
            never: 0,
            minute,
        }
    }
}

fn found(minute: u64) -> Minute {
    Minute::found(u32::try_from(minute).expect("the request's answers fit"))
}

/// A library that answers the call. The windows are as the library takes them: `word`.
pub trait NextOpen: Sync {
    fn name(&self) -> &'static str;
    fn next_open(&self, time: usize, windows: &[u64], closed: &[u32]) -> Minute;
}

/// A window as one number.
pub fn word((start, length): Window) -> u64 {
    length << 32 | start
}

pub fn words(windows: &[Window]) -> Vec<u64> {
    windows.iter().map(|&window| word(window)).collect()
}

// ---- What is expected

/// The refusals that the request names.
pub const REFUSALS: [u32; 3] = [29, 30, 31];

/// The one of them that it names first, or 0.
fn refusal(time: u64, windows: &[Window], closed: &[u32]) -> u32 {
    let outside = |&(start, length): &Window| start > WEEK - 1 || length == 0 || length > WEEK;
    if time > MAX_TIME {
        31
    } else if windows.len() > MAX_WINDOWS || closed.len() > MAX_DAYS {
        30
    } else if windows.iter().any(outside) {
        29
    } else {
        0
    }
}

/// Whether a window that began in the minute's week or in the week before it holds the minute. One that
/// began earlier is over, since none is longer than a week. Time is counted from the week before minute 0.
fn is_open(minute: u64, windows: &[Window], closed: &[u32]) -> bool {
    let minute_from_there = minute + WEEK;
    let this_week = minute_from_there / WEEK;
    let held = |&(start, length): &Window| {
        (this_week - 1..=this_week).any(|week| {
            let begin = week * WEEK + start;
            begin <= minute_from_there && minute_from_there < begin + length
        })
    };
    windows.iter().any(held) && !closed.iter().any(|&day| u64::from(day) == minute / DAY)
}

/// The answer by asking of one minute after the other.
pub fn minute_by_minute(time: u64, windows: &[Window], closed: &[u32]) -> Minute {
    match refusal(time, windows, closed) {
        0 if windows.is_empty() => Minute::NEVER,
        0 => {
            let open = (time..).find(|&minute| is_open(minute, windows, closed));
            found(open.expect("some later minute is open"))
        }
        number => Minute::refused(number),
    }
}

/// For each minute of `weeks` weeks from the week of a first one on, the next open minute.
struct Calendar {
    from: u64,
    next: Vec<u64>,
}

impl Calendar {
    /// Painted far enough beyond its weeks that each minute of them has an answer.
    fn paint(first: u64, weeks: u64, windows: &[Window], closed: &[u32]) -> Calendar {
        let from = first / WEEK * WEEK;
        let end = from + weeks * WEEK + SPAN;
        let mut open = vec![false; (end - from) as usize];
        let mut paint = |begin: u64, stop: u64, value: bool| {
            for minute in begin.max(from)..stop.min(end) {
                open[(minute - from) as usize] = value;
            }
        };
        for &(start, length) in windows {
            // What is left at `from` of the window that began in the week before.
            paint(from, (from + start + length).saturating_sub(WEEK), true);
            for begin in (from..end).step_by(WEEK as usize) {
                paint(begin + start, begin + start + length, true);
            }
        }
        for &day in closed {
            let begin = u64::from(day) * DAY;
            paint(begin, begin + DAY, false);
        }
        let mut next = vec![u64::MAX; open.len()];
        let mut latest = u64::MAX;
        for place in (0..open.len()).rev() {
            if open[place] {
                latest = from + place as u64;
            }
            next[place] = latest;
        }
        next.truncate((weeks * WEEK) as usize);
        Calendar { from, next }
    }

    fn answer(&self, time: u64) -> Minute {
        found(self.next[(time - self.from) as usize])
    }
}

// ---- One call

// tries: call_release_windows::next_open, Fields.minute_fields
fn same(
    library: &dyn NextOpen,
    (time, windows, closed): (u64, &[u64], &[u32]),
    expected: Minute,
) -> Outcome {
    let (lent_windows, lent_closed) = (Lent::new(windows), Lent::new(closed));
    let answer = library.next_open(time as usize, lent_windows.shared(), lent_closed.shared());
    lent_windows.holds("windows", windows)?;
    lent_closed.holds("closed days", closed)?;
    if answer == expected {
        return Ok(());
    }
    let shown: Vec<String> = windows
        .iter()
        .map(|word| format!("{} for {}", word & 0xffff_ffff, word >> 32))
        .collect();
    Err(format!(
        "{}'s next_open({time}, [{}], {closed:?}) answered {answer:?}, expected {expected:?}",
        library.name(),
        shown.join(", "),
    ))
}

fn all_same(
    libraries: &[&dyn NextOpen],
    (time, windows, closed): (u64, &[Window], &[u32]),
    expected: Minute,
    tally: &mut Tally,
) -> Outcome {
    if expected.refusal != 0 {
        tally.count("refusal by next open", expected.refusal);
    }
    let windows = words(windows);
    libraries
        .iter()
        .try_for_each(|library| same(*library, (time, &windows, closed), expected))
}

// ---- The tests

// tries: WindowAnswers.max_time, WindowAnswers.max_windows, WindowAnswers.max_days, Windows.outside
// tries: WindowPromises.window-is, Windows.in_window, Windows.is_closed, WindowPromises.with_window
// tries: WindowPromises.without, WindowAnswers.grounds, Figures.Figures
/// The edges that the request names, with their answers worked out by hand.
pub fn edges(libraries: &[&dyn NextOpen], tally: &mut Tally) -> Outcome {
    let mut ask = |time: u64, windows: &[Window], closed: &[u32], expected: Minute| {
        all_same(libraries, (time, windows, closed), expected, tally)
    };
    let always = [(0, WEEK)];

    // The first minute is in, the minute after the last is out.
    ask(99, &[(100, 50)], &[], found(100))?;
    ask(149, &[(100, 50)], &[], found(149))?;
    ask(150, &[(100, 50)], &[], found(WEEK + 100))?;
    // Over the week's end, from the week before minute 0 on.
    ask(0, &[(WEEK - 1, 2)], &[], found(0))?;
    ask(1, &[(WEEK - 1, 2)], &[], found(WEEK - 1))?;
    ask(0, &[(WEEK - 1, WEEK)], &[], found(0))?;
    ask(0, &[(1, WEEK)], &[], found(0))?;
    // Windows at the edges of their range, and past them.
    ask(7, &[(0, 1)], &[], found(WEEK))?;
    ask(7, &always, &[], found(7))?;
    ask(7, &[(WEEK - 1, 1)], &[], found(WEEK - 1))?;
    for outside in [
        (WEEK, 1),
        (0, 0),
        (0, WEEK + 1),
        // of 16 bits these would be 0 and 10
        (65_536, 1),
        (0, 65_546),
        (u64::from(u32::MAX), 1),
        (0, u64::from(u32::MAX)),
    ] {
        ask(7, &[outside], &[], Minute::refused(29))?;
        ask(7, &[always[0], outside], &[], Minute::refused(29))?;
    }
    // Times.
    ask(0, &always, &[], found(0))?;
    ask(MAX_TIME, &always, &[], found(MAX_TIME))?;
    ask(MAX_TIME + 1, &always, &[], Minute::refused(31))?;
    ask(u64::MAX, &always, &[], Minute::refused(31))?;
    let last_week = MAX_TIME / WEEK * WEEK;
    ask(MAX_TIME, &[(0, 1)], &[], found(last_week + WEEK))?;
    // Counts: no window with 65 days is 30, and a day that is named twice counts twice.
    ask(3, &[(5, 1); 32], &[], found(5))?;
    ask(3, &[(5, 1); 33], &[], Minute::refused(30))?;
    ask(3, &[(5, 1)], &[9; 64], found(5))?;
    ask(3, &[(5, 1)], &[9; 65], Minute::refused(30))?;
    ask(3, &[], &[], Minute::NEVER)?;
    ask(3, &[], &[9; 64], Minute::NEVER)?;
    ask(3, &[], &[9; 65], Minute::refused(30))?;
    // Order: 31, 30, 29.
    ask(3, &[(5, 0); 33], &[9; 65], Minute::refused(30))?;
    ask(3, &[(5, 0); 32], &[9; 64], Minute::refused(29))?;
    ask(MAX_TIME + 1, &[(5, 0); 33], &[9; 65], Minute::refused(31))?;
    ask(MAX_TIME + 1, &[(5, 0)], &[], Minute::refused(31))?;
    ask(MAX_TIME + 1, &[], &[], Minute::refused(31))?;
    // Closed days by number, each any 32-bit one. Multiplied out in 32 bits, day 2^27 begins at minute 0.
    ask(700, &always, &[0], found(DAY))?;
    ask(700, &always, &[2, 1, 0, 1, 2], found(3 * DAY))?;
    ask(700, &always, &[1 << 27, u32::MAX], found(700))?;
    ask(
        MAX_TIME,
        &always,
        &[(MAX_TIME / DAY) as u32],
        found((MAX_TIME / DAY + 1) * DAY),
    )?;
    // From the middle of a closed day the search goes on at midnight, and not a day later.
    ask(700, &[(DAY, 5)], &[0], found(DAY))?;

    // The longest wait: each of the next 64 weeks has the window's one minute on a closed day.
    for (time, start) in [
        (0, WEEK - 1),
        (1, 0),
        (5_000, 4_999),
        (MAX_TIME, MAX_TIME % WEEK - 1),
    ] {
        let first = time + WEEK - 1;
        let closed: Vec<u32> = (0..64)
            .map(|week| ((first + week * WEEK) / DAY) as u32)
            .collect();
        let windows = [(start, 1)];
        ask(time, &windows, &closed, found(time + SPAN - 1))?;
        ask(time, &windows, &closed[..63], found(time + SPAN - 1 - WEEK))?;
        ask(time, &windows, &closed[1..], found(first))?;
        if first <= MAX_TIME {
            ask(first, &windows, &closed, found(time + SPAN - 1))?;
        }
    }
    Ok(())
}

// tries: WindowPromises.open_minutes, WindowPromises.FirstOpen
/// Each minute of 70 weeks, for some calendars: without closed days, with 64 of them, and up to the limit on
/// times.
pub fn seventy_weeks(libraries: &[&dyn NextOpen], random: &mut Random) -> Outcome {
    let closed: Vec<u32> = (0..MAX_DAYS).map(|_| random.below(7 * 70) as u32).collect();
    let sevens: Vec<u32> = (1..=64).map(|week| 7 * week).collect();
    let late = MAX_TIME - 70 * WEEK + 1;
    let calendars: [(u64, Vec<Window>, Vec<u32>); 4] = [
        (0, vec![(540, 120), (WEEK - 80, 200), (4000, 1)], Vec::new()),
        (
            0,
            vec![(540, 120), (WEEK - 80, 200), (4000, 1)],
            closed.clone(),
        ),
        (0, vec![(0, 1)], sevens),
        (late, (0..32).map(|i| (i * 300, 7 + i)).collect(), {
            let day = (late / DAY) as u32;
            closed.iter().map(|d| day + d).collect()
        }),
    ];
    for (first, windows, closed) in &calendars {
        let calendar = Calendar::paint(*first, 71, windows, closed);
        let words = words(windows);
        for time in *first..first + 70 * WEEK {
            let expected = calendar.answer(time);
            // The guards are tried on some of the minutes.
            if time % 1009 == 0 {
                for library in libraries {
                    same(*library, (time, &words, closed), expected)?;
                }
            } else if libraries[0].next_open(time as usize, &words, closed) != expected {
                return same(libraries[0], (time, &words, closed), expected);
            }
        }
    }
    Ok(())
}

/// One question at random, sometimes with something out of its range.
pub fn random_case(libraries: &[&dyn NextOpen], random: &mut Random, tally: &mut Tally) -> Outcome {
    let time = match random.below(8) {
        0 => random.below(2 * WEEK as usize) as u64,
        1 => MAX_TIME - random.below(2 * WEEK as usize) as u64,
        2 => MAX_TIME + random.below(3) as u64,
        3 if random.once_in(4) => random.word(),
        _ => random.word() >> 33,
    };
    let count = random.pick(&[0, 1, 1, 1, 2, 3, 5, 31, 32, 33]);
    let windows: Vec<Window> = (0..count).map(|_| random_window(random)).collect();
    let count = random.pick(&[0, 0, 1, 2, 10, 63, 64, 65]);
    let near = (time / DAY).min(MAX_TIME / DAY) as u32;
    let closed: Vec<u32> = if count > 0 && random.once_in(3) {
        weekly_days(time, &windows, count)
    } else {
        (0..count).map(|_| random_day(random, near)).collect()
    };

    let expected = minute_by_minute(time, &windows, &closed);
    let kind = match expected {
        Minute {
            refusal: 0,
            never: 1,
            ..
        } => "never",
        Minute {
            refusal: 0, minute, ..
        } if u64::from(minute) == time => "at once",
        Minute {
            refusal: 0, minute, ..
        } if u64::from(minute) < time + WEEK => "within a week",
        Minute {
            refusal: 0, minute, ..
        } if u64::from(minute) < time + 5 * WEEK => "within five",
        Minute { refusal: 0, .. } => "later",
        _ => "refused",
    };
    tally.count("next open", kind);
    all_same(libraries, (time, &windows, &closed), expected, tally)
}

fn random_window(random: &mut Random) -> Window {
    let week = WEEK as usize;
    let start = match random.below(40) {
        0 => random.within(week, week + 1),
        1 => random.pick(&[0, 1, week - 1]),
        _ => random.below(week),
    };
    let length = match random.below(40) {
        0 => random.pick(&[0, week + 1, u32::MAX as usize]),
        1 => random.pick(&[1, week - 1, week]),
        2..20 => random.within(1, 30),
        _ => random.within(1, week / 8),
    };
    (start as u64, length as u64)
}

/// The days on which the first window opens in the weeks after a time.
fn weekly_days(time: u64, windows: &[Window], count: u32) -> Vec<u32> {
    let first = windows.get(..1).unwrap_or_default();
    let day = minute_by_minute(time, first, &[]).minute / DAY as u32;
    (0..count).map(|week| day + 7 * week).collect()
}

/// Mostly one of the next days, so that some are hit.
fn random_day(random: &mut Random, near: u32) -> u32 {
    match random.below(6) {
        0 => random.word() as u32,
        1 => near + 7 * random.below(64) as u32,
        2 => near.wrapping_add(1 << 27),
        _ => near + random.below(20) as u32,
    }
}

// ---- Libraries

#[cfg(feature = "library")]
pub use linked::{Linked, Wrapped};

#[cfg(feature = "library")]
mod linked {
    use super::{Minute, NextOpen};
    use shuntberry::{Refused, Window, raw};

    /// The library, by its export for C.
    pub struct Linked;

    impl NextOpen for Linked {
        fn name(&self) -> &'static str {
            "library"
        }

        fn next_open(&self, time: usize, windows: &[u64], closed: &[u32]) -> Minute {
            let (words, count) = (windows.as_ptr(), windows.len());
            let (days, closed) = (closed.as_ptr(), closed.len());
            // SAFETY: each pointer and length are those of a slice.
            let answer = unsafe { raw::shuntberry_next_open(time, words, count, days, closed) };
            Minute {
                refusal: answer.refusal,
                never: answer.never,
                minute: answer.minute,
            }
        }
    }

    /// The library, by the safe wrapper.
    pub struct Wrapped;

    impl NextOpen for Wrapped {
        fn name(&self) -> &'static str {
            "wrapper"
        }

        fn next_open(&self, time: usize, windows: &[u64], closed: &[u32]) -> Minute {
            let windows: Vec<Window> = windows
                .iter()
                .map(|word| Window::new(word & 0xffff_ffff, word >> 32))
                .collect();
            match shuntberry::next_open(time, &windows, closed) {
                Err(Refused(refusal)) => Minute::refused(refusal),
                Ok(None) => Minute::NEVER,
                Ok(Some(minute)) => Minute::found(minute),
            }
        }
    }
}
