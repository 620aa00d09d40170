// Made by scripts/portable from crates/call_release_windows/src/lib.rt, which is proved. Change that one.

// When a release may be loaded: the first minute at or after a time that lies in one of a house's weekly windows and on no closed day. Time
// is whole minutes since a Saturday, 00:00, and weeks begin on Saturday.
//
//   Window                       a window's start and length, which are one 64-bit number: the start in the low 32 bits, the length in the high
//   accept_call                  refuses by the first of the grounds 31, 30 and 29 that holds
//   wait_for                     the minutes until a window is open
//   Windows                      the windows of a call, each in its range
//     least_wait                   the minutes until one of them is open
//   is_closed                    a day is one of the closed days
//   first_open_minute            the first minute in a window on a day that is not closed: jumps from midnight to midnight over closed days,
//                                and over the least wait on any other, so that even the longest search takes some hundred turns
//   next_open                    the call

use crate::core_refusals::Refusal;

pub const MAX_TIME: usize = 2147483647;

pub const MAX_WINDOWS: usize = 32;

pub const MAX_DAYS: usize = 64;

const DAY: usize = 1440;

const WEEK: usize = 10080;
// Where there is a window, some minute less than so many later is open.
const SPAN: usize = 655200;
// A window's length stands above its start.
const LENGTH_UNIT: u64 = 4294967296;

#[derive(Clone, Copy)]
struct Window {
    start: usize,
    length: usize,
}

impl From<u64> for Window {
    fn from(number: u64) -> Self {
        let start = number % LENGTH_UNIT;
        let length = number / LENGTH_UNIT;
        Window {
            start: usize::try_from(start).expect("a number that fits"),
            length: usize::try_from(length).expect("a number that fits"),
        }
    }
}

// ---- refusals

fn is_outside(window: u64) -> bool
{
    let window = Window::from(window);
    (WEEK - 1 < window.start) | (window.length == 0) | (WEEK < window.length)
}

fn any_outside(windows: &[u64]) -> bool
{
    let mut found = false;
    for window in windows {
        found |= is_outside(*window);
    }
    found
}

fn accept_call(time: usize, windows: &[u64], closed: &[u32]) -> Result<(), Refusal>
{
    if MAX_TIME < time {
        return Err(Refusal::Time);
    }
    if (MAX_WINDOWS < windows.len()) | (MAX_DAYS < closed.len()) {
        return Err(Refusal::TooMany);
    }
    if any_outside(windows) {
        return Err(Refusal::WindowRange);
    }
    Ok(())
}

// ---- the search

// The minutes from `minute` until the window is open, or `most` if it is not open sooner.
fn wait_for(window: u64, minute: usize, most: usize) -> usize
{
    let window = Window::from(window);
    let since_start = (minute + WEEK - window.start) % WEEK;
    if since_start < window.length {
        return 0;
    }
    let wait = WEEK - since_start;
    // kept: by its two cases, which are those of the contract's `first`: `min` is no plainer
    if wait < most { wait } else { most }
}

// The windows of a call, each in its range.
#[derive(Clone, Copy)]
struct Windows<'a> {
    numbers: &'a [u64],
}

impl<'a> Windows<'a> {
    // The minutes from `minute` until one of the windows is open, or a week if there is none.
    // kept: a week for none, the bound of the search and where the least begins: as an Option each turn would tell the first window from the others
    fn least_wait(self, minute: usize) -> usize
    {
        let mut least = WEEK;
        for window in self.numbers {
            least = wait_for(*window, minute, least);
        }
        least
    }
}

// Each is compared, with no early end: several at a time, once compiled.
fn is_closed(closed: &[u32], day: u32) -> bool
{
    let mut found = false;
    for closed_day in closed {
        found |= day == *closed_day;
    }
    found
}

// The first open minute from `time` on, if one of the next SPAN is.
fn first_open_minute(time: usize, windows: Windows, closed: &[u32]) -> Option<u32>
{
    let mut minute = time;
    while minute < time + SPAN {
        let day = minute / DAY;
        if is_closed(closed, day as u32) {
            minute = DAY * (day + 1);
        } else {
            let wait = windows.least_wait(minute);
            if wait == 0 {
                return Some(minute as u32);
            }
            minute += wait;
        }
    }
    None
}

// ---- the call

// The first open minute, if there is one.
pub fn next_open(time: usize, windows: &[u64], closed: &[u32]) -> Result<Option<u32>, Refusal>
{
    accept_call(time, windows, closed)?;
    let windows = Windows { numbers: windows };
    Ok(first_open_minute(time, windows, closed))
}
