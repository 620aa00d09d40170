//! Release windows: the call next open.

use crate::windows::Minute;

const MAX_TIME: usize = (1 << 31) - 1;
const MAX_WINDOWS: usize = 32;
const MAX_DAYS: usize = 64;
const DAY: u32 = 1440;
const WEEK: u32 = 7 * DAY;

/// A window's start and length.
fn window(word: u64) -> (u32, u32) {
    (word as u32, (word >> 32) as u32)
}

/// The minutes from one of the week until a window is open.
fn least_wait(windows: &[(u32, u32)], minute: u32) -> u32 {
    let wait = |&(start, length): &(u32, u32)| {
        let since = if minute < start {
            minute + WEEK - start
        } else {
            minute - start
        };
        if since < length { 0 } else { WEEK - since }
    };
    windows.iter().map(wait).min().unwrap_or(WEEK)
}

/// The first open minute: from midnight to midnight over closed days, over the least wait on any other.
fn first_open(time: u32, windows: &[(u32, u32)], closed: &[u32]) -> u32 {
    let mut minute = time;
    loop {
        let day = minute / DAY;
        if closed
            .iter()
            .fold(false, |any, &other| any | (other == day))
        {
            minute = (day + 1) * DAY;
            continue;
        }
        match least_wait(windows, minute % WEEK) {
            0 => return minute,
            wait => minute += wait,
        }
    }
}

pub(super) fn next_open(time: usize, windows: &[u64], closed: &[u32]) -> Minute {
    if time > MAX_TIME {
        return Minute::refused(31);
    }
    if windows.len() > MAX_WINDOWS || closed.len() > MAX_DAYS {
        return Minute::refused(30);
    }
    let mut unpacked = [(0, 0); MAX_WINDOWS];
    let unpacked = &mut unpacked[..windows.len()];
    for (place, &word) in unpacked.iter_mut().zip(windows) {
        *place = window(word);
    }
    if unpacked
        .iter()
        .any(|&(start, length)| start >= WEEK || length == 0 || length > WEEK)
    {
        return Minute::refused(29);
    }
    if unpacked.is_empty() {
        return Minute::NEVER;
    }
    Minute::found(first_open(time as u32, unpacked, closed))
}
