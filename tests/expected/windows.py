#!/usr/bin/env python3
"""What test_windows must print: crates/test_windows/stdout.

Made from the request's text and not from the code under test. The code jumps; this goes from minute to minute on Python's calendar, whose
weekdays tell where a week begins.
"""

from datetime import datetime, timedelta

from keep import TOP, keep

BEGIN = datetime(2000, 1, 1)
SATURDAY = 5
LINES = []


def is_open(when, windows, closed):
    since = (when.weekday() - SATURDAY) % 7 * 24 * 60 + when.hour * 60 + when.minute
    # A window that began in this week, or in the week before.
    entered = any(start <= m < start + length for start, length in windows for m in (since, since + 7 * 24 * 60))
    return entered and (when - BEGIN).days not in closed


def refusal(time, windows, closed):
    if time > 2**31 - 1:
        return 31
    if len(windows) > 32 or len(closed) > 64:
        return 30
    if any(start > 10_079 or not 1 <= length <= 10_080 for start, length in windows):
        return 29
    return 0


def ask(name, time, windows, closed=()):
    declined = refusal(time, windows, closed)
    if declined:
        answer = f"refused {declined}"
    elif not windows:
        answer = "never"
    else:
        when = BEGIN + timedelta(minutes=time)
        while not is_open(when, windows, closed):
            when += timedelta(minutes=1)
            time += 1
        answer = time
    LINES.append(f"{name}: {answer}\n")


SEVENS = range(7, 449, 7)
MAX_TIME = 2**31 - 1

ask("before the first minute", 539, [(540, 120)])
ask("first minute", 540, [(540, 120)])
ask("last minute", 659, [(540, 120)])
ask("minute after the last", 660, [(540, 120)])
ask("begun in the week before minute 0", 0, [(10000, 200)])
ask("its last minute", 119, [(10000, 200)])
ask("after it", 120, [(10000, 200)])
ask("a whole week from its last minute on", 5, [(10079, 10080)])
ask("the nearest of three", 4000, [(9000, 10), (3000, 10), (6000, 10)])
ask("in none until next week", 9010, [(9000, 10), (3000, 10), (6000, 10)])
ask("closed until Tuesday", 700, [(0, 10080)], [0, 1, 2])
ask("closed on the window's day", 0, [(540, 120)], [0])
ask("midnight in the middle", 1430, [(1430, 20)], [0])
ask("closed from midnight on", 1440, [(1430, 20)], [1])
ask("largest day number", 0, [(540, 120)], [2**32 - 1])
ask("as minutes modulo 2^32 the same as day 0", 0, [(540, 120)], [134217728])
ask("64 closed days in a row of weeks", 1, [(0, 1)], SEVENS)
ask("the same in the minute of the window", 0, [(0, 1)], SEVENS)
ask("the same at the end of the span", 655200, [(0, 1)], SEVENS)
ask("greatest time", MAX_TIME, [(0, 10080)])
ask("past the limit on times", MAX_TIME, [(0, 1)])
ask("time 2^31", 2**31, [(0, 10080)])
ask("time 2^64 - 1", 2**64 - 1, [(0, 10080)])
ask("no window", 0, [])
ask("no window, 64 days", 0, [], [3] * 64)
ask("no window, 65 days", 0, [], [3] * 65)
ask("start 10080", 0, [(10080, 1)])
ask("length 0", 0, [(0, 0)])
ask("length 10081", 0, [(0, 10081)])
ask("one day 65 times", 0, [(0, 1)], [5] * 65)
ask("one day 64 times", 0, [(0, 1)], [0] * 64)
ask("32 windows", 10, [(7, 2)] * 32)
ask("33 windows", 10, [(7, 2)] * 33)
ask("33 windows outside", 10, [(0, 0)] * 33)
ask("33 windows outside, time 2^31", 2**31, [(0, 0)] * 33)

keep({TOP / "crates" / "test_windows" / "stdout": "".join(LINES).encode()})
