//! Generated from shuntberry.h, which has a comment for each call: do not edit. The refusals, by name and in words.

use crate::Refused;

impl Refused {
    /// 10: the store has under 4,632 words, or the possible steps under 4,096.
    pub const STORE_SHORT: Refused = Refused(10);
    /// 11: the input's length is no multiple of 512, or over 37,376.
    pub const INPUT_LENGTH: Refused = Refused(11);
    /// 12: a block does not hold its own number.
    pub const BLOCK_NUMBER: Refused = Refused(12);
    /// 13: a block's stored check is not its check for the site.
    pub const BLOCK_CHECK: Refused = Refused(13);
    /// 14: n is over 512, or 0 with groups, in a block or in a load.
    pub const STATES: Refused = Refused(14);
    /// 15: g is over 64, or a file's second number is not g + 32,768, as in the old form.
    pub const GROUPS: Refused = Refused(15);
    /// 16: the number of blocks is not that of a file with this n and g.
    pub const BLOCK_COUNT: Refused = Refused(16);
    /// 17: a set, the resting one included, holds a state from n up, or a word of an unused group or row is not 0, also of the possible steps.
    pub const STRAY_BIT: Refused = Refused(17);
    /// 18: a filler byte is not 0.
    pub const FILLER: Refused = Refused(18);
    /// 19: the output is shorter than the file, or in check under 4,096 bytes.
    pub const OUTPUT_SHORT: Refused = Refused(19);
    /// 20: the allowance is over 512.
    pub const ALLOWANCE: Refused = Refused(20);
    /// 21: the path buffer has under 512 places.
    pub const PATH_SHORT: Refused = Refused(21);
    /// 22: the fan-out is over 16.
    pub const FAN_OUT: Refused = Refused(22);
    /// 23: the distance buffer has fewer than n places.
    pub const DISTANCES_SHORT: Refused = Refused(23);
    /// 24: the site is over 65,520.
    pub const SITE: Refused = Refused(24);
    /// 25: the log's length is odd.
    pub const LOG_ODD: Refused = Refused(25);
    /// 26: the log has over 32,768 bytes.
    pub const LOG_LONG: Refused = Refused(26);
    /// 27: a state number of an edit is n or more.
    pub const STEP_STATE: Refused = Refused(27);
    /// 28: a certain step is not possible.
    pub const NOT_POSSIBLE: Refused = Refused(28);
    /// 29: a window starts past minute 10,079 of the week, or is 0 or over 10,080 minutes long.
    pub const WINDOW_RANGE: Refused = Refused(29);
    /// 30: there are over 32 windows or over 64 closed days.
    pub const TOO_MANY: Refused = Refused(30);
    /// 31: the time is over 2^31 - 1.
    pub const TIME: Refused = Refused(31);
}

/// The ground of each number.
#[rustfmt::skip]
pub(crate) const GROUNDS: &[(u32, &str)] = &[
    (10, "the store has under 4,632 words, or the possible steps under 4,096"),
    (11, "the input's length is no multiple of 512, or over 37,376"),
    (12, "a block does not hold its own number"),
    (13, "a block's stored check is not its check for the site"),
    (14, "n is over 512, or 0 with groups, in a block or in a load"),
    (15, "g is over 64, or a file's second number is not g + 32,768, as in the old form"),
    (16, "the number of blocks is not that of a file with this n and g"),
    (17, "a set, the resting one included, holds a state from n up, or a word of an unused group or row is not 0, also of the possible steps"),
    (18, "a filler byte is not 0"),
    (19, "the output is shorter than the file, or in check under 4,096 bytes"),
    (20, "the allowance is over 512"),
    (21, "the path buffer has under 512 places"),
    (22, "the fan-out is over 16"),
    (23, "the distance buffer has fewer than n places"),
    (24, "the site is over 65,520"),
    (25, "the log's length is odd"),
    (26, "the log has over 32,768 bytes"),
    (27, "a state number of an edit is n or more"),
    (28, "a certain step is not possible"),
    (29, "a window starts past minute 10,079 of the week, or is 0 or over 10,080 minutes long"),
    (30, "there are over 32 windows or over 64 closed days"),
    (31, "the time is over 2^31 - 1"),
];
