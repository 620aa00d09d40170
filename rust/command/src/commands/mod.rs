//! The commands, one module each.

pub mod about;
pub mod check;
pub mod check_all;
pub mod decode;
pub mod diff;
pub mod encode;
pub mod generate;
pub mod inspect;
pub mod next_open;
pub mod options;
pub mod picture;
pub mod release;
pub mod replay;
pub mod report;
pub mod rewrite;
pub mod within;

use crate::words::Command;

/// All of them, in the order of the help.
pub const COMMANDS: [&Command; 15] = [
    &check::CHECK,
    &check_all::CHECK_ALL,
    &release::RELEASE,
    &report::REPORT,
    &inspect::INSPECT,
    &diff::DIFF,
    &within::WITHIN,
    &replay::REPLAY,
    &options::OPTIONS,
    &next_open::NEXT_OPEN,
    &encode::ENCODE,
    &decode::DECODE,
    &picture::PICTURE,
    &generate::GENERATE,
    &rewrite::REWRITE,
];
