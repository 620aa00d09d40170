//! Texts: dialogue tables and houses as people write them, one fact a line. This is their one reader, and their one printer.
//!
//! - [`table`]: the text of a table, with names for its states.
//! - [`house`]: the text of a house, which says when releases may be loaded.
//! - [`lines`]: what all texts have alike: lines, words, names, mistakes.
//! - [`near`]: what a mistyped word may have been meant for.
//! - [`calendar`]: days and dates.
//!
//! It needs no file and no system, only memory; and it decides nothing: the proved library accepts a table, or refuses it.
//!
//! [`LANGUAGE`] says how they are written.
//!
//! ```
//! let text = b"states 2\nstate 1 home\ninitial home\nforbidden 0\nstep home -> 1\nend\n";
//! let read = shuntberry_text::table::parse(text).unwrap();
//! assert_eq!((read.table.initial[0], read.names[&1].as_str()), (0b10, "home"));
//! let cut = shuntberry_text::table::parse(&text[..40]).unwrap_err();
//! assert!(cut.first()[0].reason.starts_with("the text may be cut"));
//! ```

#![no_std]
#![forbid(unsafe_code)]
#![warn(missing_docs)]

extern crate alloc;

pub mod calendar;
pub mod house;
pub mod lines;
pub mod near;
pub mod table;

/// How texts are written, for who writes one: the whole language, with examples.
pub const LANGUAGE: &str = include_str!("language.txt");

/// The most states of a table.
pub const MAX_STATES: usize = 512;
/// The most groups of a table.
pub const MAX_GROUPS: usize = 64;
/// The words of a set of states.
pub const SET_WORDS: usize = MAX_STATES / 64;
/// The most windows of a house.
pub const MAX_WINDOWS: usize = 32;
/// The most closed days of a house.
pub const MAX_DAYS: usize = 64;
