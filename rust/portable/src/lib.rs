// Made by scripts/portable.

//! Shuntberry's proved source, compiled by rustc: for every target that `core` is there for. Each module is a crate of the proved library with its contracts
//! left out, line by line (README.md says how). The calls are those of `shuntberry.h`, on slices.
//!
//! The proofs are about the source text and a `usize` of 64 bits. Leave overflow checks on (`overflow-checks = true` in your profile): they cost little, and
//! what the proofs exclude then stops in place of answering.
#![no_std]
#![forbid(unsafe_code)]
// what only a contract speaks of, and what only Rattle's own callers call, stays as it stands in the proved text
#![allow(dead_code, unused_variables)]

#[cfg(not(any(target_pointer_width = "64", all(target_pointer_width = "32", feature = "usize32"))))]
compile_error!(
    "the proofs are about a usize of 64 bits. For a target of 32 set the feature `usize32` and overflow checks: README.md, \"Targets of 32 bits\""
);

mod core_state_set;
mod core_refusals;
mod core_table;
mod core_rows;
mod core_reach;
mod call_paths;
mod call_distances;
mod core_fixpoints;
mod core_rounds;
mod call_decide;
mod file_blocks;
mod file_contents_reading;
mod file_reading;
mod file_contents_writing;
mod file_writing;
mod core_report;
mod call_check;
mod call_rewrite;
mod call_generate;
mod call_replay;
mod call_edit_session;
mod call_modal;
mod call_release_windows;
mod call_first_order;
mod shuntberry_fields;
mod shuntberry;

pub use crate::shuntberry::shuntberry_add_step;
pub use crate::shuntberry::shuntberry_check;
pub use crate::shuntberry::shuntberry_decide;
pub use crate::shuntberry::shuntberry_decide_modal;
pub use crate::shuntberry::shuntberry_distances;
pub use crate::shuntberry::shuntberry_generate;
pub use crate::shuntberry::shuntberry_next_open;
pub use crate::shuntberry::shuntberry_open;
pub use crate::shuntberry::shuntberry_read;
pub use crate::shuntberry::shuntberry_remove_step;
pub use crate::shuntberry::shuntberry_replay;
pub use crate::shuntberry::shuntberry_rewrite;
pub use crate::shuntberry::shuntberry_shortest_path;
pub use crate::shuntberry::shuntberry_version;
pub use crate::shuntberry::shuntberry_within;
pub use crate::shuntberry::shuntberry_write;
pub use crate::shuntberry_fields::CheckedFields;
pub use crate::shuntberry_fields::DecisionFields;
pub use crate::shuntberry_fields::FileFields;
pub use crate::shuntberry_fields::MinuteFields;
pub use crate::shuntberry_fields::ModalFields;
pub use crate::shuntberry_fields::ReplayFields;
pub use crate::shuntberry_fields::SessionFields;
pub use crate::shuntberry_fields::SetFields;
pub use crate::shuntberry_fields::ShortestFields;
pub use crate::shuntberry_fields::TableFields;
pub use crate::shuntberry_fields::WithinFields;
