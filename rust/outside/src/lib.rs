//! Implementations of the specification (docs/SPECIFICATION.md) that share
//! nothing with the proved library, to test it from outside and to measure it against.
//!
//! The tests hold a library (`calls`) to what `expected` says. That rests on plain implementations,
//! each written from the specification's text and without use of the others:
//!
//! - `rounds`: the rounds and backward elimination, as the specification writes them, on lists of booleans;
//! - `search`: a depth-first search for the verdict, a breadth-first one for the smallest path,
//!   relaxation for the distances, and all sequences of states in order, for small tables;
//! - `blocks`: block files of both forms, to and from bytes;
//! - `accept`: refusals of a store and of the other arguments, in order;
//! - `logs`: pump logs, walked as the text says, drawn at random, and the tests of the call replay;
//! - `sessions`: lists of edits, with a fresh search after each, and the tests of an edit session;
//! - `modal`: the choices between certain and possible steps, and the tests of the call decide modal.
//!
//! `peer` is an optimised implementation of the calls on sets of words: what the library is
//! measured against, and a library that the tests themselves can be tested with. `portable` is the library's source by rustc.
//!
//! `windows` is the call next open minute by itself: what is expected of it, and its tests.
//!
//! `table` is what all of them speak of, `named` the specification's tables with their figures typed in,
//! `generate` makes tables at random, `families` those to measure on, `damage` files that earn refusals,
//! `buffer` lent buffers with guards, and `examine` is the tests; `block_check` are those of damaged
//! blocks, `regroup` those of groups put another way, `rewriting` those of old files.

pub mod accept;
pub mod block_check;
pub mod blocks;
pub mod buffer;
pub mod calls;
pub mod damage;
pub mod examine;
pub mod expected;
pub mod families;
pub mod generate;
pub mod logs;
pub mod modal;
pub mod named;
pub mod peer;
#[cfg(feature = "beside")]
pub mod portable;
pub mod regroup;
pub mod rewriting;
pub mod rounds;
pub mod search;
pub mod sessions;
pub mod table;
pub mod windows;
