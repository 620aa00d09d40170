// Made by scripts/portable from crates/file_contents_writing/src/lib.rt, which is proved. Change that one.

// The contents of a file, from the store to a buffer in which they are joined.
//
//   join_contents, join_sets       the contents; the sets, which stand behind the header
//   place_of                       where a set of the file begins in the store
//   put_set_bytes                  the bytes of a set
//   put_words, put_bytes           those of some words; the lowest of a word
//   write_le16                     a two-byte number, low byte first
//
// What is written is said with the model's `overwrite`: at the front of what was lent, the rest of it untouched.

use crate::core_state_set::WORDS;
use crate::core_table::{GROUPS_AT, HEAD_SETS, ROWS_AT, Store};
use crate::file_blocks::{Counts, Form, HEADER, added};

// kept: store, counts and out apart, here and below: a type of them would be made in one call and taken apart here
pub fn join_contents(store: Store, counts: Counts, out: &mut [u8])
{
    write_le16(counts.n, out);
    write_le16(added(Form::New) + counts.g, &mut out[2..]);
    join_sets(store, counts, &mut out[HEADER..]);
}

fn join_sets(store: Store, counts: Counts, out: &mut [u8])
{
    let width = counts.set_width();
    for k in 0..counts.set_count(Form::New) {
        let a = place_of(counts, k);
        let e = a + WORDS;
        let at = width * k;
        put_set_bytes(&store.words[a..e], width, &mut out[at..]);
    }
}

// Where set k of the file begins in the store.
fn place_of(counts: Counts, k: usize) -> usize
{
    let g = counts.g;
    if k < HEAD_SETS {
        return WORDS * k;
    }
    if k < HEAD_SETS + g {
        return GROUPS_AT + WORDS * (k - HEAD_SETS);
    }
    ROWS_AT + WORDS * (k - (HEAD_SETS + g))
}

// The first `width` bytes of a set: its whole words, and what is left of one.
fn put_set_bytes(set: &[u64], width: usize, out: &mut [u8])
{
    let whole = width / 8;
    put_words(&set[..whole], out);
    let at = 8 * whole;
    if at == width {
        return;
    }
    put_bytes(set[whole], width - at, &mut out[at..]);
}

fn put_words(words: &[u64], out: &mut [u8])
{
    for (v, word) in words.iter().enumerate() {
        let at = 8 * v;
        put_bytes(*word, 8, &mut out[at..]);
    }
}

// The lowest `count` bytes of a word, lowest first.
fn put_bytes(x: u64, count: usize, out: &mut [u8])
{
    out[..count].copy_from_slice(&x.to_le_bytes()[..count]);
}

pub fn write_le16(x: usize, out: &mut [u8])
{
    put_bytes(x as u64, 2, out);
}
