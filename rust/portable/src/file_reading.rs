// Made by scripts/portable from crates/file_reading/src/lib.rt, which is proved. Change that one.

// The call `read`: a file is looked at whole, ground after ground in their order, and only then put into the lent store (`file_contents_reading`).
//
//   TableSize, read                  n and g of the table that is now in the store, or why the file is refused
//   read_old, read_as                the same of a file of the old form, and of either
//   read_file, read_contents         the same of an input that has bytes, and of contents: each looks at its own grounds
//   join_blocks, check_block         the contents of the blocks joined, each once it is checked; the grounds of one block, on its own 512 bytes

use crate::core_refusals::Refusal;
use crate::core_state_set::MAX_STATES;
use crate::core_table::{MAX_GROUPS, STORE_WORDS, clear};
use crate::file_blocks::{
    BLOCK, CHECK_AT, CONTENT_AT, CONTENT_BYTES, Counts, Form, JOINED_ROOM, MAX_FILE, MAX_SITE,
    Site, added, blocks_for, checksum_of, copy_content, le16_at,
};
use crate::file_contents_reading::{any_content_beyond, fill, non_zero_byte};

// The states and groups of a table, how many.
// kept: beside Counts of file_blocks, whose bounds it lacks: theorems (RoundTripCalls, Accepting) speak of every such answer
#[derive(Clone, Copy, Debug, PartialEq, Eq)]
pub struct TableSize {
    pub n: usize,
    pub g: usize,
}

pub fn read(input: &[u8], site: usize, store: &mut [u64]) -> Result<TableSize, Refusal>
{
    read_as(Form::New, input, site, store)
}

pub fn read_old(input: &[u8], site: usize, store: &mut [u64]) -> Result<TableSize, Refusal>
{
    read_as(Form::Old, input, site, store)
}

// An input of no bytes is an untouched draft.
fn read_as(form: Form, input: &[u8], site: usize, store: &mut [u64]) -> Result<TableSize, Refusal>
{
    if store.len() < STORE_WORDS {
        return Err(Refusal::StoreShort);
    }
    if MAX_SITE < site {
        return Err(Refusal::Site);
    }
    let site = Site { number: site };
    if input.len() == 0 {
        clear(store);
        return Ok(TableSize { n: 0, g: 0 });
    }
    read_file(form, input, site, store)
}

// kept: here and below, a Store is lent to be read; one lent to be written would be a second type, made anew at each call
fn read_file(form: Form, input: &[u8], site: Site, store: &mut [u64]) -> Result<TableSize, Refusal>
{
    if input.len() % BLOCK != 0 {
        return Err(Refusal::InputLength);
    }
    if MAX_FILE < input.len() {
        return Err(Refusal::InputLength);
    }
    let mut joined = [0u8; JOINED_ROOM];
    join_blocks(input, site, &mut joined)?;
    let n = le16_at(&joined, 0);
    let second = le16_at(&joined, 2);
    read_contents(form, &joined, input.len() / BLOCK, n, second, store)
}

// The contents of so many blocks, joined, which say n and a second number. Nothing is put into the store before the last ground has been looked at.
// kept: blocks beside bytes: a set is read by whole words past the last block, so bytes is all of the room
fn read_contents(
    form: Form,
    bytes: &[u8],
    blocks: usize,
    n: usize,
    second: usize,
    store: &mut [u64],
) -> Result<TableSize, Refusal>
{
    if n == 0 {
        return Err(Refusal::States);
    }
    if MAX_STATES < n {
        return Err(Refusal::States);
    }
    let least = added(form);
    if second < least {
        return Err(Refusal::Groups);
    }
    let g = second - least;
    if MAX_GROUPS < g {
        return Err(Refusal::Groups);
    }
    let counts = Counts { n, g };
    let size = counts.content_length(form);
    if blocks != blocks_for(size) {
        return Err(Refusal::BlockCount);
    }
    if any_content_beyond(form, bytes, counts) {
        return Err(Refusal::StrayBit);
    }
    if non_zero_byte(&bytes[size..CONTENT_BYTES * blocks]) {
        return Err(Refusal::Filler);
    }
    fill(form, bytes, counts, store);
    Ok(TableSize { n, g })
}

// ---- blocks

// Refuses by the first block that has a fault. Where none has one, the contents of all blocks stand one behind the other at the front of
// what is lent. A block is copied while its bytes are still near.
fn join_blocks(input: &[u8], site: Site, out: &mut [u8]) -> Result<(), Refusal>
{
    for k in 0..input.len() / BLOCK {
        let a = BLOCK * k;
        let e = a + BLOCK;
        check_block(&input[a..e], site, k)?;
        let at = CONTENT_BYTES * k;
        copy_content(input, a + CONTENT_AT, &mut out[at..]);
    }
    Ok(())
}

// Whether block k is as it should be.
fn check_block(block: &[u8], site: Site, k: usize) -> Result<(), Refusal>
{
    let number = le16_at(block, 0);
    if number != k {
        return Err(Refusal::BlockNumber);
    }
    let check = le16_at(block, CHECK_AT);
    let sum = checksum_of(block, site);
    if check != sum {
        return Err(Refusal::BlockCheck);
    }
    Ok(())
}
