// Made by scripts/portable from crates/file_writing/src/lib.rt, which is proved. Change that one.

// The call `write`: the file of a table, from the store to the lent output.
//
//   write                          the file at the front of the output and its length, or why it is refused
//   write_file                     the file: the contents joined (`file_contents_writing`), then its blocks
//   write_blocks, write_block      the first so many blocks; one block: its number, its content, its check
//
// What is written is said with the model's `overwrite`: at the front of what was lent, the rest of it untouched.

use crate::core_refusals::Refusal;
use crate::core_table::{STORE_WORDS, Store, accept};
use crate::file_blocks::{
    BLOCK, CHECK_AT, CONTENT_AT, CONTENT_BYTES, Counts, Form, JOINED_ROOM, MAX_SITE, Site,
    blocks_for, checksum_of, copy_content,
};
use crate::file_contents_writing::{join_contents, write_le16};

// The answer is the length of the file. Nothing is written before the last ground of refusal has been tested. A draft is a file of no bytes, for which no output is too short.
pub fn write(
    store: &[u64],
    n: usize,
    g: usize,
    site: usize,
    output: &mut [u8],
) -> Result<usize, Refusal>
{
    if store.len() < STORE_WORDS {
        return Err(Refusal::StoreShort);
    }
    if MAX_SITE < site {
        return Err(Refusal::Site);
    }
    let site = Site { number: site };
    let store = accept(store, n, g)?;
    if n == 0 {
        return Ok(0);
    }
    let counts = Counts { n, g };
    let l = counts.content_length(Form::New);
    let blocks = blocks_for(l);
    let size = BLOCK * blocks;
    if output.len() < size {
        return Err(Refusal::OutputShort);
    }
    write_file(store, counts, site, blocks, output);
    Ok(size)
}

// The contents are joined first: so each set is taken apart once, by words, wherever the edges of blocks cut it.
fn write_file(store: Store, counts: Counts, site: Site, blocks: usize, out: &mut [u8])
{
    let mut bytes = [0u8; JOINED_ROOM];
    join_contents(store, counts, &mut bytes);
    write_blocks(&bytes, site, blocks, out);
}

// ---- blocks

// The number of a block has two bytes.
// kept: blocks by number: bytes and out are both cut by it
fn write_blocks(bytes: &[u8], site: Site, blocks: usize, out: &mut [u8])
{
    for k in 0..blocks {
        let at = BLOCK * k;
        write_block(bytes, site, k, &mut out[at..]);
    }
}

fn write_block(bytes: &[u8], site: Site, k: usize, out: &mut [u8])
{
    write_le16(k, out);
    copy_content(bytes, CONTENT_BYTES * k, &mut out[CONTENT_AT..]);
    let check = checksum_of(out, site);
    write_le16(check, &mut out[CHECK_AT..]);
}
