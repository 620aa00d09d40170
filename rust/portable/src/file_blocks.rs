// Made by scripts/portable from crates/file_blocks/src/lib.rt, which is proved. Change that one.

// What reading and writing a file share (the specification, "Files").
//
//   BLOCK, CONTENT_BYTES                     a block's bytes, and those of its content
//   CONTENT_AT, CHECK_AT                     where its content begins, and its check
//   HEADER                                   the content bytes of n and of the second number, before the sets
//   MAX_FILE, JOINED_ROOM                    the length of the largest file, and the bytes that its contents take, joined
//   Form, head_sets, added                   the form of a file; its sets before the groups, how many; what its second number has more than g
//   le16_at                                  the number whose two bytes stand at a place, low byte first
//   copy_content                             the content of a block, copied
//   MODULUS, MAX_SITE, Site                  the prime of the checksum; the greatest site number; the number of a site
//   checksum_of                              the checksum of a block for a site (01: its check)
//   whole_chunks                             the part of its sum that is taken a chunk at a time, LANES bytes side by side
//   add_lanes, add_bytes                     a row of lanes, or a chunk of bytes, added to a row of lanes
//   lanes_sum                                the weighted sum that two rows stand for
//   Counts                                   how many states and groups a table has
//     set_width, set_count                   the bytes of a set, and how many sets its file has
//     content_length                         the bytes of its contents (L)
//   blocks_for                               the blocks that hold so many bytes

use crate::core_state_set::MAX_STATES;
use crate::core_table::{HEAD_SETS, MAX_GROUPS};

pub const BLOCK: usize = 512;

pub const CONTENT_BYTES: usize = 508;

pub const CONTENT_AT: usize = 2;

pub const CHECK_AT: usize = 510;

pub const HEADER: usize = 4;

// The length of the largest file, of either form.
pub const MAX_FILE: usize = BLOCK
    * ((HEADER + (MAX_STATES + 7) / 8 * (HEAD_SETS + MAX_GROUPS + MAX_STATES) + CONTENT_BYTES - 1)
        / CONTENT_BYTES);

// The content bytes of the largest file.
pub const JOINED_ROOM: usize = CONTENT_BYTES * (MAX_FILE / BLOCK);

// The sets before the groups of a file of the old form: initial and marked.
const OLD_HEAD_SETS: usize = 2;

// What the new form adds to g in the second number of a file.
const ADDED_TO_G: usize = 32768;

// The prime of the check.
const MODULUS: u32 = 65521;

pub const MAX_SITE: usize = MODULUS as usize - 1;

// The number of a site.
// kept: no TryFrom: both callers test the number among their other grounds, in order, and its error would be made to be dropped
#[derive(Clone, Copy)]
pub struct Site {
    pub number: usize,
}

// The old form has no resting states.
#[derive(Clone, Copy, Debug, PartialEq, Eq)]
pub enum Form {
    Old,
    New,
}

pub fn head_sets(form: Form) -> usize
{
    match form {
        Form::Old => OLD_HEAD_SETS,
        Form::New => HEAD_SETS,
    }
}

pub fn added(form: Form) -> usize
{
    match form {
        Form::Old => 0,
        Form::New => ADDED_TO_G,
    }
}

pub fn le16_at(bytes: &[u8], i: usize) -> usize
{
    usize::from(u16::from_le_bytes([bytes[i], bytes[i + 1]]))
}

// The content of a block, from byte `from` of some bytes on, to the front of what is lent.
pub fn copy_content(bytes: &[u8], from: usize, out: &mut [u8])
{
    out[..CONTENT_BYTES].copy_from_slice(&bytes[from..from + CONTENT_BYTES]);
}

// The bytes of a chunk, which are summed side by side. With fewer lanes the compiler writes the loops over them out, and then makes worse vectors.
const LANES: usize = 64;

// The whole chunks before the check. They are so few that no lane outgrows 16 bits.
const CHUNKS: usize = CHECK_AT / LANES;

// kept: one function of both would be generic in what converts into u16, its contract longer than the two.
fn add_lanes(sums: &[u16; LANES], turns: &mut [u16; LANES])
{
    for (l, turn) in turns.iter_mut().enumerate() {
        *turn += sums[l];
    }
}

fn add_bytes(block: &[u8], from: usize, sums: &mut [u16; LANES])
{
    for (l, sum) in sums.iter_mut().enumerate() {
        *sum += u16::from(block[from + l]);
    }
}

// The weighted sum that two rows stand for: a byte of `sums` counts as in the first chunk, and each turn as a chunk more.
fn lanes_sum(sums: &[u16; LANES], turns: &[u16; LANES]) -> u32
{
    let mut sum: u32 = 0;
    for (l, byte_sum) in sums.iter().enumerate() {
        sum += LANES as u32 * u32::from(turns[l]) + (l as u32 + 1) * u32::from(*byte_sum);
    }
    sum
}

// The weighted sum of the whole chunks, from the last to the first: a byte counts once in its lane of `sums`, and in `turns` once for each chunk
// before its own.
fn whole_chunks(block: &[u8]) -> u32
{
    let mut sums = [0u16; LANES];
    let mut turns = [0u16; LANES];
    // kept: by place, as the weights of the contract go; `chunks_exact(LANES).rev()` is no plainer
    for k in (0..CHUNKS).rev() {
        add_lanes(&sums, &mut turns);
        add_bytes(block, LANES * k, &mut sums);
    }
    lanes_sum(&sums, &turns)
}

// The sum starts from the site and the whole chunks. It stays below 2^32, so it is reduced once, at the end.
pub fn checksum_of(block: &[u8], site: Site) -> usize
{
    let mut sum: u32 = site.number as u32 + whole_chunks(block);
    // kept: `block[..CHECK_AT].iter().enumerate().skip(LANES * CHUNKS)` names each byte, and is no plainer.
    for i in LANES * CHUNKS..CHECK_AT {
        sum += (i as u32 + 1) * u32::from(block[i]);
    }
    (sum % MODULUS) as usize
}

// How many states and groups a table has: no more than the store has room for.
#[derive(Clone, Copy)]
pub struct Counts {
    pub n: usize,
    pub g: usize,
}

impl Counts {
    pub fn set_width(self) -> usize
    {
        (self.n + 7) / 8
    }

    pub fn set_count(self, form: Form) -> usize
    {
        head_sets(form) + self.g + self.n
    }

    pub fn content_length(self, form: Form) -> usize
    {
        HEADER + self.set_width() * self.set_count(form)
    }
}

pub fn blocks_for(l: usize) -> usize
{
    (l + CONTENT_BYTES - 1) / CONTENT_BYTES
}
