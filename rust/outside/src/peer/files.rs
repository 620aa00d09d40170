//! Files: the calls read and write.

use super::set::{Set, Words};
use super::table::Table;
use super::{HEAD_SETS, MAX_GROUPS, MAX_STATES, STORE_WORDS, WORDS};
use crate::calls::{TableRead, Written};

/// What is added to g in a file's second number.
const ADDED: usize = 32_768;
const BLOCK: usize = 512;
const CONTENT: usize = 508;
const MAX_BLOCKS: usize = 73;
const MAX_SITE: usize = 65_520;

/// Room for the contents of the largest file, and for a whole set past them.
const CONTENTS_ROOM: usize = MAX_BLOCKS * CONTENT + 8 * WORDS;

fn blocks_needed(n: usize, g: usize) -> (usize, usize) {
    let length = 4 + n.div_ceil(8) * (HEAD_SETS + g + n);
    (length, length.div_ceil(CONTENT))
}

/// The sum of (i + 1) times byte i, LANES bytes at a time. A byte counts once in its lane of `sums`, and in `later`
/// once for each chunk behind its own.
fn check_of(block: &[u8], site: usize) -> u16 {
    const LANES: usize = 32;
    let (chunks, rest) = block[..510].as_chunks::<LANES>();
    let mut sums = [0u16; LANES];
    let mut later = [0u16; LANES];
    for chunk in chunks {
        for lane in 0..LANES {
            later[lane] += sums[lane];
            sums[lane] += chunk[lane] as u16;
        }
    }
    let from = LANES * chunks.len();
    let in_lane = |lane: usize| {
        let last = from - LANES + lane + 1;
        (last * sums[lane] as usize - LANES * later[lane] as usize) as u32
    };
    let in_rest = rest.iter().zip(from as u32 + 1..);
    let sum: u32 = (0..LANES).map(in_lane).sum::<u32>()
        + in_rest
            .map(|(&byte, place)| place * byte as u32)
            .sum::<u32>();
    ((site as u32 + sum) % 65_521) as u16
}

fn u16_at(bytes: &[u8], at: usize) -> usize {
    u16::from_le_bytes([bytes[at], bytes[at + 1]]) as usize
}

/// n and g of a file, with its contents joined in `joined`, or the refusal 11 to 18.
fn open(
    input: &[u8],
    site: usize,
    joined: &mut [u8; CONTENTS_ROOM],
) -> Result<(usize, usize), u32> {
    let (blocks, rest) = input.as_chunks::<BLOCK>();
    if input.is_empty() {
        return Ok((0, 0));
    }
    if !rest.is_empty() || blocks.len() > MAX_BLOCKS {
        return Err(11);
    }
    for (k, block) in blocks.iter().enumerate() {
        if u16_at(block, 0) != k {
            return Err(12);
        }
        if u16_at(block, 510) != check_of(block, site) as usize {
            return Err(13);
        }
        joined[CONTENT * k..][..CONTENT].copy_from_slice(&block[2..510]);
    }
    let n = u16_at(joined, 0);
    let second = u16_at(joined, 2);
    if n == 0 || n > MAX_STATES {
        return Err(14);
    }
    if !(ADDED..=ADDED + MAX_GROUPS).contains(&second) {
        return Err(15);
    }
    let g = second - ADDED;
    let (length, needed) = blocks_needed(n, g);
    if blocks.len() != needed {
        return Err(16);
    }
    let width = n.div_ceil(8);
    let past_n = !(0xffu8 >> (8 * width - n));
    if joined[4..length]
        .chunks_exact(width)
        .any(|set| set[width - 1] & past_n != 0)
    {
        return Err(17);
    }
    if joined[length..CONTENT * needed]
        .iter()
        .any(|&byte| byte != 0)
    {
        return Err(18);
    }
    Ok((n, g))
}

/// The set at `at` in the contents of a table of n states.
fn load(joined: &[u8], at: usize, all: Set) -> Words {
    let (words, _) = joined[at..at + 8 * WORDS].as_chunks::<8>();
    let set = Set(std::array::from_fn(|w| u64::from_le_bytes(words[w])));
    set.meet(all).0
}

pub(super) fn read(input: &[u8], site: usize, store: &mut [u64]) -> TableRead {
    let Some(store) = store.first_chunk_mut::<STORE_WORDS>() else {
        return TableRead::refused(10);
    };
    if site > MAX_SITE {
        return TableRead::refused(24);
    }
    let mut joined = [0; CONTENTS_ROOM];
    let (n, g) = match open(input, site, &mut joined) {
        Err(refusal) => return TableRead::refused(refusal),
        Ok(sizes) => sizes,
    };
    let (all, width) = (Set::below(n), n.div_ceil(8));
    let (sets, _) = store.as_chunks_mut::<WORDS>();
    let (groups, rows) = sets.split_at_mut(HEAD_SETS + MAX_GROUPS);
    let (used, unused) = groups.split_at_mut(HEAD_SETS + g);
    let (used_rows, unused_rows) = rows.split_at_mut(n);
    for (i, set) in used.iter_mut().chain(used_rows).enumerate() {
        *set = load(&joined, 4 + width * i, all);
    }
    unused.fill([0; WORDS]);
    unused_rows.fill([0; WORDS]);
    TableRead {
        refusal: 0,
        n: n as u32,
        g: g as u32,
    }
}

pub(super) fn write(store: &[u64], n: usize, g: usize, site: usize, output: &mut [u8]) -> Written {
    if store.len() >= STORE_WORDS && site > MAX_SITE {
        return Written::refused(24);
    }
    let table = match Table::accept(store, n, g) {
        Err(refusal) => return Written::refused(refusal),
        Ok(table) => table,
    };
    // A draft has no blocks.
    let needed = if n == 0 { 0 } else { blocks_needed(n, g).1 };
    let Some(output) = output.get_mut(..BLOCK * needed) else {
        return Written::refused(19);
    };
    let mut joined = [0; CONTENTS_ROOM];
    joined[0..2].copy_from_slice(&(n as u16).to_le_bytes());
    joined[2..4].copy_from_slice(&((ADDED + g) as u16).to_le_bytes());
    // Each set is laid down whole; the bytes of it past its width are 0, and the next set's place.
    let sets = [table.initial.0, table.marked.0, table.resting.0];
    let sets = sets
        .iter()
        .chain(table.groups)
        .chain(&table.rows[..table.n]);
    for (i, set) in sets.enumerate() {
        let at = 4 + n.div_ceil(8) * i;
        for (bytes, word) in joined[at..at + 8 * WORDS].chunks_exact_mut(8).zip(set) {
            bytes.copy_from_slice(&word.to_le_bytes());
        }
    }
    for (k, block) in output.chunks_exact_mut(BLOCK).enumerate() {
        block[0..2].copy_from_slice(&(k as u16).to_le_bytes());
        block[2..510].copy_from_slice(&joined[CONTENT * k..][..CONTENT]);
        let check = check_of(block, site);
        block[510..512].copy_from_slice(&check.to_le_bytes());
    }
    Written {
        refusal: 0,
        length: output.len() as u32,
    }
}
