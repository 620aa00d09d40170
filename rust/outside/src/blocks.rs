//! Block files of both forms, written from the specification's section Files: a dialogue to bytes, and bytes to
//! a dialogue or to the number of a refusal.

use crate::table::{Dialogue, MAX_GROUPS, MAX_STATES, Set, set_where};

pub const BLOCK: usize = 512;
/// Content bytes of a block.
pub const CONTENT: usize = 508;
pub const LARGEST: usize = 37_376;
/// The greatest site number.
pub const MAX_SITE: usize = 65_520;

/// The form of a file. Read and write know the new one; the old one has no resting set.
#[derive(Clone, Copy, Debug, PartialEq, Eq)]
pub enum Form {
    Old,
    New,
}

impl Form {
    /// What is added to g in a file's second number.
    pub fn added(self) -> usize {
        match self {
            Form::Old => 0,
            Form::New => 32_768,
        }
    }

    /// The sets that stand before the groups.
    pub fn head_sets(self) -> usize {
        match self {
            Form::Old => 2,
            Form::New => 3,
        }
    }

    /// The file of a dialogue for a site: no bytes for the draft, which has no states.
    pub fn encode(self, dialogue: &Dialogue, site: usize) -> Vec<u8> {
        if dialogue.n == 0 {
            return Vec::new();
        }
        file_of(&self.contents(dialogue), site)
    }

    /// The length of the file for n states and g groups.
    pub fn file_length(self, n: usize, g: usize) -> usize {
        match n {
            0 => 0,
            _ => self.contents_length(n, g).div_ceil(CONTENT) * BLOCK,
        }
    }

    /// The joined contents of a dialogue's file, without filler.
    pub fn contents(self, dialogue: &Dialogue) -> Vec<u8> {
        let mut bytes = Vec::new();
        bytes.extend(two_bytes(dialogue.n));
        bytes.extend(two_bytes(dialogue.g() + self.added()));
        bytes.extend(set_bytes(&dialogue.initial));
        bytes.extend(set_bytes(&dialogue.marked));
        if self == Form::New {
            bytes.extend(set_bytes(&dialogue.resting));
        }
        for group in &dialogue.groups {
            bytes.extend(set_bytes(group));
        }
        for row in &dialogue.rows {
            bytes.extend(set_bytes(row));
        }
        bytes
    }

    /// The length of the contents for n states and g groups.
    pub fn contents_length(self, n: usize, g: usize) -> usize {
        4 + n.div_ceil(8) * (self.head_sets() + g + n)
    }

    /// The dialogue in a file of a site, or the number of the first ground to refuse it. In the old form none rests.
    pub fn decode(self, input: &[u8], site: usize) -> Result<Dialogue, u32> {
        if input.is_empty() {
            return Ok(Dialogue::of(0, &[], &[], &[], &[]));
        }
        let joined = joined(input, site)?;
        let n = number(&joined[0..2]);
        let second = number(&joined[2..4]);
        if n == 0 || n > MAX_STATES {
            return Err(14);
        }
        if second < self.added() || second > self.added() + MAX_GROUPS {
            return Err(15);
        }
        let g = second - self.added();
        let length = self.contents_length(n, g);
        if input.len() / BLOCK != length.div_ceil(CONTENT) {
            return Err(16);
        }
        let (used, filler) = joined.split_at(length);
        let mut sets = Vec::new();
        for bytes in used[4..].chunks(n.div_ceil(8)) {
            if (n..8 * bytes.len()).any(|s| has_bit(bytes, s)) {
                return Err(17);
            }
            sets.push(set_where(n, |s| has_bit(bytes, s)));
        }
        if filler.iter().any(|&byte| byte != 0) {
            return Err(18);
        }
        let mut sets = sets.into_iter();
        let mut take = |count: usize| -> Vec<Set> { sets.by_ref().take(count).collect() };
        let initial = take(1).remove(0);
        let marked = take(1).remove(0);
        let resting = match self {
            Form::Old => vec![false; n],
            Form::New => take(1).remove(0),
        };
        let groups = take(g);
        let rows = take(n);
        Ok(Dialogue {
            n,
            initial,
            marked,
            resting,
            groups,
            rows,
        })
    }
}

/// The contents of a file's blocks, if there are no more than can be, and each has its number and its check.
fn joined(input: &[u8], site: usize) -> Result<Vec<u8>, u32> {
    if !input.len().is_multiple_of(BLOCK) || input.len() > LARGEST {
        return Err(11);
    }
    let mut joined = Vec::new();
    for (k, block) in input.chunks(BLOCK).enumerate() {
        if number(&block[0..2]) != k {
            return Err(12);
        }
        if number(&block[510..512]) != check(block, site) {
            return Err(13);
        }
        joined.extend(&block[2..510]);
    }
    Ok(joined)
}

/// The blocks of contents that may be damaged, numbered and with their checks.
pub fn file_of(contents: &[u8], site: usize) -> Vec<u8> {
    let mut file = Vec::new();
    for (k, content) in contents.chunks(CONTENT).enumerate() {
        file.extend(block(k, content, site));
    }
    file
}

/// Block k with this content, filled up with 0.
pub fn block(k: usize, content: &[u8], site: usize) -> Vec<u8> {
    let mut block = two_bytes(k).to_vec();
    block.extend(content);
    block.resize(BLOCK - 2, 0);
    let check = check(&block, site);
    block.extend(two_bytes(check));
    block
}

/// The check of a block: the sum of the site and of (i + 1) times byte i, for i from 0 to 509, modulo 65,521.
pub fn check(block: &[u8], site: usize) -> usize {
    let sum: usize = (0..=509).map(|i| (i + 1) * block[i] as usize).sum();
    (site + sum) % 65_521
}

fn has_bit(bytes: &[u8], s: usize) -> bool {
    bytes[s / 8] >> (s % 8) & 1 == 1
}

fn set_bytes(set: &Set) -> Vec<u8> {
    let mut bytes = vec![0; set.len().div_ceil(8)];
    for s in 0..set.len() {
        if set[s] {
            bytes[s / 8] |= 1 << (s % 8);
        }
    }
    bytes
}

/// A two-byte number, low byte first.
pub fn two_bytes(number: usize) -> [u8; 2] {
    [(number % 256) as u8, (number / 256) as u8]
}

fn number(bytes: &[u8]) -> usize {
    bytes[0] as usize + 256 * bytes[1] as usize
}
