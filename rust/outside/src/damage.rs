//! Files that earn refusals: a good file with one kind of damage, whose refusal is mostly known, or
//! with several at once. What is done to a file, and what it earns, is the same in both forms.

use crate::blocks::{self, BLOCK, CONTENT, Form, LARGEST};
use crate::generate::Random;
use crate::table::{Dialogue, MAX_GROUPS, MAX_STATES};

/// A kind of damage. Those that come first here are done first; each leaves the blocks' numbers and
/// checks right unless they are what it damages.
#[derive(Clone, Copy, Debug, PartialEq, Eq, PartialOrd, Ord)]
pub enum Damage {
    /// No state or too many.
    StateCount,
    /// Too many groups; in the new form also a second number that is no file's of that form.
    GroupCount,
    /// Another number of states or groups, but one that a table can have.
    OtherCount,
    StrayBit,
    Filler,
    BlockMissing,
    BlockExtra,
    BlockNumber,
    BlockCheck,
    BlocksExchanged,
    Length,
}

pub const DAMAGES: [Damage; 11] = [
    Damage::StateCount,
    Damage::GroupCount,
    Damage::OtherCount,
    Damage::StrayBit,
    Damage::Filler,
    Damage::BlockMissing,
    Damage::BlockExtra,
    Damage::BlockNumber,
    Damage::BlockCheck,
    Damage::BlocksExchanged,
    Damage::Length,
];

impl Damage {
    /// The refusal that a good file earns by this damage alone, if that depends on nothing else.
    pub fn refusal(self) -> Option<u32> {
        match self {
            Damage::Length => Some(11),
            Damage::BlockNumber | Damage::BlocksExchanged => Some(12),
            Damage::BlockCheck => Some(13),
            Damage::StateCount => Some(14),
            Damage::GroupCount => Some(15),
            Damage::BlockMissing | Damage::BlockExtra => Some(16),
            Damage::StrayBit => Some(17),
            Damage::Filler => Some(18),
            Damage::OtherCount => None,
        }
    }

    /// Whether the file of a dialogue can be damaged in this way.
    pub fn applies_to(self, form: Form, dialogue: &Dialogue) -> bool {
        let length = form.contents_length(dialogue.n, dialogue.g());
        let count = length.div_ceil(CONTENT);
        match self {
            Damage::StrayBit => !dialogue.n.is_multiple_of(8),
            Damage::Filler => !length.is_multiple_of(CONTENT),
            Damage::BlockMissing | Damage::BlocksExchanged => count > 1,
            Damage::BlockExtra => count < LARGEST / BLOCK,
            _ => true,
        }
    }
}

/// The file of a dialogue for a site with some damages, each of which applies to it and is done once.
pub fn damaged(
    form: Form,
    dialogue: &Dialogue,
    site: usize,
    damages: &[Damage],
    random: &mut Random,
) -> Vec<u8> {
    let mut damages = damages.to_vec();
    damages.sort();
    damages.dedup();
    let mut contents = form.contents(dialogue);
    let used = contents.len();
    contents.resize(used.div_ceil(CONTENT) * CONTENT, 0);
    for &damage in &damages {
        damage_contents(damage, form, dialogue, used, &mut contents, random);
    }
    let mut file = blocks::file_of(&contents, site);
    for &damage in &damages {
        damage_file(damage, &mut file, site, random);
    }
    file
}

fn damage_contents(
    damage: Damage,
    form: Form,
    dialogue: &Dialogue,
    used: usize,
    contents: &mut Vec<u8>,
    random: &mut Random,
) {
    let (n, g) = (dialogue.n, dialogue.g());
    let width = n.div_ceil(8);
    match damage {
        Damage::StateCount => {
            let n = match random.below(3) {
                0 => 0,
                1 => MAX_STATES + 1,
                _ => random.within(MAX_STATES + 1, 65_535),
            };
            contents[0..2].copy_from_slice(&blocks::two_bytes(n));
        }
        Damage::GroupCount => {
            let (least, most) = (form.added(), form.added() + MAX_GROUPS);
            let second = match random.below(6) {
                0 if least > 0 => g,
                1 if least > 0 => least - 1,
                2 if least > 0 => random.below(least),
                3 | 4 => most + 1,
                _ => random.within(most + 1, 65_535),
            };
            contents[2..4].copy_from_slice(&blocks::two_bytes(second));
        }
        Damage::OtherCount => {
            let n = random.pick(&[1, n / 2, n - 1, n + 1, MAX_STATES - 1, MAX_STATES]);
            let g = random.pick(&[0, g / 2, g + 1, MAX_GROUPS - 1, MAX_GROUPS]);
            let second = form.added() + g.min(MAX_GROUPS);
            let (at, number) = random.pick(&[(0, n.clamp(1, MAX_STATES)), (2, second)]);
            contents[at..at + 2].copy_from_slice(&blocks::two_bytes(number));
        }
        Damage::StrayBit => {
            let set = match random.below(2) {
                0 => random.below(form.head_sets()),
                _ => random.below(form.head_sets() + g + n),
            };
            let state = random.within(n, 8 * width - 1);
            contents[4 + width * set + state / 8] |= 1 << (state % 8);
        }
        Damage::Filler => {
            let place = match random.below(3) {
                0 => used,
                1 => contents.len() - 1,
                _ => random.within(used, contents.len() - 1),
            };
            contents[place] = random.within(1, 255) as u8;
        }
        Damage::BlockMissing => contents.truncate(contents.len() - CONTENT),
        Damage::BlockExtra => contents.resize(contents.len() + CONTENT, 0),
        _ => {}
    }
}

fn damage_file(damage: Damage, file: &mut Vec<u8>, site: usize, random: &mut Random) {
    let count = file.len() / BLOCK;
    let at = BLOCK * random.below(count);
    match damage {
        Damage::BlockNumber => {
            let number = loop {
                let number = random.pick(&[0, 1, count, 256, 65_535, at / BLOCK + 256]);
                if number != at / BLOCK {
                    break number;
                }
            };
            if random.once_in(2) {
                let block = blocks::block(number, &file[at + 2..at + 510], site);
                file[at..at + BLOCK].copy_from_slice(&block);
            } else {
                file[at..at + 2].copy_from_slice(&blocks::two_bytes(number));
            }
        }
        // One byte of the content or of the check itself.
        Damage::BlockCheck => {
            let place = match random.below(3) {
                0 => random.within(510, 511),
                1 => 509,
                _ => random.within(2, 509),
            };
            file[at + place] ^= random.within(1, 255) as u8;
        }
        Damage::BlocksExchanged if count > 1 => {
            let first = random.below(count - 1);
            let (head, tail) = file.split_at_mut(BLOCK * (first + 1));
            head[BLOCK * first..].swap_with_slice(&mut tail[..BLOCK]);
        }
        Damage::Length => match random.below(6) {
            0 => file.truncate(random.within(1, 511)),
            1 => file.truncate(file.len() - 1),
            2 => file.push(0),
            3 => file.truncate(file.len() - random.within(1, 511)),
            4 => file.resize(LARGEST + 1, 0),
            _ => file.resize(LARGEST + BLOCK, 0),
        },
        _ => {}
    }
}
