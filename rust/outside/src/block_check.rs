//! What a block's check is good for, through read: a block with one byte changed, or with two unequal
//! bytes exchanged, is never read, at every site. The blocks of a file are taken in order, so a damaged block behind
//! intact ones earns 12 where its number has changed, and 13 everywhere else.

use crate::blocks::{self, BLOCK, CONTENT, MAX_SITE};
use crate::calls::{Calls, TableRead};
use crate::examine::Outcome;
use crate::generate::Random;
use crate::table::STORE_WORDS;

/// The places of the exchange that a sum modulo 65,536 would not see, with bytes 128 apart.
const APART: (usize, usize) = (255, 511);

// tries: Intact.Detects.one_byte, Intact.Detects.exchange, Intact.Block, Blocks.block_grounds
// tries: Intact.Detects.intact_read, Intact.Detects.damaged_read
/// Every change of one byte and every exchange of two, in blocks with random contents.
pub fn block_checks(libraries: &[&dyn Calls], random: &mut Random) -> Outcome {
    for (number, site) in [(0, 0), (1, random.within(1, MAX_SITE - 1)), (3, MAX_SITE)] {
        let file = random_file(number, site, random);
        for library in libraries {
            let read = Read {
                library: *library,
                site,
            };
            read.intact(&file)?;
            every_change(&read, &file, number)?;
            every_exchange(&read, &file, number)?;
        }
    }
    let file = apart_by_128(random);
    for library in libraries {
        let read = Read {
            library: *library,
            site: 0,
        };
        exchange(&read, &mut file.clone(), &file, 0, APART)?;
    }
    Ok(())
}

/// Intact blocks up to and with this number. No table need stand in them: that is looked at later.
fn random_file(number: usize, site: usize, random: &mut Random) -> Vec<u8> {
    (0..=number)
        .flat_map(|k| blocks::block(k, &random.bytes(CONTENT), site))
        .collect()
}

/// An intact block whose bytes at the two places are 128 apart.
fn apart_by_128(random: &mut Random) -> Vec<u8> {
    loop {
        let block = random_file(0, 0, random);
        if block[APART.0].abs_diff(block[APART.1]) == 128 {
            return block;
        }
    }
}

fn every_change(read: &Read, file: &[u8], number: usize) -> Outcome {
    let mut damaged = file.to_vec();
    for place in 0..BLOCK {
        let at = number * BLOCK + place;
        for byte in 0..=255 {
            if byte != file[at] {
                damaged[at] = byte;
                read.refused(&damaged, file, number).map_err(|fault| {
                    format!("{fault} with byte {place} of block {number} changed to {byte}")
                })?;
            }
        }
        damaged[at] = file[at];
    }
    Ok(())
}

fn every_exchange(read: &Read, file: &[u8], number: usize) -> Outcome {
    let mut damaged = file.to_vec();
    for place in 0..BLOCK {
        for other in place + 1..BLOCK {
            exchange(read, &mut damaged, file, number, (place, other))?;
        }
    }
    Ok(())
}

/// The bytes at two places exchanged, if they are unequal, and put back.
fn exchange(
    read: &Read,
    damaged: &mut [u8],
    file: &[u8],
    number: usize,
    (place, other): (usize, usize),
) -> Outcome {
    let (at, to) = (number * BLOCK + place, number * BLOCK + other);
    if file[at] == file[to] {
        return Ok(());
    }
    damaged.swap(at, to);
    let outcome = read.refused(damaged, file, number);
    damaged.swap(at, to);
    outcome.map_err(|fault| {
        format!("{fault} with bytes {place} and {other} of block {number} exchanged")
    })
}

/// Read of one library at one site.
struct Read<'l> {
    library: &'l dyn Calls,
    site: usize,
}

impl Read<'_> {
    /// The file that is to be damaged is refused for no block.
    fn intact(&self, file: &[u8]) -> Outcome {
        let refusal = self
            .library
            .read(file, self.site, &mut [0; STORE_WORDS])
            .refusal;
        if refusal == 12 || refusal == 13 {
            return Err(format!(
                "{}'s read refused intact blocks",
                self.library.name()
            ));
        }
        Ok(())
    }

    /// The file is refused for its last block, by number or by check, and the store is as it was.
    fn refused(&self, damaged: &[u8], file: &[u8], number: usize) -> Outcome {
        let held = number * BLOCK..number * BLOCK + 2;
        let expected = if damaged[held.clone()] == file[held] {
            13
        } else {
            12
        };
        let mut store = [u64::MAX; STORE_WORDS];
        let answer = self.library.read(damaged, self.site, &mut store);
        if answer != TableRead::refused(expected) {
            return Err(format!(
                "{}'s read answered {answer:?}, expected {expected}",
                self.library.name()
            ));
        }
        if store != [u64::MAX; STORE_WORDS] {
            return Err(format!("{}'s read touched the store", self.library.name()));
        }
        Ok(())
    }
}
