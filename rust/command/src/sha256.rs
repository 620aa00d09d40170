//! SHA-256, as FIPS 180-4 defines it: the sum by which a file and its record are told to belong together.

use std::fmt::Write;

const BLOCK: usize = 64;
/// The message's length in bits, at the end of its last block.
const LENGTH: usize = size_of::<u64>();
const ROUNDS: usize = 64;

/// The first 32 bits of the fractions of the square roots of the first 8 primes.
const START: [u32; 8] = [
    0x6a09e667, 0xbb67ae85, 0x3c6ef372, 0xa54ff53a, 0x510e527f, 0x9b05688c, 0x1f83d9ab, 0x5be0cd19,
];

/// The same of the cube roots of the first 64.
const ADDED: [u32; ROUNDS] = [
    0x428a2f98, 0x71374491, 0xb5c0fbcf, 0xe9b5dba5, 0x3956c25b, 0x59f111f1, 0x923f82a4, 0xab1c5ed5,
    0xd807aa98, 0x12835b01, 0x243185be, 0x550c7dc3, 0x72be5d74, 0x80deb1fe, 0x9bdc06a7, 0xc19bf174,
    0xe49b69c1, 0xefbe4786, 0x0fc19dc6, 0x240ca1cc, 0x2de92c6f, 0x4a7484aa, 0x5cb0a9dc, 0x76f988da,
    0x983e5152, 0xa831c66d, 0xb00327c8, 0xbf597fc7, 0xc6e00bf3, 0xd5a79147, 0x06ca6351, 0x14292967,
    0x27b70a85, 0x2e1b2138, 0x4d2c6dfc, 0x53380d13, 0x650a7354, 0x766a0abb, 0x81c2c92e, 0x92722c85,
    0xa2bfe8a1, 0xa81a664b, 0xc24b8b70, 0xc76c51a3, 0xd192e819, 0xd6990624, 0xf40e3585, 0x106aa070,
    0x19a4c116, 0x1e376c08, 0x2748774c, 0x34b0bcb5, 0x391c0cb3, 0x4ed8aa4a, 0x5b9cca4f, 0x682e6ff3,
    0x748f82ee, 0x78a5636f, 0x84c87814, 0x8cc70208, 0x90befffa, 0xa4506ceb, 0xbef9a3f7, 0xc67178f2,
];

/// The sum of some bytes, as `sha256sum` writes it.
pub fn sha256(bytes: &[u8]) -> String {
    let (blocks, rest) = bytes.as_chunks::<BLOCK>();
    let mut sum = START;
    for block in blocks {
        add(&mut sum, block);
    }
    for block in last_blocks(rest, bytes.len()).as_chunks::<BLOCK>().0 {
        add(&mut sum, block);
    }
    sum.iter().fold(String::new(), |mut digits, word| {
        let _ = write!(digits, "{word:08x}");
        digits
    })
}

/// What is left of a message behind its whole blocks, a one bit, zeros, and the message's length: one block or two.
fn last_blocks(rest: &[u8], length: usize) -> Vec<u8> {
    let mut last = rest.to_vec();
    last.push(0x80);
    let whole = (last.len() + LENGTH).next_multiple_of(BLOCK);
    last.resize(whole - LENGTH, 0);
    last.extend((length as u64 * 8).to_be_bytes());
    last
}

fn add(sum: &mut [u32; 8], block: &[u8; BLOCK]) {
    let schedule = schedule(block);
    let [mut a, mut b, mut c, mut d, mut e, mut f, mut g, mut h] = *sum;
    for (word, added) in schedule.into_iter().zip(ADDED) {
        let choice = (e & f) ^ (!e & g);
        let majority = (a & b) ^ (a & c) ^ (b & c);
        let first = h
            .wrapping_add(e.rotate_right(6) ^ e.rotate_right(11) ^ e.rotate_right(25))
            .wrapping_add(choice)
            .wrapping_add(added)
            .wrapping_add(word);
        let second =
            (a.rotate_right(2) ^ a.rotate_right(13) ^ a.rotate_right(22)).wrapping_add(majority);
        (h, g, f, e) = (g, f, e, d.wrapping_add(first));
        (d, c, b, a) = (c, b, a, first.wrapping_add(second));
    }
    for (word, more) in sum.iter_mut().zip([a, b, c, d, e, f, g, h]) {
        *word = word.wrapping_add(more);
    }
}

fn schedule(block: &[u8; BLOCK]) -> [u32; ROUNDS] {
    let mut words = [0; ROUNDS];
    let (given, _) = block.as_chunks();
    for (word, bytes) in words.iter_mut().zip(given) {
        *word = u32::from_be_bytes(*bytes);
    }
    for i in given.len()..ROUNDS {
        let (early, late) = (words[i - 15], words[i - 2]);
        words[i] = words[i - 16]
            .wrapping_add(early.rotate_right(7) ^ early.rotate_right(18) ^ early >> 3)
            .wrapping_add(words[i - 7])
            .wrapping_add(late.rotate_right(17) ^ late.rotate_right(19) ^ late >> 10);
    }
    words
}
