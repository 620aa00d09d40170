//! Loads: the call generate.

use super::{HEAD_SETS, MAX_GROUPS, MAX_STATES, STORE_WORDS, WORDS};

const MAX_FAN_OUT: usize = 16;
const SHORT_LAG: usize = 24;
const LONG_LAG: usize = 55;
const INCREMENT: u32 = 2_654_435_769;
/// As many numbers as the largest load takes, and a whole turn past them.
const NUMBERS: usize = LONG_LAG + MAX_STATES * MAX_FAN_OUT + SHORT_LAG;

/// The first numbers of a seed, at least `count` of them, SHORT_LAG at a time.
fn put_numbers(seed: u32, count: usize, numbers: &mut [u32; NUMBERS]) {
    for (k, number) in (0..).zip(&mut numbers[..LONG_LAG]) {
        *number = seed.wrapping_add(INCREMENT.wrapping_mul(k));
    }
    for at in (LONG_LAG..count).step_by(SHORT_LAG) {
        let (made, next) = numbers.split_at_mut(at);
        let (near, far) = (&made[at - SHORT_LAG..], &made[at - LONG_LAG..]);
        for i in 0..SHORT_LAG {
            next[i] = near[i].wrapping_add(far[i]);
        }
    }
}

/// Remainders by one divisor, without a division for each (Lemire's).
struct Divisor {
    n: u64,
    inverse: u64,
}

impl Divisor {
    fn new(n: usize) -> Divisor {
        let n = n as u64;
        Divisor {
            n,
            inverse: (u64::MAX / n).wrapping_add(1),
        }
    }

    fn remainder(&self, x: u32) -> usize {
        let part = self.inverse.wrapping_mul(x.into());
        ((u128::from(part) * u128::from(self.n)) >> 64) as usize
    }
}

/// The table of a seed, in a store of zeros.
fn put_load(seed: u32, n: usize, fan_out: usize, store: &mut [u64; STORE_WORDS]) {
    let mut numbers = [0; NUMBERS];
    put_numbers(seed, LONG_LAG + n * fan_out, &mut numbers);
    let (sets, _) = store.as_chunks_mut::<WORDS>();
    sets[0][0] = 1;
    sets[1][(n - 1) / 64] = 1 << ((n - 1) % 64);
    if fan_out == 0 {
        return;
    }
    let divisor = Divisor::new(n);
    let rows = sets[HEAD_SETS + MAX_GROUPS..][..n].iter_mut();
    for (row, drawn) in rows.zip(numbers[LONG_LAG..].chunks_exact(fan_out)) {
        for &number in drawn {
            let state = divisor.remainder(number);
            row[state / 64] |= 1 << (state % 64);
        }
    }
}

pub(super) fn generate(seed: u32, n: usize, fan_out: usize, store: &mut [u64]) -> u32 {
    let Some(store) = store.first_chunk_mut::<STORE_WORDS>() else {
        return 10;
    };
    if n == 0 || n > MAX_STATES {
        return 14;
    }
    if fan_out > MAX_FAN_OUT {
        return 22;
    }
    store.fill(0);
    put_load(seed, n, fan_out, store);
    0
}
