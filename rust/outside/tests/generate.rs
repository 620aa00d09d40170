//! The call generate, by its export for C, by the wrapper and by the peer, held to a generator written another way
//! from the specification: a ring of 55 numbers, and the table as lists of booleans.
#![cfg(feature = "library")]

use shuntberry_outside::blocks::Form;
use shuntberry_outside::buffer::Lent;
use shuntberry_outside::calls::{Calls, Linked, Wrapped};
use shuntberry_outside::generate::Random;
use shuntberry_outside::peer::{Looks, Peer};
use shuntberry_outside::table::{Dialogue, MAX_STATES, STORE_WORDS, set_where};

const MAX_FAN_OUT: usize = 16;

/// The numbers from the 56th on: the ring holds the last 55, and its head is the oldest of them.
struct Numbers {
    ring: [u64; 55],
    head: usize,
}

impl Numbers {
    fn new(seed: u32) -> Numbers {
        let mut ring = [0; 55];
        let mut number = u64::from(seed);
        for cell in &mut ring {
            *cell = number;
            number = (number + 2_654_435_769) % (1 << 32);
        }
        Numbers { ring, head: 0 }
    }
}

impl Iterator for Numbers {
    type Item = u64;

    fn next(&mut self) -> Option<u64> {
        let back_24 = self.ring[(self.head + 55 - 24) % 55];
        let number = (self.ring[self.head] + back_24) % (1 << 32);
        self.ring[self.head] = number;
        self.head = (self.head + 1) % 55;
        Some(number)
    }
}

fn load(seed: u32, n: usize, fan_out: usize) -> Dialogue {
    let mut numbers = Numbers::new(seed);
    let mut row = || {
        let drawn: Vec<usize> = numbers
            .by_ref()
            .take(fan_out)
            .map(|number| (number % n as u64) as usize)
            .collect();
        set_where(n, |state| drawn.contains(&state))
    };
    Dialogue {
        n,
        initial: set_where(n, |state| state == 0),
        marked: set_where(n, |state| state == n - 1),
        resting: vec![false; n],
        groups: vec![],
        rows: (0..n).map(|_| row()).collect(),
    }
}

/// What the call returns, and the words that it puts at the front of the store.
fn expected(seed: u32, n: usize, fan_out: usize, room: usize) -> (u32, Vec<u64>) {
    if room < STORE_WORDS {
        (10, vec![])
    } else if n == 0 || n > MAX_STATES {
        (14, vec![])
    } else if fan_out > MAX_FAN_OUT {
        (22, vec![])
    } else {
        (0, load(seed, n, fan_out).to_store())
    }
}

/// Each library, on a store of random words between guards: the answer, every word of the store and the guards.
fn examine(seed: u32, n: usize, fan_out: usize, room: usize, random: &mut Random) {
    let (refusal, front) = expected(seed, n, fan_out, room);
    let old = random.words(room);
    let libraries: [&dyn Calls; 3] = [&Linked, &Wrapped, &Peer(Looks::New)];
    for library in libraries {
        let name = library.name();
        let what = format!("{name}'s generate({seed}, {n}, {fan_out}) into {room} words");
        let mut store = Lent::new(&old);
        let answer = library.generate(seed, n, fan_out, store.mutable());
        assert_eq!(answer, refusal, "{what}");
        store.holds(&what, &front).unwrap();
    }
}

/// The other calls on a generated store: write gives the file, and decide and shortest path accept it.
fn accepted_by_all(seed: u32, n: usize, fan_out: usize) {
    let mut store = [u64::MAX; STORE_WORDS];
    shuntberry::generate(seed, n, fan_out, &mut store).unwrap();
    let file = Form::New.encode(&load(seed, n, fan_out), 0);
    let mut output = vec![0; file.len()];
    assert_eq!(
        shuntberry::write(&store, n, 0, 0, &mut output),
        Ok(&file[..])
    );
    let mut path = [0; shuntberry::PATH_PLACES];
    for allowance in [0, 1, shuntberry::MAX_ALLOWANCE] {
        assert!(shuntberry::decide(&store, n, 0, allowance, &mut path).is_ok());
    }
    shuntberry::shortest_path(&store, n, 0, &mut path).unwrap();
}

const SEEDS: [u32; 4] = [0, 1, u32::MAX, 12_345];

#[test]
fn the_specifications_numbers() {
    let numbers: Vec<u64> = Numbers::new(12_345).take(2).collect();
    assert_eq!(numbers, [683_154_905, 1_697_059_147]);
}

// tries: Load.numbers, call_generate::put_sums, Load.successors, Load.load_from, Figures.Figures
#[test]
fn every_fan_out_at_the_edges_of_n() {
    let mut random = Random::new(1);
    let mut seeds = SEEDS.to_vec();
    seeds.extend((0..4).map(|_| random.word() as u32));
    for seed in seeds {
        for n in [0, 1, 2, MAX_STATES - 1, MAX_STATES, MAX_STATES + 1] {
            for fan_out in 0..=17 {
                let room = STORE_WORDS + random.pick(&[0, 0, 1, 7]);
                examine(seed, n, fan_out, room, &mut random);
            }
        }
    }
}

// tries: Load.generate_grounds, Loads.refusal
#[test]
fn the_stores_length() {
    let mut random = Random::new(2);
    for room in [0, 1, STORE_WORDS - 1, STORE_WORDS, STORE_WORDS + 1] {
        for n in [0, 1, MAX_STATES, MAX_STATES + 1, usize::MAX] {
            for fan_out in [0, 16, 17, usize::MAX] {
                examine(7, n, fan_out, room, &mut random);
            }
        }
    }
}

// tries: Load.generate_buffer, Loads.past
#[test]
fn random_loads() {
    let mut random = Random::new(3);
    for _ in 0..3_000 {
        let seed = random.word() as u32;
        let n = random.within(1, MAX_STATES);
        let fan_out = random.within(0, MAX_FAN_OUT);
        examine(seed, n, fan_out, STORE_WORDS + random.below(3), &mut random);
    }
}

// tries: Loads.accepted
#[test]
fn every_call_accepts_a_load() {
    let mut random = Random::new(4);
    for seed in SEEDS {
        for n in [1, 2, 61, MAX_STATES - 1, MAX_STATES] {
            for fan_out in [0, 1, 2, 16] {
                accepted_by_all(seed, n, fan_out);
            }
        }
    }
    for _ in 0..500 {
        let (n, fan_out) = (random.within(1, MAX_STATES), random.within(0, MAX_FAN_OUT));
        accepted_by_all(random.word() as u32, n, fan_out);
    }
}
