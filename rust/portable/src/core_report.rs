// Made by scripts/portable from crates/core_report/src/lib.rt, which is proved. Change that one.

// What is printed for a file (docs/SPECIFICATION.md, "The program"), put into a lent buffer.
//
//   write_safe, write_unsafe, write_undecided, write_refused
//                   the whole text at the front of the buffer; the answer is its length
//   Report          a text so far, in the buffer that it is put into
//     put_*           puts a piece behind it
//
// Each piece asks for the room that its longest text takes, and says that its text takes no more. All numbers are of 16 bits, as a path's
// entries are, so each takes five bytes at most, and a state with the space before it six.

use crate::core_state_set::{MAX_STATES, StateSet};

// A number and the space before it.
const SPACED: usize = 6;

// The specs' text_room is the same number.
pub const ROOM: usize = 1024 + SPACED * MAX_STATES;

// kept: n, g and count with their bounds, and the room of out, here and below: a type would be made for one text, and taken apart in it
pub fn write_safe(n: usize, g: usize, count: usize, invariant: StateSet, out: &mut [u8]) -> usize
{
    let mut report = Report { out, at: 0 };
    report.put_head(n, g, b"safe", count);
    report.put_invariant_line(invariant);
    report.at
}

// The path has its states and nothing else.
pub fn write_unsafe(n: usize, g: usize, count: usize, path: &[u16], out: &mut [u8]) -> usize
{
    let mut report = Report { out, at: 0 };
    report.put_head(n, g, b"unsafe", count);
    report.put_path_line(path);
    report.at
}

pub fn write_undecided(n: usize, g: usize, count: usize, out: &mut [u8]) -> usize
{
    let mut report = Report { out, at: 0 };
    report.put_head(n, g, b"undecided", count);
    report.at
}

// kept: a number, and not a `Refusal`: the clause is of every byte, and the narrower type would ask more of callers
pub fn write_refused(refusal: u8, out: &mut [u8]) -> usize
{
    let mut report = Report { out, at: 0 };
    report.put_number(b"refused ", usize::from(refusal));
    report.put(b"\n");
    report.at
}

// A text so far: it stands in the buffer up to `at`.
// kept: out with at, as there is no heap; and each piece asks for the room that it takes, so no ghost field can say it for all of them
struct Report<'a> {
    out: &'a mut [u8],
    at: usize,
}

impl<'a> Report<'a> {
    // ---- lines

    // Lines 1 and 2; the word is the verdict's.
    // kept: numbers below number_limit and no u16: they are usize where they come from, and each call would cut them
    fn put_head(&mut self, n: usize, g: usize, word: &[u8], count: usize)
    {
        self.put_states_line(n, g);
        self.put_verdict_line(word, count);
    }

    fn put_states_line(&mut self, n: usize, g: usize)
    {
        self.put_number(b"states ", n);
        self.put_number(b" groups ", g);
        self.put(b"\n");
    }

    fn put_verdict_line(&mut self, word: &[u8], count: usize)
    {
        self.put(word);
        self.put_number(b" refinements ", count);
        self.put(b"\n");
    }

    fn put_invariant_line(&mut self, x: StateSet)
    {
        let states = x.count();
        self.put_number(b"invariant ", states);
        self.put(b":");
        self.put_states_or_none(x, states);
        self.put(b"\n");
    }

    fn put_path_line(&mut self, path: &[u16])
    {
        self.put(b"path");
        self.put_path(path);
        self.put(b"\n");
    }

    // ---- parts of lines

    fn put_states_or_none(&mut self, x: StateSet, count: usize)
    {
        if count == 0 {
            self.put(b" none");
        } else {
            self.put_states(x);
        }
    }

    // The states of x rising, each after a space.
    fn put_states(&mut self, x: StateSet)
    {
        for s in x.states() {
            self.put_spaced(s);
        }
    }

    // The states of the path, each after a space.
    fn put_path(&mut self, path: &[u16])
    {
        for s in path {
            self.put_spaced(usize::from(*s));
        }
    }

    fn put_spaced(&mut self, x: usize)
    {
        self.put_number(b" ", x);
    }

    // A text and a number.
    fn put_number(&mut self, label: &[u8], n: usize)
    {
        self.put(label);
        self.put_decimal(n);
    }

    // The digits of n: the last one after those of n / 10.
    // kept: by hand: each piece says its text and its room, and `write!` is no plainer (1,677 instructions for 350, unsafe with a path of 4 states)
    fn put_decimal(&mut self, n: usize)
    {
        if n < 10 {
            self.put_digit(n);
        } else {
            self.put_decimal(n / 10);
            self.put_digit(n % 10);
        }
    }

    fn put_digit(&mut self, d: usize)
    {
        self.out[self.at] = b'0' + d as u8;
        self.at += 1;
    }

    // kept: byte by byte, and no `copy_from_slice`: with it the archive for C needs `memmove`, besides `memcpy` and `memset`
    fn put(&mut self, text: &[u8])
    {
        for byte in text {
            self.out[self.at] = *byte;
            self.at += 1;
        }
    }
}
