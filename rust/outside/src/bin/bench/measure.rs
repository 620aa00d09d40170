//! How a row is measured.

use std::hint::black_box;

use crate::rows::{Buffers, Case, Library, Row, Side};

/// The least time that a measurement takes, in nanoseconds.
const LEAST: f64 = 1e6;

/// Three values that are found in sorted ones: 80 % lie between the first and the last.
#[derive(Clone, Copy)]
pub struct Spread {
    pub low: f64,
    pub middle: f64,
    pub high: f64,
}

impl Spread {
    pub fn of(mut values: Vec<f64>) -> Spread {
        values.sort_by(f64::total_cmp);
        let at = |part: f64| values[((values.len() - 1) as f64 * part).round() as usize];
        Spread {
            low: at(0.1),
            middle: at(0.5),
            high: at(0.9),
        }
    }
}

/// The figures of a row; times in microseconds for one call.
pub struct Figures {
    pub library: f64,
    /// The peer, or what else the row is measured beside.
    pub beside: f64,
    pub ratio: Spread,
    /// The bytes that have to be touched, what that takes, and the library's ratio to it.
    pub bytes: usize,
    pub limit: f64,
    pub above: Spread,
}

/// Measures a row, once both sides are seen to answer the same.
pub fn measure(sides: [Library; 2], row: &Row, repetitions: usize) -> Result<Figures, String> {
    let sides = row.sides(sides);
    for case in &row.cases {
        agree(sides, row, case)?;
    }
    let mut buffers = Buffers::new();
    let mut touch = Touch::new(row);
    let mut time = |which: usize, rounds: usize| {
        let start = processor_time();
        for _ in 0..rounds {
            match which {
                0 | 1 => row.run(sides[which], &mut buffers),
                _ => touch.run(row.calls()),
            }
        }
        (processor_time() - start) / rounds as f64
    };

    let rounds = [0, 1, 2].map(|which| (LEAST / time(which, 3).max(1.0)).ceil() as usize);
    let mut times = [const { Vec::new() }; 3];
    for repetition in 0..repetitions {
        for place in 0..3 {
            let which = (repetition + place) % 3;
            times[which].push(time(which, rounds[which]));
        }
    }
    let per_call =
        |which: usize| Spread::of(times[which].clone()).middle / row.calls() as f64 / 1000.0;
    let ratio = |which: usize| {
        let pairs = times[0].iter().zip(&times[which]);
        Spread::of(pairs.map(|(subject, other)| subject / other).collect())
    };
    Ok(Figures {
        library: per_call(0),
        beside: per_call(1),
        ratio: ratio(1),
        bytes: touch.read.len() + touch.written.len(),
        limit: per_call(2),
        above: ratio(2),
    })
}

/// That both answer the same, with the same in their buffers.
fn agree(sides: [Side; 2], row: &Row, case: &Case) -> Result<(), String> {
    let [ours, theirs] = sides.map(|(call, library)| {
        let mut buffers = Buffers::new();
        (call.answer(library, case, &mut buffers), buffers)
    });
    if ours == theirs {
        return Ok(());
    }
    let (ours, theirs) = (ours.0, theirs.0);
    Err(format!(
        "{}: answers or buffers differ: {ours:?}, and beside it {theirs:?}",
        row.name()
    ))
}

/// The limit: as many bytes as a call has to read and to write, copied, and what is left of either read or filled.
struct Touch {
    read: Lines,
    written: Lines,
}

/// Bytes that begin with a line of the cache.
struct Lines {
    bytes: Vec<u8>,
    from: usize,
}

impl Lines {
    const LINE: usize = 64;

    fn new(length: usize) -> Lines {
        let bytes = vec![1; length + Lines::LINE];
        let from = bytes.as_ptr().align_offset(Lines::LINE);
        let mut lines = Lines { bytes, from };
        lines.bytes.truncate(from + length);
        lines
    }

    fn len(&self) -> usize {
        self.bytes.len() - self.from
    }
}

impl Touch {
    fn new(row: &Row) -> Touch {
        let (read, written) = row.call.bytes(&row.cases[0]);
        Touch {
            read: Lines::new(read),
            written: Lines::new(written),
        }
    }

    fn run(&mut self, times: usize) {
        for _ in 0..times {
            let read = black_box(&self.read.bytes[self.read.from..]);
            let written = black_box(&mut self.written.bytes[self.written.from..]);
            let both = read.len().min(written.len());
            let (copied, filled) = written.split_at_mut(both);
            copied.copy_from_slice(&read[..both]);
            filled.fill(0);
            black_box(all_bits(&read[both..]));
            black_box(&self.written.bytes);
        }
    }
}

/// The union of all lines.
fn all_bits(bytes: &[u8]) -> [u8; Lines::LINE] {
    let (lines, _) = bytes.as_chunks::<{ Lines::LINE }>();
    let mut all = [0; Lines::LINE];
    for line in lines {
        for place in 0..Lines::LINE {
            all[place] |= line[place];
        }
    }
    all
}

// ---- The clock

#[repr(C)]
struct Timespec {
    seconds: i64,
    nanoseconds: i64,
}

unsafe extern "C" {
    fn clock_gettime(clock: i32, time: *mut Timespec) -> i32;
}

const THREAD_CPUTIME: i32 = 3;

/// The nanoseconds that this thread has had of a processor: time in which others ran is not in them.
fn processor_time() -> f64 {
    let mut time = Timespec {
        seconds: 0,
        nanoseconds: 0,
    };
    // SAFETY: the pointer is to a `timespec` of x86-64 Linux, the only system that the library is compiled for.
    let failed = unsafe { clock_gettime(THREAD_CPUTIME, &mut time) };
    assert_eq!(failed, 0, "the thread's clock can be read");
    time.seconds as f64 * 1e9 + time.nanoseconds as f64
}
