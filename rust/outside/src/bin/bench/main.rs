//! The benchmark: the library's calls beside the optimised peer, in one run.
//!
//!     bench [--peer] [--repetitions R] [--only WORDS]..   the tables of docs/PERFORMANCE.md
//!     bench --portable [..]                               the library's source by rustc beside the archive (feature `beside`)
//!     bench --rows [..]                                   a line for each call and family
//!     bench --runs N [..]                                 nothing is measured: each row N times, for a profiler
//!
//! In each repetition the library, the peer and the limit are measured in turn, in changing order, in the processor
//! time of the thread; a ratio is of two times of one repetition. In brackets stands the range that holds 80 % of the
//! ratios. Some calls are measured a second time beside others that answer the same: decide beside the plain peer,
//! as tables grow, decide modal beside two calls of decide, each edit of a session beside opening the table again. `--peer` measures the peer
//! against itself, which shows the noise; `--only` takes the rows that have the words in their call and family, as in
//! 'decide | fan-out 2', and may be said again.

mod edits;
mod measure;
mod rows;
mod tables;

use std::process::ExitCode;

use measure::measure;
use rows::{Buffers, Library, PEER, Row, SEED};

const REPETITIONS: usize = 41;

struct Options {
    peer: bool,
    portable: bool,
    rows: bool,
    repetitions: usize,
    only: Vec<String>,
    runs: Option<usize>,
}

fn main() -> ExitCode {
    let Some(options) = options() else {
        eprintln!(
            "usage: bench [--peer|--portable] [--rows] [--repetitions R] [--only WORDS].. [--runs N]"
        );
        return ExitCode::from(2);
    };
    let Some(sides) = sides(&options) else {
        eprintln!(
            "bench: built without the library, which leaves --peer, or without the feature `beside`, which --portable needs"
        );
        return ExitCode::from(2);
    };
    let mut rows = rows::rows(&options.only);
    rows.retain(|row| row.is_of(options.portable));
    if rows.is_empty() {
        eprintln!("bench: no row has '{}' in it", options.only.join("' or '"));
        return ExitCode::from(2);
    }
    if let Some(runs) = options.runs {
        watch(sides[0], &rows, runs);
    } else if let Err(fault) = print(sides, &rows, &options) {
        eprintln!("bench: {fault}");
        return ExitCode::FAILURE;
    }
    ExitCode::SUCCESS
}

fn options() -> Option<Options> {
    let mut options = Options {
        peer: false,
        portable: false,
        rows: false,
        repetitions: REPETITIONS,
        only: Vec::new(),
        runs: None,
    };
    let mut words = std::env::args().skip(1);
    while let Some(word) = words.next() {
        let mut number = || words.next()?.parse().ok().filter(|&number| number > 0);
        match word.as_str() {
            "--peer" => options.peer = true,
            "--portable" => options.portable = true,
            "--rows" => options.rows = true,
            "--repetitions" => options.repetitions = number()?,
            "--runs" => options.runs = Some(number()?),
            "--only" => options.only.push(words.next()?),
            _ => return None,
        }
    }
    Some(options)
}

/// What is measured, and what it is measured beside.
fn sides(options: &Options) -> Option<[Library; 2]> {
    match (options.peer, options.portable) {
        (true, true) => None,
        (true, false) => Some([PEER, PEER]),
        #[cfg(feature = "library")]
        (false, false) => Some([rows::LIBRARY, PEER]),
        #[cfg(feature = "beside")]
        (false, true) => Some([rows::PORTABLE, rows::LIBRARY]),
        #[allow(unreachable_patterns)] // where both features are set
        _ => None,
    }
}

/// Goes through the cases of each row, for a profiler to watch.
fn watch(subject: Library, rows: &[Row], runs: usize) {
    let mut buffers = Buffers::new();
    for row in rows {
        for _ in 0..runs {
            row.run((row.call, subject), &mut buffers);
        }
        let calls = runs * row.calls();
        println!("{}: {}: {calls} calls", subject.name(), row.name());
    }
}

fn print(sides: [Library; 2], rows: &[Row], options: &Options) -> Result<(), String> {
    let repetitions = options.repetitions;
    println!(
        "{}, {repetitions} repetitions, seed {SEED}. Times are medians of processor time in microseconds for one call.",
        processor(),
    );
    if options.rows {
        tables::head_of_rows(sides[0].name());
    }
    let mut measured = Vec::new();
    for row in rows {
        let figures = measure(sides, row, repetitions)?;
        if options.rows {
            tables::print_row(row, &figures);
        }
        measured.push((row, figures));
    }
    if options.portable && !options.rows {
        tables::print_portable(&measured);
    } else if !options.rows {
        tables::print_calls(&measured);
        tables::print_edits(&measured);
        tables::print_growth(&measured);
        tables::print_limits(&measured);
    }
    Ok(())
}

fn processor() -> String {
    let about = std::fs::read_to_string("/proc/cpuinfo").unwrap_or_default();
    let model = about
        .lines()
        .find_map(|line| line.strip_prefix("model name"));
    model.map_or("Unknown processor".to_string(), |model| {
        model.trim_start_matches([' ', '\t', ':']).to_string()
    })
}
