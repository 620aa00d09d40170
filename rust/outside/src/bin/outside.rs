//! The outside tests: tables and files at random, those of the specification, damaged blocks, and old files, through the
//! library's calls, and questions for the next open minute, held to implementations that share nothing with it.
//!
//!     outside [--peer] [--seed S] [--count N] [--case I]
//!
//! `--peer` tests the optimised peer in the library's place; `--case I` repeats one case of a run.
//! From the default count up, some case must earn each refusal; fewer cases may miss one.

use std::collections::BTreeMap;
use std::panic::{AssertUnwindSafe, catch_unwind};
use std::process::ExitCode;
use std::sync::Mutex;
use std::sync::atomic::{AtomicU64, Ordering};
use std::time::Instant;

use shuntberry_outside::block_check;
use shuntberry_outside::calls::Calls;
use shuntberry_outside::examine::{self, Outcome, Tally};
use shuntberry_outside::generate::Random;
use shuntberry_outside::peer::{Looks, Peer};
use shuntberry_outside::regroup;
use shuntberry_outside::rewriting;
use shuntberry_outside::windows::{self, NextOpen};

const SEED: u64 = 20_260_401;
const COUNT: u64 = 25_000;
/// One question for the next open minute to so many tables and files.
const CASES_PER_QUESTION: u64 = 4;
const THREADS: usize = 2;
/// Failures that are printed before the run is given up.
const FAILURES: usize = 5;

struct Options {
    peer: bool,
    seed: u64,
    count: u64,
    case: Option<u64>,
}

fn main() -> ExitCode {
    let options = match options() {
        Ok(options) => options,
        Err(fault) => {
            eprintln!("outside: {fault}");
            eprintln!("usage: outside [--peer] [--seed S] [--count N] [--case I]");
            return ExitCode::from(2);
        }
    };
    let libraries = match libraries(options.peer) {
        Ok(libraries) => libraries,
        Err(fault) => {
            eprintln!("outside: {fault}");
            return ExitCode::from(2);
        }
    };
    let names: Vec<&str> = libraries.iter().map(|library| library.name()).collect();
    println!(
        "outside: testing {}, seed {}, {} tables and files",
        names.join(" and "),
        options.seed,
        options.count
    );
    let (tally, failures, elapsed) = run(&libraries, &options);
    print_tally(&tally);
    for failure in &failures {
        println!("FAILED {failure}");
    }
    let all_earned = options.case.is_some() || earned_each_refusal(&tally, options.count);
    if failures.is_empty() && all_earned {
        println!("outside: all as expected, in {elapsed:.1} s");
        ExitCode::SUCCESS
    } else {
        println!("outside: FAILED, after {elapsed:.1} s");
        ExitCode::FAILURE
    }
}

fn options() -> Result<Options, String> {
    let mut options = Options {
        peer: false,
        seed: SEED,
        count: COUNT,
        case: None,
    };
    let mut words = std::env::args().skip(1);
    while let Some(word) = words.next() {
        let mut number = || -> Result<u64, String> {
            let value = words.next().ok_or(format!("{word} needs a number"))?;
            value.parse().map_err(|_| format!("{value} is no number"))
        };
        match word.as_str() {
            "--peer" => options.peer = true,
            "--seed" => options.seed = number()?,
            "--count" => options.count = number()?,
            "--case" => options.case = Some(number()?),
            _ => return Err(format!("{word} is no option")),
        }
    }
    Ok(options)
}

fn libraries(peer: bool) -> Result<Vec<&'static dyn Calls>, String> {
    if peer {
        return Ok(vec![&Peer(Looks::Whole), &Peer(Looks::New)]);
    }
    #[cfg(feature = "library")]
    {
        use shuntberry_outside::calls::{Linked, Wrapped};
        Ok(vec![&Linked, &Wrapped])
    }
    #[cfg(not(feature = "library"))]
    Err("built without the library; only --peer can be tested".to_string())
}

/// What is asked for the next open minute.
fn next_open_libraries(peer: bool) -> Vec<&'static dyn NextOpen> {
    if peer {
        return vec![&Peer(Looks::New)];
    }
    #[cfg(feature = "library")]
    return vec![&windows::Linked, &windows::Wrapped];
    #[cfg(not(feature = "library"))]
    Vec::new()
}

/// Runs the named tables, then the random cases on a few threads. Each case has a seed of its own, so
/// the threads change nothing.
fn run(libraries: &[&dyn Calls], options: &Options) -> (Tally, Vec<String>, f64) {
    let start = Instant::now();
    let tally = Mutex::new(Tally::default());
    let failures = Mutex::new(Vec::new());
    let next = AtomicU64::new(options.case.unwrap_or(0));
    let end = options.case.map_or(options.count, |case| case + 1);
    let openers = next_open_libraries(options.peer);

    if options.case.is_none() {
        let mut random = Random::new(options.seed);
        let mut tally = tally.lock().expect("no thread yet");
        let examined = caught(|| examine::named_tables(libraries, &mut random, &mut tally));
        if let Err(fault) = examined {
            let fault = format!("named tables: {fault}");
            failures.lock().expect("no thread yet").push(fault);
        }
        if let Err(fault) = caught(|| block_check::block_checks(libraries, &mut random)) {
            let fault = format!("damaged blocks: {fault}");
            failures.lock().expect("no thread yet").push(fault);
        }
        let examined = caught(|| regroup::regrouped_tables(libraries, &mut random, &mut tally));
        if let Err(fault) = examined {
            let fault = format!("groups put another way: {fault}");
            failures.lock().expect("no thread yet").push(fault);
        }
        let examined = caught(|| rewriting::old_files(libraries, &mut random, &mut tally));
        if let Err(fault) = examined {
            let fault = format!("old files: {fault}");
            failures.lock().expect("no thread yet").push(fault);
        }
        let examined = caught(|| {
            windows::edges(&openers, &mut tally)?;
            windows::seventy_weeks(&openers, &mut random)
        });
        if let Err(fault) = examined {
            let fault = format!("next open: {fault}");
            failures.lock().expect("no thread yet").push(fault);
        }
    }
    std::thread::scope(|scope| {
        for _ in 0..THREADS {
            scope.spawn(|| {
                let mut own = Tally::default();
                loop {
                    let case = next.fetch_add(1, Ordering::Relaxed);
                    if case >= end {
                        break;
                    }
                    let examined = caught(|| {
                        random_case(libraries, options.seed, case, &mut own)?;
                        random_question(&openers, options.seed, case, &mut own)
                    });
                    if let Err(fault) = examined {
                        let mut failures = failures.lock().expect("no thread panics");
                        failures.push(format!("--seed {} --case {case}: {fault}", options.seed));
                        if failures.len() >= FAILURES {
                            next.store(end, Ordering::Relaxed);
                        }
                    }
                }
                tally.lock().expect("no thread panics").add(own);
            });
        }
    });
    let tally = tally.into_inner().expect("threads have ended");
    let failures = failures.into_inner().expect("threads have ended");
    (tally, failures, start.elapsed().as_secs_f64())
}

/// What an examination found; one that panics has failed.
fn caught(examine: impl FnOnce() -> Outcome) -> Outcome {
    catch_unwind(AssertUnwindSafe(examine))
        .unwrap_or_else(|_| Err("a panic, whose message is on standard error".to_string()))
}

/// Two tables for each file.
fn random_case(libraries: &[&dyn Calls], seed: u64, case: u64, tally: &mut Tally) -> Outcome {
    let mut random = Random::for_case(seed, case);
    if case % 3 == 2 {
        examine::random_file(libraries, &mut random, tally)
    } else {
        examine::random_table(libraries, &mut random, tally)
    }
}

/// In some of the cases, a question for the next open minute.
fn random_question(openers: &[&dyn NextOpen], seed: u64, case: u64, tally: &mut Tally) -> Outcome {
    if !case.is_multiple_of(CASES_PER_QUESTION) {
        return Ok(());
    }
    windows::random_case(openers, &mut Random::for_case(!seed, case), tally)
}

/// A line for each thing that was counted, with its kinds in the order of their numbers, or, where
/// there are many, with how many of them came up.
fn print_tally(tally: &Tally) {
    let mut lines: BTreeMap<&str, Vec<(&String, &usize)>> = BTreeMap::new();
    for ((thing, kind), count) in &tally.0 {
        lines.entry(thing).or_default().push((kind, count));
    }
    for (thing, mut kinds) in lines {
        kinds.sort_by_key(|(kind, _)| kind.parse::<u32>().unwrap_or(0));
        let line = if let [(first, times), .., (last, _)] = kinds[..]
            && kinds.len() > 16
        {
            let different = kinds.len();
            format!("{different} different, from {first} ({times} times) to {last}")
        } else {
            let counted = kinds
                .iter()
                .map(|(kind, times)| format!("{kind} × {times}"));
            counted.collect::<Vec<String>>().join(", ")
        };
        println!("  {thing}: {line}");
    }
}

/// Whether some case earned each refusal, as is asked for from the default count up; prints those that
/// none did.
fn earned_each_refusal(tally: &Tally, count: u64) -> bool {
    let unearned = unearned_refusals(tally);
    if unearned.is_empty() {
        return true;
    }
    let unearned = unearned.join(", ");
    if count < COUNT {
        println!("  earned by no case, as each is to be from {COUNT} cases up: {unearned}");
        return true;
    }
    println!("FAILED earned by no case: {unearned}");
    false
}

/// Refusals of the calls that no case earned.
fn unearned_refusals(tally: &Tally) -> Vec<String> {
    let table: [(&str, &[u32]); 11] = [
        ("refusal by decide", &[10, 14, 15, 17, 20, 21]),
        ("refusal by shortest path", &[10, 14, 15, 17, 21]),
        ("refusal by read", &[10, 24, 11, 12, 13, 14, 15, 16, 17, 18]),
        ("refusal by write", &[10, 24, 14, 15, 17, 19]),
        ("refusal by distances", &[10, 14, 15, 17, 23]),
        ("refusal by within", &[10, 14, 15, 17]),
        ("refusal by replay", &[10, 14, 15, 17, 25, 26]),
        ("refusal by open", &[10, 14, 15, 17]),
        ("refusal by an edit", &[10, 14, 15, 17, 27]),
        ("refusal by decide modal", &[10, 14, 15, 17, 28, 21]),
        ("refusal by next open", &windows::REFUSALS),
    ];
    let mut unearned = Vec::new();
    for (call, numbers) in table {
        for number in numbers {
            if !tally.0.contains_key(&(call, number.to_string())) {
                unearned.push(format!("{call} {number}"));
            }
        }
    }
    unearned
}
