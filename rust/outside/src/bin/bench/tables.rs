//! The tables that are printed.

use shuntberry_outside::families::GROWTH;

use crate::measure::{Figures, Spread};
use crate::rows::{Call, Row};

type Measured<'r> = (&'r Row, Figures);

fn spread(ratio: &Spread) -> String {
    let Spread { low, middle, high } = ratio;
    format!("{middle:.2} ({low:.2}–{high:.2})")
}

/// Three figures are enough to compare by.
fn micros(time: f64) -> String {
    let digits = match time {
        ..1.0 => 3,
        ..10.0 => 2,
        ..100.0 => 1,
        _ => 0,
    };
    format!("{time:.digits$}")
}

// ---- Each row

pub fn head_of_rows(library: &str) {
    println!("\n| call | family | {library} | beside it | ratio | limit | ratio |");
    println!("|---|---|--:|--:|--:|--:|--:|");
}

pub fn print_row(row: &Row, figures: &Figures) {
    println!(
        "| {} | {} | {} | {} | {} | {} |",
        row.name(),
        micros(figures.library),
        micros(figures.beside),
        spread(&figures.ratio),
        micros(figures.limit),
        spread(&figures.above),
    );
}

// ---- A row for each call

/// The rows of each call, in order.
fn by_call<'m, 'r>(measured: &'m [Measured<'r>]) -> Vec<&'m [Measured<'r>]> {
    measured
        .chunk_by(|(one, _), (other, _)| (one.call, one.beside) == (other.call, other.beside))
        .collect()
}

/// The same once for each call, and without acceptance, which is the first part of a call and none by itself.
fn calls<'m, 'r>(measured: &'m [Measured<'r>]) -> Vec<&'m [Measured<'r>]> {
    let mut calls = by_call(measured);
    calls.retain(|rows| rows[0].0.call != Call::Acceptance && rows[0].0.beside.is_none());
    calls
}

/// A table, where it has lines.
fn print_table(head: &str, lines: Vec<String>) {
    if !lines.is_empty() {
        println!("\n{head}\n{}", lines.join("\n"));
    }
}

/// The rows by a ratio, rising.
fn sorted<'m, 'r>(
    rows: impl Iterator<Item = &'m Measured<'r>>,
    ratio: impl Fn(&Figures) -> f64,
) -> Vec<&'m Measured<'r>>
where
    'r: 'm,
{
    let mut sorted: Vec<&Measured> = rows.collect();
    sorted.sort_by(|one, other| ratio(&one.1).total_cmp(&ratio(&other.1)));
    sorted
}

pub fn print_calls(measured: &[Measured]) {
    print_table(
        "| call | families | library | ratio: least | median | greatest | target |\n|---|--:|--:|---|--:|---|---|",
        lines(measured, Call::target),
    );
}

/// The same of the portable source, beside the archive.
pub fn print_portable(measured: &[Measured]) {
    print_table(
        "| call | families | portable | beside the archive: least | median | greatest | target |\n|---|--:|--:|---|--:|---|---|",
        lines(measured, Call::portable_target),
    );
}

fn lines(measured: &[Measured], most: fn(Call) -> Option<f64>) -> Vec<String> {
    let line = |rows: &&[Measured]| {
        let by_time = sorted(rows.iter(), |figures| figures.library);
        let by_ratio = sorted(rows.iter(), |figures| figures.ratio.middle);
        let last = rows.len() - 1;
        let at = |(row, figures): &Measured| format!("{}, {}", spread(&figures.ratio), row.family);
        format!(
            "| {} | {} | {} to {} | {} | {:.2} | {} | {} |",
            rows[0].0.label(),
            rows.len(),
            micros(by_time[0].1.library),
            micros(by_time[last].1.library),
            at(by_ratio[0]),
            by_ratio[last / 2].1.ratio.middle,
            at(by_ratio[last]),
            target(rows, most),
        )
    };
    by_call(measured).iter().map(line).collect()
}

/// The target of a call, and on how many families its median ratio is over that.
fn target(rows: &[Measured], most: fn(Call) -> Option<f64>) -> String {
    let (row, _) = rows[0];
    let Some(most) = most(row.call).filter(|_| row.beside.is_none()) else {
        return String::new();
    };
    match rows.iter().filter(|row| row.1.ratio.middle > most).count() {
        0 => format!("{most:.1}: met"),
        over => format!("{most:.1}: {over} over"),
    }
}

// ---- Edits

/// What an edit takes, and its acceptance test on tables of the same size.
pub fn print_edits(measured: &[Measured]) {
    let range = |is: &dyn Fn(&Row) -> bool| {
        let rows = measured.iter().filter(|(row, _)| is(row));
        let by_time = sorted(rows, |figures| figures.library);
        let time = |row: &&Measured| micros(row.1.library);
        Some(format!(
            "{} to {}",
            time(by_time.first()?),
            time(by_time.last()?)
        ))
    };
    let edits = range(&|row| matches!(row.call, Call::Edit(_)) && row.beside.is_none());
    let acceptance = range(&|row| row.call == Call::Acceptance && row.cases[0].is_largest());
    if let (Some(edits), Some(acceptance)) = (edits, acceptance) {
        println!(
            "\nAn edit takes {edits} microseconds; the acceptance test is {acceptance} microseconds of it."
        );
    }
}

// ---- Growth

/// The kind of a family of growth.
fn growing(family: &str) -> Option<&str> {
    let (kind, _) = family.strip_prefix("growth, ")?.rsplit_once(", ")?;
    Some(kind)
}

/// The library's times at each size.
pub fn print_growth(measured: &[Measured]) {
    let mut lines = Vec::new();
    for rows in calls(measured) {
        let times: Vec<(&str, f64)> = rows
            .iter()
            .filter_map(|(row, figures)| Some((growing(&row.family)?, figures.library)))
            .collect();
        for times in times.chunk_by(|one, other| one.0 == other.0) {
            if times.len() == GROWTH.len() {
                let shown: Vec<String> = times.iter().map(|&(_, time)| micros(time)).collect();
                let doublings = times.windows(2).map(|pair| pair[1].1 / pair[0].1);
                let doublings: Vec<String> = doublings.map(|by| format!("{by:.1}")).collect();
                lines.push(format!(
                    "| {} | {} | {} | {} |",
                    rows[0].0.call.name(),
                    times[0].0,
                    shown.join(" | "),
                    doublings.join(", "),
                ));
            }
        }
    }
    let sizes = GROWTH.map(|n| n.to_string()).join(" | ");
    let columns = "--:|".repeat(GROWTH.len());
    print_table(
        &format!("| call | tables | {sizes} | each doubling, times |\n|---|---|{columns}--:|"),
        lines,
    );
}

// ---- Limits

/// Of each call, the families with the most bytes that have to be touched: the nearest to the limit and the farthest.
pub fn print_limits(measured: &[Measured]) {
    let line = |rows: &&[Measured]| {
        let most = rows.iter().map(|(_, figures)| figures.bytes).max();
        let largest = rows
            .iter()
            .filter(|(_, figures)| Some(figures.bytes) == most);
        let by_ratio = sorted(largest, |figures| figures.above.middle);
        let at = |(row, figures): &Measured| {
            let (time, above) = (micros(figures.library), figures.above.middle);
            format!("{time} | {above:.1}, {}", row.family)
        };
        format!(
            "| {} | {} | {} | {} | {} |",
            rows[0].0.label(),
            by_ratio[0].1.bytes,
            micros(by_ratio[0].1.limit),
            at(by_ratio[0]),
            at(by_ratio[by_ratio.len() - 1]),
        )
    };
    print_table(
        "| call | bytes | limit | nearest | ratio | farthest | ratio |\n|---|--:|--:|--:|---|--:|---|",
        calls(measured).iter().map(line).collect(),
    );
}
