//! Words that are near to others: what somebody who mistyped one may have meant.

use alloc::format;
use alloc::string::String;
use alloc::vec;
use alloc::vec::Vec;

/// Longer words are not compared in full: one that is cut is far from all others.
const MAX_COMPARED: usize = 64;

/// The nearest of some words, as a question; nothing where none is near. Upper case and lower case are alike.
pub fn did_you_mean<'w>(word: &str, known: impl Iterator<Item = &'w str>) -> String {
    let letters = |word: &str| -> Vec<char> { word.to_lowercase().chars().collect() };
    let mut word = letters(word);
    word.truncate(MAX_COMPARED);
    let near = known
        .filter_map(|other| {
            let letters = letters(other);
            let away = distance(&word, &letters);
            let is_near = away <= 1 + letters.len() / 4 && away < letters.len();
            is_near.then_some((away, other))
        })
        .min_by_key(|(away, _)| *away);
    near.map_or_else(String::new, |(_, other)| {
        format!("; did you mean '{other}'?")
    })
}

/// How many letters must be put in, taken out, changed or exchanged with their neighbour to make one word of the other.
fn distance(a: &[char], b: &[char]) -> usize {
    let mut rows = vec![(0..=b.len()).collect::<Vec<usize>>()];
    for i in 1..=a.len() {
        let mut row = vec![i];
        for j in 1..=b.len() {
            let above = &rows[i - 1];
            let changed = above[j - 1] + usize::from(a[i - 1] != b[j - 1]);
            let mut least = changed.min(above[j] + 1).min(row[j - 1] + 1);
            if i > 1 && j > 1 && a[i - 1] == b[j - 2] && a[i - 2] == b[j - 1] {
                least = least.min(rows[i - 2][j - 2] + 1);
            }
            row.push(least);
        }
        rows.push(row);
    }
    rows[a.len()][b.len()]
}
