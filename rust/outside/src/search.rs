//! Graph searches that know nothing of rounds: depth first for the verdict, breadth first for the
//! smallest of the shortest paths, relaxation for distances, and for small tables all sequences of
//! states in order.

use std::collections::{BTreeMap, VecDeque};

use crate::table::{Dialogue, Table};

/// Whether some forbidden state can be reached from an initial one: depth first, with a stack. Which states are
/// forbidden is seen on the way: a state is if it is marked, or if no step is found from it and it does not rest.
pub fn reaches_forbidden(dialogue: &Dialogue) -> bool {
    let mut seen = dialogue.initial.clone();
    let mut stack: Vec<usize> = (0..dialogue.n).filter(|&s| dialogue.initial[s]).collect();
    while let Some(state) = stack.pop() {
        let mut steps = 0;
        for next in 0..dialogue.n {
            if dialogue.rows[state][next] {
                steps += 1;
                if !seen[next] {
                    seen[next] = true;
                    stack.push(next);
                }
            }
        }
        if dialogue.marked[state] || steps == 0 && !dialogue.resting[state] {
            return true;
        }
    }
    false
}

/// The smallest of the shortest paths, or none: level by level, with the smallest path to each state
/// that a level reaches for the first time. Paths of one level are as long as each other, and the
/// smallest to a state goes on from the smallest to some state before it.
pub fn smallest_shortest_path(table: &Table) -> Option<Vec<usize>> {
    let mut seen = vec![false; table.n];
    let mut level: BTreeMap<usize, Vec<usize>> = (0..table.n)
        .filter(|&s| table.initial[s])
        .map(|s| (s, vec![s]))
        .collect();
    while !level.is_empty() {
        let ending =
            |(state, path): (&usize, &Vec<usize>)| table.forbidden[*state].then(|| path.clone());
        if let Some(path) = level.iter().filter_map(ending).min() {
            return Some(path);
        }
        for &state in level.keys() {
            seen[state] = true;
        }
        let mut next: BTreeMap<usize, Vec<usize>> = BTreeMap::new();
        for (&state, path) in &level {
            for after in (0..table.n).filter(|&t| table.rows[state][t] && !seen[t]) {
                let longer: Vec<usize> = path.iter().copied().chain([after]).collect();
                match next.get_mut(&after) {
                    Some(kept) if *kept <= longer => {}
                    Some(kept) => *kept = longer,
                    None => {
                        next.insert(after, longer);
                    }
                }
            }
        }
        level = next;
    }
    None
}

/// The number of steps from each state to the nearest forbidden one, if one can be reached: each state
/// whose number falls has its predecessors looked at again, till none falls.
pub fn distances(table: &Table) -> Vec<Option<usize>> {
    let mut found: Vec<Option<usize>> = (0..table.n)
        .map(|s| table.forbidden[s].then_some(0))
        .collect();
    let mut fallen: VecDeque<usize> = (0..table.n).filter(|&s| table.forbidden[s]).collect();
    while let Some(state) = fallen.pop_front() {
        let steps = found[state].map(|steps| steps + 1);
        for before in (0..table.n).filter(|&s| table.rows[s][state]) {
            if found[before].is_none() || steps < found[before] {
                found[before] = steps;
                fallen.push_back(before);
            }
        }
    }
    found
}

/// The same for one state by trying all sequences of states from it, shorter ones first; for small
/// tables.
pub fn distance_of_all(table: &Table, state: usize) -> Option<usize> {
    let from_state = Table {
        initial: (0..table.n).map(|s| s == state).collect(),
        ..table.clone()
    };
    first_path_of_all(&from_state).map(|path| path.len() - 1)
}

/// The smallest of the shortest paths by trying all sequences of states, shorter ones first, each
/// length in rising order; for small tables. A shortest path repeats no state, so lengths up to n are enough.
pub fn first_path_of_all(table: &Table) -> Option<Vec<usize>> {
    (1..=table.n).find_map(|length| {
        let mut sequence = vec![0; length];
        loop {
            if is_path(table, &sequence) {
                return Some(sequence);
            }
            let place = sequence.iter().rposition(|&s| s + 1 < table.n)?;
            sequence[place] += 1;
            sequence[place + 1..].fill(0);
        }
    })
}

/// Whether the states are a path from an initial to a forbidden state.
pub fn is_path(table: &Table, states: &[usize]) -> bool {
    let (Some(&first), Some(&last)) = (states.first(), states.last()) else {
        return false;
    };
    table.initial[first]
        && table.forbidden[last]
        && states.windows(2).all(|step| table.rows[step[0]][step[1]])
}
