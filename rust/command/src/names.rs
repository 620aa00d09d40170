//! States by their numbers, and by their names where they are known.

use crate::json::Object;
use crate::lines::Names;
use std::collections::BTreeSet;

/// A state by its number, and its name if it has one.
pub fn screen(names: &Names, state: usize) -> String {
    match names.get(&state) {
        Some(name) => format!("{state} {name}"),
        None => state.to_string(),
    }
}

/// States by their numbers, in a line.
pub fn numbers(states: impl IntoIterator<Item = usize>) -> String {
    let numbers: Vec<String> = states.into_iter().map(|state| state.to_string()).collect();
    numbers.join(" ")
}

/// A line `state N NAME` for each of some states that has a name, each state once.
pub fn name_lines(names: &Names, states: impl IntoIterator<Item = usize>) -> String {
    let mut seen = BTreeSet::new();
    let states = states.into_iter().filter(|&state| seen.insert(state));
    states
        .filter_map(|state| Some(format!("state {state} {}\n", names.get(&state)?)))
        .collect()
}

/// The names of some states, where there are names at all.
pub fn with_names(
    object: Object,
    names: &Names,
    states: impl IntoIterator<Item = usize>,
) -> Object {
    if names.is_empty() {
        return object;
    }
    let states: BTreeSet<usize> = states.into_iter().collect();
    let named = names.iter().filter(|(state, _)| states.contains(state));
    object.object(
        "names",
        named.fold(Object::default(), |object, (state, name)| {
            object.text(&state.to_string(), name)
        }),
    )
}
