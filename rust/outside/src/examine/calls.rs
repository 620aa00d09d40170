//! One call, with all its buffers compared.

use super::{Outcome, same};
use crate::buffer::Lent;
use crate::calls::{Calls, Decision, Shortest, TableRead, Within, Written};
use crate::expected::Expected;

// tries: Calls.decide_buffer, Promises.Carries, Fields.decision_fields
pub(crate) fn decide(
    library: &dyn Calls,
    store: &[u64],
    (n, g, allowance): (usize, usize, usize),
    path: &[u16],
    expected: &Expected<Decision, u16>,
) -> Outcome {
    let what = format!("{}'s decide({n}, {g}, {allowance})", library.name());
    let (store, mut path) = (Lent::new(store), Lent::new(path));
    let answer = library.decide(store.shared(), n, g, allowance, path.mutable());
    same(&what, answer, expected.answer)?;
    path.holds(&format!("path after {what}"), &expected.front)?;
    store.holds(&format!("store after {what}"), &[])
}

// tries: Fields.shortest_fields
pub(crate) fn shortest_path(
    library: &dyn Calls,
    store: &[u64],
    (n, g): (usize, usize),
    path: &[u16],
    expected: &Expected<Shortest, u16>,
) -> Outcome {
    let what = format!("{}'s shortest path({n}, {g})", library.name());
    let (store, mut path) = (Lent::new(store), Lent::new(path));
    let answer = library.shortest_path(store.shared(), n, g, path.mutable());
    same(&what, answer, expected.answer)?;
    path.holds(&format!("path after {what}"), &expected.front)?;
    store.holds(&format!("store after {what}"), &[])
}

// tries: Distances.distances_buffer
pub(crate) fn distances(
    library: &dyn Calls,
    store: &[u64],
    (n, g): (usize, usize),
    out: &[u16],
    expected: &Expected<u32, u16>,
) -> Outcome {
    let what = format!("{}'s distances({n}, {g})", library.name());
    let (store, mut out) = (Lent::new(store), Lent::new(out));
    let answer = library.distances(store.shared(), n, g, out.mutable());
    same(&what, answer, expected.answer)?;
    out.holds(&format!("distances after {what}"), &expected.front)?;
    store.holds(&format!("store after {what}"), &[])
}

/// Within for each of the numbers of steps, each with its answer.
pub(crate) fn within(
    library: &dyn Calls,
    store: &[u64],
    (n, g): (usize, usize),
    expected: impl IntoIterator<Item = (usize, Within)>,
) -> Outcome {
    let store = Lent::new(store);
    for (k, expected) in expected {
        let answer = library.within(store.shared(), n, g, k);
        if answer != expected {
            let what = format!("{}'s within({n}, {g}, {k})", library.name());
            return same(&what, answer, expected);
        }
    }
    store.holds("store after within", &[])
}

// tries: Fields.table_fields
pub(crate) fn read(
    library: &dyn Calls,
    (input, site): (&[u8], usize),
    store: &[u64],
    expected: &Expected<TableRead, u64>,
) -> Outcome {
    let what = format!("{}'s read at site {site}", library.name());
    let (input, mut store) = (Lent::new(input), Lent::new(store));
    let answer = library.read(input.shared(), site, store.mutable());
    same(&what, answer, expected.answer)?;
    store.holds(&format!("store after {what}"), &expected.front)?;
    input.holds(&format!("input after {what}"), &[])
}

// tries: Fields.file_fields
pub(super) fn write(
    library: &dyn Calls,
    store: &[u64],
    (n, g, site): (usize, usize, usize),
    output: &[u8],
    expected: &Expected<Written, u8>,
) -> Outcome {
    let what = format!("{}'s write({n}, {g}, {site})", library.name());
    let (store, mut output) = (Lent::new(store), Lent::new(output));
    let answer = library.write(store.shared(), n, g, site, output.mutable());
    same(&what, answer, expected.answer)?;
    output.holds(&format!("output after {what}"), &expected.front)?;
    store.holds(&format!("store after {what}"), &[])
}
