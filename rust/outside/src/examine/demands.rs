//! What the plain implementations expect, held to the demands and to each other.

use super::{Outcome, ensure, same};
use crate::accept::MAX_ALLOWANCE;
use crate::calls::{Decision, SAFE, UNDECIDED, UNSAFE};
use crate::expected::{Expected, Judged};
use crate::rounds::{self, Rounds};
use crate::search;
use crate::table::{Dialogue, Table, set_where};

/// Up to this size the plain implementations are themselves held to trying everything.
pub(super) const SMALL: usize = 6;

// tries: DistancePromises.DistanceIs, DistancePromises.agree, Figures.Figures
/// The distances, which are found backward, and the path, which is found forward: the nearest initial
/// state is as far as the path is long. Small tables are held to trying everything.
pub(super) fn agreement(table: &Table, judged: &Judged, far: &[u16]) -> Outcome {
    let initial = (0..table.n).filter(|&s| table.initial[s] && far[s] != 65_535);
    let nearest = initial.map(|s| far[s] as usize).min();
    let steps = judged.path.as_ref().map(|path| path.len() - 1);
    same("the nearest initial state", nearest, steps)?;
    if table.n <= SMALL {
        for (s, &found) in far.iter().enumerate() {
            let steps = search::distance_of_all(table, s).map_or(65_535, |steps| steps as u16);
            same("a distance", found, steps)?;
        }
    }
    Ok(())
}

// tries: Promises.Demand2.unsafe-path, Promises.Demand2.path-unsafe
// tries: Promises.Demand2.invariant, Paths.is_path
/// Demand 2: the verdict is unsafe just where a depth-first search, which knows no rounds, finds a
/// forbidden state; a safe set is an invariant; a path is one.
pub(super) fn demand_2(
    dialogue: &Dialogue,
    judged: &Judged,
    answers: &[(usize, Expected<Decision, u16>)],
) -> Outcome {
    let table = judged.table;
    let reachable = search::reaches_forbidden(dialogue);
    ensure(judged.path.is_some() == reachable, || {
        "the two searches differ".to_string()
    })?;
    for (allowance, Expected { answer, front }) in answers {
        let path: Vec<usize> = front.iter().map(|&state| state.into()).collect();
        let invariant = set_where(table.n, |s| answer.invariant[s / 64] >> (s % 64) & 1 == 1);
        let holds = match answer.verdict {
            SAFE => !reachable && rounds::is_invariant(table, &invariant),
            UNSAFE => reachable && search::is_path(table, &path),
            _ => answer.count as usize == *allowance,
        };
        ensure(holds, || {
            format!("demand 2 fails with allowance {allowance}")
        })?;
    }
    Ok(())
}

// tries: Promises.Demand3.count-backward, Promises.Demand3.count-path, Promises.Demand3.enough
// tries: Promises.larger
/// Demand 3: the count is at most the backward number, and for unsafe at most the length of any path;
/// an allowance of at least the backward number is never undecided; a larger allowance never changes
/// a verdict that was given.
pub(super) fn demand_3(
    judged: &Judged,
    answers: &[(usize, Expected<Decision, u16>)],
    backward: usize,
) -> Outcome {
    let fails = |sentence: &str| Err(format!("demand 3 fails: {sentence}"));
    for (allowance, Expected { answer, .. }) in answers {
        if answer.count as usize > backward {
            return fails("count over the backward number");
        }
        let steps = judged.path.as_ref().map_or(0, |path| path.len() - 1);
        if answer.verdict == UNSAFE && answer.count as usize > steps {
            return fails("count over the length of a path");
        }
        if answer.verdict == UNDECIDED && *allowance >= backward {
            return fails("undecided with the backward number allowed");
        }
    }
    for pair in answers.windows(2) {
        let ((_, smaller), (_, larger)) = (&pair[0], &pair[1]);
        if smaller.answer.verdict != UNDECIDED
            && (smaller.answer != larger.answer || smaller.front != larger.front)
        {
            return fails("a larger allowance changes the answer");
        }
    }
    Ok(())
}

/// The plain implementations against trying all sets and all sequences of states.
pub(super) fn try_everything(table: &Table, judged: &Judged) -> Outcome {
    ensure(judged.path == search::first_path_of_all(table), || {
        "the path is not the first of all".to_string()
    })?;
    let mut rounds = Rounds::new(table);
    rounds.decide(MAX_ALLOWANCE);
    ensure(rounds::extremes_hold(&rounds), || {
        "R is not the least or S not the greatest".to_string()
    })
}
