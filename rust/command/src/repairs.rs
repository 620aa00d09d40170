//! What is wrong with an unsafe table, beyond its one path: each forbidden screen that can be reached, with a way to it, each step of the path
//! whose removal mends the table, and what becomes of it if the hang at the end of the path rests. All of it is what the proved calls say of
//! tables with that step less, with that mark alone, or with that screen resting.

use crate::answer::{Answer, Verdict};
use crate::json::Object;
use crate::lines::Names;
use crate::names::screen;
use crate::table::{end_label, end_message, is_dead_end};
use shuntberry::{Forbidden, MARKED, MAX_ALLOWANCE, RESTING, Refused, SET_WORDS, StateSet, Table};

/// What is wrong with a table.
#[derive(Debug)]
pub struct Repairs {
    /// Steps of the path, each of which makes the table safe if it alone is rubbed out; first those that cost least.
    pub steps: Vec<Step>,
    /// The forbidden screens that can be reached, rising.
    pub reached: Vec<Reached>,
    /// The last screen of the path marked as resting, if it is a hang.
    pub rest: Option<Rest>,
}

/// A step that could be rubbed out.
#[derive(Debug)]
pub struct Step {
    /// From which state it leads to which.
    pub ends: [usize; 2],
    /// How many screens that are not forbidden no session reaches any more without it.
    pub lost: usize,
}

/// A forbidden screen that can be reached.
#[derive(Debug)]
pub struct Reached {
    /// Why it is forbidden.
    pub end: Forbidden,
    /// A shortest path from a start to it.
    pub path: Vec<usize>,
}

/// A hang that could be marked as resting.
#[derive(Debug)]
pub struct Rest {
    /// Its state.
    pub state: usize,
    /// What is found of the table then.
    then: Answer,
}

impl Repairs {
    /// What is wrong with a table, if a check found a path in it.
    pub fn of(table: &Table, answer: &Answer) -> Result<Option<Repairs>, Refused> {
        let Some(path) = &answer.path else {
            return Ok(None);
        };
        let forbidden = table.forbidden();
        let before = table.reachable()?.difference(forbidden);
        let mut steps = Vec::new();
        for ends in path.windows(2).map(|two| [two[0], two[1]]) {
            let mut session = table.clone().session()?;
            session.remove_step(ends[0], ends[1])?;
            if session.table().decide(MAX_ALLOWANCE)?.is_safe() {
                let lost = before.difference(session.reachable()).len();
                steps.push(Step { ends, lost });
            }
        }
        steps.sort_by_key(|step| step.lost);
        let mut reached = Vec::new();
        for state in forbidden.states() {
            let end = table.why_forbidden(state).unwrap_or(Forbidden::Not);
            if let Some(path) = path_to(table, state)? {
                reached.push(Reached { end, path });
            }
        }
        let rest = Rest::of(table, answer)?;
        Ok(Some(Repairs {
            steps,
            reached,
            rest,
        }))
    }

    /// A line for each forbidden screen that can be reached, for each step that could be rubbed out, and for a hang that could rest.
    pub fn lines(&self, names: &Names) -> Vec<String> {
        let way = |states: &[usize]| arrows(names, states);
        let reached = self.reached.iter().map(|reached| {
            let end = end_message(reached.end);
            format!("reached: {}, {end}", way(&reached.path))
        });
        let steps = self.steps.iter().map(|step| {
            let (ends, lost) = (way(&step.ends), step.lost());
            format!("rub out {ends}, and no forbidden screen can be reached{lost}")
        });
        let none = self.steps.is_empty().then(|| NONE.to_string());
        let rest = self.rest.as_ref().map(|rest| {
            let (state, then) = (screen(names, rest.state), rest.then(names));
            format!("mark {state} as resting, {IF_IT_MAY_END}{then}")
        });
        reached.chain(steps).chain(none).chain(rest).collect()
    }

    /// As JSON, behind what stands in the object already.
    pub fn object(&self, object: Object) -> Object {
        let reached = self.reached.iter().map(|Reached { end, path }| {
            Object::default()
                .text("ends_in", end_label(*end))
                .numbers("path", path.iter().copied())
        });
        let steps = self.steps.iter().map(|step| {
            let [from, to] = step.ends;
            Object::default()
                .plain("from", from)
                .plain("to", to)
                .plain("lost", step.lost)
        });
        let object = object.objects("reached", reached).objects("rub_out", steps);
        match &self.rest {
            Some(rest) => object.object("mark_resting", rest.object()),
            None => object.plain("mark_resting", "null"),
        }
    }

    /// The states of all paths.
    pub fn states(&self) -> impl Iterator<Item = usize> {
        let reached = self.reached.iter().map(|reached| &reached.path);
        let rest = self.rest.iter().filter_map(|rest| rest.then.path.as_ref());
        reached.chain(rest).flatten().copied()
    }
}

impl Step {
    /// What rubbing it out costs.
    pub fn lost(&self) -> String {
        match self.lost {
            0 => "; all others still can".to_string(),
            1 => "; 1 other cannot either".to_string(),
            lost => format!("; {lost} others cannot either"),
        }
    }
}

/// When a hang may be marked as resting, which is not for a program to know.
pub const IF_IT_MAY_END: &str = "only if a session may end on this screen";

impl Rest {
    /// The last state of a path that ends in a hang, and the answer for the table in which it rests.
    fn of(table: &Table, answer: &Answer) -> Result<Option<Rest>, Refused> {
        let last = answer.path.as_ref().and_then(|path| path.last());
        let (Some(Forbidden::Hang), Some(&state)) = (answer.end, last) else {
            return Ok(None);
        };
        let resting = table.resting().union(StateSet::from_states([state])?);
        let rested = with_sets(table, [(RESTING, resting)])?;
        let then = Answer::within(&rested, MAX_ALLOWANCE)?;
        let is_decided = matches!(then.verdict, Verdict::Safe | Verdict::Unsafe);
        Ok(is_decided.then_some(Rest { state, then }))
    }

    /// What is found then, behind when it may be marked so. Only what is found safe is told as mended.
    pub fn then(&self, names: &Names) -> String {
        let then = &self.then;
        match (then.verdict, then.vacuous) {
            (Verdict::Safe, None) => ": then no forbidden screen can be reached".to_string(),
            (Verdict::Safe, Some(_)) => {
                ": then nothing in the table is forbidden, so mark what must not be reached"
                    .to_string()
            }
            _ => {
                let way = arrows(names, then.path.as_deref().unwrap_or_default());
                let end = end_message(then.end.unwrap_or(Forbidden::Not));
                format!(": that alone does not do it, by {way}, {end}")
            }
        }
    }

    fn object(&self) -> Object {
        let object = Object::default().plain("state", self.state);
        let object = match &self.then.path {
            Some(path) => object.numbers("path", path.iter().copied()),
            None => object.plain("path", "null"),
        };
        match self.then.end {
            Some(end) => object.text("ends_in", end_label(end)),
            None => object.plain("nothing_forbidden", self.then.vacuous.is_some()),
        }
    }
}

/// What is said where there is no such step.
pub const NONE: &str = "no single step of the path, rubbed out, does it";

/// Screens in the order of a path.
pub fn arrows(names: &Names, path: &[usize]) -> String {
    let screens: Vec<String> = path.iter().map(|&state| screen(names, state)).collect();
    screens.join(" -> ")
}

/// A shortest path to a state, if there is one: that of the table in which it alone is marked, and every dead end rests.
fn path_to(table: &Table, state: usize) -> Result<Option<Vec<usize>>, Refused> {
    let dead_ends = (0..table.n()).filter(|&state| is_dead_end(table, state));
    let sets = [
        (MARKED, StateSet::from_states([state])?),
        (RESTING, StateSet::from_states(dead_ends)?),
    ];
    with_sets(table, sets)?.shortest_path()
}

/// A table with other sets at some places of its store.
fn with_sets<const N: usize>(
    table: &Table,
    sets: [(usize, StateSet); N],
) -> Result<Table, Refused> {
    let mut store = table.store().to_vec();
    for (at, set) in sets {
        store[at..at + SET_WORDS].copy_from_slice(&set.0);
    }
    Table::from_store(&store, table.n(), table.g())
}
