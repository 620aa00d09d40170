//! What differs between two tables: a function of the tables and of what their screens are named.
//!
//! A screen of one table is that of the other that has its name; where a name of either is in one table alone, or there are none, the one
//! that has its number. What is left is a screen that was removed, or added.

use crate::json::Object;
use crate::lines::Names;
use crate::names::screen;
use shuntberry::{StateSet, Table};
use std::collections::{BTreeMap, BTreeSet};

/// One of the two tables.
#[derive(Clone, Copy, Debug)]
pub struct Side<'s> {
    /// The table.
    pub table: &'s Table,
    /// The names of its states, if they are known: a file has none.
    pub names: Option<&'s Names>,
    /// The steps that are possible, and not certain.
    pub possible: &'s BTreeSet<(usize, usize)>,
}

/// What differs between them. It is empty just where they are the same.
#[derive(Debug, Default, PartialEq, Eq)]
pub struct Difference {
    /// Screens of another number, by their old and their new one, with their name.
    pub renumbered: Vec<(usize, usize, String)>,
    /// Screens of another name, by their number, with the old and the new one.
    pub renamed: Vec<(usize, Option<String>, Option<String>)>,
    /// What the old table has and the new one has not, by the numbers of the old one.
    pub removed: Facts,
    /// What the new table has and the old one has not, by the numbers of the new one.
    pub added: Facts,
    /// Whether groups of both stand in another order.
    pub reordered: bool,
}

/// What one of the tables has, and the other has not.
#[derive(Debug, Default, PartialEq, Eq)]
pub struct Facts {
    /// States.
    pub states: Vec<usize>,
    /// Initial states.
    pub initial: Vec<usize>,
    /// States that are marked forbidden.
    pub forbidden: Vec<usize>,
    /// Resting states.
    pub resting: Vec<usize>,
    /// States without a step, certain or possible, that do not rest.
    pub hangs: Vec<usize>,
    /// Groups.
    pub groups: Vec<Vec<usize>>,
    /// Steps.
    pub steps: Vec<(usize, usize)>,
    /// Possible steps.
    pub possible: Vec<(usize, usize)>,
}

/// What differs between two tables.
pub fn difference(old: Side, new: Side) -> Difference {
    let (forward, backward) = pairs(old, new);
    let (removed, _) = facts(old, new, &forward);
    let (added, order) = facts(new, old, &backward);
    let both = forward.iter().map(|(&was, &is)| (was, is));
    let (same_number, other_number): (Vec<_>, Vec<_>) = both.partition(|(was, is)| was == is);
    let name = |side: Side, state| side.names.and_then(|names| names.get(&state).cloned());
    let renamed = same_number
        .into_iter()
        .map(|(s, _)| (s, name(old, s), name(new, s)));
    let known = old.names.is_some() && new.names.is_some();
    Difference {
        renumbered: other_number
            .into_iter()
            .map(|(was, is)| (was, is, name(new, is).unwrap_or_default()))
            .collect(),
        renamed: renamed.filter(|(_, was, is)| known && was != is).collect(),
        removed,
        added,
        reordered: !order.is_sorted(),
    }
}

/// The first thing in which the tables of a file and of a text differ, in words.
pub fn first_difference(file: &Table, text: &Table, names: &Names) -> String {
    let possible = BTreeSet::new();
    let side = |table| Side {
        table,
        names: None,
        possible: &possible,
    };
    let found = difference(side(file), side(text));
    let sorts = found
        .removed
        .lines(None)
        .into_iter()
        .zip(found.added.lines(Some(names)));
    let first = sorts.into_iter().find_map(|(of_file, of_text)| {
        let file_has = of_file
            .first()
            .map(|fact| format!("the file has '{fact}', and the text has not"));
        file_has.or_else(|| {
            of_text
                .first()
                .map(|fact| format!("the text has '{fact}', and the file has not"))
        })
    });
    first.unwrap_or("their groups stand in another order".to_string())
}

type Pairs = BTreeMap<usize, usize>;

/// The new number of each old state that is still there, and the other way round.
fn pairs(old: Side, new: Side) -> (Pairs, Pairs) {
    let (mut forward, mut backward) = (Pairs::new(), Pairs::new());
    let mut pair = |was: usize, is: usize| {
        if !forward.contains_key(&was) && !backward.contains_key(&is) {
            forward.insert(was, is);
            backward.insert(is, was);
        }
    };
    if let (Some(before), Some(after)) = (old.names, new.names) {
        let numbers: BTreeMap<&str, usize> = after
            .iter()
            .map(|(&is, name)| (name.as_str(), is))
            .collect();
        for (&was, name) in before {
            if let Some(&is) = numbers.get(name.as_str()) {
                pair(was, is);
            }
        }
    }
    (0..old.table.n().min(new.table.n())).for_each(|s| pair(s, s));
    (forward, backward)
}

/// What one table has and another has not, by the number there of each state that is there; and where the groups of both stand there.
fn facts(here: Side, there: Side, number: &Pairs) -> (Facts, Vec<usize>) {
    let missing = |states: BTreeSet<usize>, others: BTreeSet<usize>| {
        let kept = |s: &usize| number.get(s).is_some_and(|t| others.contains(t));
        states.into_iter().filter(|s| !kept(s)).collect()
    };
    let set = |states: StateSet| states.states().collect::<BTreeSet<usize>>();
    let other = |(a, b): (usize, usize)| Some((*number.get(&a)?, *number.get(&b)?));
    let unmatched = |steps: &BTreeSet<(usize, usize)>, others: &BTreeSet<(usize, usize)>| {
        let kept = |step| other(step).is_some_and(|step| others.contains(&step));
        steps.iter().copied().filter(|&step| !kept(step)).collect()
    };
    let (groups, places) = groups(here.table, there.table, number);
    let facts = Facts {
        states: (0..here.table.n())
            .filter(|s| !number.contains_key(s))
            .collect(),
        initial: missing(set(here.table.initial()), set(there.table.initial())),
        forbidden: missing(set(here.table.marked()), set(there.table.marked())),
        resting: missing(set(here.table.resting()), set(there.table.resting())),
        hangs: missing(hangs(here), hangs(there)),
        groups,
        steps: unmatched(
            &here.table.steps().collect(),
            &there.table.steps().collect(),
        ),
        possible: unmatched(here.possible, there.possible),
    };
    (facts, places)
}

/// The groups of one table that another does not have, each as often as it is wanting; and where it has the others.
fn groups(here: &Table, there: &Table, number: &Pairs) -> (Vec<Vec<usize>>, Vec<usize>) {
    let others: Vec<BTreeSet<usize>> = there
        .groups()
        .map(|group| group.states().collect())
        .collect();
    let (mut missing, mut places) = (Vec::new(), Vec::new());
    for group in here.groups() {
        let states: Option<BTreeSet<usize>> =
            group.states().map(|s| number.get(&s).copied()).collect();
        let is_it = |j: &usize| Some(&others[*j]) == states.as_ref() && !places.contains(j);
        match (0..others.len()).find(is_it) {
            Some(j) => places.push(j),
            None => missing.push(group.states().collect()),
        }
    }
    (missing, places)
}

fn hangs(side: Side) -> BTreeSet<usize> {
    let leads_on = |s: &usize| {
        let certain = side.table.successors(*s).is_some_and(|row| !row.is_empty());
        certain || side.possible.iter().any(|(from, _)| from == s)
    };
    let rests = side.table.resting();
    (0..side.table.n())
        .filter(|s| !leads_on(s) && !rests.contains(*s))
        .collect()
}

impl Difference {
    /// Whether there is none.
    pub fn is_empty(&self) -> bool {
        *self == Difference::default()
    }

    /// A line for each thing that differs, in this order: screens, marks, groups, steps; of each those removed before those added.
    pub fn lines(&self, old: Option<&Names>, new: Option<&Names>) -> Vec<String> {
        let mut lines = Vec::new();
        for (was, is, name) in &self.renumbered {
            lines.push(format!("~ state {was} {name} is now {is}"));
        }
        for (state, was, is) in &self.renamed {
            let was = was
                .as_ref()
                .map_or(String::new(), |name| format!(" {name}"));
            lines.push(match is {
                Some(name) => format!("~ state {state}{was} is now named {name}"),
                None => format!("~ state {state}{was} is now without a name"),
            });
        }
        let removed = self.removed.lines(old);
        let added = self.added.lines(new);
        for (removed, added) in removed.into_iter().zip(added) {
            lines.extend(removed.into_iter().map(|line| format!("- {line}")));
            lines.extend(added.into_iter().map(|line| format!("+ {line}")));
        }
        if self.reordered {
            lines.push("~ groups in another order".to_string());
        }
        lines
    }

    /// How much differs, in a line.
    pub fn summary(&self) -> String {
        let counts = [
            (self.removed.count(), "removed"),
            (self.added.count(), "added"),
            (self.renumbered.len(), "renumbered"),
            (self.renamed.len(), "renamed"),
        ];
        let mut parts: Vec<String> = counts
            .iter()
            .filter(|(count, _)| *count > 0)
            .map(|(count, word)| format!("{count} {word}"))
            .collect();
        parts.extend(self.reordered.then(|| "groups reordered".to_string()));
        match parts.is_empty() {
            true => "the same".to_string(),
            false => format!("different: {}", parts.join(", ")),
        }
    }

    /// The states that stand in it, by the numbers of the old table and by those of the new one.
    pub fn listed(&self) -> (Vec<usize>, Vec<usize>) {
        let (mut old, mut new) = (self.removed.listed(), self.added.listed());
        old.extend(self.renumbered.iter().map(|(was, _, _)| *was));
        new.extend(self.renumbered.iter().map(|(_, is, _)| *is));
        old.extend(self.renamed.iter().map(|(state, _, _)| *state));
        new.extend(self.renamed.iter().map(|(state, _, _)| *state));
        (old, new)
    }

    /// As JSON, behind what stands in the object already.
    pub fn object(&self, object: Object) -> Object {
        let renumbered = self.renumbered.iter().map(|(was, is, name)| {
            Object::default()
                .plain("old", was)
                .plain("new", is)
                .text("name", name)
        });
        let named = |object: Object, key: &str, name: &Option<String>| match name {
            Some(name) => object.text(key, name),
            None => object.plain(key, "null"),
        };
        let renamed = self.renamed.iter().map(|(state, was, is)| {
            let object = named(Object::default().plain("state", state), "old", was);
            named(object, "new", is)
        });
        object
            .plain("renumbered", list(renumbered.map(|object| object.shown())))
            .plain("renamed", list(renamed.map(|object| object.shown())))
            .object("removed", self.removed.object())
            .object("added", self.added.object())
            .plain("reordered", self.reordered)
    }
}

impl Facts {
    /// The facts as a text has them, in lists by their sort.
    fn lines(&self, names: Option<&Names>) -> [Vec<String>; 8] {
        let screen = |s: &usize| names.map_or(s.to_string(), |names| screen(names, *s));
        let states = |word: &str, states: &[usize]| {
            states
                .iter()
                .map(|s| format!("{word} {}", screen(s)))
                .collect()
        };
        let steps = |word: &str, steps: &[(usize, usize)]| {
            let line = |(a, b): &(usize, usize)| format!("{word} {} -> {}", screen(a), screen(b));
            steps.iter().map(line).collect()
        };
        let group = |group: &Vec<usize>| match group.is_empty() {
            true => "group none".to_string(),
            false => format!(
                "group {}",
                group.iter().map(screen).collect::<Vec<_>>().join(", ")
            ),
        };
        [
            states("state", &self.states),
            states("initial", &self.initial),
            states("forbidden", &self.forbidden),
            states("resting", &self.resting),
            states("hang", &self.hangs),
            self.groups.iter().map(group).collect(),
            steps("step", &self.steps),
            steps("possible", &self.possible),
        ]
    }

    fn object(&self) -> Object {
        let steps =
            |steps: &[(usize, usize)]| list(steps.iter().map(|(a, b)| format!("[{a}, {b}]")));
        let groups = self.groups.iter();
        Object::default()
            .numbers("states", self.states.iter().copied())
            .numbers("initial", self.initial.iter().copied())
            .numbers("forbidden", self.forbidden.iter().copied())
            .numbers("resting", self.resting.iter().copied())
            .numbers("hangs", self.hangs.iter().copied())
            .plain(
                "groups",
                list(groups.map(|group| list(group.iter().map(usize::to_string)))),
            )
            .plain("steps", steps(&self.steps))
            .plain("possible", steps(&self.possible))
    }

    /// The states that stand in them.
    fn listed(&self) -> Vec<usize> {
        let sets = [
            &self.states,
            &self.initial,
            &self.forbidden,
            &self.resting,
            &self.hangs,
        ];
        let steps = self.steps.iter().chain(&self.possible);
        sets.into_iter()
            .chain(&self.groups)
            .flatten()
            .copied()
            .chain(steps.flat_map(|&(from, to)| [from, to]))
            .collect()
    }

    /// How many there are.
    pub fn count(&self) -> usize {
        self.lines(None).iter().map(Vec::len).sum()
    }
}

fn list(values: impl Iterator<Item = String>) -> String {
    format!("[{}]", values.collect::<Vec<_>>().join(", "))
}
