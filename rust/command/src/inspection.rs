//! What is in a table, screen by screen, and what a reviewer should look at.

use crate::answer::Answer;
use crate::json::Object;
use crate::lines::Names;
use crate::names::{numbers, screen};
use crate::repairs::Repairs;
use crate::table::{is_hang, is_unmarked};
use shuntberry::{Refused, StateSet, Table};

/// A table with what the library says of it.
#[derive(Debug)]
pub struct Inspection<'t> {
    table: &'t Table,
    /// The names of its screens.
    pub names: &'t Names,
    reachable: StateSet,
    /// What is wrong with the table, if it is unsafe.
    pub repairs: Option<Repairs>,
    away: Vec<Option<usize>>,
}

/// What a reviewer should look at.
#[derive(Debug)]
pub struct Remark {
    /// A word for programs.
    pub label: &'static str,
    /// A sentence.
    pub message: &'static str,
    /// The screens that it is about.
    pub states: Vec<usize>,
}

impl<'t> Inspection<'t> {
    /// What the library says of a table.
    pub fn of(
        table: &'t Table,
        answer: &Answer,
        names: &'t Names,
    ) -> Result<Inspection<'t>, Refused> {
        Ok(Inspection {
            table,
            names,
            reachable: table.reachable()?,
            repairs: Repairs::of(table, answer)?,
            away: table.distances()?,
        })
    }

    /// What a state is: `initial`, `marked`, `resting`, `hang`.
    pub fn kinds(&self, s: usize) -> Vec<&'static str> {
        let held = self.kinds_of(s).into_iter().filter(|(_, holds)| *holds);
        held.map(|(kind, _)| kind).collect()
    }

    /// What a state can be, and whether it is.
    fn kinds_of(&self, s: usize) -> [(&'static str, bool); 4] {
        [
            ("initial", self.table.initial().contains(s)),
            ("marked", self.table.marked().contains(s)),
            ("resting", self.table.resting().contains(s)),
            ("hang", is_hang(self.table, s)),
        ]
    }

    /// The groups that a state is in.
    pub fn groups(&self, s: usize) -> Vec<usize> {
        let groups = self.table.groups().enumerate();
        let holding = groups.filter(|(_, group)| group.contains(s));
        holding.map(|(j, _)| j).collect()
    }

    /// The states that the steps of a state lead to.
    pub fn successors(&self, s: usize) -> impl Iterator<Item = usize> {
        self.table.successors(s).unwrap_or_default().states()
    }

    /// Whether a session can come to a state.
    pub fn is_reachable(&self, s: usize) -> bool {
        self.reachable.contains(s)
    }

    /// The number of steps to the nearest forbidden state, if there is a way to one.
    pub fn distance(&self, s: usize) -> Option<usize> {
        self.away[s]
    }

    // ---- As lines

    /// A line for each screen, and for each remark.
    pub fn lines(&self) -> String {
        let (n, g) = (self.table.n(), self.table.g());
        let mut lines = format!("states {n} groups {g}\n");
        lines.extend((0..n).map(|s| self.line(s)));
        let remarks = self.remarks();
        if remarks.is_empty() {
            lines += "look at nothing in particular\n";
        }
        for remark in remarks {
            let states: Vec<String> = remark.states.iter().map(|s| self.screen(*s)).collect();
            let colon = if states.is_empty() { "" } else { ": " };
            lines += &format!("look at: {}{colon}{}\n", remark.message, states.join(", "));
        }
        let repairs = self
            .repairs
            .iter()
            .flat_map(|repairs| repairs.lines(self.names));
        lines.extend(repairs.map(|line| line + "\n"));
        lines
    }

    /// The name of a state, if it has one.
    pub fn name(&self, s: usize) -> Option<&str> {
        self.names.get(&s).map(String::as_str)
    }

    /// A state by its number, and its name if it has one.
    pub fn screen(&self, s: usize) -> String {
        screen(self.names, s)
    }

    /// `state 3 over-limit: marked, hang, groups 0 2, reachable, distance 0`
    fn line(&self, s: usize) -> String {
        let groups = self.groups(s);
        let mut words: Vec<String> = self.kinds(s).into_iter().map(str::to_string).collect();
        words.extend((!groups.is_empty()).then(|| format!("groups {}", numbers(groups))));
        words.push(match self.is_reachable(s) {
            true => "reachable".to_string(),
            false => "not reachable".to_string(),
        });
        words.push(match self.distance(s) {
            Some(away) => format!("distance {away}"),
            None => "distance never".to_string(),
        });
        format!("state {}: {}\n", self.screen(s), words.join(", "))
    }

    // ---- As JSON

    /// The same, as an object.
    pub fn object(&self) -> Object {
        let remarks = self.remarks().into_iter().map(|remark| {
            Object::default()
                .text("remark", remark.label)
                .numbers("screens", remark.states)
        });
        let object = Object::default()
            .plain("states", self.table.n())
            .plain("groups", self.table.g())
            .objects("screens", (0..self.table.n()).map(|s| self.state(s)))
            .objects("look_at", remarks);
        match &self.repairs {
            Some(repairs) => repairs.object(object),
            None => object,
        }
    }

    fn state(&self, s: usize) -> Object {
        let object = Object::default().plain("state", s);
        let object = match self.name(s) {
            Some(name) => object.text("name", name),
            None => object,
        };
        let kinds = self.kinds_of(s).into_iter();
        kinds
            .fold(object, |object, (kind, holds)| object.plain(kind, holds))
            .numbers("groups", self.groups(s))
            .plain("reachable", self.reachable.contains(s))
            .plain(
                "distance",
                self.distance(s)
                    .map_or("null".to_string(), |away| away.to_string()),
            )
    }

    // ---- What to look at

    /// What a reviewer should look at.
    pub fn remarks(&self) -> Vec<Remark> {
        let (table, n) = (self.table, self.table.n());
        let (forbidden, reachable) = (table.forbidden(), self.reachable);
        let hangs = (0..n).filter(|&s| is_hang(table, s)).collect();
        // That a forbidden screen is not reached is what is wanted.
        let wanted = |&s: &usize| reachable.contains(s) || forbidden.contains(s);
        let not_reached = (0..n).filter(|s| !wanted(s)).collect();
        let whole = |label, message| (label, message, Vec::new());
        let some = |label, message, states: Vec<usize>| {
            (!states.is_empty()).then_some((label, message, states))
        };
        let all = [
            (n == 0).then(|| whole("no-states", "the table has no states: an untouched draft")),
            (n > 0 && table.initial().is_empty()).then(|| {
                whole(
                    "no-initial",
                    "no state is initial, so that the table is safe whatever else is in it",
                )
            }),
            (n > 0 && forbidden.is_empty()).then(|| {
                whole(
                    "nothing-forbidden",
                    "nothing is forbidden, so that the table is safe whatever else is in it",
                )
            }),
            is_unmarked(table).then(|| {
                whole(
                    "nothing-marked",
                    "no state is marked as forbidden: only hangs are",
                )
            }),
            some(
                "forbidden-reached",
                "forbidden screens that can be reached",
                forbidden.intersection(reachable).states().collect(),
            ),
            some(
                "hang",
                "hangs, which have no way out and do not rest",
                hangs,
            ),
            some(
                "not-reached",
                "screens that no session reaches",
                not_reached,
            ),
        ];
        let remark = |(label, message, states)| Remark {
            label,
            message,
            states,
        };
        all.into_iter().flatten().map(remark).collect()
    }
}
