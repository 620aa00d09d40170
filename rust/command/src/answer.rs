//! What a check answers of a table, made once: its text, JSON, headline and status are views of it.

use crate::failure::{Failure, status};
use crate::json::Object;
use crate::lines::Names;
use crate::names::{name_lines, numbers, screen, with_names};
use crate::shown::counted;
use crate::source::Source;
use crate::table::{end_label, end_message};
use crate::text::listing;
use crate::words::Opt;
use shuntberry::checking::{CHECK_TEXT_BYTES, Checked, check};
use shuntberry::{Decision, Forbidden, MAX_ALLOWANCE, ModalDecision, Refused, StateSet, Table};

/// What was found.
#[derive(Clone, Copy, Debug, PartialEq, Eq)]
pub enum Verdict {
    /// No forbidden state can be reached.
    Safe,
    /// One can.
    Unsafe,
    /// The allowance was used up before either was known.
    Undecided,
    /// It depends on the choice between possible steps.
    Depends,
    /// The table has no states. Its text says safe, but it is nothing that may be released.
    Draft,
    /// The bytes are no file of the site.
    Refused(Refused),
}

impl Verdict {
    /// Its name, for who looks at this word alone.
    pub fn label(self) -> &'static str {
        match self {
            Verdict::Safe => "safe",
            Verdict::Unsafe => "unsafe",
            Verdict::Undecided => "undecided",
            Verdict::Depends => "depends",
            Verdict::Draft => "draft",
            Verdict::Refused(_) => "refused",
        }
    }

    /// The status that a command ends with.
    pub fn status(self) -> u8 {
        match self {
            Verdict::Safe => status::DONE,
            Verdict::Unsafe => status::UNSAFE,
            Verdict::Undecided | Verdict::Depends | Verdict::Draft => status::NO_RELEASE,
            Verdict::Refused(_) => status::REFUSED,
        }
    }
}

/// What was found of a table.
#[derive(Clone, Debug)]
pub struct Answer {
    /// What was found.
    pub verdict: Verdict,
    /// The number of states; 0 of a file that is refused, as all numbers here.
    pub n: usize,
    /// The number of groups.
    pub g: usize,
    /// The number of refinements, where it is given.
    pub count: Option<u32>,
    /// States of which no forbidden one can be reached, where there are such.
    pub invariant: Option<StateSet>,
    /// A shortest path from a start to a forbidden state, where there is one.
    pub path: Option<Vec<usize>>,
    /// Why the last state of the path is forbidden.
    pub end: Option<Forbidden>,
    /// Why it says little that the table is safe, if it does.
    pub vacuous: Option<Vacuous>,
    /// The lines; of a release check those of the proved call.
    pub text: String,
}

impl Answer {
    /// A release check of what was read. The text is that of the proved call on the bytes; the numbers and states are those of the
    /// call on the table in them, and no answer where they would give another text.
    pub fn of(source: &Source) -> Result<Answer, Failure> {
        let mut room = [0; CHECK_TEXT_BYTES];
        let checked = check(&source.file, source.site, &mut room)
            .map_err(|refused| Failure::Failed(format!("the call was {refused}")))?;
        let answer = match &source.table {
            Ok(table) => Answer::within(table, MAX_ALLOWANCE)?,
            Err(refused) => Answer::refused(*refused),
        };
        let (Checked::Safe { text, .. }
        | Checked::Unsafe { text, .. }
        | Checked::RefusedFile { text, .. }) = checked;
        if text != answer.text.as_bytes() || checked.is_safe() != (answer.verdict == Verdict::Safe)
        {
            return Err(Failure::Failed(
                "two calls of the library do not agree: there is no answer".to_string(),
            ));
        }
        Ok(answer)
    }

    /// A check of a table with at most so many refinements.
    pub fn within(table: &Table, allowance: usize) -> Result<Answer, Refused> {
        let (verdict, count, invariant, path) = match table.decide(allowance)? {
            Decision::Safe { count, invariant } => (Verdict::Safe, count, Some(invariant), None),
            Decision::Unsafe { count, path } => (Verdict::Unsafe, count, None, Some(path)),
            Decision::Undecided { count } => (Verdict::Undecided, count, None, None),
            Decision::Draft => (Verdict::Draft, 0, Some(StateSet::new()), None),
        };
        Ok(Answer::found(table, verdict, Some(count), invariant, path))
    }

    /// A table decided for every choice between its steps and those of a table that has the possible ones too. Whether a state hangs
    /// goes by these.
    pub fn of_choices(table: &Table, possible: &Table) -> Result<Answer, Refused> {
        let (verdict, invariant, path) = match table.decide_modal(possible.steps())? {
            ModalDecision::Safe { invariant } => (Verdict::Safe, Some(invariant), None),
            ModalDecision::Unsafe { path } => (Verdict::Unsafe, None, Some(path)),
            ModalDecision::Depends { invariant, path } => {
                (Verdict::Depends, Some(invariant), Some(path))
            }
            ModalDecision::Draft => (Verdict::Draft, Some(StateSet::new()), None),
        };
        Ok(Answer::found(possible, verdict, None, invariant, path))
    }

    fn found(
        table: &Table,
        verdict: Verdict,
        count: Option<u32>,
        invariant: Option<StateSet>,
        path: Option<Vec<usize>>,
    ) -> Answer {
        let mut answer = Answer {
            verdict,
            n: table.n(),
            g: table.g(),
            count,
            invariant,
            end: path
                .as_ref()
                .and_then(|path| table.why_forbidden(*path.last()?)),
            path,
            vacuous: vacuous(table).filter(|_| verdict == Verdict::Safe),
            text: String::new(),
        };
        answer.text = answer.lines();
        answer
    }

    fn refused(refused: Refused) -> Answer {
        Answer {
            verdict: Verdict::Refused(refused),
            n: 0,
            g: 0,
            count: None,
            invariant: None,
            path: None,
            end: None,
            vacuous: None,
            text: format!("refused {}\n", refused.0),
        }
    }

    /// The lines that the specification gives a check of a table; of a choice those without refinements.
    fn lines(&self) -> String {
        let verdict_name = match self.verdict {
            Verdict::Draft => Verdict::Safe.label(),
            verdict => verdict.label(),
        };
        let mut lines = format!("states {} groups {}\n{verdict_name}", self.n, self.g);
        lines += &self
            .count
            .map_or(String::new(), |count| format!(" refinements {count}"));
        lines += "\n";
        if let Some(states) = self.invariant {
            lines += self.heading("with the certain steps alone:\n");
            lines += &format!("invariant {}: {}\n", states.len(), listing(states));
        }
        if let Some(path) = &self.path {
            lines += self.heading("with every possible step:\n");
            lines += &format!("path {}\n", numbers(path.iter().copied()));
        }
        lines
    }

    /// A heading, where path and invariant are of two tables.
    fn heading(&self, heading: &'static str) -> &'static str {
        match self.verdict {
            Verdict::Depends => heading,
            _ => "",
        }
    }

    /// The states of path and invariant.
    pub fn states(&self) -> impl Iterator<Item = usize> {
        let invariant = self.invariant.unwrap_or_default();
        self.path
            .iter()
            .flatten()
            .copied()
            .chain(invariant.states())
    }

    /// The steps of the path.
    pub fn steps(&self) -> usize {
        self.path.iter().flatten().count().saturating_sub(1)
    }

    /// The text, and the names of its states below it.
    pub fn with_names(&self, names: &Names) -> String {
        self.text.clone() + &name_lines(names, self.states())
    }

    /// What was found, in a line.
    pub fn headline(&self) -> String {
        let end = match self.end {
            Some(Forbidden::Hang) => "hang",
            _ => "forbidden state",
        };
        match self.verdict {
            Verdict::Safe => "safe: no forbidden state can be reached".to_string(),
            Verdict::Draft => {
                "draft: the table has no states, and nothing is to be released".to_string()
            }
            Verdict::Unsafe if self.steps() == 0 => {
                format!("unsafe: a session can start in a {end}")
            }
            Verdict::Unsafe => {
                let steps = counted(self.steps(), "step");
                format!("unsafe: a {end} is reached in {steps}")
            }
            verdict => verdict.label().to_string(),
        }
    }

    /// Why it is so, and what to do: what is said without being asked. Nothing of a table that is safe, where that says something.
    pub fn explanation(&self, source: &Source) -> Option<String> {
        match self.verdict {
            Verdict::Safe => self.why_vacuous(),
            Verdict::Unsafe | Verdict::Depends => self.why_unsafe(&source.names),
            Verdict::Undecided => Some(format!(
                "so many refinements do not tell safe from unsafe: check without --allowance, or allow more, up to {MAX_ALLOWANCE}"
            )),
            Verdict::Draft => Some(NO_STATES.to_string()),
            Verdict::Refused(refused) => Some(source.why_refused(refused)),
        }
    }

    /// Whether that is said with `--quiet` too. A draft is mostly what a command that failed left, and of a vacuous table the status says safe.
    pub fn is_always_said(&self) -> bool {
        self.verdict == Verdict::Draft || self.vacuous.is_some()
    }

    /// Whether `release` takes it without being told to take more.
    pub fn may_be_released(&self) -> bool {
        self.verdict == Verdict::Safe && self.vacuous.is_none()
    }

    /// Why it says little that the table is safe.
    pub fn why_vacuous(&self) -> Option<String> {
        self.vacuous
            .map(|why| format!("{}; release declines such a table", why.message()))
    }

    /// Why the path ends where it does: a screen may be forbidden though nobody marked it.
    pub fn why_unsafe(&self, names: &Names) -> Option<String> {
        let last = screen(names, *self.path.as_ref()?.last()?);
        let end = end_message(self.end?);
        Some(format!("the path ends in {last}, {end}"))
    }

    /// As JSON, behind what stands in the object already.
    pub fn object(&self, object: Object, names: &Names) -> Object {
        with_names(self.facts(object), names, self.states())
    }

    /// The same without names.
    pub fn facts(&self, object: Object) -> Object {
        let mut object = object.text("verdict", self.verdict.label());
        if let Verdict::Refused(refused) = self.verdict {
            return object
                .plain("refusal", refused.0)
                .text("ground", refused.message());
        }
        object = object.plain("states", self.n).plain("groups", self.g);
        if let Some(count) = self.count {
            object = object.plain("refinements", count);
        }
        object = vacuous_facts(object, self.verdict, self.vacuous);
        if let Some(states) = self.invariant {
            object = object.numbers("invariant", states.states());
        }
        if let Some(path) = &self.path {
            object = object.numbers("path", path.iter().copied());
        }
        if let Some(end) = self.end {
            object = object.text("ends_in", end_label(end));
        }
        object
    }
}

// ---- Where safe says little

/// `--even-if-vacuous`, of the command release
pub const VACUOUS: Opt = Opt {
    name: "--even-if-vacuous",
    value: None,
    about: "releases a table without an initial state, or in which nothing is forbidden, too",
};

/// Why it says little of a table that it is safe.
#[derive(Clone, Copy, Debug)]
pub enum Vacuous {
    /// No session can start.
    NoInitial,
    /// Nothing is marked, and nothing hangs.
    NothingForbidden,
}

impl Vacuous {
    /// In few words, beside a verdict.
    pub fn label(self) -> &'static str {
        match self {
            Vacuous::NoInitial => "no state is initial",
            Vacuous::NothingForbidden => "nothing is forbidden",
        }
    }

    /// In a sentence.
    pub fn message(self) -> &'static str {
        match self {
            Vacuous::NoInitial => {
                "the table has no initial state, so that it is safe whatever else is in it"
            }
            Vacuous::NothingForbidden => {
                "nothing in the table is forbidden, so that it is safe whatever else is in it"
            }
        }
    }
}

/// What is said of a draft.
pub const NO_STATES: &str =
    "the table has no states, so that nothing is to be released: an empty input is a draft";

fn vacuous(table: &Table) -> Option<Vacuous> {
    if table.initial().is_empty() {
        Some(Vacuous::NoInitial)
    } else if table.forbidden().is_empty() {
        Some(Vacuous::NothingForbidden)
    } else {
        None
    }
}

/// As JSON, behind a verdict: of a safe table whether that says little, and why.
pub fn vacuous_facts(object: Object, verdict: Verdict, vacuous: Option<Vacuous>) -> Object {
    let object = match verdict {
        Verdict::Safe => object.plain("vacuous", vacuous.is_some()),
        _ => object,
    };
    match vacuous {
        Some(why) => object.text("why", why.message()),
        None => object,
    }
}
