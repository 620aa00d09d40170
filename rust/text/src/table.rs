//! The text of a table: one fact a line, for people and for tests.
//!
//! ```text
//! state off                   # each state by its name; they are numbered from 0, in this order
//! state home
//! state hard-limit
//! initial off
//! forbidden hard-limit
//! resting none
//! group off home
//! step off -> home
//! end
//! ```
//!
//! Or the states have numbers of their own, and some of them a name. A text takes one form or the other:
//!
//! ```text
//! states 3                    # how many there are; they are numbered from 0
//! state 2 hard-limit          # a name, which may stand for the number wherever a state is meant
//! initial 0
//! forbidden hard-limit
//! step 0 -> 1 2
//! end
//! ```
//!
//! Lines but the last stand in any order; those of one set add to it, and each `group` is a group more. `initial` and `forbidden` must not be
//! forgotten, since for want of one a table could be safe that should not be: it has to say `none`. [`print`] writes the one text of
//! a table that has each fact in its place, in the form with numbers; a file holds no names.
//!
//! A text has no characters that cannot be seen or move others, and the letters of each of its names are of
//! one alphabet. The text is gone through once for each sort of fact, and nothing is kept of it but what a table can hold and the first
//! mistakes: a text of any length takes little room.

use crate::lines::{
    alphabet, bare, cut, first_word, keyword, miswritten, number, quoted, said, strange, Mistake,
    Mistakes, Names, Words, ARROW, END, MAX_NAME,
};
use crate::near::did_you_mean;
use crate::{MAX_GROUPS, MAX_STATES, SET_WORDS};
use alloc::collections::{BTreeMap, BTreeSet};
use alloc::format;
use alloc::string::{String, ToString};
use alloc::vec;
use alloc::vec::Vec;

/// The word for an empty set.
const NONE: &str = "none";

/// A set of states: state s is the bit of value 2^(s % 64) in word s / 64.
pub type Set = [u64; SET_WORDS];

/// A table, which nobody has accepted yet.
#[derive(Clone, Debug, Default, PartialEq, Eq)]
pub struct Table {
    /// Where a session can start.
    pub initial: Set,
    /// The states that are marked forbidden.
    pub marked: Set,
    /// Where a session may end.
    pub resting: Set,
    /// The groups.
    pub groups: Vec<Set>,
    /// The successors of each state: there are as many rows as states.
    pub rows: Vec<Set>,
}

/// What a text says.
#[derive(Clone, Debug, PartialEq, Eq)]
pub struct Text {
    /// The table.
    pub table: Table,
    /// The names of its states, by their numbers.
    pub names: Names,
    /// The steps that are only possible, for the command options alone.
    pub possible: BTreeSet<(usize, usize)>,
}

// ---- From a table

/// The text of a table, in which a state that has a name is meant by it. Names are printed as they are: those of a text are good ones.
pub fn print(table: &Table, names: &Names) -> String {
    print_with_possible(table, names, &[])
}

/// The same with a line `possible` for each row of further steps that is not empty.
pub fn print_with_possible(table: &Table, names: &Names, possible: &[Set]) -> String {
    let word = |state: usize| names.get(&state).cloned().unwrap_or(state.to_string());
    let mut text = format!("states {}\n", table.rows.len());
    if !table.rows.is_empty() {
        text += &facts(table, names, &word);
        text += &steps("step", &table.rows, &word);
        text += &steps("possible", possible, &word);
    }
    text + END + "\n"
}

/// All but the steps.
fn facts(table: &Table, names: &Names, word: &dyn Fn(usize) -> String) -> String {
    let mut text = String::new();
    for (state, name) in names {
        text += &format!("state {state} {name}\n");
    }
    let mut say = |fact: &str, states: &Set| text += &format!("{fact} {}\n", listed(states, word));
    say("initial", &table.initial);
    say("forbidden", &table.marked);
    say("resting", &table.resting);
    for group in &table.groups {
        say("group", group);
    }
    text
}

/// A line for each row that is not empty.
fn steps(fact: &str, rows: &[Set], word: &dyn Fn(usize) -> String) -> String {
    let rows = rows.iter().enumerate();
    rows.filter(|(_, row)| **row != Set::default())
        .map(|(s, row)| format!("{fact} {} {ARROW} {}\n", word(s), listed(row, word)))
        .collect()
}

/// The numbers of the states of a set, or `none`.
pub fn listing(states: &Set) -> String {
    listed(states, &|state| state.to_string())
}

/// The states of a set, each by its word, or `none`.
fn listed(states: &Set, word: &dyn Fn(usize) -> String) -> String {
    let holds = |s: &usize| states[s / 64] >> (s % 64) & 1 == 1;
    let words: Vec<String> = (0..MAX_STATES).filter(holds).map(word).collect();
    if words.is_empty() {
        NONE.to_string()
    } else {
        words.join(" ")
    }
}

// ---- To a table

/// What a text says, or its mistakes, by their lines.
pub fn parse(text: &[u8]) -> Result<Text, Mistakes> {
    parse_without_possible(text, "possible steps are for the command options alone: write two texts without such lines, one with these steps as step lines, and encode both")
}

/// The same, with other words on a line `possible STATE -> STATE..`: what reads such a text, where there is no command.
pub fn parse_without_possible(text: &[u8], why: &'static str) -> Result<Text, Mistakes> {
    let reader = Reader {
        no_possible: Some(why),
        ..Reader::default()
    };
    reader.read(text)
}

/// The same of a text that may have lines `possible STATE -> STATE..` too.
pub fn parse_with_possible(text: &[u8]) -> Result<Text, Mistakes> {
    Reader::default().read(text)
}

/// The mistakes of names that a table of n states is to have, by the lines of its text ([`print`]) that would say them.
pub fn mistakes_of(names: &Names, n: usize) -> Mistakes {
    let mut reader = Reader {
        n: Some(n),
        ..Reader::default()
    };
    for (line, (state, name)) in (2..).zip(names) {
        reader.at = line;
        reader.name(&Line {
            number: line,
            word: "state",
            fact: "state",
            words: &[&state.to_string(), name],
        });
    }
    reader.mistakes
}

/// The words that a line begins with.
const FACTS: [&str; 8] = [
    "states",
    "state",
    "initial",
    "forbidden",
    "resting",
    "group",
    "step",
    "possible",
];

/// Whether bytes that are no file may be a text: the first word that they say is a fact.
pub fn looks_like_text(bytes: &[u8]) -> bool {
    first_word(bytes).map_or(false, |word| keyword(word, &FACTS).is_some())
}

/// A line that says something: its first word, what that is written for, and the others.
struct Line<'t> {
    number: usize,
    word: &'t str,
    fact: &'t str,
    words: &'t [&'t str],
}

/// The set `initial`, `forbidden` or `resting` as far as it was said.
struct Said {
    /// The first line about it, and whether that says `none`.
    first: (usize, bool),
    /// Its states, and the line of each.
    states: BTreeMap<usize, usize>,
}

/// A pair of states, and the line of the step between them.
type Steps = BTreeMap<(usize, usize), usize>;

/// How the states of a text get their numbers.
#[derive(Clone, Copy, Default, PartialEq, Eq)]
enum Form {
    /// By `states N` and `state N NAME`.
    #[default]
    Numbered,
    /// By the order of the lines `state NAME`.
    Ordered,
    /// In both ways, which is a mistake.
    Mixed,
}

const ONE_FORM: &str = "a text numbers all of its states, by states N and state N NAME, or none of them, by a line state NAME for each";

/// What was read so far.
#[derive(Default)]
struct Reader {
    /// What is said of a line of possible steps, where none is taken.
    no_possible: Option<&'static str>,
    /// The line that is read.
    at: usize,
    mistakes: Mistakes,
    form: Form,
    /// The number of states, where it is known, and the first line that was to give it.
    n: Option<usize>,
    n_line: Option<usize>,
    /// The first line that gives a state with its number, and the first that gives one without.
    numbered: Option<usize>,
    ordered: Option<usize>,
    /// What a name stands for, and the line that says so; the name of a state; the alphabet of the first one.
    named: BTreeMap<String, (usize, usize)>,
    names: Names,
    alphabet: Option<(&'static str, usize)>,
    /// Words of lines that were to name a state and have a mistake: their uses are none.
    excused: BTreeSet<String>,
    sets: BTreeMap<String, Said>,
    groups: Vec<Vec<usize>>,
    steps: Steps,
    possible: Steps,
}

impl Reader {
    fn read(mut self, text: &[u8]) -> Result<Text, Mistakes> {
        // The number of states and the names first: a line may stand before the one that says them.
        let lines = said(text)?;
        for (number, line) in lines.clone() {
            self.at = number;
            match line {
                Err(reason) => self.mistake(reason),
                Ok(words) => self.first(number, &words),
            }
        }
        let last = self.at;
        self.choose_form();
        self.each(lines.clone(), Reader::name);
        if self.form == Form::Ordered {
            self.n = Some(self.names.len()).filter(|&n| n > 0);
        }
        self.each(lines, Reader::fact);
        self.at = last;
        self.finish()
    }

    fn first(&mut self, at: usize, words: &[&str]) {
        let (word, words) = match words.split_first() {
            Some(both) => both,
            None => return,
        };
        match (keyword(word, &FACTS), words) {
            (Some(fact @ "states"), words) => self.states(&Line {
                number: at,
                word,
                fact,
                words,
            }),
            (Some("state"), [word, ..]) => {
                let first = match is_numbered(word) {
                    true => &mut self.numbered,
                    false => &mut self.ordered,
                };
                first.get_or_insert(at);
            }
            _ => {}
        }
    }

    /// The form of the text; that it has both is said once, on the line where the second one begins.
    fn choose_form(&mut self) {
        let numbered = [self.n_line, self.numbered].into_iter().flatten().min();
        let (numbered, ordered) = match (numbered, self.ordered) {
            (Some(numbered), Some(ordered)) => (numbered, ordered),
            (None, Some(_)) => return self.form = Form::Ordered,
            (_, None) => return self.form = Form::Numbered,
        };
        self.form = Form::Mixed;
        self.at = numbered.max(ordered);
        self.mistake(match numbered < ordered {
            true => format!("line {numbered} numbers the states, and this line gives one without a number: {ONE_FORM}"),
            false => format!("line {ordered} gives a state without a number, and this line numbers them: {ONE_FORM}"),
        });
    }

    /// Goes through the lines that say something.
    fn each<'t>(
        &mut self,
        lines: impl Iterator<Item = (usize, Words<'t>)>,
        take: fn(&mut Reader, &Line),
    ) {
        for (number, line) in lines {
            if let [word, words @ ..] = &line.unwrap_or_default()[..] {
                self.at = number;
                take(
                    self,
                    &Line {
                        number,
                        word,
                        fact: keyword(word, &FACTS).unwrap_or(word),
                        words,
                    },
                );
            }
        }
    }

    /// There is a mistake on the line that is read.
    fn mistake(&mut self, reason: impl Into<String>) {
        self.mistakes.push(Mistake {
            line: self.at,
            reason: reason.into(),
        });
    }

    /// `states N`
    fn states(&mut self, line: &Line) {
        if let Some(first) = self.n_line {
            return self.mistake(format!(
                "the number of states stands on line {first} already"
            ));
        }
        self.n_line = Some(line.number);
        let word = match *line.words {
            [word] => word,
            _ => return self.mistake("this line is written states N, with one number"),
        };
        match number(word) {
            Some(n) if n <= MAX_STATES => self.n = Some(n),
            Some(_) => self.mistake(format!(
                "{} states are too many: a table has at most {MAX_STATES}",
                cut(word)
            )),
            None => self.mistake(format!("{} is no number of states", quoted(word))),
        }
    }

    /// `state N NAME`, or `state NAME`
    fn name(&mut self, line: &Line) {
        if line.fact != "state" {
            return;
        }
        let done = match (self.form, line.words) {
            (_, []) => Err("no name stands behind state: state NAME, or state N NAME".to_string()),
            (Form::Ordered, [name]) => self.next_state(name),
            (Form::Ordered, words) => Err(format!(
                "{}; several states have a line each",
                with_spaces("state", words)
            )),
            (Form::Mixed, [word, ..]) if !is_numbered(word) => return self.excuse(line.words),
            (_, [word]) => Err(format!(
                "no name stands behind the number: state {} NAME",
                cut(word)
            )),
            (_, [word, name]) => self.numbered_state(word, name),
            (_, [word, words @ ..]) => Err(with_spaces(&format!("state {}", cut(word)), words)),
        };
        if let Err(reason) = done {
            self.mistake(reason);
            self.excuse(line.words);
        }
    }

    /// `state NAME` is the state behind those that were given before.
    fn next_state(&mut self, name: &str) -> Result<(), String> {
        self.alphabet_of(name)?;
        if let Some((_, first)) = self.named.get(name) {
            return Err(format!(
                "the state {name} stands on line {first} already: each has a name of its own"
            ));
        }
        if self.names.len() == MAX_STATES {
            return Err(format!(
                "this state is one too many: a table has at most {MAX_STATES}"
            ));
        }
        self.give(self.names.len(), name);
        Ok(())
    }

    /// `state N NAME`
    fn numbered_state(&mut self, word: &str, name: &str) -> Result<(), String> {
        self.alphabet_of(name)?;
        let state = number(word).ok_or_else(|| match separator(word) {
            Some(sign) => format!(
                "{} has a {sign}: a number stands alone, without one",
                quoted(word)
            ),
            None => format!("{} is no number", quoted(word)),
        })?;
        let state = self.nameless(self.in_range(state, word)?, name)?;
        self.give(state, name);
        Ok(())
    }

    fn give(&mut self, state: usize, name: &str) {
        self.named.insert(name.to_string(), (state, self.at));
        self.names.insert(state, name.to_string());
    }

    /// The line that was to give these words a meaning has a mistake: that they have none is none more.
    fn excuse(&mut self, words: &[&str]) {
        let names: Vec<&str> = words.iter().map(|word| bare(word)).collect();
        let names: Vec<&str> = names
            .into_iter()
            .filter(|name| number(name).is_none())
            .collect();
        for name in names
            .iter()
            .map(|name| name.to_string())
            .chain([names.join("-")])
        {
            if self.excused.len() < MAX_STATES {
                self.excused.insert(name);
            }
        }
    }

    /// Whether a name is one, in the alphabet of those before it.
    fn alphabet_of(&mut self, name: &str) -> Result<(), String> {
        if let Some(sign) = separator(name) {
            return Err(format!(
                "{} has a {sign}: a name stands alone, without one",
                quoted(name)
            ));
        }
        let letters = alphabet(name)
            .filter(|_| ![NONE, END].contains(&name))
            .ok_or_else(|| {
                format!(
                    "{} is no name: it has letters of one alphabet (Latin, Greek or Cyrillic), digits, - _ and ., begins with a letter, has {MAX_NAME} characters at most, and is neither {NONE} nor {END}{}",
                    quoted(name),
                    strange(name)
                )
            })?;
        let &mut (first, line) = self.alphabet.get_or_insert((letters, self.at));
        if first != letters {
            return Err(format!(
                "{} has {letters} letters, and line {line} a name of {first} ones: letters of two alphabets may look alike",
                quoted(name)
            ));
        }
        Ok(())
    }

    /// A state that has no name yet, for a name that no state has.
    fn nameless(&self, state: usize, name: &str) -> Result<usize, String> {
        match (self.named.get(name), self.names.get(&state)) {
            (Some((other, first)), _) => Err(format!(
                "state {other} has the name {name}, by line {first} already"
            )),
            (None, Some(other)) => Err(format!(
                "state {state} has the name {other}, by line {} already",
                self.named[other].1
            )),
            (None, None) => Ok(state),
        }
    }

    /// Every other line.
    fn fact(&mut self, line: &Line) {
        if let Some(reason) = miswritten(line.word, line.fact) {
            self.mistake(reason);
        }
        match line.fact {
            "states" | "state" => {}
            "initial" | "forbidden" | "resting" => self.set(line),
            "group" => self.group(line),
            "step" => self.step(line),
            "possible" => match self.no_possible {
                Some(why) => self.mistake(why),
                None => self.step(line),
            },
            word => self.mistake(self.no_fact(word, line.words)),
        }
    }

    /// What is said of a line that begins with none of the words that it may.
    fn no_fact(&self, word: &str, words: &[&str]) -> String {
        if !self.mistakes.shows(self.at) {
            return String::new(); // it is counted, and not shown
        }
        let (facts, last) = match self.no_possible {
            None => (&FACTS[..7], FACTS[7]),
            Some(_) => (&FACTS[..6], FACTS[6]),
        };
        let hint = match words {
            [ARROW, ..] => format!("; a step is written step {} {ARROW} STATE..", cut(word)),
            _ => did_you_mean(word, FACTS.into_iter().chain([END])),
        };
        let facts = facts.join(", ");
        format!(
            "a line begins with {facts} or {last}, and not with {}{hint}",
            quoted(word)
        )
    }

    /// `initial STATE..`, and `forbidden` and `resting` likewise
    fn set(&mut self, line: &Line) {
        let (at, fact) = (self.at, line.fact);
        let none = line.words == [NONE];
        let states = self.states_or_none(line);
        let said = self.sets.entry(fact.to_string()).or_insert(Said {
            first: (at, none),
            states: BTreeMap::new(),
        });
        let (first, first_none) = said.first;
        let twice: Vec<(usize, usize)> = states
            .iter()
            .filter_map(|&state| Some((state, said.states.insert(state, at)?)))
            .collect();
        if first != at && (none || first_none) {
            self.mistake(format!(
                "{fact} {NONE} goes with no other line of {fact}, and line {first} is one"
            ));
        }
        for (state, other) in twice {
            let state = self.shown(state);
            self.mistake(format!("state {state} is {fact} by line {other} already"));
        }
    }

    /// `group STATE..`
    fn group(&mut self, line: &Line) {
        let room = self.groups.len() < MAX_GROUPS;
        if !room {
            self.mistake(format!(
                "this group is one too many: a table has at most {MAX_GROUPS}"
            ));
        } else if self.n == Some(0) {
            self.mistake("a table without states has no groups");
        }
        let states = self.states_or_none(line);
        if room {
            self.groups.push(states);
        }
    }

    /// `step STATE -> STATE..`, and `possible` likewise
    fn step(&mut self, line: &Line) {
        let fact = line.fact;
        let (from, to) = match line.words {
            [from, ARROW, to @ ..] if !to.is_empty() && !to.contains(&ARROW) => (from, to),
            words => return self.mistake(no_step(fact, words)),
        };
        let from = self.listed(&[from]);
        let to = self.listed(to);
        for a in from {
            for &b in &to {
                self.add_step(fact, (a, b));
            }
        }
    }

    fn add_step(&mut self, fact: &str, step: (usize, usize)) {
        let known = self.steps.get(&step).or(self.possible.get(&step));
        if let Some(&other) = known {
            let (a, b) = (self.shown(step.0), self.shown(step.1));
            return self.mistake(format!(
                "the step {a} {ARROW} {b} stands on line {other} already"
            ));
        }
        match fact {
            "possible" => self.possible.insert(step, self.at),
            _ => self.steps.insert(step, self.at),
        };
    }

    /// The states of a line that may say `none`, and must say something.
    fn states_or_none(&mut self, line: &Line) -> Vec<usize> {
        if line.words.is_empty() {
            self.mistake(format!(
                "no state stands behind {0}: an empty one is written {0} {NONE}",
                line.fact
            ));
        }
        if line.words == [NONE] {
            Vec::new()
        } else {
            self.listed(line.words)
        }
    }

    /// The states that words stand for; a mistake for each word that stands for none, or for one once more.
    fn listed(&mut self, words: &[&str]) -> Vec<usize> {
        let mut states = Vec::new();
        let mut seen = BTreeSet::new();
        for word in words {
            match self.state(word) {
                Ok(state) if !seen.insert(state) => {
                    let state = self.shown(state);
                    self.mistake(format!("state {state} stands on this line already"))
                }
                Ok(state) => states.push(state),
                Err(Some(reason)) => self.mistake(reason),
                Err(None) => {}
            }
        }
        states
    }

    /// A state as the text means it.
    fn shown(&self, state: usize) -> String {
        match self.form {
            Form::Ordered => self.names[&state].clone(),
            _ => state.to_string(),
        }
    }

    /// The state that a word stands for; else the reason why it stands for none, where that is no mistake of another line.
    fn state(&self, word: &str) -> Result<usize, Option<String>> {
        match (number(word), self.named.get(word)) {
            (Some(_), _) if self.form == Form::Ordered => Err(Some(format!(
                "{} is a number, and the states of this text are given without: write the state's name",
                cut(word)
            ))),
            (Some(state), _) => self.in_range(state, word).map_err(Some),
            (None, Some(&(state, _))) => Ok(state),
            (None, None) if self.is_excused(word) => Err(None),
            (None, None) => Err(Some(self.no_state(word))),
        }
    }

    /// Whether that a word is no state comes of the mistake of another line.
    fn is_excused(&self, word: &str) -> bool {
        separator(word).is_none() && self.excused.contains(bare(word))
    }

    /// What is said of a word that is no state.
    fn no_state(&self, word: &str) -> String {
        if word == NONE {
            return format!("{NONE} stands alone behind initial, forbidden, resting or group");
        }
        if let Some(sign) = separator(word) {
            return format!(
                "{} has a {sign}: states are separated by spaces alone",
                quoted(word)
            );
        }
        let (what, line) = match self.form {
            Form::Ordered => ("is no state: no line gives one this name", "state"),
            _ => (
                "is no number, and no line gives a state this name",
                "state N",
            ),
        };
        let names = self.named.keys().map(String::as_str);
        let near = match self.mistakes.shows(self.at) {
            true if self.named.contains_key(bare(word)) => {
                format!("; it is written {}", bare(word))
            }
            true => did_you_mean(word, names),
            false => String::new(),
        };
        let hint = match alphabet(word) {
            Some(_) if near.is_empty() => format!("; {line} {} would", cut(word)),
            _ if word.starts_with("//") => "; a comment begins with #".to_string(),
            _ if bare(word).is_empty() => "; words stand apart by spaces alone".to_string(),
            _ => near,
        };
        format!("{} {what}{}{hint}", quoted(word), strange(word))
    }

    /// A state that the table has; where it is not known how many it has, one that some table has.
    fn in_range(&self, state: usize, word: &str) -> Result<usize, String> {
        let n = self.n.unwrap_or(MAX_STATES);
        if state < n {
            return Ok(state);
        }
        let why = match self.n {
            Some(n) => range(n),
            None => format!("a table has at most {MAX_STATES}"),
        };
        Err(format!("there is no state {}: {why}", cut(word)))
    }

    /// What the text says, if there is no mistake: then each state is one that the table has.
    fn finish(mut self) -> Result<Text, Mistakes> {
        let unsaid = self.n_line.is_none() && self.ordered.is_none();
        if unsaid || self.n.is_none() && self.mistakes.is_empty() {
            self.mistake("the text ends, and no line says how many states there are: states N, or a line state NAME for each");
        }
        for fact in ["initial", "forbidden"] {
            if self.n != Some(0) && !self.sets.contains_key(fact) {
                self.mistake(format!(
                    "the text ends, and no line says which states are {fact}: {fact} {NONE} if there is none"
                ));
            }
        }
        match self.n {
            Some(n) if self.mistakes.is_empty() => Ok(self.text(n)),
            _ => Err(self.mistakes),
        }
    }

    fn text(self, n: usize) -> Text {
        let said = |fact: &str| match self.sets.get(fact) {
            Some(said) => set_of(said.states.keys()),
            None => Set::default(),
        };
        let mut table = Table {
            initial: said("initial"),
            marked: said("forbidden"),
            resting: said("resting"),
            groups: self.groups.iter().map(set_of).collect(),
            rows: vec![Set::default(); n],
        };
        for &(a, b) in self.steps.keys() {
            insert(&mut table.rows[a], b);
        }
        Text {
            table,
            names: self.names,
            possible: self.possible.into_keys().collect(),
        }
    }
}

fn insert(set: &mut Set, state: usize) {
    set[state / 64] |= 1 << (state % 64);
}

fn set_of<'s>(states: impl IntoIterator<Item = &'s usize>) -> Set {
    let mut set = Set::default();
    for &state in states {
        insert(&mut set, state);
    }
    set
}

/// The comma or semicolon of a word.
fn separator(word: &str) -> Option<&'static str> {
    let sign = word.chars().find(|c| ",;".contains(*c))?;
    Some(if sign == ',' { "comma" } else { "semicolon" })
}

/// Whether what is to be a state's number or its name is a number, whatever sign stands beside it.
fn is_numbered(word: &str) -> bool {
    number(bare(word)).is_some()
}

/// What is said of a name of several words, behind what stands before it.
fn with_spaces(before: &str, words: &[&str]) -> String {
    let signed = words.iter().find_map(|word| Some((word, separator(word)?)));
    if let Some((word, sign)) = signed {
        return format!(
            "{} has a {sign}: each state has a line of its own, {before} NAME",
            quoted(word)
        );
    }
    let bare: Vec<&str> = words.iter().map(|word| bare(word)).collect();
    let name = bare.join("-");
    match alphabet(&name) {
        Some(_) => format!("a name has no spaces: {before} {name}"),
        None => format!("a name has no spaces: {before} NAME, with a name of one word"),
    }
}

/// What is said of a line that is no step.
fn no_step(fact: &str, words: &[&str]) -> String {
    let is_arrow = |word: &&&str| word.contains(&['>', '\u{21d2}', '\u{27f6}', '\u{2794}'][..]);
    match words
        .iter()
        .find(is_arrow)
        .filter(|_| !words.contains(&ARROW))
    {
        Some(word) => format!("{} is no arrow: it is written {ARROW}", quoted(word)),
        None => format!(
            "a step is written {fact} STATE {ARROW} STATE.., with one state before the arrow"
        ),
    }
}

/// Which states a table of n has, in words.
fn range(n: usize) -> String {
    match n.checked_sub(1) {
        None => "with states 0 there is none".to_string(),
        Some(0) => "with states 1 there is 0 alone".to_string(),
        Some(most) => format!("with states {n} they are 0 to {most}"),
    }
}
