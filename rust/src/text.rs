//! Tables out of texts and into them, with names for their states, by the one reader and printer of texts.

use crate::{
    INITIAL, MARKED, MAX_DAYS, MAX_GROUPS, MAX_STATES, MAX_WINDOWS, RESTING, Refused, SET_WORDS,
    STORE_WORDS, Table, group, row,
};
use shuntberry_text::table as plain;
use std::error::Error;
use std::fmt;

pub use shuntberry_text::lines::{Mistake, Mistakes, Names};

// The reader knows no library: what it takes for the most is what the library does.
const _: () = assert!(
    shuntberry_text::MAX_STATES == MAX_STATES
        && shuntberry_text::MAX_GROUPS == MAX_GROUPS
        && shuntberry_text::SET_WORDS == SET_WORDS
        && shuntberry_text::MAX_WINDOWS == MAX_WINDOWS
        && shuntberry_text::MAX_DAYS == MAX_DAYS
);

const NO_POSSIBLE: &str = "possible steps are not read here: remove such lines, and give Table::decide_modal these steps beside the others";

/// Why a text gives no table, or a table does not take names.
#[derive(Clone, Debug, PartialEq, Eq)]
pub enum TextError {
    /// The text has mistakes. Of names they are by the lines of [`Table::to_text`] that would say these.
    Mistakes(Mistakes),
    /// The library does not accept the table. The proved one accepts all that is read.
    Refused(Refused),
}

impl fmt::Display for TextError {
    fn fmt(&self, out: &mut fmt::Formatter<'_>) -> fmt::Result {
        let mistakes = match self {
            TextError::Refused(refused) => return refused.fmt(out),
            TextError::Mistakes(mistakes) => mistakes,
        };
        let plural = if mistakes.count == 1 { "" } else { "s" };
        write!(out, "{} mistake{plural} in the text", mistakes.count)?;
        for Mistake { line, reason } in mistakes.first() {
            write!(out, "\nline {line}: {reason}")?;
        }
        match mistakes.count.saturating_sub(mistakes.first().len()) {
            0 => Ok(()),
            more => write!(out, "\nand {more} more"),
        }
    }
}

impl Error for TextError {}

impl From<Refused> for TextError {
    fn from(refused: Refused) -> TextError {
        TextError::Refused(refused)
    }
}

/// Texts and names.
impl Table {
    /// The table of a text, which is given itself and not by its name, with its names. The text ends with the line `end`: one that was cut is a
    /// mistake. The reader is that of the command `shuntberry`; it is tested, not proved. A line `possible` is a mistake here: the steps that are only possible
    /// are for [`Table::decide_modal`].
    ///
    /// ```
    /// use shuntberry::{Decision, MAX_ALLOWANCE, Table, TextError};
    ///
    /// let text = "
    ///     states 3
    ///     state 0 home
    ///     state 2 over-hard-limit
    ///     initial home
    ///     forbidden over-hard-limit
    ///     step home -> home 1
    ///     step 1 -> over-hard-limit
    ///     end\n";
    /// let pump = Table::from_text(text)?;
    /// let Decision::Unsafe { path, .. } = pump.decide(MAX_ALLOWANCE)? else {
    ///     panic!("by state 1");
    /// };
    /// let names: Vec<&str> = path.iter().map(|&state| pump.name(state).unwrap_or("?")).collect();
    /// assert_eq!(names, ["home", "?", "over-hard-limit"]);
    /// assert_eq!(Table::from_text(pump.to_text())?.names(), pump.names());
    ///
    /// let Err(TextError::Mistakes(mistakes)) = Table::from_text(text.replace("initial home", "initial hme")) else {
    ///     panic!("no state has this name");
    /// };
    /// assert_eq!((mistakes.count, mistakes.first()[0].line), (1, 5));
    /// # Ok::<(), TextError>(())
    /// ```
    pub fn from_text(text: impl AsRef<[u8]>) -> Result<Table, TextError> {
        let read = plain::parse_without_possible(text.as_ref(), NO_POSSIBLE)
            .map_err(TextError::Mistakes)?;
        let plain::Table {
            initial,
            marked,
            resting,
            groups,
            rows,
        } = read.table;
        let mut store = vec![0; STORE_WORDS];
        let mut put = |at: usize, set: plain::Set| store[at..at + SET_WORDS].copy_from_slice(&set);
        put(INITIAL, initial);
        put(MARKED, marked);
        put(RESTING, resting);
        let (n, g) = (rows.len(), groups.len());
        (0..)
            .map(group)
            .zip(groups)
            .for_each(|(at, set)| put(at, set));
        (0..).map(row).zip(rows).for_each(|(at, set)| put(at, set));
        let mut table = Table::of_store(store, n, g)?;
        table.names = read.names;
        Ok(table)
    }

    /// The one text of the table that has each fact in its place, with its names. [`Table::from_text`] reads it.
    pub fn to_text(&self) -> String {
        let rows = (0..self.n()).filter_map(|state| self.successors(state));
        let table = plain::Table {
            initial: self.initial().0,
            marked: self.marked().0,
            resting: self.resting().0,
            groups: self.groups().map(|group| group.0).collect(),
            rows: rows.map(|row| row.0).collect(),
        };
        plain::print(&table, &self.names)
    }

    /// The names of the states that have one, by their numbers. A file holds none, and they make no difference between tables.
    pub fn names(&self) -> &Names {
        &self.names
    }

    /// The name of a state, if it has one.
    pub fn name(&self, state: usize) -> Option<&str> {
        self.names.get(&state).map(String::as_str)
    }

    /// The state that has a name, if one has.
    pub fn state(&self, name: &str) -> Option<usize> {
        let named = |(state, other): (&usize, &String)| (other == name).then_some(*state);
        self.names.iter().find_map(named)
    }

    /// The table with these names in place of its own: such as a text takes, so those of a table that was read from one fit.
    ///
    /// ```
    /// use shuntberry::{Names, Table};
    ///
    /// let table = Table::builder(2).initial([0]).marked([]).steps([(0, 1), (1, 0)]).build()?;
    /// let named = table.clone().with_names(Names::from([(1, "home".to_string())]))?;
    /// assert_eq!((named.state("home"), named.name(0)), (Some(1), None));
    /// assert_eq!(named, table);
    /// for no_name in ["", "two words", "end", "1", "a\nstep 0 -> 0"] {
    ///     assert!(table.clone().with_names(Names::from([(1, no_name.to_string())])).is_err());
    /// }
    /// # Ok::<(), Box<dyn std::error::Error>>(())
    /// ```
    pub fn with_names(mut self, names: Names) -> Result<Table, TextError> {
        let mistakes = plain::mistakes_of(&names, self.n());
        if !mistakes.is_empty() {
            return Err(TextError::Mistakes(mistakes));
        }
        self.names = names;
        Ok(self)
    }
}

#[cfg(test)]
mod tests {
    use super::*;

    fn names(named: &[(usize, &str)]) -> Names {
        let owned = |&(state, name): &(usize, &str)| (state, name.to_string());
        named.iter().map(owned).collect()
    }

    fn mistakes(text: impl AsRef<[u8]>) -> Mistakes {
        match Table::from_text(text) {
            Err(TextError::Mistakes(mistakes)) => mistakes,
            other => panic!("{other:?}"),
        }
    }

    /// What is read is what was printed, of tables with every set.
    #[test]
    fn texts_come_back() -> Result<(), Box<dyn Error>> {
        for (seed, n) in [(1, 1), (2, 63), (3, 64), (4, 65), (5, 511), (6, MAX_STATES)] {
            let load = Table::generate(seed, n, 2)?;
            let table = (0..MAX_GROUPS)
                .fold(
                    Table::builder(n)
                        .initial([n - 1])
                        .marked(load.marked().states().map(usize::from))
                        .steps(load.steps().filter(|(from, _)| from % 5 > 0))
                        .resting((0..n).filter(|state| state % 3 == 0)),
                    |table, j| table.group((0..n).filter(|state| state % (j + 1) == j)),
                )
                .build()?
                .with_names(names(&[(0, "first"), (n - 1, "é")]))?;
            let again = Table::from_text(table.to_text())?;
            assert_eq!(again, table);
            assert_eq!(again.names(), table.names());
            assert_eq!(again.to_text(), table.to_text());
        }
        let draft = Table::from_text("states 0\nend\n")?;
        assert!(draft.is_draft() && draft.check()?.text().starts_with("states 0 "));
        Ok(())
    }

    /// Every beginning of a text is a mistake, and no table.
    #[test]
    fn cut_texts_are_none() {
        let text = "states 2\ninitial 0\nforbidden 1\nstep 0 -> 0\nend\n";
        assert!(Table::from_text(text).is_ok());
        for length in 0..text.len() {
            assert!(mistakes(&text[..length]).count > 0);
        }
        for wrong in [&b""[..], b"\xff\nend\n", b"pump.txt", b"states 513\nend\n"] {
            assert!(mistakes(wrong).count > 0);
        }
    }

    /// An error says all that it shows, and that there is more.
    #[test]
    fn mistakes_are_said() {
        let one = TextError::Mistakes(mistakes("states 1\ninitial 0\nforbidden 7\nend\n"));
        let said =
            "1 mistake in the text\nline 3: there is no state 7: with states 1 there is 0 alone";
        assert_eq!(one.to_string(), said);
        let possible = mistakes("states 1\ninitial 0\nforbidden 0\npossible 0 -> 0\nend\n");
        assert!(
            possible.first()[0].reason.contains("Table::decide_modal"),
            "{possible:?}"
        );
        let many = format!("states 1\n{}end\n", "initial 7\n".repeat(300));
        let said = TextError::Mistakes(mistakes(many)).to_string();
        assert!(
            said.starts_with("301 mistakes in the text\nline 2: "),
            "{said}"
        );
        assert!(said.ends_with("\nand 201 more"), "{said}");
        let refused = TextError::from(Refused::STATES);
        assert_eq!(refused.to_string(), Refused::STATES.to_string());
    }

    /// Names stay with a table where it goes, and are none where they do not fit.
    #[test]
    fn names_stay() -> Result<(), Box<dyn Error>> {
        let table = Table::builder(2)
            .initial([0])
            .marked([])
            .steps([(0, 1), (1, 0)])
            .build()?;
        let named = table
            .clone()
            .with_names(names(&[(0, "off"), (1, "home")]))?;
        let mut session = named.session()?;
        session.remove_step(1, 0)?;
        assert_eq!(session.table().state("home"), Some(1));
        assert_eq!(session.into_table().name(0), Some("off"));
        for wrong in [
            &[(2, "off")][..],
            &[(0, "a"), (1, "a")],
            &[(0, "a"), (1, "\u{430}")],
            &[(usize::MAX, "a")],
            &[(0, "a b")],
            &[(0, "none")],
        ] {
            let Err(TextError::Mistakes(mistakes)) = table.clone().with_names(names(wrong)) else {
                panic!("taken: {wrong:?}");
            };
            assert_eq!(mistakes.first()[0].line, 1 + wrong.len(), "{mistakes:?}");
        }
        Ok(())
    }
}
