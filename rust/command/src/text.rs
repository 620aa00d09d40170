//! The texts of tables, as the package `shuntberry-text` reads and prints them, for the tables of the library; and what bytes look like, a text
//! or a file.

use crate::lines::Names;
use shuntberry::{MAX_GROUPS, MAX_STATES, Refused, StateSet, Table};
use shuntberry_text::table as plain;

pub use plain::{Text, looks_like_text, parse, parse_with_possible};

/// The text of a table, with names for the states that have one.
pub fn print(table: &Table, names: &Names) -> String {
    let row = |state| table.successors(state).unwrap_or_default().0;
    let table = plain::Table {
        initial: table.initial().0,
        marked: table.marked().0,
        resting: table.resting().0,
        groups: table.groups().map(|group| group.0).collect(),
        rows: (0..table.n()).map(row).collect(),
    };
    plain::print(&table, names)
}

/// The states of a set, or `none`.
pub fn listing(states: StateSet) -> String {
    plain::listing(&states.0)
}

/// The table that a text says, if the library accepts it, with more steps beside its own.
pub fn table_of(
    text: &plain::Table,
    more: impl IntoIterator<Item = (usize, usize)>,
) -> Result<Table, Refused> {
    let states = |set: &plain::Set| StateSet(*set).states();
    let rows = text.rows.iter().enumerate();
    let steps = rows.flat_map(|(from, row)| states(row).map(move |to| (from, to)));
    let table = Table::builder(text.rows.len())
        .initial(states(&text.initial))
        .marked(states(&text.marked))
        .steps(steps.chain(more))
        .resting(states(&text.resting));
    let groups = text.groups.iter();
    groups
        .fold(table, |table, group| table.group(states(group)))
        .build()
}

// ---- What bytes look like

/// Whether bytes are such as stand in a text. In a file, and in a log, there are zeros.
pub fn is_printed(bytes: &[u8]) -> bool {
    let is_typed = |c: char| !c.is_control() || c.is_ascii_whitespace();
    !bytes.is_empty() && str::from_utf8(bytes).is_ok_and(|text| text.chars().all(is_typed))
}

/// Whether bytes that are no text may be a table's file: a new one, whole or cut, or a whole one of the old form.
pub fn looks_like_file(bytes: &[u8]) -> bool {
    let has_length = || Table::from_bytes(bytes, 0) != Err(Refused::INPUT_LENGTH);
    looks_like_new_file(bytes) || is_first_block(bytes) && has_length()
}

/// Whether bytes that are no text may be a table's file of the new form: behind the block's number its n and g are numbers of such a file. A log
/// may begin with a state 0 too, but its third entry is a state.
pub fn looks_like_new_file(bytes: &[u8]) -> bool {
    let fits = |at: usize, least: usize, most: usize| {
        let number = bytes
            .get(at..at + 2)
            .map(|two| u16::from_le_bytes([two[0], two[1]]));
        number.is_some_and(|number| (least..=least + most).contains(&number.into()))
    };
    is_first_block(bytes) && fits(2, 0, MAX_STATES) && fits(4, NEW_FORM, MAX_GROUPS)
}

/// Whether the first block has its number, 0.
fn is_first_block(bytes: &[u8]) -> bool {
    bytes.starts_with(&[0, 0])
}

/// What the second number of a file of the new form has beyond g.
const NEW_FORM: usize = 0x8000;

/// Whether the second number of a file is one of the new form: its high byte, behind the block's number and n, is 128 or more.
pub fn has_new_form(file: &[u8]) -> bool {
    file.get(5).is_some_and(|&high| high >= 0x80)
}
