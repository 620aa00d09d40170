//! Refusals in words, from the one table of them.

use crate::text::{has_new_form, is_printed, looks_like_text};
use shuntberry::Refused;

/// NUMBER|GROUND|HINT, from the header.
const TABLE: &str = include_str!("../refusals.txt");

/// What a person should look at in a file that is refused so; nothing where no file gives the number.
fn hint(refused: Refused) -> Option<String> {
    let number = refused.0.to_string();
    let hint = TABLE.lines().find_map(|line| {
        let mut parts = line.splitn(3, '|');
        (parts.next()? == number).then(|| parts.nth(1)).flatten()
    });
    let hint = hint.filter(|hint| !hint.is_empty());
    hint.map(|hint| format!("look whether {hint}"))
}

/// A file that is refused, in words: the number, the ground, and what to do. Of a check no number to try: of all sites one may fit
/// a damaged block.
pub fn explained(refused: Refused, file: &[u8], site: usize) -> String {
    let to_do = by_form(refused, file, site).or_else(|| text(file));
    with(refused, to_do.map(str::to_string).or_else(|| hint(refused)))
}

/// What is said of a file by its form, which is the old one or has too many groups.
fn by_form(refused: Refused, file: &[u8], site: usize) -> Option<&'static str> {
    match (refused, has_new_form(file), site) {
        (Refused::GROUPS, true, _) => {
            Some("the program that wrote the file gave it too many groups")
        }
        (Refused::GROUPS, false, 0) => Some(
            "this is a file of the old form, of versions 1 to 3: the command rewrite makes a new one of it",
        ),
        (Refused::GROUPS, false, _) => Some(
            "this is a file of the old form, of versions 1 to 3, which rewrite reads for site 0 alone: have it saved anew by the program that made it",
        ),
        _ => None,
    }
}

/// What is said of a text in the place of a file.
fn text(file: &[u8]) -> Option<&'static str> {
    match looks_like_text(file) {
        true => Some(
            "this looks like a text: check --text reads it, and the command encode makes a file of it",
        ),
        false => is_printed(file)
            .then_some("this looks like a text, but does not begin as that of a table does"),
    }
}

fn with(refused: Refused, more: Option<String>) -> String {
    match more {
        Some(more) => format!("{refused}; {more}"),
        None => refused.to_string(),
    }
}

/// The same of a file that is refused as one of the old form.
pub fn old_ground(refused: Refused, file: &[u8]) -> String {
    let more = match refused {
        Refused::BLOCK_CHECK => Some(
            "it is damaged, or was not made for site 0, and no command reads an old file of another site",
        ),
        Refused::GROUPS if has_new_form(file) => Some("this file is of the new form already"),
        _ => text(file),
    };
    with(refused, more.map(str::to_string))
}
