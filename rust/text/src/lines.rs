//! The lines of a text and their words, the letters of names, and mistakes: what the texts of tables and of houses have alike.

use alloc::collections::BTreeMap;
use alloc::format;
use alloc::string::{String, ToString};
use alloc::vec::Vec;

/// The names of states, by their numbers.
pub type Names = BTreeMap<usize, String>;

/// A mistake in a text.
#[derive(Clone, Debug, PartialEq, Eq)]
pub struct Mistake {
    /// The line, from 1 on. What is missing is missed on the last one.
    pub line: usize,
    /// What is wrong there.
    pub reason: String,
}

/// So many mistakes are shown, and the others counted.
pub const SHOWN_MISTAKES: usize = 100;

/// The mistakes of a text: the first ones by their lines, and how many there are.
#[derive(Clone, Debug, Default, PartialEq, Eq)]
pub struct Mistakes {
    first: Vec<Mistake>,
    /// How many there are.
    pub count: usize,
}

impl Mistakes {
    /// One more, of a line that may stand before that of the last one.
    pub fn push(&mut self, mistake: Mistake) {
        self.count += 1;
        let place = self
            .first
            .partition_point(|other| other.line <= mistake.line);
        if place < SHOWN_MISTAKES {
            self.first.insert(place, mistake);
            self.first.truncate(SHOWN_MISTAKES);
        }
    }

    /// One alone.
    pub(crate) fn of(line: usize, reason: &str) -> Mistakes {
        let mut mistakes = Mistakes::default();
        let reason = reason.to_string();
        mistakes.push(Mistake { line, reason });
        mistakes
    }

    /// Whether one more of this line would be among the first ones.
    pub fn shows(&self, line: usize) -> bool {
        let last = self.first.get(SHOWN_MISTAKES - 1);
        last.map_or(true, |last| line < last.line)
    }

    /// Whether there is none.
    pub fn is_empty(&self) -> bool {
        self.count == 0
    }

    /// The first ones, in the order of their lines.
    pub fn first(&self) -> &[Mistake] {
        &self.first
    }
}

// ---- Lines and words

/// A line has fewer words than this, or it says something twice: its first one, a state, an arrow, and each state of the largest table.
const MAX_WORDS: usize = crate::MAX_STATES + 4;

/// What stands between the states of a step.
pub const ARROW: &str = "->";

/// How it may be written.
const ARROWS: [&str; 2] = [ARROW, "\u{2192}"];

/// The words of a line, each arrow as `->`, or what is wrong with it.
pub type Words<'t> = Result<Vec<&'t str>, &'static str>;

/// The last line of a text: one that was cut has none.
pub const END: &str = "end";

const CUT: &str =
    "the text may be cut: its last line is not 'end'; if nothing is missing, add that line";
const NO_FEED: &str =
    "the text may be cut: no line feed stands behind its 'end'; if nothing is missing, add one";
const MORE: &str =
    "the text goes on behind its 'end': not even an empty line or a comment may stand there";
const NOT_ALONE: &str = "'end' stands alone, on the last line";
const UTF_16: &str = "this text is UTF-16, and not UTF-8: save it as UTF-8";

/// Each line of a text by its number, from 1 on, with its words before a comment: none where it says nothing, as the last one. Of a text without
/// its end only that is said, and what is no line at all: other mistakes may come of what is missing.
pub fn said(
    text: &[u8],
) -> Result<impl Iterator<Item = (usize, Words<'_>)> + Clone + '_, Mistakes> {
    match end_of(text) {
        Err(_) if is_utf_16(text) => Err(Mistakes::of(1, UTF_16)),
        Ok(end) => {
            let before = lines(text).take(end - 1);
            let last = core::iter::once((end, Ok(Vec::new())));
            Ok(before.map(|(at, line)| (at, words(line))).chain(last))
        }
        Err(mistake) => {
            let mut mistakes = Mistakes::default();
            for (line, bytes) in lines(text) {
                if let Err(reason) = words(bytes) {
                    let reason = reason.to_string();
                    mistakes.push(Mistake { line, reason });
                }
            }
            mistakes.push(mistake);
            Err(mistakes)
        }
    }
}

/// Whether its first character is the byte order mark of UTF-16.
fn is_utf_16(text: &[u8]) -> bool {
    [b"\xff\xfe", b"\xfe\xff"]
        .iter()
        .any(|mark| text.starts_with(*mark))
}

/// The number of the line `end`, or what is wrong with the end of the text.
fn end_of(text: &[u8]) -> Result<usize, Mistake> {
    let wrong = |line, reason: &str| {
        let reason = reason.to_string();
        Err(Mistake { line, reason })
    };
    let (mut last, mut meant) = (1, None);
    let mut lines = lines(text);
    while let Some((number, line)) = lines.next() {
        last = number;
        match words(line).as_deref() {
            Ok([END]) => {
                return match lines.next() {
                    Some((more, _)) => wrong(more, MORE),
                    None if line.ends_with(b"\n") => Ok(number),
                    None => wrong(number, NO_FEED),
                }
            }
            Ok([word]) if bare(word).eq_ignore_ascii_case(END) => {
                meant = Some((number, word.to_string()))
            }
            Ok([]) => {}
            _ => meant = None,
        }
    }
    match meant {
        // A cut may have left such a word of a log.
        Some((line, word)) => wrong(
            line,
            &format!(
                "the text may be cut: its last line is {}, and not '{END}'; if nothing is missing, write {END}",
                quoted(&word)
            ),
        ),
        None => wrong(last, CUT),
    }
}

/// The first word of what may be a text.
pub fn first_word(bytes: &[u8]) -> Option<&str> {
    let first = |(_, line)| match words(line) {
        Ok(words) => words.first().map(|word| Some(*word)),
        Err(_) => Some(None),
    };
    lines(bytes).find_map(first).flatten()
}

/// The lines with their ends, by their numbers.
fn lines(text: &[u8]) -> impl Iterator<Item = (usize, &[u8])> + Clone + '_ {
    let text = text.strip_prefix("\u{feff}".as_bytes()).unwrap_or(text);
    (1..).zip(text.split_inclusive(|&byte| byte == b'\n'))
}

fn words(line: &[u8]) -> Words<'_> {
    let line = line.strip_suffix(b"\n").unwrap_or(line);
    let line = core::str::from_utf8(line.strip_suffix(b"\r").unwrap_or(line))
        .map_err(|_| "this is no text: there are bytes that are not UTF-8")?;
    if line.contains(|c: char| c.is_control() && c != '\t') {
        return Err("this is no text: there is a control character");
    }
    if line.contains(|c: char| is_hidden(c) && c != '\t') {
        return Err(
            "there is a character that cannot be seen, or changes how the line looks: a format character, or a space that is none of the keyboard's",
        );
    }
    let before = line.split('#').next().unwrap_or_default();
    let words: Vec<&str> = before
        .split(&[' ', '\t'][..])
        .flat_map(by_arrows)
        .filter(|word| !word.is_empty())
        .take(MAX_WORDS)
        .collect();
    match words[..] {
        [END, _, ..] => Err(NOT_ALONE),
        _ if words.len() == MAX_WORDS => {
            Err("there are more words on this line than a table has states")
        }
        _ => Ok(words),
    }
}

/// The parts of a word before, between and behind its arrows, and for each of these `->`.
fn by_arrows(word: &str) -> impl Iterator<Item = &str> {
    let mut rest = word;
    core::iter::from_fn(move || {
        let (part, end) = match first_arrow(rest) {
            Some((0, arrow)) => (ARROW, arrow.len()),
            Some((at, _)) => (&rest[..at], at),
            None => (rest, rest.len()),
        };
        rest = &rest[end..];
        (!part.is_empty()).then_some(part)
    })
}

/// Where the first arrow of a word stands, and how it is written.
fn first_arrow(word: &str) -> Option<(usize, &'static str)> {
    word.char_indices().find_map(|(at, _)| {
        let written = ARROWS
            .iter()
            .find(|arrow| word[at..].starts_with(**arrow))?;
        Some((at, *written))
    })
}

/// A word without what is no part of a name before and behind it.
pub fn bare(word: &str) -> &str {
    word.trim_matches(|c: char| !c.is_alphanumeric())
}

/// The one of some words that a line begins with, be it before a colon, which is a mistake.
pub fn keyword<'k>(word: &str, known: &[&'k str]) -> Option<&'k str> {
    let is_it = |known: &&&str| match word.strip_suffix(':') {
        Some(plain) => known.eq_ignore_ascii_case(plain),
        None => **known == word,
    };
    known.iter().find(is_it).copied()
}

/// What is said of such a word, where it is not written as it should be.
pub fn miswritten(word: &str, keyword: &str) -> Option<String> {
    let said = || format!("{} has a colon: it is written {keyword}", quoted(word));
    (word != keyword).then(said)
}

/// The number that digits stand for; one that is too large for the machine is the largest.
pub fn number(word: &str) -> Option<usize> {
    let digits = !word.is_empty() && word.bytes().all(|byte| byte.is_ascii_digit());
    digits.then(|| word.parse().unwrap_or(usize::MAX))
}

/// The longest part of a word that a mistake repeats, in characters.
const SHOWN: usize = 40;

/// A word of the text, its end cut off where it is long.
pub fn cut(word: &str) -> String {
    match word.char_indices().nth(SHOWN) {
        Some((end, _)) => format!("{}..", &word[..end]),
        None => word.to_string(),
    }
}

/// The same in quotes.
pub fn quoted(word: &str) -> String {
    format!("'{}'", cut(word))
}

// ---- Characters

/// The most characters of a name.
pub const MAX_NAME: usize = 64;

/// The alphabet that the letters of a name are of; none where it is no name.
pub fn alphabet(name: &str) -> Option<&'static str> {
    let first = name.chars().next().and_then(alphabet_of)?;
    let fits = |c: char| c.is_ascii_digit() || "-_.".contains(c) || alphabet_of(c) == Some(first);
    (name.chars().all(fits) && name.chars().count() <= MAX_NAME).then_some(first)
}

/// The first character of a word that is no plain letter, digit or sign, by its number: it may look like one.
pub fn strange(word: &str) -> String {
    match word.chars().find(|c| !c.is_ascii()) {
        Some(c) => format!(" (it has the character U+{:04X})", u32::from(c)),
        None => String::new(),
    }
}

/// The alphabet that a letter is of.
fn alphabet_of(c: char) -> Option<&'static str> {
    let alphabet = match c {
        'A'..='Z' | 'a'..='z' => "Latin",
        '\u{d7}' | '\u{f7}' => return None, // times and divided by
        '\u{c0}'..='\u{24f}' => "Latin",
        '\u{374}' | '\u{37a}' | '\u{3e2}'..='\u{3ef}' => return None, // signs, and Coptic letters
        '\u{370}'..='\u{3ff}' => "Greek",
        '\u{400}'..='\u{52f}' => "Cyrillic",
        _ => return None,
    };
    c.is_alphabetic().then_some(alphabet)
}

/// Control and format characters, separators other than the space, and letters and marks that leave no ink: what a reader cannot see, or what
/// makes a line look otherwise than it is.
pub fn is_hidden(c: char) -> bool {
    c.is_control()
        || HIDDEN
            .iter()
            .any(|&(first, last)| (first..=last).contains(&c))
}

/// Unicode's categories Cf, Zs but the space, Zl and Zp; and its default ignorable characters, and the blanks that count as letters or signs.
const HIDDEN: [(char, char); 31] = [
    ('\u{a0}', '\u{a0}'),
    ('\u{ad}', '\u{ad}'),
    ('\u{34f}', '\u{34f}'),
    ('\u{600}', '\u{605}'),
    ('\u{61c}', '\u{61c}'),
    ('\u{6dd}', '\u{6dd}'),
    ('\u{70f}', '\u{70f}'),
    ('\u{890}', '\u{891}'),
    ('\u{8e2}', '\u{8e2}'),
    ('\u{115f}', '\u{1160}'),
    ('\u{1680}', '\u{1680}'),
    ('\u{17b4}', '\u{17b5}'),
    ('\u{180b}', '\u{180f}'),
    ('\u{2000}', '\u{200f}'),
    ('\u{2028}', '\u{202f}'),
    ('\u{205f}', '\u{206f}'),
    ('\u{2800}', '\u{2800}'),
    ('\u{3000}', '\u{3000}'),
    ('\u{3164}', '\u{3164}'),
    ('\u{fe00}', '\u{fe0f}'),
    ('\u{feff}', '\u{feff}'),
    ('\u{ffa0}', '\u{ffa0}'),
    ('\u{fff0}', '\u{fffb}'),
    ('\u{110bd}', '\u{110bd}'),
    ('\u{110cd}', '\u{110cd}'),
    ('\u{13430}', '\u{1343f}'),
    ('\u{16fe4}', '\u{16fe4}'),
    ('\u{1bca0}', '\u{1bca3}'),
    ('\u{1d159}', '\u{1d159}'),
    ('\u{1d173}', '\u{1d17a}'),
    ('\u{e0000}', '\u{e0fff}'),
];
