//! One call from a file's bytes to a verdict and its text: the simplest right use of the library.

use crate::{Refused, accepted, front, raw};

/// The room that the longest text of [`check`] takes.
pub const CHECK_TEXT_BYTES: usize = raw::CHECK_TEXT;

/// What [`check`] answers of a file, with the text that the program `check` prints for it: the front of the lent buffer.
#[derive(Clone, Copy, Debug, PartialEq, Eq)]
#[must_use = "an answer that is not looked at may be unsafe"]
pub enum Checked<'t> {
    /// No forbidden state can be reached.
    Safe {
        /// The number of states; 0 for a draft, which is nothing to release.
        n: usize,
        /// The states and groups, the refinements, an invariant: three lines.
        text: &'t [u8],
    },
    /// A forbidden state can be reached.
    Unsafe {
        /// The number of states.
        n: usize,
        /// The states and groups, the refinements, the path: three lines.
        text: &'t [u8],
    },
    /// The bytes are no file of the site.
    RefusedFile {
        /// The ground.
        refusal: Refused,
        /// `refused N`, one line.
        text: &'t [u8],
    },
}

impl Checked<'_> {
    /// Whether no forbidden state can be reached, of a table that has states. A table in which nothing is initial or nothing is forbidden is safe too: ask
    /// [`Table::is_vacuous`](crate::Table::is_vacuous) of the same bytes before they are released.
    #[must_use]
    pub fn is_safe(&self) -> bool {
        matches!(self, Checked::Safe { n: 1.., .. })
    }
}

/// A release check of a file's bytes at a site. An input of no bytes is an untouched draft, with 0 states and safe, so a read that failed
/// must not be passed on as one.
///
/// Refused itself as [`raw::shuntberry_check`] says: a site goes to [`MAX_SITE`](crate::MAX_SITE), and `text` has [`CHECK_TEXT_BYTES`] places or more.
///
/// ```
/// use shuntberry::checking::{CHECK_TEXT_BYTES, Checked, check};
/// use shuntberry::{FILE_BYTES, STORE_WORDS, generate, write};
///
/// // The file of a table whose only state is initial, marked, and leads to itself.
/// let (mut store, mut output) = ([0; STORE_WORDS], [0; FILE_BYTES]);
/// generate(7, 1, 1, &mut store)?;
/// let file = write(&store, 1, 0, 0, &mut output)?;
///
/// let mut text = [0; CHECK_TEXT_BYTES];
/// let Checked::Unsafe { n: 1, text: said } = check(file, 0, &mut text)? else {
///     panic!("a session starts in a forbidden state");
/// };
/// assert_eq!(said, b"states 1 groups 0\nunsafe refinements 0\npath 0\n");
///
/// // A draft has no forbidden state, and is nothing to release.
/// let draft = check(b"", 0, &mut text)?;
/// assert!(matches!(draft, Checked::Safe { n: 0, .. }) && !draft.is_safe());
///
/// // A file that is cut is refused, and that is an answer.
/// let checked = check(&file[1..], 0, &mut text)?;
/// assert!(matches!(checked, Checked::RefusedFile { text: b"refused 11\n", .. }));
/// # Ok::<(), shuntberry::Refused>(())
/// ```
pub fn check<'t>(input: &[u8], site: usize, text: &'t mut [u8]) -> Result<Checked<'t>, Refused> {
    // SAFETY: pointers and lengths are those of two slices, which do not overlap.
    let said = unsafe {
        raw::shuntberry_check(
            input.as_ptr(),
            input.len(),
            site,
            text.as_mut_ptr(),
            text.len(),
        )
    };
    checked(said, text)
}

/// What the fields stand for, with the text at the front of its buffer. Nothing that is not known is taken for an answer.
fn checked(said: raw::Checked, text: &[u8]) -> Result<Checked<'_>, Refused> {
    accepted(said.refusal)?;
    let text = front(text, said.length)?;
    match (said.file_refusal, said.verdict) {
        (raw::ACCEPTED, raw::SAFE) => Ok(Checked::Safe { n: said.n, text }),
        (raw::ACCEPTED, raw::UNSAFE) => Ok(Checked::Unsafe { n: said.n, text }),
        (raw::ACCEPTED, _) => Err(Refused::UNKNOWN_ANSWER),
        (refusal, raw::NO_VERDICT) => Ok(Checked::RefusedFile {
            refusal: Refused(refusal),
            text,
        }),
        _ => Err(Refused::UNKNOWN_ANSWER),
    }
}

/// The file of the new form for an old file of site 0, with its dead ends resting, at the front of `output`. An output of
/// [`FILE_BYTES`](crate::FILE_BYTES) is always long enough.
///
/// Refused as [`raw::shuntberry_rewrite`] says.
pub fn rewrite<'o>(input: &[u8], output: &'o mut [u8]) -> Result<&'o [u8], Refused> {
    // SAFETY: pointers and lengths are those of two slices, which do not overlap.
    let file = unsafe {
        raw::shuntberry_rewrite(
            input.as_ptr(),
            input.len(),
            output.as_mut_ptr(),
            output.len(),
        )
    };
    accepted(file.refusal)?;
    front(output, file.length as usize)
}
