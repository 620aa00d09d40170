//! Why a command did not do what it was asked, and the status that it then ends with.

use shuntberry::Refused;

/// Statuses of every command.
pub mod status {
    /// Safe, and all of it printed; or the thing asked for was written whole.
    pub const DONE: u8 = 0;
    /// Unsafe.
    pub const UNSAFE: u8 = 1;
    /// Refused, or mistakes in a text.
    pub const REFUSED: u8 = 2;
    /// Anything else.
    pub const FAILED: u8 = 3;
    /// Answered, but nothing that may be released.
    pub const NO_RELEASE: u8 = 4;
}

/// Why a command did not do what it was asked.
#[derive(Debug)]
pub enum Failure {
    /// The library refused the file, or the numbers.
    Refused(Refused, String),
    /// A text has mistakes: a line for each, and what that means.
    Mistakes(Vec<String>, String),
    /// The command was called wrongly.
    Wrong(String),
    /// Anything else.
    Failed(String),
}

/// What a command gives: its status, or why it failed.
pub type Done = Result<u8, Failure>;

impl Failure {
    /// The status that the command ends with.
    pub fn status(&self) -> u8 {
        match self {
            Failure::Refused(..) | Failure::Mistakes(..) => status::REFUSED,
            Failure::Wrong(_) | Failure::Failed(_) => status::FAILED,
        }
    }

    /// The line that stands on standard output in place of a file. It is none: its length is no multiple of a block's.
    pub fn line(&self) -> String {
        match self {
            Failure::Refused(refused, _) => format!("refused {}\n", refused.0),
            _ => "failed\n".to_string(),
        }
    }

    /// Why, in a line.
    pub fn why(&self) -> &str {
        match self {
            Failure::Refused(_, why)
            | Failure::Mistakes(_, why)
            | Failure::Wrong(why)
            | Failure::Failed(why) => why,
        }
    }

    /// What is said on standard error, by a command of this name.
    pub fn message(&self, name: &str) -> String {
        let lines = match self {
            Failure::Mistakes(lines, _) => lines.iter().map(|line| format!("{line}\n")).collect(),
            _ => String::new(),
        };
        format!("{lines}{name}: {}\n", self.why())
    }
}

/// A refusal whose number and ground say enough.
impl From<Refused> for Failure {
    fn from(refused: Refused) -> Failure {
        Failure::Refused(refused, refused.to_string())
    }
}
