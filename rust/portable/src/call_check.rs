// Made by scripts/portable from crates/call_check/src/lib.rt, which is proved. Change that one.

// The call `check`: one file's release check, from its bytes to the text that is printed and the verdict (the specification, "The program").
//
//   Checked, check    the text at the front of the output, its length and the verdict, or why the call is refused
//   check_table       the same for the table that a store holds, where there is room for the text
//   refused_file      the same for a file that read refuses

use crate::call_decide::{Verdict, decide};
use crate::core_refusals::Refusal;
use crate::core_report::{ROOM, write_refused, write_safe, write_undecided, write_unsafe};
use crate::core_rounds::MAX_ALLOWANCE;
use crate::core_state_set::MAX_STATES;
use crate::core_table::STORE_WORDS;
use crate::file_blocks::MAX_SITE;
use crate::file_reading::read;

// Bytes of output that hold the text of any file.
pub const CHECK_TEXT: usize = ROOM;

// The verdict on a file: safe and unsafe with the number of states, a refused file with the ground on which read refuses it.
// kept: no Result: a refused file is an answer with a text of its own, and its Err inside an Ok of `check` is no plainer
#[derive(Clone, Copy, Debug, PartialEq, Eq)]
pub enum FileVerdict {
    Safe { n: usize },
    Unsafe { n: usize },
    Refused(Refusal),
}

// The length of the text, and the verdict.
// kept: no flag beside a value: there is a text of this length whatever the verdict
#[derive(Clone, Copy, Debug, PartialEq, Eq)]
pub struct Checked {
    pub length: usize,
    pub verdict: FileVerdict,
}

pub fn check(input: &[u8], site: usize, output: &mut [u8]) -> Result<Checked, Refusal>
{
    if MAX_SITE < site {
        return Err(Refusal::Site);
    }
    if output.len() < CHECK_TEXT {
        return Err(Refusal::OutputShort);
    }
    let mut store = [0u64; STORE_WORDS];
    Ok(match read(input, site, &mut store) {
        Ok(size) => check_table(&store, size.n, size.g, output),
        Err(refusal) => refused_file(refusal, output),
    })
}

// Only safe is given as safe. A release check is never undecided, and of a store that read filled it is never refused: if it were, the table would be
// given as unsafe, and as a refused file.
// kept: the room as write_safe and the others ask it; a type that has it would be taken apart at each of these calls
fn check_table(store: &[u64], n: usize, g: usize, out: &mut [u8]) -> Checked
{
    let mut path = [0u16; MAX_STATES];
    match decide(store, n, g, MAX_ALLOWANCE, &mut path) {
        Ok(
            Verdict::Safe {
                count,
                invariant,
                size: _,
            },
        ) => Checked {
            length: write_safe(n, g, count, invariant, out),
            verdict: FileVerdict::Safe { n },
        },
        Ok(Verdict::Unsafe { count, steps }) => Checked {
            length: write_unsafe(n, g, count, &path[..steps + 1], out),
            verdict: FileVerdict::Unsafe { n },
        },
        Ok(Verdict::Undecided { count }) => Checked {
            length: write_undecided(n, g, count, out),
            verdict: FileVerdict::Unsafe { n },
        },
        Err(refusal) => refused_file(refusal, out),
    }
}

fn refused_file(refusal: Refusal, out: &mut [u8]) -> Checked
{
    Checked {
        length: write_refused(u8::from(refusal), out),
        verdict: FileVerdict::Refused(refusal),
    }
}
