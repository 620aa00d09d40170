//! `generate`: the file of the load that a seed gives.

use crate::failure::{Done, Failure, status};
use crate::files::{OUT, put_file};
use crate::source::{SITE, site};
use crate::words::{Call, Command, Output, number_up_to};
use shuntberry::Table;

/// The command.
pub const GENERATE: Command = Command {
    name: "generate",
    words: "SEED STATES FANOUT",
    counts: (3, 3),
    about: "the file of the table that a seed gives",
    more: "It has STATES states, 1 to 512, each with up to FANOUT successors, at most 16. SEED is below 4294967296.",
    options: &[&SITE, &OUT],
    needs: &[],
    output: Output::File,
    run,
};

fn run(call: &Call) -> Done {
    let site = site(call)?;
    let [seed, states, fan_out] = call.names() else {
        return Err(Failure::Wrong("expected SEED STATES FANOUT".to_string()));
    };
    let seed = number_up_to(seed, "seed", u32::MAX as usize)?;
    let states = number_up_to(states, "number of states", usize::MAX)?;
    let fan_out = number_up_to(fan_out, "fan-out", usize::MAX)?;
    let table = Table::generate(seed as u32, states, fan_out)?;
    put_file(call, &table.to_bytes(site)?)?;
    Ok(status::DONE)
}
