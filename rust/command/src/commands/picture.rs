//! `picture`: the graph of a table, for Graphviz or drawn by it.

use crate::answer::Answer;
use crate::drawing::{Limits, NotDrawn, drawn};
use crate::failure::{Done, Failure, status};
use crate::files::{OUT, put, say};
use crate::picture::{Options, Picture};
use crate::source::{NAMES, SITE, Source, TEXT};
use crate::words::{Call, Command, Opt, Output};
use std::io::{self, IsTerminal};

const SVG: Opt = Opt {
    name: "--svg",
    value: None,
    about: "runs dot of Graphviz, and writes what it draws\n\
        If that is no drawing of this table, with each state, step and word, it is an error, and nothing is written.",
};
const DISTANCES: Opt = Opt {
    name: "--distances",
    value: None,
    about: "says in each state how many steps it is from a forbidden one",
};
const GROUPS: Opt = Opt {
    name: "--groups",
    value: None,
    about: "says in each state which groups it is in",
};
const ALL: Opt = Opt {
    name: "--all",
    value: None,
    about: "draws each state, however many there are\n\
        Without it, at most 40 states of a table of more than 60 are drawn. These are the states of the path, or of a safe \
        table the initial and forbidden ones, then their neighbours. The title says so, and each state says how many of \
        its steps are not drawn.",
};

/// The command.
pub const PICTURE: Command = Command {
    name: "picture",
    words: "[FILE]",
    counts: (0, 1),
    about: "a file as a graph for Graphviz, or as an SVG",
    more: "Its title says whether the table is safe, and a legend explains the drawing.",
    options: &[&SITE, &OUT, &SVG, &DISTANCES, &GROUPS, &ALL, &TEXT, &NAMES],
    needs: &[],
    output: Output::File,
    run,
};

fn run(call: &Call) -> Done {
    let source = Source::of(call, call.name(0))?;
    let table = source.table()?;
    let options = Options {
        distances: call.has(&DISTANCES),
        groups: call.has(&GROUPS),
        all: call.has(&ALL),
    };
    let answer = Answer::of(&source)?;
    let picture = Picture::of(table, &answer, &source.names, &source.shown, options)?;
    if call.has(&SVG) {
        say_drawing(PICTURE.name, &picture);
        put(call, &svg(&picture)?)?;
    } else {
        put(call, picture.graph(picture.layouts()[0]).as_bytes())?;
    }
    Ok(status::DONE)
}

/// What `dot` draws of a picture, if that is a drawing of just this table.
fn svg(picture: &Picture) -> Result<Vec<u8>, Failure> {
    let drawn = drawn(picture, Limits::NONE).map_err(|why| {
        Failure::Failed(match why {
            NotDrawn::Missing => "--svg needs the program dot of Graphviz, which is not installed; without --svg the graph itself is written".to_string(),
            _ => why.to_string(),
        })
    })?;
    drawn.on_page().map_err(Failure::Failed)
}

/// Says on a terminal what takes its time.
pub fn say_drawing(name: &str, picture: &Picture) {
    if io::stderr().is_terminal() {
        let (states, steps) = picture.counts();
        say(&format!(
            "{name}: dot draws {states} states and {steps} steps\n"
        ));
    }
}
