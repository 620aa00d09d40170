//! The specification's tables with its figures, and all that it names.

use super::drafts::drafts;
use super::edges::edges;
use super::files::named_files;
use super::sites::sites;
use super::{Outcome, Tally, accepted_table, decide, same};
use crate::accept::PATH_PLACES;
use crate::calls::Calls;
use crate::expected::{Expected, Judged};
use crate::generate::Random;
use crate::logs;
use crate::modal;
use crate::named;
use crate::rounds;
use crate::sessions;

// tries: Worked.Worked, Resting.ForbiddenIs
/// A to H and the ninth table, with the figures of the texts, and the edges that the specification names.
pub fn named_tables(libraries: &[&dyn Calls], random: &mut Random, tally: &mut Tally) -> Outcome {
    for named in named::decided() {
        let fault = |fault: String| format!("table {}: {fault}", named.name);
        let table = named.dialogue.table();
        let expected = Judged::new(&table).decide(named.allowance);
        same("the plain rounds", expected.answer, named.decision).map_err(fault)?;
        same("the plain path", &expected.front[..], named.path).map_err(fault)?;
        if let Some(number) = named.backward {
            let backward = rounds::backward_number(&table);
            same("the backward number", backward, number).map_err(fault)?;
        }
        let (n, g) = (named.dialogue.n, named.dialogue.g());
        let typed = Expected {
            answer: named.decision,
            front: named.path.to_vec(),
        };
        let store = named.dialogue.to_store();
        for library in libraries {
            let path = random.places(PATH_PLACES);
            decide(*library, &store, (n, g, named.allowance), &path, &typed).map_err(fault)?;
        }
        accepted_table(libraries, &named.dialogue, random, tally).map_err(fault)?;
    }
    named_files(libraries, random, tally)?;
    drafts(libraries, random, tally)?;
    sites(libraries, random)?;
    logs::edges(libraries, random)?;
    sessions::edges(libraries, random)?;
    sessions::long_lists(libraries, random, tally)?;
    modal::edges(libraries, random, tally)?;
    edges(libraries, random, tally)
}
