//! Lists of edits of a session.

use shuntberry_outside::calls::Edit;
use shuntberry_outside::families::Family;
use shuntberry_outside::generate::Random;
use shuntberry_outside::table::{Dialogue, MAX_STATES};

/// The edits of a list.
pub const EDITS: usize = 1000;

/// Which edits a list has: additions, removals, or both in turn.
#[derive(Clone, Copy, PartialEq, Eq)]
pub enum Kind {
    Additions,
    Removals,
    InTurn,
}

impl Kind {
    pub const ALL: [Kind; 3] = [Kind::Additions, Kind::Removals, Kind::InTurn];

    pub fn name(self) -> &'static str {
        match self {
            Kind::Additions => "add step",
            Kind::Removals => "remove step",
            Kind::InTurn => "add and remove",
        }
    }

    /// Edits that each change the table, between states at random.
    pub fn edits(self, dialogue: &Dialogue, random: &mut Random) -> Vec<Edit> {
        let mut rows = dialogue.rows.clone();
        let mut list = Vec::new();
        while list.len() < EDITS {
            let adding = match self {
                Kind::Additions => true,
                Kind::Removals => false,
                Kind::InTurn => list.len() % 2 == 0,
            };
            let (from, to) = (random.below(dialogue.n), random.below(dialogue.n));
            if rows[from][to] != adding {
                rows[from][to] = adding;
                list.push(match adding {
                    true => Edit::Add(from, to),
                    false => Edit::Remove(from, to),
                });
            }
        }
        list
    }

    /// Whether there are so many steps, or so few, that one to remove or to add is soon drawn.
    fn fits(self, dialogue: &Dialogue) -> bool {
        let cells = dialogue.rows.iter().flatten();
        let wanted = matches!(self, Kind::Removals);
        cells.filter(|&&step| step == wanted).count() >= 2 * EDITS
    }
}

/// The tables that are edited: no steps, and the first of each family of the greatest size.
pub fn tables(kind: Kind, named: &[Family]) -> Vec<(&str, Dialogue)> {
    let nothing = Dialogue::of(MAX_STATES, &[0], &[MAX_STATES - 1], &[], &[]);
    let largest = named
        .iter()
        .filter(|family| family.tables[0].n == MAX_STATES && !family.name.starts_with("growth"))
        .map(|family| (family.name.as_str(), family.tables[0].clone()));
    let all = [("no steps", nothing)].into_iter().chain(largest);
    all.filter(|(_, dialogue)| kind.fits(dialogue)).collect()
}
