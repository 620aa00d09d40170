//! What differs between two tables: by tables that one change was made to, and by the law that what differs makes the new table of the old.

use shuntberry::Table;
use shuntberry_command::difference::{Difference, Side, difference, first_difference};
use shuntberry_command::text::table_of;
use shuntberry_text::lines::Names;
use shuntberry_text::table::parse_with_possible;
use std::collections::BTreeSet;

/// A table of a text, without the lines that every text has.
struct Draft {
    table: Table,
    names: Names,
    possible: BTreeSet<(usize, usize)>,
}

fn draft(lines: &str) -> Draft {
    let text = format!("{}\nend\n", lines.replace("; ", "\n"));
    let text = parse_with_possible(text.as_bytes()).expect(lines);
    Draft {
        table: table_of(&text.table, []).expect(lines),
        names: text.names,
        possible: text.possible,
    }
}

impl Draft {
    fn side(&self) -> Side<'_> {
        Side {
            table: &self.table,
            names: Some(&self.names),
            possible: &self.possible,
        }
    }

    fn unnamed(&self) -> Side<'_> {
        Side {
            names: None,
            ..self.side()
        }
    }
}

const OLD: &str = "states 4; state 0 off; state 1 home; state 2 run; initial 0; forbidden 3; resting 0; group 0 1; group 2; step 0 -> 1; step 1 -> 0 2; \
    step 2 -> 1; step 3 -> 3; possible 2 -> 3";

fn lines(old: &str, new: &str) -> Vec<String> {
    let (old, new) = (draft(old), draft(new));
    difference(old.side(), new.side()).lines(Some(&old.names), Some(&new.names))
}

#[test]
fn nothing_differs() {
    let old = draft(OLD);
    assert_eq!(difference(old.side(), old.side()), Difference::default());
    assert_eq!(difference(old.side(), old.unnamed()), Difference::default());
    assert_eq!(difference(old.unnamed(), old.side()).summary(), "the same");
    let empty = draft("states 0");
    assert!(difference(empty.side(), empty.side()).is_empty());
}

/// Each kind of change by itself, and what is said of it.
#[test]
fn one_change() {
    for (from, to, said) in [
        ("initial 0", "initial 0 1", &["+ initial 1 home"][..]),
        (
            "initial 0",
            "initial 1",
            &["- initial 0 off", "+ initial 1 home"],
        ),
        ("forbidden 3", "forbidden none", &["- forbidden 3"]),
        ("forbidden 3", "forbidden 2 3", &["+ forbidden 2 run"]),
        ("resting 0", "resting none", &["- resting 0 off"]),
        (
            "group 2",
            "group 2 3",
            &["- group 2 run", "+ group 2 run, 3"],
        ),
        ("group 2", "group none", &["- group 2 run", "+ group none"]),
        (
            "group 0 1; group 2",
            "group 2; group 0 1",
            &["~ groups in another order"],
        ),
        ("group 2;", "group 2; group 2;", &["+ group 2 run"]),
        ("group 0 1; group 2", "group 2", &["- group 0 off, 1 home"]),
        ("step 0 -> 1", "step 0 -> 1 2", &["+ step 0 off -> 2 run"]),
        (
            "step 3 -> 3",
            "step 3 -> 0",
            &["- step 3 -> 3", "+ step 3 -> 0 off"],
        ),
        ("; step 3 -> 3", "", &["+ hang 3", "- step 3 -> 3"]),
        (
            "possible 2 -> 3",
            "step 2 -> 3",
            &["+ step 2 run -> 3", "- possible 2 run -> 3"],
        ),
        (
            "possible 2 -> 3",
            "possible 1 -> 3",
            &["- possible 2 run -> 3", "+ possible 1 home -> 3"],
        ),
        (
            "state 1 home",
            "state 1 menu",
            &["~ state 1 home is now named menu"],
        ),
        (
            "; state 1 home",
            "",
            &["~ state 1 home is now without a name"],
        ),
        (
            "state 2 run",
            "state 2 run; state 3 over",
            &["~ state 3 is now named over"],
        ),
        ("states 4", "states 5", &["+ state 4", "+ hang 4"]),
    ] {
        let new = OLD.replace(from, to);
        assert_ne!(new, OLD);
        assert_eq!(lines(OLD, &new), said, "{from} to {to}");
    }
}

/// A state without a certain step is no hang where a possible one leads on.
#[test]
fn hangs_go_by_possible_steps_too() {
    let with = "states 2; initial 0; forbidden none; resting 1; possible 0 -> 1";
    let without = "states 2; initial 0; forbidden none; resting 1";
    assert_eq!(lines(with, without), ["+ hang 0", "- possible 0 -> 1"]);
}

/// Names show that screens have other numbers, and the steps between them are the same.
#[test]
fn renumbered() {
    let old = "states 3; state 0 a; state 1 b; state 2 c; initial 0; forbidden 2; group 0 1; step 0 -> 1; step 1 -> 0; step 2 -> 2";
    let new = "states 3; state 2 a; state 1 b; state 0 c; initial 2; forbidden 0; group 2 1; step 2 -> 1; step 1 -> 2; step 0 -> 0";
    assert_eq!(
        lines(old, new),
        ["~ state 0 a is now 2", "~ state 2 c is now 0"]
    );
    let (old, new) = (draft(old), draft(new));
    // by numbers all of it is another table
    assert!(
        difference(old.unnamed(), new.unnamed())
            .renumbered
            .is_empty()
    );
    assert!(difference(old.unnamed(), new.side()).added.count() > 4);
    // one is removed before it, and one that was unnamed takes its place
    let was = "states 3; state 0 a; state 2 c; initial 0; forbidden none; step 0 -> 1; step 1 -> 2; step 2 -> 2";
    let is = "states 2; state 0 a; state 1 c; initial 0; forbidden none; step 0 -> 1; step 1 -> 1";
    assert_eq!(
        lines(was, is),
        [
            "~ state 2 c is now 1",
            "- state 1",
            "- step 0 a -> 1",
            "- step 1 -> 2 c",
            "+ step 0 a -> 1 c"
        ]
    );
}

#[test]
fn the_first_difference_of_a_text() {
    let (file, text) = (
        draft(OLD),
        draft(&OLD.replace("step 0 -> 1", "step 0 -> 2")),
    );
    let first = |text: &Draft| first_difference(&file.table, &text.table, &text.names);
    assert_eq!(
        first(&text),
        "the file has 'step 0 -> 1', and the text has not"
    );
    let more = draft(&OLD.replace("step 0 -> 1", "step 0 -> 1 2"));
    assert_eq!(
        first(&more),
        "the text has 'step 0 off -> 2 run', and the file has not"
    );
    let order = draft(&OLD.replace("group 0 1; group 2", "group 2; group 0 1"));
    assert_eq!(first(&order), "their groups stand in another order");
}

/// Numbers by chance, the same each time.
struct Chance(u64);

impl Chance {
    fn below(&mut self, most: usize) -> usize {
        self.0 = self
            .0
            .wrapping_mul(6364136223846793005)
            .wrapping_add(1442695040888963407);
        (self.0 >> 33) as usize % most
    }

    fn table(&mut self) -> Table {
        let n = 1 + self.below(9);
        let mut some = |count: usize| {
            (0..count)
                .map(|_| self.below(n))
                .collect::<BTreeSet<usize>>()
        };
        let (initial, marked, resting) = (some(2), some(2), some(2));
        let groups: Vec<BTreeSet<usize>> = (0..2).map(|_| some(2)).collect();
        let steps: BTreeSet<(usize, usize)> =
            (0..12).map(|_| (self.below(n), self.below(n))).collect();
        let table = Table::builder(n)
            .initial(initial)
            .marked(marked)
            .steps(steps)
            .resting(resting);
        groups
            .into_iter()
            .fold(table, |table, group| table.group(group))
            .build()
            .expect("a table")
    }
}

/// What was removed is taken from the old table, what was added is put to it: that is the new one, but for the order of groups.
#[test]
fn the_old_table_and_what_differs_give_the_new_one() {
    let mut chance = Chance(7);
    let none = BTreeSet::new();
    let mut same = 0;
    for _ in 0..3000 {
        let old = chance.table();
        let new = if chance.below(9) == 0 {
            old.clone()
        } else {
            chance.table()
        };
        let side = |table| Side {
            table,
            names: None,
            possible: &none,
        };
        let found = difference(side(&old), side(&new));
        assert_eq!(found.is_empty(), old == new);
        same += usize::from(found.is_empty());
        let apply = |has: Vec<usize>, removed: &[usize], added: &[usize]| -> Vec<usize> {
            let kept = has.into_iter().filter(|s| !removed.contains(s));
            kept.chain(added.iter().copied())
                .collect::<BTreeSet<usize>>()
                .into_iter()
                .collect()
        };
        let (out, in_) = (&found.removed, &found.added);
        let states = |set: shuntberry::StateSet| set.states().collect::<Vec<usize>>();
        assert_eq!(
            apply((0..old.n()).collect(), &out.states, &in_.states),
            (0..new.n()).collect::<Vec<_>>()
        );
        assert_eq!(
            apply(states(old.initial()), &out.initial, &in_.initial),
            states(new.initial())
        );
        assert_eq!(
            apply(states(old.marked()), &out.forbidden, &in_.forbidden),
            states(new.marked())
        );
        assert_eq!(
            apply(states(old.resting()), &out.resting, &in_.resting),
            states(new.resting())
        );
        let kept = old.steps().filter(|step| !out.steps.contains(step));
        let steps: BTreeSet<(usize, usize)> = kept.chain(in_.steps.iter().copied()).collect();
        assert_eq!(steps, new.steps().collect());
        let mut groups: Vec<Vec<usize>> = old.groups().map(states).collect();
        for group in &out.groups {
            let at = groups
                .iter()
                .position(|other| other == group)
                .expect("a group of the old table");
            groups.remove(at);
        }
        groups.extend(in_.groups.iter().cloned());
        let mut wanted: Vec<Vec<usize>> = new.groups().map(states).collect();
        groups.sort();
        wanted.sort();
        assert_eq!(groups, wanted);
    }
    assert!(same > 200);
}
