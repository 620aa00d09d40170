//! Texts and files: encode and decode are inverse over the files of `tests/files` and over random tables.

use shuntberry::{MAX_GROUPS, MAX_SITE, MAX_STATES, Table};
use shuntberry_command::lines::Names;
use shuntberry_command::text::{self, parse, table_of};
use std::fs;

/// The text of a table without names.
fn print(table: &Table) -> String {
    text::print(table, &Names::new())
}

/// Text, file and store of a table are worth the same, at some sites.
fn round_trips(table: &Table) {
    let text = print(table);
    let parsed = parse(text.as_bytes()).unwrap_or_else(|mistakes| panic!("{mistakes:?} in {text}"));
    let again = table_of(&parsed.table, []).unwrap();
    assert_eq!(again, *table);
    assert!(parsed.names.is_empty());
    for site in [0, 1, MAX_SITE] {
        let file = again.to_bytes(site).unwrap();
        let read = Table::from_bytes(&file, site).unwrap();
        assert_eq!(read, *table);
        assert_eq!(print(&read), text);
        assert_eq!(read.to_bytes(site).unwrap(), file);
    }
}

/// The texts of `tests/files` are worked out by Python from the tables themselves.
#[test]
fn files_of_tables() {
    let mut count = 0;
    for entry in fs::read_dir("../../tests/files").unwrap() {
        let path = entry.unwrap().path();
        if path.extension().is_none_or(|kind| kind != "table") {
            continue;
        }
        let file = fs::read(&path).unwrap();
        let text = fs::read_to_string(path.with_extension("txt"));
        let table = match Table::from_bytes(&file, 0) {
            Ok(table) => table,
            Err(_) => {
                assert!(
                    text.is_err(),
                    "{} is refused and has a text",
                    path.display()
                );
                continue;
            }
        };
        let text = text.unwrap_or_else(|error| panic!("the text of {}: {error}", path.display()));
        assert_eq!(print(&table), text, "{}", path.display());
        let parsed = parse(text.as_bytes()).unwrap();
        let again = table_of(&parsed.table, []).unwrap().to_bytes(0);
        assert_eq!(again.unwrap(), file, "{}", path.display());
        round_trips(&table);
        count += 1;
    }
    assert!(
        count >= 30,
        "only {count} files of tests/files are accepted"
    );
}

/// Numbers by xorshift: any table may come of them.
struct Numbers(u64);

impl Numbers {
    fn below(&mut self, limit: usize) -> usize {
        self.0 ^= self.0 << 13;
        self.0 ^= self.0 >> 7;
        self.0 ^= self.0 << 17;
        (self.0 % limit as u64) as usize
    }

    /// Each state, one of `parts` times.
    fn some(&mut self, n: usize, parts: usize) -> Vec<usize> {
        (0..n).filter(|_| self.below(parts) == 0).collect()
    }

    fn table(&mut self, n: usize, g: usize) -> Table {
        let parts = 1 + self.below(2 * n.max(1));
        let [initial, marked, resting] = [(); 3].map(|()| self.some(n, parts));
        let rows: Vec<Vec<usize>> = (0..n).map(|_| self.some(n, parts)).collect();
        let rows = rows.into_iter().enumerate();
        let steps = rows.flat_map(|(from, row)| row.into_iter().map(move |to| (from, to)));
        let table = Table::builder(n)
            .initial(initial)
            .marked(marked)
            .steps(steps)
            .resting(resting);
        let table = (0..g).fold(table, |table, _| table.group(self.some(n, parts)));
        table.build().unwrap()
    }
}

#[test]
fn random_tables() {
    let mut numbers = Numbers(0x9e37_79b9_7f4a_7c15);
    for n in [0, 1, 2, 7, 8, 9, 63, 64, 65, MAX_STATES - 1, MAX_STATES] {
        for g in [0, 1, MAX_GROUPS - 1, MAX_GROUPS] {
            if n > 0 || g == 0 {
                round_trips(&numbers.table(n, g));
            }
        }
    }
    for _ in 0..300 {
        let (n, g) = (1 + numbers.below(40), numbers.below(6));
        round_trips(&numbers.table(n, g));
    }
}
