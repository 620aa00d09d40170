//! Prints for each file what `check` prints, by the package that ./dist ships: a line with its name, then the text.

use shuntberry::{MAX_ALLOWANCE, PATH_PLACES, Refused, STORE_WORDS, Table, Verdict, decide, read};

fn text(file: &[u8]) -> Result<String, Refused> {
    let mut store = vec![0; STORE_WORDS];
    let table = read(file, 0, &mut store)?;
    let mut path = [0; PATH_PLACES];
    let verdict = match decide(&store, table.n, table.g, MAX_ALLOWANCE, &mut path)? {
        Verdict::Safe { count, invariant } => {
            let states: Vec<String> = invariant.states().map(|state| state.to_string()).collect();
            let listed = if states.is_empty() {
                "none".to_string()
            } else {
                states.join(" ")
            };
            format!(
                "safe refinements {count}\ninvariant {}: {listed}",
                states.len()
            )
        }
        Verdict::Unsafe { count, path } => {
            let states: Vec<String> = path.iter().map(|state| state.to_string()).collect();
            format!("unsafe refinements {count}\npath {}", states.join(" "))
        }
        Verdict::Undecided { count } => format!("undecided refinements {count}"),
    };
    let text = format!("states {} groups {}\n{verdict}", table.n, table.g);
    let report = Table::from_bytes(file, 0)?.check()?;
    assert_eq!(report.text(), format!("{text}\n"));
    Ok(text)
}

fn main() -> std::io::Result<()> {
    for name in std::env::args().skip(1) {
        println!("{name}");
        match text(&std::fs::read(&name)?) {
            Ok(text) => println!("{text}"),
            Err(Refused(number)) => println!("refused {number}"),
        }
    }
    Ok(())
}
