//! `within`: is a forbidden state at most K steps from an initial one?

use crate::failure::{Done, Failure, status};
use crate::files::print;
use crate::json::Object;
use crate::names::{name_lines, numbers, with_names};
use crate::shown::shown;
use crate::source::{JSON, NAMES, SITE, Source, TEXT};
use crate::words::{Call, Command, Output, number_up_to};

/// The command.
pub const WITHIN: Command = Command {
    name: "within",
    words: "K [FILE]",
    counts: (1, 2),
    about: "is a forbidden state at most K steps away?",
    more: "The status is 1 for yes and 4 for no: a no does not say that the table is safe.",
    options: &[&SITE, &TEXT, &NAMES, &JSON],
    needs: &[],
    output: Output::Answer,
    run,
};

fn run(call: &Call) -> Done {
    let [word, ..] = call.names() else {
        return Err(Failure::Wrong("expected K [FILE]".to_string()));
    };
    let k = number_up_to(word, "number of steps", usize::MAX)?;
    if word.to_str().is_none_or(|word| word.parse() != Ok(k)) {
        return Err(Failure::Wrong(format!(
            "'{}' is no number of steps: expected one up to {}",
            shown(word),
            usize::MAX
        )));
    }
    let source = Source::of(call, call.name(1))?;
    let table = source.table()?;
    let path = match (table.within(k)?, table.shortest_path()?) {
        (true, Some(path)) if path.len() <= k.saturating_add(1) => Some(path),
        (false, _) => None,
        _ => return Err(Failure::Failed("the library has no path".to_string())),
    };
    let states = || path.iter().flatten().copied();
    let (n, g) = (table.n(), table.g());
    let lines = if call.has(&JSON) {
        let object = Object::default()
            .plain("states", n)
            .plain("groups", g)
            .plain("steps", k)
            .plain("within", path.is_some())
            .numbers("path", states());
        with_names(object, &source.names, states()).line()
    } else {
        let head = format!("states {n} groups {g}\nwithin {k}");
        match path {
            Some(_) => format!(
                "{head} yes\npath {}\n{}",
                numbers(states()),
                name_lines(&source.names, states())
            ),
            None => format!("{head} no\n"),
        }
    };
    print(lines.as_bytes())?;
    Ok(match path {
        Some(_) => status::UNSAFE,
        None => status::NO_RELEASE,
    })
}
