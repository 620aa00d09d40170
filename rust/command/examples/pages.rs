//! Makes what is said of commands and options elsewhere, from their definitions: `pages FOLDER` in the folder of the repository, `scripts/pages`.
//!
//! - `man/shuntberry.1`: what stands between a line `.\" from the command: NAME` and the next `.\" from the command: end`;
//! - `packaging/completion.bash`, all of it.
//!
//! With `--check` nothing is written: the status is 1 where a file is another one, and its first line that differs is said.

use shuntberry_command::commands::COMMANDS;
use shuntberry_command::commands::about::{NAMES_FOLLOW, STATUSES, ended};
use shuntberry_command::words::{Command, Opt};
use std::path::Path;
use std::process::ExitCode;
use std::{env, fs};

fn main() -> ExitCode {
    let words: Vec<String> = env::args().skip(1).collect();
    let (folder, check) = match words.iter().map(String::as_str).collect::<Vec<_>>()[..] {
        [folder] => (folder, false),
        [folder, "--check"] => (folder, true),
        _ => return failed("usage: pages FOLDER [--check]"),
    };
    match made(Path::new(folder), check) {
        Ok(()) => ExitCode::SUCCESS,
        Err(why) => failed(&why),
    }
}

fn failed(why: &str) -> ExitCode {
    eprintln!("pages: {why}");
    ExitCode::FAILURE
}

const MANUAL: &str = "man/shuntberry.1";
const COMPLETION: &str = "packaging/completion.bash";

fn made(folder: &Path, check: bool) -> Result<(), String> {
    let read = |name: &str| {
        fs::read_to_string(folder.join(name)).map_err(|error| format!("{name}: {error}"))
    };
    let page = read(MANUAL)?;
    for (name, text) in [(MANUAL, manual(&page)?), (COMPLETION, completion())] {
        if check {
            same(name, &read(name)?, &text)?;
        } else {
            fs::write(folder.join(name), text).map_err(|error| format!("{name}: {error}"))?;
        }
    }
    Ok(())
}

/// That a file is as it is made; else the first line that is not.
fn same(name: &str, there: &str, made: &str) -> Result<(), String> {
    if there == made {
        return Ok(());
    }
    let line = |text: &str, at| text.split('\n').nth(at).unwrap_or("no line").to_string();
    let at = (0..)
        .find(|&at| line(there, at) != line(made, at))
        .unwrap_or(0);
    Err(format!(
        "{name}:{}: it is '{}', and made is '{}': run scripts/pages",
        at + 1,
        line(there, at),
        line(made, at)
    ))
}

// ---- The manual page

/// The page with each of its parts made anew. It has all of them, once.
fn manual(page: &str) -> Result<String, String> {
    let shared = |option: &&&Opt| owners(option) > 1;
    let mut options: Vec<&Opt> = Vec::new();
    for option in COMMANDS
        .iter()
        .flat_map(|command| command.options)
        .filter(shared)
    {
        if options.iter().all(|other| other.name != option.name) {
            options.push(option);
        }
    }
    let mut parts = vec![
        (
            "synopsis",
            COMMANDS.iter().map(|command| synopsis(command)).collect(),
        ),
        ("status", statuses()),
        (
            "options of several",
            options.into_iter().map(entry).collect::<String>() + &names_follow(),
        ),
    ];
    parts.extend(
        COMMANDS
            .iter()
            .map(|command| (command.name, section(command))),
    );
    let mut page = page.to_string();
    for (name, part) in parts {
        page = between(&page, name, &part)?;
    }
    Ok(page)
}

/// A page with what is made put between two lines of it.
fn between(page: &str, name: &str, part: &str) -> Result<String, String> {
    let begin = format!(".\\\" from the command: {name}\n");
    let end = ".\\\" from the command: end\n";
    let place = || {
        format!(
            "{MANUAL}: not one place between '{}' and '{}'",
            begin.trim(),
            end.trim()
        )
    };
    let (before, rest) = page.split_once(&begin).ok_or_else(place)?;
    let (old, after) = rest.split_once(end).ok_or_else(place)?;
    match old.contains(".\\\" from") || after.contains(&begin) {
        true => Err(place()),
        false => Ok(format!("{before}{begin}{part}{end}{after}")),
    }
}

/// How many commands have an option of this name.
fn owners(option: &Opt) -> usize {
    let has = |command: &&&Command| command.options.iter().any(|own| own.name == option.name);
    COMMANDS.iter().filter(has).count()
}

fn synopsis(command: &Command) -> String {
    let form = command.form("");
    let name = escaped(command.name);
    format!(
        "\\fBshuntberry {name}\\fP{}\n",
        marked(&form, &placeholders(&form))
    )
}

fn statuses() -> String {
    let entry =
        |(status, means): (usize, &&str)| format!(".TP\n.B {status}\n{}", lines(means, &[]));
    STATUSES.iter().enumerate().map(entry).collect()
}

fn names_follow() -> String {
    let (name, about) = NAMES_FOLLOW;
    format!(".TP\n.B {}\n{}", escaped(name), lines(about, &[]))
}

/// A command's heading, what it does, and the options that no other has.
fn section(command: &Command) -> String {
    let form = command.form("");
    let names = placeholders(&form);
    let options: String = command
        .options
        .iter()
        .filter(|option| owners(option) == 1)
        .map(|option| entry(option))
        .collect();
    format!(
        ".SS {}\n{}{}{options}",
        escaped(command.name),
        lines(command.about, &names),
        lines(command.more, &names)
    )
}

fn entry(option: &Opt) -> String {
    let form = option.form();
    let names = placeholders(&form);
    let (line, more) = option.sentences();
    let head = match option.value {
        Some(value) => format!(".BI {} \" {}\"", escaped(option.name), escaped(value)),
        None => format!(".B {}", escaped(option.name)),
    };
    format!(
        ".TP\n{head}\n{}{}",
        lines(line, &names),
        lines(more, &names)
    )
}

/// The words in capitals, which stand for what a caller puts there.
fn placeholders(form: &str) -> Vec<&str> {
    let words = form.split(|c: char| !c.is_ascii_alphanumeric() && c != '-');
    words.filter(|word| is_placeholder(word)).collect()
}

fn is_placeholder(word: &str) -> bool {
    let capital = |c: char| c.is_ascii_uppercase() || c.is_ascii_digit() || c == '-';
    word.starts_with(|c: char| c.is_ascii_uppercase()) && word.chars().all(capital)
}

/// Sentences as a page has them, a line each.
fn lines(said: &str, names: &[&str]) -> String {
    if said.is_empty() {
        return String::new();
    }
    let mut first = said.chars();
    let capital = first.next().map(|c| c.to_uppercase().to_string());
    let said = ended(&(capital.unwrap_or_default() + first.as_str()));
    format!(
        "{}\n",
        marked(&said, names)
            .replace(". ", ".\n")
            .replace("? ", "?\n")
    )
}

/// A text with its options and what stands between backquotes in bold, and what a caller puts there in italics.
fn marked(said: &str, names: &[&str]) -> String {
    let mut made = String::new();
    for (k, part) in said.split('`').enumerate() {
        if k % 2 == 1 {
            made += &format!("\\fB{}\\fP", escaped(part));
            continue;
        }
        let is_word = |c: char| c.is_ascii_alphanumeric() || c == '-';
        let mut rest = part;
        while let Some(c) = rest.chars().next() {
            let length = rest
                .find(|c| !is_word(c))
                .unwrap_or(rest.len())
                .max(c.len_utf8());
            let (word, after) = rest.split_at(length);
            made += &match () {
                () if names.contains(&word) => format!("\\fI{}\\fP", escaped(word)),
                () if word.starts_with('-') && word.len() > 1 => {
                    format!("\\fB{}\\fP", escaped(word))
                }
                () => escaped(word),
            };
            rest = after;
        }
    }
    made
}

fn escaped(text: &str) -> String {
    text.replace('\\', "\\e").replace('-', "\\-")
}

// ---- Completion

fn completion() -> String {
    let names: Vec<&str> = COMMANDS.iter().map(|command| command.name).collect();
    let options: String = COMMANDS
        .iter()
        .map(|command| {
            let own = command.options.iter().map(|option| option.name);
            let words: Vec<&str> = own.chain([NAMES_FOLLOW.0]).collect();
            format!("    {}) words='{}' ;;\n", command.name, words.join(" "))
        })
        .collect();
    let mut no_files: Vec<&str> = COMMANDS
        .iter()
        .flat_map(|command| command.options)
        .filter(|option| option.value.is_some_and(|value| !names_a_file(value)))
        .map(|option| option.name)
        .collect();
    no_files.sort();
    no_files.dedup();
    format!(
        "\
# Made by scripts/pages of the repository, from the definitions of the commands: do not edit it here.
# Completion of shuntberry and check in bash. It runs nothing: what was typed may be any program.
_shuntberry() {{
  local word=$2 before=$3 command=${{COMP_WORDS[1]}} words=
  local commands='{}'
  [ \"${{1##*/}}\" != check ] || command=check
  COMPREPLY=()
  if [ \"${{1##*/}}\" != check ] && [ \"$COMP_CWORD\" -eq 1 ]; then
    words=\"$commands help --help --version\"
  elif [ \"$COMP_CWORD\" -eq 2 ] && [ \"$command\" = help ]; then
    words=$commands
  elif [[ $word == -* ]]; then
    case $command in
{options}    esac
  else
    case $before in
    {}) return ;;
    esac
    compopt -o filenames
    mapfile -t COMPREPLY < <(compgen -f -- \"$word\")
    return
  fi
  mapfile -t COMPREPLY < <(compgen -W \"$words\" -- \"$word\")
}}
complete -F _shuntberry shuntberry check
",
        names.join(" "),
        no_files.join(" | ")
    )
}

/// Whether what stands behind an option is the name of a file, which bash completes: all but a number, a time and free words.
fn names_a_file(value: &str) -> bool {
    !["N", "K", "DATE-TIME", "WORDS"].contains(&value)
}
