//! `check-all`: a line for each of many files, by the same proved call as `check`.

use crate::answer::{Answer, Verdict};
use crate::failure::{Done, Failure, status};
use crate::files::{Input, TEXT_BYTES, print, say};
use crate::json::Object;
use crate::lines::Names;
use crate::shown::{counted, shown};
use crate::source::{JSON, QUIET, SITE, Source, site};
use crate::words::{Call, Command, Opt, Output};
use std::collections::HashMap;
use std::ffi::OsStr;
use std::fs;
use std::io::{self, IsTerminal};
use std::os::unix::ffi::OsStrExt;
use std::os::unix::fs::MetadataExt;
use std::path::{Path, PathBuf};
use std::time::{Duration, Instant};

const FROM: Opt = Opt {
    name: "--from",
    value: Some("LIST"),
    about: "takes the names of more files from the file LIST, one a line\n\
        The last name too must have its end, else the list may be cut, and nothing is checked. \
        LIST has at most 100,000 names, of 4,095 bytes each, and 16 MiB in all.",
};
const ZERO: Opt = Opt {
    name: "-0",
    value: None,
    about: "the names in LIST end with a zero byte each, as find -print0 writes them, and not with a line",
};
const COUNT: Opt = Opt {
    name: "--count",
    value: Some("N"),
    about: "checks nothing, and fails, unless there are exactly N files in all\n\
        Files that are given by name, in folders and in LIST are counted together. A file that is there twice, under any \
        names, is an error too. Only this option finds a list that was cut behind a whole name, and a folder from which a \
        file is missing.",
};

/// The command.
pub const CHECK_ALL: Command = Command {
    name: "check-all",
    words: "[FILE|FOLDER ..]",
    counts: (0, usize::MAX),
    about: "check many files, with a line for each",
    more: "A folder stands for the files in it, and in its folders, whose names end in .table, in capitals or not. \
        Other files there are not checked: standard error names the first ten, and says how many there are.",
    options: &[&SITE, &FROM, &ZERO, &COUNT, &QUIET, &JSON],
    needs: &[],
    output: Output::Answer,
    run,
};

fn run(call: &Call) -> Done {
    let site = site(call)?;
    let count = call.number(&COUNT, usize::MAX)?;
    let (files, passed) = files(call)?;
    if files.is_empty() {
        return Err(Failure::Wrong("there is no file to check".to_string()));
    }
    if let Some(count) = count.filter(|&count| count != files.len()) {
        return Err(Failure::Failed(format!(
            "files to check: {}, where --count says {count}: none was checked",
            files.len()
        )));
    }
    if let Some((path, other)) = count.and_then(|_| named_twice(&files)) {
        return Err(Failure::Failed(format!(
            "{} and {} are one file, which --count counts once: none was checked",
            shown(path),
            shown(other)
        )));
    }
    let mut counts = Counts::default();
    let mut progress = Progress::new(files.len());
    let mut lines = Vec::new();
    for (done, file) in files.iter().enumerate() {
        progress.show(done, &counts, &mut lines)?;
        let (answer, remark) = match file.answer(site) {
            Ok((answer, remark)) => {
                let is_said = !call.has(&QUIET) || answer.is_always_said();
                (Ok(answer), remark.filter(|_| is_said))
            }
            Err(why) => (Err(why.clone()), Some(why)),
        };
        if let Some(remark) = remark {
            progress.clear();
            say(&format!("check-all: {remark}\n"));
        }
        counts.count(&answer);
        lines.extend(file.line(&answer, call.has(&JSON)).into_bytes());
        if lines.len() > LINES_BYTES {
            progress.clear();
            print(&std::mem::take(&mut lines))?;
        }
    }
    progress.clear();
    lines.extend(counts.line(&passed, call.has(&JSON)).into_bytes());
    print(&lines)?;
    Ok(counts.status())
}

/// So many bytes of lines are printed at once.
const LINES_BYTES: usize = 1 << 16;

// ---- Which files

/// A file that was named, or found in a folder; or a folder in which there is none.
enum Entry {
    Named(PathBuf),
    Found(PathBuf),
    Fails(PathBuf, String),
}

fn files(call: &Call) -> Result<(Vec<Entry>, Passed), Failure> {
    let mut files = Vec::new();
    let mut passed = Passed::default();
    for name in call.names() {
        add(Path::new(name), &mut files, &mut passed);
    }
    match call.path(&FROM) {
        Some(list) => {
            let end = if call.has(&ZERO) { ZERO_BYTE } else { LINE };
            let names = listed(list, end)?;
            let names = names.strip_suffix(&[end.0]).unwrap_or(&names);
            for name in names.split(|&byte| byte == end.0) {
                add(Path::new(OsStr::from_bytes(name)), &mut files, &mut passed);
            }
        }
        None if call.has(&ZERO) => {
            return Err(Failure::Wrong("-0 goes with --from LIST".to_string()));
        }
        None => {}
    }
    Ok((files, passed))
}

/// The first file that is there twice, by both of its names: it would stand in the count for one that is missing.
fn named_twice(files: &[Entry]) -> Option<(&Path, &Path)> {
    let mut seen = HashMap::new();
    files.iter().find_map(|file| {
        let path = file.path();
        let data = fs::metadata(path).ok().filter(fs::Metadata::is_file)?;
        let before = seen.insert((data.dev(), data.ino()), path)?;
        Some((before, path))
    })
}

/// What each name of a list ends with, and how that is called.
#[derive(Clone, Copy)]
struct End(u8, &'static str);

const LINE: End = End(b'\n', "line feed");
const ZERO_BYTE: End = End(0, "zero byte");

/// So many names a list may have, and so many bytes a name: no file has a longer one.
const MAX_NAMES: usize = 100_000;
const NAME_BYTES: usize = 4095;

/// The bytes of a list, each of whose names has its end. One of no names is an accident.
fn listed(list: &Path, End(end, called): End) -> Result<Vec<u8>, Failure> {
    let input = Input::named(list);
    let bytes = input.take(TEXT_BYTES + 1)?;
    let is_end = |&byte: &u8| byte == end;
    let names = || bytes.split(is_end);
    let why = if bytes.is_empty() || bytes.len() > TEXT_BYTES {
        format!("has no names, or is longer than {TEXT_BYTES} bytes")
    } else if !bytes.last().is_some_and(is_end) {
        format!("may be cut: its last name does not end with a {called}")
    } else if names().nth(MAX_NAMES + 1).is_some() {
        format!("has more than {MAX_NAMES} names: make several lists of it")
    } else if names().any(|name| name.len() > NAME_BYTES) {
        format!("has a name of more than {NAME_BYTES} bytes, as no file has one")
    } else {
        return Ok(bytes);
    };
    Err(Failure::Failed(format!("{} {why}", input.shown())))
}

fn add(path: &Path, files: &mut Vec<Entry>, all: &mut Passed) {
    if !path.is_dir() {
        return files.push(Entry::Named(path.to_path_buf()));
    }
    let before = files.len();
    let mut passed = Passed::default();
    search(path, files, &mut passed);
    if files.len() == before {
        let why = "there is no file in it whose name ends in .table".to_string();
        files.push(Entry::Fails(path.to_path_buf(), why));
    }
    passed.say(path);
    all.others += passed.others;
    all.links += passed.links;
}

/// How many things in a folder were passed over, and the first of them.
#[derive(Default)]
struct Passed {
    others: usize,
    links: usize,
    first: Vec<PathBuf>,
}

impl Passed {
    /// So many files are named.
    const NAMED: usize = 10;

    fn add(&mut self, path: PathBuf) {
        self.others += 1;
        if self.first.len() < Passed::NAMED {
            self.first.push(path);
        }
    }

    fn say(&self, folder: &Path) {
        let (one, many) = (("", "was"), ("s", "were"));
        let ending = |count| if count == 1 { one } else { many };
        for path in &self.first {
            say(&format!("check-all: not checked: {}\n", shown(path)));
        }
        if self.others > 0 {
            let (s, were) = ending(self.others);
            let more = match self.others - self.first.len() {
                0 => String::new(),
                more => format!("; {more} of them are not named here"),
            };
            say(&format!(
                "check-all: {}: {} file{s} whose name does not end in .table {were} not checked{more}\n",
                shown(folder),
                self.others
            ));
        }
        if self.links > 0 {
            let (s, were) = ending(self.links);
            say(&format!(
                "check-all: {}: {} link{s} to a folder {were} not followed\n",
                shown(folder),
                self.links
            ));
        }
    }
}

/// Whether a name ends in `.table`; some systems write it in capitals.
fn is_table(path: &Path) -> bool {
    const END: &[u8] = b".table";
    let name = path.as_os_str().as_bytes();
    let end = name.len().checked_sub(END.len()).map(|at| &name[at..]);
    end.is_some_and(|end| end.eq_ignore_ascii_case(END))
}

/// The files below a folder, in the order of their names. A link to a folder is not followed: it could lead in a circle.
fn search(folder: &Path, files: &mut Vec<Entry>, passed: &mut Passed) {
    let read = fs::read_dir(folder).and_then(|entries| entries.collect::<io::Result<Vec<_>>>());
    let mut entries = match read {
        Ok(entries) => entries,
        Err(error) => {
            let why = format!("could not be read: {error}");
            return files.push(Entry::Fails(folder.to_path_buf(), why));
        }
    };
    entries.sort_by_key(fs::DirEntry::file_name);
    for entry in entries {
        let path = entry.path();
        let is_folder = match entry.file_type() {
            Ok(kind) => kind.is_dir(),
            Err(error) => {
                // it may be a folder, with tables in it
                files.push(Entry::Fails(
                    path,
                    format!("it cannot be looked at: {error}"),
                ));
                continue;
            }
        };
        if is_folder {
            search(&path, files, passed);
        } else if is_table(&path) {
            files.push(Entry::Found(path));
        } else if path.is_dir() {
            passed.links += 1;
        } else {
            passed.add(path);
        }
    }
}

impl Entry {
    fn path(&self) -> &Path {
        match self {
            Entry::Named(path) | Entry::Found(path) | Entry::Fails(path, _) => path,
        }
    }

    /// What is found of the file and what is to be said of that, or why it failed. A line says that a table is unsafe, or a draft.
    fn answer(&self, site: usize) -> Result<(Answer, Option<String>), String> {
        match self {
            Entry::Fails(path, why) => return Err(format!("{}: {why}", shown(path))),
            // A pipe could wait for ever; one that is named is meant.
            Entry::Found(path) if !path.is_file() => {
                return Err(format!("{}: it is no file", shown(path)));
            }
            _ => {}
        }
        let why = |failure: Failure| failure.why().to_string();
        let source = Source::of_file(Input::named(self.path()), site).map_err(why)?;
        let answer = Answer::of(&source).map_err(why)?;
        let remark = match answer.verdict {
            Verdict::Unsafe | Verdict::Draft => None,
            _ => answer.explanation(&source),
        };
        let remark = remark.map(|why| format!("{}: {why}", source.shown));
        Ok((answer, remark))
    }

    fn line(&self, answer: &Result<Answer, String>, json: bool) -> String {
        let path = self.path();
        if json {
            let object = Object::default().name("file", path.as_os_str());
            return match answer {
                Ok(answer) => answer.object(object, &Names::new()).line(),
                Err(why) => object.text("verdict", "failed").text("why", why).line(),
            };
        }
        let label = match answer.as_ref().map(|answer| answer.verdict) {
            Ok(Verdict::Refused(refused)) => format!("refused {}", refused.0),
            Ok(verdict) => verdict.label().to_string(),
            Err(_) => "failed".to_string(),
        };
        format!("{}: {label}\n", shown(path))
    }
}

// ---- How many of each

#[derive(Default)]
struct Counts {
    safe: usize,
    is_unsafe: usize,
    refused: usize,
    drafts: usize,
    failed: usize,
}

impl Counts {
    fn count(&mut self, answer: &Result<Answer, String>) {
        *match answer {
            Err(_) => &mut self.failed,
            Ok(answer) => match answer.verdict {
                Verdict::Safe => &mut self.safe,
                Verdict::Unsafe => &mut self.is_unsafe,
                Verdict::Refused(_) => &mut self.refused,
                Verdict::Draft => &mut self.drafts,
                Verdict::Undecided | Verdict::Depends => &mut self.failed,
            },
        } += 1;
    }

    fn all(&self) -> usize {
        self.safe + self.is_unsafe + self.refused + self.drafts + self.failed
    }

    fn label(&self) -> String {
        format!(
            "{} safe, {} unsafe, {} refused, {}, {} failed",
            self.safe,
            self.is_unsafe,
            self.refused,
            counted(self.drafts, "draft"),
            self.failed
        )
    }

    fn line(&self, passed: &Passed, json: bool) -> String {
        let all = self.all();
        match json {
            true => Object::default()
                .plain("files", all)
                .plain("safe", self.safe)
                .plain("unsafe", self.is_unsafe)
                .plain("refused", self.refused)
                .plain("drafts", self.drafts)
                .plain("failed", self.failed)
                .plain("not_checked", passed.others)
                .plain("not_followed", passed.links)
                .line(),
            false => {
                let not_checked = match passed.others {
                    0 => String::new(),
                    others => format!(", {others} not checked"),
                };
                format!("{}: {}{not_checked}\n", counted(all, "file"), self.label())
            }
        }
    }

    /// The worst that there is: a draft is better than an unsafe table, though its number is greater.
    fn status(&self) -> u8 {
        match self {
            _ if self.failed > 0 => status::FAILED,
            _ if self.refused > 0 => status::REFUSED,
            _ if self.is_unsafe > 0 => status::UNSAFE,
            _ if self.drafts > 0 => status::NO_RELEASE,
            _ => status::DONE,
        }
    }
}

// ---- How far it is

/// The only line that is written over, and only where someone looks at it.
struct Progress {
    files: usize,
    /// When it was last written; never where standard error is no terminal.
    last: Option<Instant>,
    shown: bool,
}

impl Progress {
    const EVERY: Duration = Duration::from_millis(100);

    fn new(files: usize) -> Progress {
        Progress {
            files,
            last: io::stderr().is_terminal().then(Instant::now),
            shown: false,
        }
    }

    /// The lines so far are printed first, since someone looks.
    fn show(&mut self, done: usize, counts: &Counts, lines: &mut Vec<u8>) -> Result<(), Failure> {
        if self
            .last
            .is_none_or(|last| last.elapsed() < Progress::EVERY)
        {
            return Ok(());
        }
        self.clear();
        print(&std::mem::take(lines))?;
        say(&format!(
            "\r\x1b[K{done} of {} files: {}",
            self.files,
            counts.label()
        ));
        self.last = Some(Instant::now());
        self.shown = true;
        Ok(())
    }

    fn clear(&mut self) {
        if std::mem::take(&mut self.shown) {
            say("\r\x1b[K");
        }
    }
}
