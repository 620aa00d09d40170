//! The record of a check: one page that stands alone, for a file and for the eye. It has no script, loads nothing, and tells nothing by colour alone.

use crate::answer::{Answer, VACUOUS, Vacuous, Verdict};
use crate::drawing::{ACROSS, LEGIBLE, UPRIGHT, scale};
use crate::html::escaped;
use crate::inspection::Inspection;
use crate::names::numbers;
use crate::repairs::{IF_IT_MAY_END, Rest, arrows};
use crate::shown::counted;
use crate::svg::Drawing;
use crate::table::end_message;

/// What a record says. All of it that is about the file comes from the same bytes.
#[derive(Debug)]
pub struct Record<'r> {
    /// The name of the file, as it is shown.
    pub file: String,
    /// How many bytes were checked.
    pub length: usize,
    /// Their sum.
    pub sum: String,
    /// The site that they are of.
    pub site: usize,
    /// What `check` answers.
    pub answer: &'r Answer,
    /// What `inspect` finds.
    pub found: &'r Inspection<'r>,
    /// The text that the names are from, as it is shown, and its sum.
    pub names_from: Option<(String, String)>,
    /// The picture, or why there is none.
    pub picture: Result<Drawing, String>,
    /// When it was checked.
    pub date: String,
    /// What `--version` prints.
    pub version: String,
    /// What the installation says of how the library was proved, a line each, or why that is not known.
    pub proved: Result<Vec<String>, String>,
    /// Pump and table, in words of who asked for the record, as they are shown.
    pub title: Option<String>,
    /// Whether a file that was named has the bytes that were checked, if that was asked.
    pub released: Option<Released>,
    /// What has changed since an older file, if that was asked.
    pub since: Option<Since>,
}

/// What is in the place that a table is released to.
#[derive(Debug)]
pub struct Released {
    /// Its name, as it is shown.
    pub place: String,
    /// The sum of its bytes, if it is there.
    pub sum: Option<String>,
}

/// An older file, and what has changed since.
#[derive(Debug)]
pub struct Since {
    /// The name of the file, as it is shown.
    pub file: String,
    /// The sum of its bytes.
    pub sum: String,
    /// What was found of it.
    pub verdict: Verdict,
    /// Why it said little that it was safe.
    pub vacuous: Option<Vacuous>,
    /// How much differs, in a line.
    pub summary: String,
    /// What differs, a line each.
    pub lines: Vec<String>,
}

/// What a proof does not cover. Verdicts have no word in it.
const NOT_PROVED: &str = "Not proved: the program around the proved call, which reads the file and wrote this page, and is tested; the compiler's back end, the linker, the C library \
    and the operating system; and that the table describes the pump.";

const STYLE: &str = include_str!("record.css");

/// Nothing but the page itself, whatever might have come into it.
const POLICY: &str = "script-src 'none'; connect-src 'none'; img-src 'none'; font-src 'none'; media-src 'none'; object-src 'none'; frame-src 'none'; \
    form-action 'none'; base-uri 'none'";

/// Below this part of its size a picture's words are small, and it goes across the paper if that helps.
const SMALL: f64 = 0.6;

impl Record<'_> {
    /// The page.
    pub fn page(&self) -> String {
        let parts = [
            self.head(),
            self.verdict(),
            self.facts(),
            self.changed(),
            self.remarks(),
            self.listed(),
            self.repairs(),
            self.pictured(),
            self.screens(),
            self.program(),
            self.signatures(),
        ];
        let says = match self.released {
            Some(_) => "This page says what was found when it was made.",
            None => "This page says what was found, and not whether the file was released.",
        };
        format!(
            "{}<footer>\n<p>{says} It is no seal: compare the SHA-256, and check the file again.</p>\n\
             <p>End of the record.</p>\n</footer>\n</body>\n</html>\n",
            parts.concat()
        )
    }

    fn head(&self) -> String {
        let (word, sum) = (self.answer.verdict.label(), &self.sum);
        let file = escaped(&self.file);
        // How the verdict is framed, and what stands on each sheet of paper: both are words and digits of ours.
        let own = format!(
            ".verdict {{ {} }}\n@page {{ @bottom-left {{ content: \"{word}, SHA-256 {sum}\"; font: 7pt monospace; }} \
             @bottom-right {{ content: counter(page) \" of \" counter(pages); font: 8pt sans-serif; }} }}\n",
            self.frame()
        );
        format!(
            "<!DOCTYPE html>\n<html lang=\"en\">\n<head>\n<meta charset=\"utf-8\">\n\
             <meta name=\"viewport\" content=\"width=device-width, initial-scale=1\">\n\
             <meta http-equiv=\"Content-Security-Policy\" content=\"{}\">\n\
             <title>{word}: {file}: record of a check by Shuntberry</title>\n<style>\n{STYLE}{own}</style>\n</head>\n<body>\n",
            escaped(POLICY)
        )
    }

    /// Lines differ and not colours alone: a record may be printed in black.
    fn frame(&self) -> &'static str {
        match self.answer.verdict {
            Verdict::Draft => "border: 3px dashed #111;",
            Verdict::Safe => "border: 2px solid #111; background: #e3f0fa;",
            _ => "border: 9px double #111; background: #fbe2cf;",
        }
    }

    fn verdict(&self) -> String {
        let headline = self.answer.headline();
        let why = match self.why_unsafe() {
            Some(why) => format!("<p>{}.</p>\n", capitalised(&why)),
            None => String::new(),
        };
        let vacuous = self.answer.vacuous.map_or(String::new(), |why| {
            let (why, option) = (why.message(), VACUOUS.name);
            format!("<p><strong>But</strong> {why}. The command release does not release it without <code>{option}</code>.</p>\n")
        });
        let title = self.title.as_ref().map_or(String::new(), |title| {
            let title = escaped(title);
            format!("<p class=\"kind\">Pump and table, as given: <bdi>{title}</bdi></p>\n")
        });
        format!(
            "<header>\n<p class=\"kind\">Record of a check by Shuntberry</p>\n{title}<div class=\"verdict\">\n<h1>{headline}</h1>\n{why}{vacuous}</div>\n</header>\n"
        )
    }

    /// Why the path ends where it does.
    fn why_unsafe(&self) -> Option<String> {
        let why = self.answer.why_unsafe(self.found.names);
        why.map(|why| escaped(&why))
    }

    fn facts(&self) -> String {
        let count = self.answer.count;
        let mut facts = vec![
            ("File", format!("<bdi>{}</bdi>", escaped(&self.file))),
            ("SHA-256", format!("<code>{}</code>", self.sum)),
            ("Length", format!("{} bytes", self.length)),
            ("Site", self.site.to_string()),
            ("States", self.answer.n.to_string()),
            ("Groups", self.answer.g.to_string()),
            (
                "Refinements",
                count.map_or("not known".to_string(), |count| count.to_string()),
            ),
            ("Checked", escaped(&self.date)),
        ];
        if let Some((text, sum)) = &self.names_from {
            let text = escaped(text);
            facts.push((
                "Names",
                format!("from <bdi>{text}</bdi>, a text of the same table: the file itself has none to compare them with"),
            ));
            facts.push(("SHA-256 of that text", format!("<code>{sum}</code>")));
        }
        if let Some(released) = &self.released {
            facts.push(("Released", self.released_to(released)));
        }
        let rows: String = facts
            .iter()
            .map(|(fact, value)| {
                format!("<tr><th scope=\"row\">{fact}</th><td>{value}</td></tr>\n")
            })
            .collect();
        section(
            "What was checked",
            format!("<table class=\"facts\">\n<tbody>\n{rows}</tbody>\n</table>\n"),
        )
    }

    fn remarks(&self) -> String {
        let remark = |said: &str, states: &[usize]| match states {
            [] => format!("<li>{said}</li>\n"),
            _ => format!("<li>{said}: {}</li>\n", self.named(states).join(", ")),
        };
        let remarks: String = self
            .found
            .remarks()
            .iter()
            .map(|found| remark(found.message, &found.states))
            .collect();
        let said = match remarks.is_empty() {
            true => "<p>nothing in particular</p>\n".to_string(),
            false => format!("<ul>\n{remarks}</ul>\n"),
        };
        section("What to look at", said)
    }

    /// States by their numbers and names.
    fn named(&self, states: &[usize]) -> Vec<String> {
        let screen = |&state: &usize| escaped(&self.found.screen(state));
        states.iter().map(screen).collect()
    }

    /// The path or the invariant.
    fn listed(&self) -> String {
        let states: Vec<usize> = self.answer.states().collect();
        let list = |kind: &str, class: &str| match self.named(&states) {
            named if named.is_empty() => "<p>none</p>\n".to_string(),
            named => format!(
                "<{kind} class=\"{class}\">\n<li>{}</li>\n</{kind}>\n",
                named.join("</li>\n<li>")
            ),
        };
        match self.answer.verdict {
            Verdict::Draft => String::new(),
            Verdict::Unsafe => section(
                "Path",
                format!(
                    "<p>A shortest way from a start to a forbidden state, {}; {}.</p>\n{}",
                    counted(self.answer.steps(), "step"),
                    self.why_unsafe().unwrap_or_default(),
                    list("ol", "states path")
                ),
            ),
            _ => section(
                "Invariant",
                format!(
                    "<p>{}. It holds the initial states and the successors of each of its own, and no forbidden state.</p>\n{}",
                    counted(states.len(), "state"),
                    list("ul", "states")
                ),
            ),
        }
    }

    /// What is wrong with an unsafe table, beyond its path.
    fn repairs(&self) -> String {
        let Some(repairs) = &self.found.repairs else {
            return String::new();
        };
        let way = |states: &[usize]| escaped(&arrows(self.found.names, states));
        let steps = repairs.steps.iter();
        let steps = steps.map(|step| {
            let ends = way(&step.ends);
            format!("{ends}: no forbidden screen can be reached{}", step.lost())
        });
        let rub_out = match repairs.steps.is_empty() {
            true => "<p>No single step of the path, rubbed out, does it.</p>\n".to_string(),
            false => format!(
                "<p>Any one of these steps of the path, rubbed out.</p>\n{}",
                bullets(steps)
            ),
        };
        let reached = repairs.reached.iter();
        let reached = reached.map(|to| format!("{}: {}", way(&to.path), end_message(to.end)));
        section("Steps to rub out", rub_out)
            + &repairs
                .rest
                .as_ref()
                .map_or(String::new(), |rest| self.rest(rest))
            + &section(
                "Forbidden screens that can be reached",
                format!("<p>A shortest way to each.</p>\n{}", bullets(reached)),
            )
    }

    /// What becomes of the table if the hang at the end of the path rests.
    fn rest(&self, rest: &Rest) -> String {
        let state = escaped(&self.found.screen(rest.state));
        let then = escaped(&rest.then(self.found.names));
        section(
            "Screen to mark as resting",
            format!("<p>{state}, {IF_IT_MAY_END}{then}.</p>\n"),
        )
    }

    fn pictured(&self) -> String {
        match &self.picture {
            Ok(drawing) => figure(drawing, self.answer.verdict.label()),
            Err(why) => section(
                "Picture",
                format!("<p>There is no picture: {}.</p>\n", escaped(why)),
            ),
        }
    }

    fn screens(&self) -> String {
        if self.answer.n == 0 {
            return section("Screens", "<p>none</p>\n".to_string());
        }
        let head: String = self
            .columns()
            .iter()
            .map(|column| format!("<th scope=\"col\">{column}</th>"))
            .collect();
        let rows: String = (0..self.answer.n).map(|s| self.row(s)).collect();
        section(
            "Screens",
            format!(
                "<p>{}. A forbidden one has a bar at its left: it is marked so, or a hang, which has no way out and does not rest. \
                 The distance is the number of steps to the nearest forbidden one. The last column has the states that its steps lead to.</p>\n\
                 <div class=\"scroll\" role=\"region\" aria-label=\"Screens\" tabindex=\"0\">\n<table class=\"screens\">\n\
                 <thead>\n<tr>{head}</tr>\n</thead>\n<tbody>\n{rows}</tbody>\n</table>\n</div>\n",
                counted(self.answer.n, "screen")
            ),
        )
    }

    fn has_names(&self) -> bool {
        self.names_from.is_some()
    }

    fn has_groups(&self) -> bool {
        self.answer.g > 0
    }

    fn columns(&self) -> Vec<&'static str> {
        let all = [
            (true, "State"),
            (self.has_names(), "Name"),
            (true, "Is"),
            (self.has_groups(), "Groups"),
            (true, "Reachable"),
            (true, "Distance"),
            (true, "Steps to"),
        ];
        let there = all.into_iter().filter(|(there, _)| *there);
        there.map(|(_, column)| column).collect()
    }

    fn row(&self, s: usize) -> String {
        let kinds = self.found.kinds(s);
        let forbidden = kinds.iter().any(|kind| ["marked", "hang"].contains(kind));
        let mut row = match forbidden {
            true => format!("<tr class=\"forbidden\"><th scope=\"row\">{s}</th>"),
            false => format!("<tr><th scope=\"row\">{s}</th>"),
        };
        if self.has_names() {
            let name = self.found.name(s).unwrap_or_default();
            row += &format!("<td class=\"name\">{}</td>", escaped(name));
        }
        row += &format!("<td class=\"is\">{}</td>", kinds.join(", "));
        if self.has_groups() {
            row += &format!("<td>{}</td>", numbers(self.found.groups(s)));
        }
        let reachable = match self.found.is_reachable(s) {
            true => "yes",
            false => "no",
        };
        let away = self.found.distance(s);
        let away = away.map_or("never".to_string(), |away| away.to_string());
        let next = match self.has_names() {
            true => self
                .named(&self.found.successors(s).collect::<Vec<_>>())
                .join(", "),
            false => numbers(self.found.successors(s)),
        };
        row + &format!("<td>{reachable}</td><td>{away}</td><td class=\"steps\">{next}</td></tr>\n")
    }

    fn program(&self) -> String {
        let proved = match &self.proved {
            Ok(lines) => format!(
                "<p>What its installation says was proved (the file PROVED):</p>\n<pre>{}</pre>\n",
                escaped(&lines.join("\n"))
            ),
            Err(why) => format!(
                "<p>What was proved is not said here: {}.</p>\n",
                escaped(why)
            ),
        };
        section(
            "Program",
            format!(
                "<p><code>{}</code></p>\n{proved}<p>{NOT_PROVED}</p>\n",
                escaped(&self.version)
            ),
        )
    }
}

fn bullets(items: impl Iterator<Item = String>) -> String {
    let items: String = items.map(|item| format!("<li>{item}</li>\n")).collect();
    format!("<ul>\n{items}</ul>\n")
}

/// More lines than this are no help on paper.
const MOST_CHANGES: usize = 400;

impl Record<'_> {
    /// Whether the bytes are where a pump takes them from.
    fn released_to(&self, released: &Released) -> String {
        let place = format!("<bdi>{}</bdi>", escaped(&released.place));
        let code = |sum: &str| format!("<code>{sum}</code>");
        match self.why_not(released, &place, code) {
            Some(why) => format!("no{why}"),
            None => format!("to {place}, which has the bytes that were checked"),
        }
    }

    /// Why the record says that the table was not released, as what follows "not released"; nothing where it says that it was, or nothing of it.
    pub fn not_released(&self) -> Option<String> {
        let released = self.released.as_ref()?;
        self.why_not(released, &released.place, str::to_string)
    }

    /// The same, with a place and a sum as they are shown. Only the bytes of a table that may be released are told as released.
    fn why_not(
        &self,
        released: &Released,
        place: &str,
        shown: impl Fn(&str) -> String,
    ) -> Option<String> {
        match &released.sum {
            None => Some(format!(": there is no {place}")),
            Some(sum) if *sum != self.sum => Some(format!(
                ": {place} has other bytes, of the SHA-256 {}",
                shown(sum)
            )),
            Some(_) if self.answer.may_be_released() => None,
            Some(_) if self.answer.vacuous.is_some() => Some(format!(
                ", but {place} has these bytes, and release declines them without {}",
                VACUOUS.name
            )),
            Some(_) => Some(format!(
                ", but {place} has these bytes: take it away, it must not be loaded"
            )),
        }
    }

    /// What differs from an older file. Its verdict is told in other words: each page has the word of its own verdict alone.
    fn changed(&self) -> String {
        let Some(since) = &self.since else {
            return String::new();
        };
        let was = match since.verdict {
            Verdict::Safe => "In the old table no forbidden state could be reached",
            Verdict::Draft => "The old table had no states",
            _ => "In the old table a forbidden state could be reached",
        };
        let since_when = match since.vacuous {
            Some(Vacuous::NoInitial) => ", since no state was initial",
            Some(Vacuous::NothingForbidden) => ", since nothing was forbidden",
            None => "",
        };
        let (file, sum) = (escaped(&since.file), &since.sum);
        let shown = since.lines.iter().take(MOST_CHANGES);
        let lines: Vec<String> = shown.map(|line| escaped(line)).collect();
        let lines = match lines.is_empty() {
            true => String::new(),
            false => format!("<pre>{}</pre>\n", lines.join("\n")),
        };
        let more = match since.lines.len().saturating_sub(MOST_CHANGES) {
            0 => String::new(),
            more => format!("<p>And {more} more lines, which the command diff prints.</p>\n"),
        };
        let summary = escaped(&since.summary);
        section(
            "What has changed",
            format!(
                "<p>Since <bdi>{file}</bdi>, of the SHA-256 <code>{sum}</code>: {summary}. {was}{since_when}.</p>\n{lines}{more}"
            ),
        )
    }

    /// Lines to sign on paper: that it was released only where it may be, and not where the record says that it was not.
    fn signatures(&self) -> String {
        let who: &[&str] = match (self.answer.may_be_released(), self.not_released()) {
            (true, None) => &["Checked by", "Released by"],
            (true, Some(_)) => &["Checked by"],
            (false, _) => &["Seen by"],
        };
        let row = |who: &&str| {
            format!("<tr><th scope=\"row\">{who}</th><td></td><td></td><td></td></tr>\n")
        };
        let rows: String = who.iter().map(row).collect();
        section(
            "Signatures",
            format!(
                "<table class=\"signatures\">\n<thead>\n<tr><td></td><th scope=\"col\">Name</th><th scope=\"col\">Date</th><th scope=\"col\">Signature</th></tr>\n\
                 </thead>\n<tbody>\n{rows}</tbody>\n</table>\n"
            ),
        )
    }
}

/// A sentence's beginning, whose first letter is an ASCII one.
fn capitalised(text: &str) -> String {
    let mut text = text.to_string();
    if let Some(first) = text.get_mut(..1) {
        first.make_ascii_uppercase();
    }
    text
}

fn section(heading: &str, said: String) -> String {
    format!("<section>\n<h2>{heading}</h2>\n{said}</section>\n")
}

/// A drawing fits the page, but is not made smaller than half of its size on a screen; on paper it is.
fn figure(drawing: &Drawing, word: &str) -> String {
    let Drawing {
        width,
        height,
        shapes,
        ..
    } = drawing;
    let scale = |paper| scale(drawing, paper);
    let across = scale(UPRIGHT) < SMALL && scale(ACROSS) > scale(UPRIGHT).max(LEGIBLE);
    let (class, paper) = match across {
        true => (" class=\"wide\"", ACROSS),
        false => ("", UPRIGHT),
    };
    let small = match scale(paper) < LEGIBLE {
        true => " On paper it is too small to read: look at it on a screen.",
        false => "",
    };
    format!(
        "<section{class}>\n<h2>Picture</h2>\n<figure>\n<div class=\"scroll\" role=\"region\" aria-label=\"Picture\" tabindex=\"0\">\n\
         <svg role=\"img\" aria-label=\"The states and steps of the table, {word}; the table of screens says what each state is\" \
         width=\"{width:.2}pt\" height=\"{height:.2}pt\" viewBox=\"0 0 {width:.2} {height:.2}\" style=\"min-width: {:.2}pt\">\n{shapes}</svg>\n</div>\n\
         <figcaption>Drawn by Graphviz from the bytes that were checked.{small}</figcaption>\n</figure>\n</section>\n",
        width / 2.0
    )
}
