//! The graph of a table in Graphviz' language, with what the proved calls found of it: the path of an unsafe table, the invariant of
//! a safe one, and the distances.
//!
//! Nothing is told by colour alone: shapes, lines and words say the same. Each state and step has its kinds as its `class`, which
//! Graphviz hands on to an SVG.

use crate::answer::Answer;
use crate::lines::Names;
use crate::names::screen;
use crate::part::Part;
use crate::shown::counted;
use crate::svg::Asked;
use crate::table::{is_dead_end, is_hang};
use shuntberry::{Refused, Table};

/// What is said of each state on request.
#[derive(Clone, Copy, Debug, Default)]
pub struct Options {
    /// How far it is from a forbidden one.
    pub distances: bool,
    /// The groups that it is in.
    pub groups: bool,
    /// Every state is drawn, however many there are.
    pub all: bool,
}

/// How Graphviz lays a graph out.
#[derive(Clone, Copy, Debug, PartialEq, Eq)]
pub enum Layout {
    /// By layers, from left to right.
    Across,
    /// By layers, from above.
    Down,
    /// By forces.
    Forces,
}

impl Layout {
    fn attributes(self) -> &'static str {
        match self {
            Layout::Across => "rankdir=LR, ranksep=0.6, nodesep=0.35",
            Layout::Down => "rankdir=TB, ranksep=0.6, nodesep=0.35",
            Layout::Forces => {
                r#"layout=sfdp, overlap=prism, overlap_scaling=2, sep="+10", outputorder=edgesfirst"#
            }
        }
    }
}

// ---- What is known of a table and its states

/// What a state can be. A state that is a hang, or marked, is forbidden.
#[derive(Clone, Copy, Debug, PartialEq, Eq)]
enum Kind {
    Initial,
    Marked,
    Hang,
    Resting,
    DeadEnd,
    OnPath,
    InInvariant,
}

const KINDS: [Kind; 7] = [
    Kind::Initial,
    Kind::Marked,
    Kind::Hang,
    Kind::Resting,
    Kind::DeadEnd,
    Kind::OnPath,
    Kind::InInvariant,
];

impl Kind {
    fn class(self) -> &'static str {
        match self {
            Kind::Initial => "initial",
            Kind::Marked => "forbidden",
            Kind::Hang => "hang",
            Kind::Resting => "resting",
            Kind::DeadEnd => "dead-end",
            Kind::OnPath => "path",
            Kind::InInvariant => "invariant",
        }
    }

    /// What stands below the state's number.
    fn word(self) -> Option<&'static str> {
        match self {
            Kind::Marked => Some("forbidden"),
            Kind::Hang => Some("hang"),
            Kind::Resting => Some("resting"),
            Kind::DeadEnd => Some("dead end"),
            Kind::Initial | Kind::OnPath | Kind::InInvariant => None,
        }
    }

    /// For the legend: how it is drawn, and what that means.
    fn legend(self) -> (&'static str, &'static str) {
        match self {
            Kind::Initial => ("start and an arrow", "a session can start here"),
            Kind::Marked => ("eight corners", "forbidden, since it is marked so"),
            Kind::Hang => (
                "eight corners, broken line",
                "a hang: forbidden, since it has no way out and does not rest",
            ),
            Kind::Resting => ("double line", "resting: a session may end here"),
            Kind::DeadEnd => (
                "double broken line",
                "a dead end: it has no way out, and rests",
            ),
            Kind::OnPath => (
                "thick line",
                "on the path from a start to a forbidden state, its steps numbered",
            ),
            Kind::InInvariant => (
                "shaded",
                "the invariant: every start is in it, no step leads out of it, and nothing in it is forbidden",
            ),
        }
    }
}

/// How a state is drawn. Orange and blue are told apart by every eye, and as greys.
struct Look {
    forbidden: bool,
    fill: &'static str,
    dashed: bool,
    double: bool,
    width: usize,
}

impl Look {
    fn of(kinds: &[Kind]) -> Look {
        let is = |kind| kinds.contains(&kind);
        let forbidden = is(Kind::Marked) || is(Kind::Hang);
        let fill = match (forbidden, is(Kind::InInvariant)) {
            (true, _) => "#e8833a",
            (false, true) => "#c6e2f5",
            (false, false) => "white",
        };
        Look {
            forbidden,
            fill,
            dashed: is(Kind::Hang) || is(Kind::DeadEnd),
            double: is(Kind::Resting) || kinds == [Kind::DeadEnd], // one that rests, alone in the legend
            width: if is(Kind::OnPath) { 3 } else { 1 },
        }
    }

    fn line(&self) -> &'static str {
        if self.dashed { "dashed" } else { "solid" }
    }

    /// As a node.
    fn node(&self) -> String {
        let (shape, corners) = match self.forbidden {
            true => ("octagon", "filled"),
            false => ("box", "filled,rounded"),
        };
        format!(
            r#"shape={shape}, style="{corners},{}", fillcolor="{}", peripheries={}, penwidth={}"#,
            self.line(),
            self.fill,
            1 + usize::from(self.double),
            self.width
        )
    }

    /// As a cell of the legend, with words in it.
    fn cell(&self, words: &str) -> String {
        let (line, fill, width) = (self.line(), self.fill, self.width);
        let inner = match self.double {
            true => format!(
                r#"<table border="1" cellborder="0" cellspacing="0" style="{line}"><tr><td>{words}</td></tr></table>"#
            ),
            false => words.to_string(),
        };
        format!(r#"<td border="{width}" style="{line}" bgcolor="{fill}">{inner}</td>"#)
    }
}

// ---- The graph

/// So many steps are laid out by layers in a second or two; twice as many may take minutes.
const MANY_STEPS: usize = 200;

/// The picture of a table.
#[derive(Debug)]
pub struct Picture<'t> {
    table: &'t Table,
    answer: &'t Answer,
    names: &'t Names,
    title: &'t str,
    away: Option<Vec<Option<usize>>>,
    groups: bool,
    part: Part,
}

impl<'t> Picture<'t> {
    /// The picture of a table and of what a check found of it, under a title, with names for the states that have one.
    pub fn of(
        table: &'t Table,
        answer: &'t Answer,
        names: &'t Names,
        title: &'t str,
        options: Options,
    ) -> Result<Picture<'t>, Refused> {
        let away = options.distances.then(|| table.distances()).transpose()?;
        let path = answer.path.as_deref().unwrap_or_default();
        let part = match options.all {
            true => Part::all(table),
            false => Part::of(table, path),
        };
        Ok(Picture {
            table,
            answer,
            names,
            title,
            away,
            groups: options.groups,
            part,
        })
    }

    /// The layouts to try, from the one that is taken where nobody looks which fits best.
    pub fn layouts(&self) -> &'static [Layout] {
        match self.is_tangled() {
            true => &[Layout::Forces],
            false => &[Layout::Across, Layout::Down, Layout::Forces],
        }
    }

    /// How many states and steps are drawn.
    pub fn counts(&self) -> (usize, usize) {
        let states = &self.part.states;
        let steps = |&s: &usize| self.successors(s).count();
        (states.len(), states.iter().map(steps).sum())
    }

    /// The lines above the graph.
    fn heading(&self) -> Vec<String> {
        let n = self.table.n();
        let verdict = match self.answer.vacuous {
            Some(why) => format!("{}, since {}", self.answer.headline(), why.label()),
            None => self.answer.headline(),
        };
        let sizes = [counted(n, "state"), counted(self.table.g(), "group")].join(", ");
        let heading = [self.title.to_string(), verdict, sizes];
        heading.into_iter().chain(self.part.about.clone()).collect()
    }

    /// The graph in Graphviz' language.
    pub fn graph(&self, layout: Layout) -> String {
        let label = lines(self.heading().iter().map(String::as_str));
        // The legend stands below the graph; a layout by forces has no place for it but among the states.
        let legend = match layout {
            Layout::Forces => format!(
                "legend [shape=plaintext, fontsize=12, label={}]",
                self.legend()
            ),
            Layout::Across | Layout::Down => format!(
                "peripheries=0; labelloc=b; fontsize=12; label={}",
                self.legend()
            ),
        };
        let layout = layout.attributes();
        let mut graph = vec![
            format!(
                r#"graph [{layout}, labelloc=t, fontname="Helvetica", fontsize=18, label="{label}"]"#
            ),
            r#"node [fontname="Helvetica", fontsize=14]"#.to_string(),
            r##"edge [fontname="Helvetica", fontsize=14, color="#404040"]"##.to_string(),
            "subgraph cluster_table {".to_string(),
            legend,
        ];
        for &s in &self.part.states {
            graph.push(self.state(s));
            if self.table.initial().contains(s) {
                graph.push(format!(
                    r#"start{s} [label="start", shape=plaintext, class="start"]"#
                ));
                graph.push(format!(r#"start{s} -> s{s} [class="start"]"#));
            }
        }
        for &s in &self.part.states {
            graph.extend(self.successors(s).map(|t| self.step(s, t)));
        }
        graph.push("}".to_string());
        format!("digraph table {{\n  {}\n}}\n", graph.join("\n  "))
    }

    /// Those of a state's successors that are drawn.
    fn successors(&self, s: usize) -> impl Iterator<Item = usize> {
        let all = self.table.successors(s).unwrap_or_default().states();
        all.filter(|t| self.part.states.contains(t))
    }

    /// How many steps to or from a state are not drawn.
    fn left_out(&self, s: usize) -> usize {
        let is_hidden = |t: usize| !self.part.states.contains(&t);
        let steps = self.table.steps();
        let hidden = steps.filter(|&(a, b)| a == s && is_hidden(b) || b == s && is_hidden(a));
        hidden.count()
    }

    /// Whether a layout by layers could take minutes: many steps, and many more than a chain has.
    fn is_tangled(&self) -> bool {
        let (states, steps) = self.counts();
        steps > MANY_STEPS && 4 * steps > 5 * states
    }

    fn kinds(&self, s: usize) -> Vec<Kind> {
        let rests = self.table.resting().contains(s);
        let is = |kind: &Kind| match kind {
            Kind::Initial => self.table.initial().contains(s),
            Kind::Marked => self.table.marked().contains(s),
            Kind::Hang => is_hang(self.table, s),
            Kind::Resting => rests,
            Kind::DeadEnd => rests && is_dead_end(self.table, s),
            Kind::OnPath => self.path().contains(&s),
            Kind::InInvariant => self.answer.invariant.unwrap_or_default().contains(s),
        };
        KINDS.into_iter().filter(is).collect()
    }

    /// The lines of a state.
    fn said(&self, s: usize) -> Vec<String> {
        let number = screen(self.names, s);
        let kinds = self.kinds(s);
        let words = joined(", ", kinds.iter().filter_map(|kind| kind.word()));
        let away = self.away.as_ref().map(|away| steps_away(away[s]));
        let groups = self.table.groups().enumerate();
        let groups = groups.filter(|(_, group)| self.groups && group.contains(s));
        let groups =
            joined(", ", groups.map(|(j, _)| j)).map(|groups| format!("in group {groups}"));
        let left_out = match self.left_out(s) {
            0 => None,
            count => Some(format!("{} not drawn", counted(count, "step"))),
        };
        [Some(number), words, away, groups, left_out]
            .into_iter()
            .flatten()
            .collect()
    }

    fn state(&self, s: usize) -> String {
        let kinds = self.kinds(s);
        format!(
            r#"s{s} [label="{}", class="{}", {}]"#,
            lines(self.said(s).iter().map(String::as_str)),
            joined(" ", kinds.iter().map(|kind| kind.class())).unwrap_or_default(),
            Look::of(&kinds).node()
        )
    }

    fn path(&self) -> &[usize] {
        self.answer.path.as_deref().unwrap_or_default()
    }

    /// The number of a step on the path.
    fn number_on_path(&self, s: usize, t: usize) -> Option<usize> {
        let before = self.path().windows(2).position(|pair| pair == [s, t]);
        before.map(|before| before + 1)
    }

    fn step(&self, s: usize, t: usize) -> String {
        let Some(number) = self.number_on_path(s, t) else {
            return format!("s{s} -> s{t}");
        };
        format!(
            r##"s{s} -> s{t} [class="path", headlabel="{number}", labelangle=40, labeldistance=2.2, penwidth=4, color="#a63d00", fontcolor="#a63d00", fontname="Helvetica-Bold"]"##
        )
    }

    /// For each kind that the picture has how it is drawn, and what that means; then what else is said.
    fn legend_rows(&self) -> Vec<(Option<Kind>, &'static str, &'static str)> {
        let states = &self.part.states;
        let present = |kind: &Kind| states.iter().any(|&s| self.kinds(s).contains(kind));
        let kinds = KINDS.into_iter().filter(present).map(|kind| {
            let (drawn, means) = kind.legend();
            (Some(kind), drawn, means)
        });
        // Without states dot draws no legend.
        let away = (self.away.is_some() && self.table.n() > 0).then_some((
            None,
            "N steps, or never",
            "how far it is to the nearest forbidden state",
        ));
        kinds.chain(away).collect()
    }

    /// A row for each, in Graphviz' HTML: as nodes they would pull the states apart.
    fn legend(&self) -> String {
        let mut rows = String::new();
        for (kind, drawn, means) in self.legend_rows() {
            let cell = match kind {
                None | Some(Kind::Initial) => format!("<td>{drawn}</td>"),
                Some(kind) => Look::of(&[kind]).cell(drawn),
            };
            rows += &format!(r#"<tr>{cell}<td align="left">{means}</td></tr>"#);
        }
        match rows.is_empty() {
            true => r#""""#.to_string(), // dot takes no table without rows
            false => format!(r#"<<table border="0" cellspacing="6">{rows}</table>>"#),
        }
    }

    /// What a drawing must have.
    pub fn asked(&self) -> Asked {
        let mut asked = Asked::default();
        asked.words.extend(self.heading());
        for (_, drawn, means) in self.legend_rows() {
            asked.words.extend([drawn, means].map(str::to_string));
        }
        for &s in &self.part.states {
            asked.titles.push(format!("s{s}"));
            asked.words.extend(self.said(s));
            if self.table.initial().contains(s) {
                let start = format!("start{s}");
                asked.titles.extend([format!("{start}->s{s}"), start]);
                asked.words.push("start".to_string());
            }
            for t in self.successors(s) {
                asked.titles.push(format!("s{s}->s{t}"));
                let number = self.number_on_path(s, t);
                asked.words.extend(number.map(|number| number.to_string()));
            }
        }
        asked
    }
}

// ---- Words

fn steps_away(away: Option<usize>) -> String {
    away.map_or("never".to_string(), |steps| counted(steps, "step"))
}

/// The words of a list, if it has any.
fn joined(between: &str, words: impl Iterator<Item = impl ToString>) -> Option<String> {
    let words: Vec<String> = words.map(|word| word.to_string()).collect();
    (!words.is_empty()).then(|| words.join(between))
}

/// Lines as a label has them: Graphviz reads \ and & in it.
fn lines<'w>(words: impl IntoIterator<Item = &'w str>) -> String {
    let escaped = |line: &str| {
        line.replace('\\', r"\\")
            .replace('&', "&amp;")
            .replace('"', r#"\""#)
    };
    joined(r"\n", words.into_iter().map(escaped)).unwrap_or_default()
}
