//! A drawing, taken out of the SVG that `dot` printed. Nothing of that is believed. What is let through is listed below: the elements of each part of
//! a drawing, their attributes, and what the value of each may be, which is all that Graphviz writes for our graphs. Each state and step that was
//! asked for is there, and no word that was not; each lies on the paper, and no part hides another. What does not fit is no drawing at all, since half
//! of one would be taken for the table.

use crate::html::escaped;
use crate::lines::cut as shortened;
use std::fmt::Write;

/// What a drawing must have: the titles of its states and steps, and its lines of words. Each stands there as often as it must be found.
#[derive(Clone, Debug, Default)]
pub struct Asked {
    /// The titles.
    pub titles: Vec<String>,
    /// The words.
    pub words: Vec<String>,
}

/// A drawing.
#[derive(Debug)]
pub struct Drawing {
    /// Its width, in points.
    pub width: f64,
    /// Its height.
    pub height: f64,
    /// What stands within the element `svg`.
    pub shapes: String,
}

/// The drawing that an SVG has, or why it is none.
pub fn cleaned(svg: &[u8], asked: Asked) -> Result<Drawing, String> {
    let svg = std::str::from_utf8(svg).map_err(|_| "it is no UTF-8".to_string())?;
    let mut rest = svg.strip_prefix(DECLARATION).unwrap_or(svg);
    let mut cleaner = Cleaner::default();
    while let Some(at) = rest.find('<') {
        cleaner.text(&rest[..at])?;
        rest = cleaner.markup(&rest[at + 1..])?;
    }
    cleaner.text(rest)?;
    cleaner.drawing(asked)
}

/// An SVG that has a drawing, shown in another size: all else stays as it is.
pub fn resized(svg: &[u8], (width, height): (f64, f64)) -> Result<Vec<u8>, String> {
    let svg = std::str::from_utf8(svg).map_err(|_| "it is no UTF-8".to_string())?;
    let (before, tag) = svg.split_once("<svg").ok_or("it is no SVG")?;
    let tag = with_side(tag, "width", width).and_then(|tag| with_side(&tag, "height", height));
    let tag = tag.ok_or("its size cannot be read")?;
    Ok(format!("{before}<svg{tag}").into_bytes())
}

/// What stands behind `<svg`, with another width or height.
fn with_side(tag: &str, name: &str, side: f64) -> Option<String> {
    let (before, rest) = tag.split_once(&format!(" {name}=\""))?;
    let (_, behind) = rest.split_once('"')?;
    Some(format!("{before} {name}=\"{side:.2}pt\"{behind}"))
}

// ---- What is let through

/// Any other encoding would make other words of the bytes.
const DECLARATION: &str = r#"<?xml version="1.0" encoding="UTF-8" standalone="no"?>"#;
/// What stands behind `<!`, with one space for each white space. Any other could declare entities.
const DOCTYPE: &str = r#"DOCTYPE svg PUBLIC "-//W3C//DTD SVG 1.1//EN" "http://www.w3.org/Graphics/SVG/1.1/DTD/svg11.dtd""#;

/// Of the graph as a whole.
const GRAPH: &str = "table";
const FRAMES: [&str; 2] = ["cluster_table", "legend"];

/// Where an element stands.
#[derive(Clone, Copy, Debug, PartialEq, Eq)]
enum Place {
    Outside,
    Svg,
    /// In a group that has no title yet, which says what it is.
    Untitled,
    Graph,
    /// The legend.
    Frame,
    State,
    /// The word at the arrow to an initial state.
    Start,
    Step,
    /// In an element of words.
    Words,
    /// In a shape, which has nothing within.
    Shape,
}

/// What a value may be.
enum Form {
    /// One of these.
    One(&'static [&'static str]),
    /// Some of these, with spaces between.
    Some(&'static [&'static str]),
    /// One of these numbers.
    Of(&'static [f64]),
    /// Graphviz' name of a part, as `node12`.
    Name,
    /// A number.
    Number,
    /// A number of points.
    Length,
    /// Where the paper lies.
    Paper,
    /// Where the graph lies on it.
    Shift,
    /// The corners of a shape.
    Corners,
    /// A line of curves.
    Curves,
}

/// An attribute, what its value may be, and whether it must be there.
type Attribute = (&'static str, Form, bool);

const WHITE: &str = "white";
const NOTHING: [&str; 2] = ["none", "transparent"];
/// As the states are filled, and the cells of the legend.
const FILLS: Form = Form::One(&["none", WHITE, "#e8833a", "#c6e2f5"]);
/// As the steps are drawn, and those of the path.
const LINES: Form = Form::One(&["#404040", "#a63d00"]);
const WIDTHS: Form = Form::Of(&[1.0, 3.0, 4.0]);
const DASHES: Form = Form::One(&["5,2"]);
const CLASSES: Form = Form::Some(&[
    "graph",
    "cluster",
    "node",
    "edge",
    "start",
    "initial",
    "forbidden",
    "hang",
    "resting",
    "dead-end",
    "dead&#45;end", // as it is written
    "path",
    "invariant",
]);

const OF_SVG: &[Attribute] = &[
    ("width", Form::Length, true),
    ("height", Form::Length, true),
    ("viewBox", Form::Paper, true),
    ("xmlns", Form::One(&["http://www.w3.org/2000/svg"]), true),
    (
        "xmlns:xlink",
        Form::One(&["http://www.w3.org/1999/xlink"]),
        false,
    ),
];
const OF_GRAPH: &[Attribute] = &[
    ("id", Form::Name, false),
    ("class", CLASSES, false),
    ("transform", Form::Shift, true),
];
const OF_GROUP: &[Attribute] = &[("id", Form::Name, false), ("class", CLASSES, false)];
const OF_PAPER: &[Attribute] = &[
    ("fill", Form::One(&[WHITE]), true),
    ("stroke", Form::One(&NOTHING), true),
    ("points", Form::Corners, true),
];
const OF_CELL: &[Attribute] = &[
    ("fill", FILLS, true),
    ("stroke", Form::One(&["black", "none", "transparent"]), true),
    ("stroke-width", WIDTHS, false),
    ("stroke-dasharray", DASHES, false),
    ("points", Form::Corners, true),
];
const OF_STATE: &[Attribute] = &[
    ("fill", FILLS, true),
    ("stroke", Form::One(&["black"]), true),
    ("stroke-width", WIDTHS, false),
    ("stroke-dasharray", DASHES, false),
    ("points", Form::Corners, true),
];
const OF_ROUND_STATE: &[Attribute] = &[
    ("fill", FILLS, true),
    ("stroke", Form::One(&["black"]), true),
    ("stroke-width", WIDTHS, false),
    ("stroke-dasharray", DASHES, false),
    ("d", Form::Curves, true),
];
const OF_LINE: &[Attribute] = &[
    ("fill", Form::One(&["none"]), true),
    ("stroke", LINES, true),
    ("stroke-width", WIDTHS, false),
    ("d", Form::Curves, true),
];
const OF_ARROW: &[Attribute] = &[
    ("fill", LINES, true),
    ("stroke", LINES, true),
    ("stroke-width", WIDTHS, false),
    ("points", Form::Corners, true),
];
const OF_TEXT: &[Attribute] = &[
    ("xml:space", Form::One(&["preserve"]), false), // by newer versions
    ("text-anchor", Form::One(&["start", "middle", "end"]), true),
    ("x", Form::Number, true),
    ("y", Form::Number, true),
    (
        "font-family",
        Form::One(&["Helvetica,sans-Serif", "Helvetica", "Helvetica-Bold"]),
        true,
    ),
    ("font-weight", Form::One(&["bold"]), false),
    ("font-size", Form::Of(&[12.0, 14.0, 18.0]), true),
    ("fill", Form::One(&["black", "#a63d00"]), false),
];
/// Those that a record leaves out: they are not seen.
const UNSEEN: [&str; 3] = ["id", "class", "xml:space"];

/// The attributes of an element in a place, and where that is which stands in it; nothing where it has no place there.
fn listed(place: Place, name: &str) -> Option<(&'static [Attribute], Place)> {
    use Place::{Frame, Graph, Outside, Shape, Start, State, Step, Svg, Untitled, Words};
    Some(match (place, name) {
        (Outside, "svg") => (OF_SVG, Svg),
        (Svg, "g") => (OF_GRAPH, Untitled),
        (Graph, "g") => (OF_GROUP, Untitled),
        (Untitled, "title") => (&[], Words),
        (Graph | Frame | State | Start | Step, "text") => (OF_TEXT, Words),
        (Graph, "polygon") => (OF_PAPER, Shape),
        (Frame, "polygon") => (OF_CELL, Shape),
        (State, "polygon") => (OF_STATE, Shape),
        (State, "path") => (OF_ROUND_STATE, Shape),
        (Step, "path") => (OF_LINE, Shape),
        (Step, "polygon") => (OF_ARROW, Shape),
        _ => return None,
    })
}

/// What a group is by its title.
fn titled(title: &str, is_graph: bool) -> Option<Place> {
    let is_numbered = |word| digits(title.strip_prefix(word).unwrap_or_default());
    Some(match title {
        GRAPH if is_graph => Place::Graph,
        _ if is_graph => return None,
        _ if FRAMES.contains(&title) => Place::Frame,
        _ if is_numbered("s") => Place::State,
        _ if is_numbered("start") => Place::Start,
        _ if title.contains("->") => Place::Step,
        _ => return None,
    })
}

fn fits(form: &Form, value: &str) -> bool {
    match form {
        Form::One(words) => words.contains(&value),
        Form::Some(words) => value.split(' ').all(|word| words.contains(&word)),
        Form::Of(numbers) => number(value).is_some_and(|number| numbers.contains(&number)),
        Form::Name => digits(value.trim_start_matches(|c: char| c.is_ascii_lowercase())),
        Form::Number => number(value).is_some(),
        Form::Length => length(value).is_some(),
        Form::Paper => paper(value).is_some(),
        Form::Shift => shift(value).is_some(),
        Form::Corners => corners(value).is_some(),
        Form::Curves => curves(value).is_some(),
    }
}

// ---- Values

type Point = (f64, f64);

fn digits(word: &str) -> bool {
    (1..=MOST_DIGITS).contains(&word.len()) && word.bytes().all(|byte| byte.is_ascii_digit())
}

/// More than any length has, and few enough for an exact number.
const MOST_DIGITS: usize = 7;

/// As `-12.5`, and no other way to write it.
fn number(word: &str) -> Option<f64> {
    let size = word.strip_prefix('-').unwrap_or(word);
    let (whole, part) = size.split_once('.').unwrap_or((size, "0"));
    (digits(whole) && digits(part)).then(|| word.parse().ok())?
}

fn length(value: &str) -> Option<f64> {
    number(value.strip_suffix("pt")?)
}

/// Width and height.
fn paper(value: &str) -> Option<Point> {
    let numbers: Option<Vec<f64>> = value.split(' ').map(number).collect();
    match numbers?[..] {
        [0.0, 0.0, width, height] if width > 0.0 && height > 0.0 => Some((width, height)),
        _ => None,
    }
}

/// By how much the graph is moved; it is neither turned nor made smaller.
fn shift(value: &str) -> Option<Point> {
    let by = value.strip_prefix("scale(1 1) rotate(0) translate(")?;
    let (x, y) = by.strip_suffix(')')?.split_once(' ')?;
    Some((number(x)?, number(y)?))
}

fn point(word: &str) -> Option<Point> {
    let (x, y) = word.split_once(',')?;
    Some((number(x)?, number(y)?))
}

fn corners(value: &str) -> Option<Vec<Point>> {
    value.split(' ').map(point).collect()
}

/// The points of curves: of each three the third is on the line.
fn curves(value: &str) -> Option<Vec<Point>> {
    let (start, rest) = value.strip_prefix('M')?.split_once('C')?;
    let mut points = vec![point(start)?];
    points.extend(corners(rest)?);
    (points.len() % 3 == 1).then_some(points)
}

// ---- The paper

/// What Graphviz leaves around a graph, in points.
const MARGIN: f64 = 4.0;
/// Numbers are rounded.
const SLACK: f64 = 1.0;
/// A state's shape is higher and wider than its words, which have 14 points.
const LEAST_SIDE: f64 = 14.0;
/// An arrow's head is smaller.
const MOST_ARROW: f64 = 30.0;
/// Less than a letter's width and height, as parts of its size.
const LETTER: Point = (0.4, 0.7);

#[derive(Clone, Copy, Debug)]
struct Area {
    left: f64,
    top: f64,
    right: f64,
    bottom: f64,
}

impl Area {
    fn around(points: &[Point]) -> Area {
        let nothing = Area {
            left: f64::INFINITY,
            top: f64::INFINITY,
            right: f64::NEG_INFINITY,
            bottom: f64::NEG_INFINITY,
        };
        points.iter().fold(nothing, |area, &(x, y)| Area {
            left: area.left.min(x),
            top: area.top.min(y),
            right: area.right.max(x),
            bottom: area.bottom.max(y),
        })
    }

    fn holds(&self, inner: &Area) -> bool {
        inner.left >= self.left - SLACK
            && inner.right <= self.right + SLACK
            && inner.top >= self.top - SLACK
            && inner.bottom <= self.bottom + SLACK
    }

    fn overlaps(&self, other: &Area) -> bool {
        self.left + SLACK < other.right
            && other.left + SLACK < self.right
            && self.top + SLACK < other.bottom
            && other.top + SLACK < self.bottom
    }

    fn sides(&self) -> [f64; 2] {
        [self.right - self.left, self.bottom - self.top]
    }
}

// ---- Reading

#[derive(Default)]
struct Cleaner {
    open: Vec<(String, Place)>,
    size: Option<Point>,
    shapes: String,
    found: Asked,
    /// Whether there is something on the paper.
    is_begun: bool,
    /// Where there are words that nothing may hide.
    taken: Vec<Area>,
    group: Group,
    text: Text,
}

/// The group that is open.
#[derive(Default)]
struct Group {
    /// Of a state its number.
    number: String,
    /// Of a state its shape, of a step the head of its arrow.
    shape: Option<Area>,
    has_words: bool,
}

/// The words that are read.
#[derive(Default)]
struct Text {
    at: Point,
    anchor: String,
    size: f64,
}

const HIDES: &str = "one part of it hides another";

type Found<'s> = Vec<(&'s str, &'s str)>;

impl Cleaner {
    fn place(&self) -> Place {
        self.open.last().map_or(Place::Outside, |(_, place)| *place)
    }

    /// What stands behind a `<`; gives what stands behind its `>`.
    fn markup<'s>(&mut self, rest: &'s str) -> Result<&'s str, String> {
        if let Some(comment) = rest.strip_prefix("!--") {
            let (said, rest) = comment.split_once("-->").ok_or_else(cut)?;
            let is_one = !said.contains(['<', '>']) && !format!("{said}-").contains("--");
            need(
                is_one && self.place() != Place::Words,
                "it has a comment that is none",
            )?;
            return Ok(rest);
        }
        if let Some(kind) = rest.strip_prefix('!') {
            let (kind, rest) = kind.split_once('>').ok_or_else(cut)?;
            let kind: Vec<&str> = kind.split_ascii_whitespace().collect();
            need(
                kind.join(" ") == DOCTYPE && self.size.is_none(),
                "it declares something",
            )?;
            return Ok(rest);
        }
        if let Some(name) = rest.strip_prefix('/') {
            let (name, rest) = name.split_once('>').ok_or_else(cut)?;
            self.close(name.trim_ascii_end())?;
            return Ok(rest);
        }
        let (name, rest) = split_name(rest);
        let (found, is_closed, rest) = attributes(rest)?;
        self.open(name, &found)?;
        if is_closed {
            self.close(name)?;
        }
        Ok(rest)
    }

    fn open(&mut self, name: &str, found: &Found) -> Result<(), String> {
        let place = self.place();
        let is_second = place == Place::Outside && self.size.is_some();
        let Some((attributes, within)) = listed(place, name).filter(|_| !is_second) else {
            return Err(format!(
                "it has an element '{}' that no drawing of a table has there",
                shortened(name)
            ));
        };
        need_listed(name, attributes, found)?;
        match within {
            Place::Svg => self.size = Some(size(found)?),
            Place::Untitled => self.open_group(place, found)?,
            Place::Words if name == "title" => self.found.titles.push(String::new()),
            Place::Words => self.open_text(place, found)?,
            _ => self.shape(place, found)?,
        }
        if !matches!(name, "svg" | "title") {
            let end = if within == Place::Shape { "/" } else { "" };
            let _ = write!(self.shapes, "<{name}{}{end}>", written(found));
        }
        self.open.push((name.to_string(), within));
        Ok(())
    }

    fn open_group(&mut self, place: Place, found: &Found) -> Result<(), String> {
        self.group = Group::default();
        if place == Place::Graph {
            self.is_begun = true;
            return Ok(());
        }
        let (x, y) = shift(value(found, "transform")).unwrap_or_default();
        let (_, height) = self.size.unwrap_or_default();
        need(
            is_near(x, MARGIN) && is_near(y, height - MARGIN),
            "its graph does not lie on its paper",
        )
    }

    fn need_on_paper(&self, area: &Area) -> Result<(), String> {
        let (width, height) = self.size.unwrap_or_default();
        let paper = Area::around(&[(-MARGIN, MARGIN - height), (width - MARGIN, MARGIN)]);
        need(paper.holds(area), "a part of it does not lie on its paper")
    }

    fn shape(&mut self, place: Place, found: &Found) -> Result<(), String> {
        let points = corners(value(found, "points")).or_else(|| curves(value(found, "d")));
        let mut points = points.unwrap_or_default();
        let is_filled = !NOTHING.contains(&value(found, "fill"));
        if place == Place::Step && !is_filled {
            points = points.into_iter().step_by(3).collect(); // what leads a line may lie beside the paper
        }
        let area = Area::around(&points);
        self.need_on_paper(&area)?;
        match place {
            Place::Graph => need(!self.is_begun, HIDES)?, // the paper itself is below all else
            Place::Step if is_filled => need(
                area.sides().iter().all(|&side| side <= MOST_ARROW) && self.group.shape.is_none(),
                "it has an arrow that is none",
            )?,
            _ if is_filled => need(
                !self.group.has_words && !self.taken.iter().any(|taken| taken.overlaps(&area)),
                HIDES,
            )?,
            _ => {}
        }
        self.is_begun = true;
        if is_filled {
            self.group.shape.get_or_insert(area);
        }
        Ok(())
    }

    fn open_text(&mut self, place: Place, found: &Found) -> Result<(), String> {
        let read = |attribute| number(value(found, attribute)).unwrap_or_default();
        self.text = Text {
            at: (read("x"), read("y")),
            anchor: value(found, "text-anchor").to_string(),
            size: read("font-size"),
        };
        let begin = Area::around(&[self.text.at]);
        self.need_on_paper(&begin)?;
        let is_within = |shape: Area| {
            shape.holds(&begin) && shape.sides().iter().all(|&side| side >= LEAST_SIDE)
        };
        need(
            place != Place::State || self.group.shape.is_some_and(is_within),
            "a state's words are not in its shape",
        )?;
        self.is_begun = true;
        self.found.words.push(String::new());
        Ok(())
    }

    fn close(&mut self, name: &str) -> Result<(), String> {
        let (open, place) = self.open.pop().unwrap_or((String::new(), Place::Outside));
        need(open == name, "its elements are not closed in their order")?;
        match name {
            "title" => self.close_title(),
            "text" => self.close_text(),
            "g" => self.close_group(place),
            "svg" => Ok(()),
            _ => {
                self.shapes.push('\n');
                Ok(())
            }
        }
    }

    /// Now it is known what the group is.
    fn close_title(&mut self) -> Result<(), String> {
        let is_graph = self.open.len() == 2;
        let (title, before) = match self.found.titles.split_last() {
            Some((title, before)) => (title.as_str(), before),
            None => ("", &[][..]),
        };
        let place = titled(title, is_graph).filter(|_| !before.iter().any(|other| other == title));
        let place = place.ok_or(OTHER_TITLES)?;
        if place == Place::State {
            self.group.number = title[1..].to_string();
        }
        if let Some((_, group)) = self.open.last_mut() {
            *group = place;
        }
        Ok(())
    }

    fn close_text(&mut self) -> Result<(), String> {
        let word = self.found.words.last().map_or("", String::as_str);
        let number = &self.group.number;
        match self.place() {
            Place::State => {
                let is_number = word.split(' ').next() == Some(number);
                need(
                    self.group.has_words || is_number,
                    "a state has another's number",
                )?;
            }
            Place::Step => {}
            _ => self.taken.push(self.text.area(word)),
        }
        self.group.has_words |= self.place() == Place::State;
        self.shapes += &escaped(word);
        self.shapes += "</text>\n";
        Ok(())
    }

    fn close_group(&mut self, place: Place) -> Result<(), String> {
        need(place != Place::Untitled, "it has a group without a title")?;
        if place == Place::State {
            need(self.group.has_words, "a state has no words")?;
            self.taken.extend(self.group.shape);
        }
        self.shapes += "</g>\n";
        Ok(())
    }

    fn text(&mut self, text: &str) -> Result<(), String> {
        let place = match self.open.last().map(|(name, _)| name.as_str()) {
            Some("text") => self.found.words.last_mut(),
            Some("title") => self.found.titles.last_mut(),
            _ => None,
        };
        match place {
            Some(place) => *place += &plain(text)?,
            None => need(
                text.trim_ascii().is_empty(),
                "there are words outside of its labels",
            )?,
        }
        Ok(())
    }

    fn drawing(mut self, asked: Asked) -> Result<Drawing, String> {
        if !self.open.is_empty() {
            return Err(cut());
        }
        let (width, height) = self.size.ok_or("it is no SVG")?;
        let titles = &mut self.found.titles;
        titles.retain(|title| title != GRAPH && !FRAMES.contains(&title.as_str()));
        need(
            sorted(self.found.titles) == sorted(asked.titles),
            OTHER_TITLES,
        )?;
        need(
            sorted(self.found.words) == sorted(asked.words),
            "its words are not those of the graph",
        )?;
        Ok(Drawing {
            width,
            height,
            shapes: self.shapes,
        })
    }
}

impl Text {
    /// Less than the words take.
    fn area(&self, word: &str) -> Area {
        let (x, y) = self.at;
        let letters = u32::try_from(word.chars().count()).map_or(0.0, f64::from);
        let width = letters * self.size * LETTER.0;
        let left = match self.anchor.as_str() {
            "start" => x,
            "middle" => x - width / 2.0,
            _ => x - width,
        };
        Area::around(&[(left, y - self.size * LETTER.1), (left + width, y)])
    }
}

const OTHER_TITLES: &str = "its states and steps are not those of the table";

fn need(holds: bool, why: &str) -> Result<(), String> {
    if holds { Ok(()) } else { Err(why.to_string()) }
}

fn cut() -> String {
    "it ends before it is whole".to_string()
}

fn sorted(mut words: Vec<String>) -> Vec<String> {
    words.sort_unstable();
    words
}

fn split_name(rest: &str) -> (&str, &str) {
    let end = rest.find(|c: char| c.is_ascii_whitespace() || "/>=<\"'".contains(c));
    rest.split_at(end.unwrap_or(rest.len()))
}

/// The attributes of a tag, whether it is closed at once, and what stands behind it.
fn attributes(rest: &str) -> Result<(Found<'_>, bool, &str), String> {
    let mut rest = rest.trim_ascii_start();
    let mut found = Found::new();
    loop {
        if let Some(behind) = rest.strip_prefix('>') {
            return Ok((found, false, behind));
        }
        if let Some(behind) = rest.strip_prefix("/>") {
            return Ok((found, true, behind));
        }
        let (name, behind) = split_name(rest);
        let value = behind.strip_prefix("=\"");
        let value = value.ok_or("it has a tag that cannot be read")?;
        let (value, behind) = value.split_once('"').ok_or_else(cut)?;
        found.push((name, value));
        rest = behind.trim_ascii_start();
    }
}

/// The value of an attribute; nothing where it is not there.
fn value<'s>(found: &Found<'s>, name: &str) -> &'s str {
    found
        .iter()
        .find(|(other, _)| *other == name)
        .map_or("", |(_, value)| value)
}

/// Each attribute is one of these, has a value of its form, and stands there once; and those are there that must be.
fn need_listed(name: &str, listed: &[Attribute], found: &Found) -> Result<(), String> {
    for (at, (attribute, value)) in found.iter().enumerate() {
        let shown = shortened(attribute);
        let Some((_, form, _)) = listed.iter().find(|(other, ..)| other == attribute) else {
            return Err(format!(
                "it has an attribute '{shown}' that no drawing of a table has at '{name}'"
            ));
        };
        if !fits(form, value) || found[..at].iter().any(|(other, _)| other == attribute) {
            return Err(format!(
                "its attribute '{shown}' has a value that no drawing of a table has at '{name}'"
            ));
        }
    }
    let missing = listed
        .iter()
        .find(|(other, _, is_needed)| *is_needed && !found.iter().any(|(name, _)| name == other));
    match missing {
        Some((attribute, ..)) => Err(format!("its '{name}' has no attribute '{attribute}'")),
        None => Ok(()),
    }
}

/// Width and height, as `viewBox` has them; it is shown in no other size.
fn size(found: &Found) -> Result<Point, String> {
    let (width, height) = paper(value(found, "viewBox")).unwrap_or_default();
    let is = |name, side| length(value(found, name)).is_some_and(|found| is_near(found, side));
    need(
        is("width", width) && is("height", height),
        "it is shown in another size than it has",
    )?;
    Ok((width, height))
}

fn is_near(a: f64, b: f64) -> bool {
    (a - b).abs() <= SLACK
}

/// Attributes as the page has them.
fn written(found: &Found) -> String {
    let seen = found.iter().filter(|(name, _)| !UNSEEN.contains(name));
    seen.map(|(name, value)| format!(r#" {name}="{value}""#))
        .collect()
}

/// A text with its entities read. Spaces side by side are non-breaking ones in an SVG.
fn plain(text: &str) -> Result<String, String> {
    let mut parts = text.split('&');
    let mut said = parts.next().unwrap_or_default().to_string();
    for part in parts {
        let (entity, rest) = part.split_once(';').ok_or("it has a broken entity")?;
        said.push(character(entity).ok_or("it has an entity that is none")?);
        said += rest;
    }
    Ok(said.replace('\u{a0}', " "))
}

/// Those that Graphviz writes.
fn character(entity: &str) -> Option<char> {
    match entity {
        "amp" => Some('&'),
        "lt" => Some('<'),
        "gt" => Some('>'),
        "quot" => Some('"'),
        _ => {
            let number = entity.strip_prefix('#').filter(|number| digits(number))?;
            char::from_u32(number.parse().ok()?)
        }
    }
}
