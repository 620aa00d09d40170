//! `dot` of Graphviz: run within a time, and ended with all that it started where that is over. Of several layouts that one is taken which is largest
//! on a page.

use crate::picture::{Layout, Picture};
use crate::svg::{Drawing, cleaned, resized};
use crate::sys;
use std::fmt::{self, Display, Formatter};
use std::io::{self, Read, Write};
use std::os::unix::process::CommandExt;
use std::process::{Child, Command, ExitStatus, Stdio};
use std::sync::mpsc::{Receiver, RecvTimeoutError, channel};
use std::thread;
use std::time::{Duration, Instant};

/// What `dot` may take.
#[derive(Clone, Copy, Debug)]
pub struct Limits {
    /// Its time.
    pub within: Duration,
    /// The bytes that it may print.
    pub bytes: usize,
}

impl Limits {
    /// None: a person waits for it.
    pub const NONE: Limits = Limits {
        within: Duration::MAX,
        bytes: usize::MAX,
    };

    /// What is left of them.
    fn after(self, time: Duration) -> Limits {
        Limits {
            within: self.within.saturating_sub(time),
            ..self
        }
    }
}

// ---- The page

/// The paper between the margins, below a heading, in points: A4 upright.
pub const UPRIGHT: (f64, f64) = (510.0, 666.0);
/// The same across.
pub const ACROSS: (f64, f64) = (757.0, 411.0);
/// Below this part of their size words cannot be read.
pub const LEGIBLE: f64 = 0.35;
/// Below this part a layout by forces is better than one by layers, which is easier to follow.
const CROWDED: f64 = 0.45;

/// What part of its size a drawing has where it just fits a paper, at most all of it.
pub fn scale(drawing: &Drawing, (width, height): (f64, f64)) -> f64 {
    (width / drawing.width)
        .min(height / drawing.height)
        .min(1.0)
}

/// The same on A4, held in the way that is better for it.
fn scale_on_page(drawing: &Drawing) -> f64 {
    scale(drawing, UPRIGHT).max(scale(drawing, ACROSS))
}

/// A drawing, and the SVG that it is of.
#[derive(Debug)]
pub struct Drawn {
    /// The drawing.
    pub drawing: Drawing,
    svg: Vec<u8>,
}

impl Drawn {
    fn by(picture: &Picture, layout: Layout, limits: Limits) -> Result<Drawn, NotDrawn> {
        let svg = draw(&picture.graph(layout), limits)?;
        let drawing = cleaned(&svg, picture.asked()).map_err(NotDrawn::Other)?;
        Ok(Drawn { drawing, svg })
    }

    /// The SVG as `dot` wrote it, with the classes of states and steps; a large one in a size that fits the page.
    pub fn on_page(self) -> Result<Vec<u8>, String> {
        let Drawing { width, height, .. } = self.drawing;
        match scale_on_page(&self.drawing) {
            part if part < 1.0 => resized(&self.svg, (width * part, height * part)),
            _ => Ok(self.svg),
        }
    }
}

/// The drawing of a picture that is largest on a page. Another layout is tried only where the page is too small for those before it.
pub fn drawn(picture: &Picture, limits: Limits) -> Result<Drawn, NotDrawn> {
    let began = Instant::now();
    let (first, others) = match picture.layouts() {
        [first, others @ ..] => (*first, others),
        [] => (Layout::Across, &[][..]),
    };
    let mut best = Drawn::by(picture, first, limits)?;
    for &layout in others {
        let so_far = scale_on_page(&best.drawing);
        let enough = match layout {
            Layout::Forces => CROWDED,
            _ => 1.0,
        };
        let limits = limits.after(began.elapsed());
        if so_far >= enough || limits.within.is_zero() {
            continue;
        }
        // Without this one there is still another.
        if let Ok(other) = Drawn::by(picture, layout, limits) {
            if scale_on_page(&other.drawing) > so_far {
                best = other;
            }
        }
    }
    Ok(best)
}

// ---- The program

/// So often it is looked whether `dot`, which has printed all, has ended.
const PAUSE: Duration = Duration::from_millis(2);

/// Why there is no drawing.
#[derive(Debug)]
pub enum NotDrawn {
    /// There is no `dot` in PATH.
    Missing,
    /// It was not done when the time was over.
    Late(Duration),
    /// What it printed is no drawing of the table.
    Other(String),
    /// Anything else.
    Failed(String),
}

impl Display for NotDrawn {
    fn fmt(&self, f: &mut Formatter) -> fmt::Result {
        match self {
            NotDrawn::Missing => {
                write!(f, "the program dot of Graphviz is not installed")
            }
            NotDrawn::Late(within) => {
                write!(f, "dot was not done after {} seconds", within.as_secs())
            }
            NotDrawn::Other(why) => {
                write!(f, "what dot printed is no drawing of the table: {why}")
            }
            NotDrawn::Failed(why) => write!(f, "dot could not draw the graph: {why}"),
        }
    }
}

/// What `dot` prints of a graph, as SVG.
fn draw(graph: &str, limits: Limits) -> Result<Vec<u8>, NotDrawn> {
    let began = Instant::now();
    let mut dot = Command::new("dot")
        .arg("-Tsvg")
        .stdin(Stdio::piped())
        .stdout(Stdio::piped())
        .process_group(0)
        .spawn()
        .map_err(|error| match error.kind() {
            io::ErrorKind::NotFound => NotDrawn::Missing,
            _ => NotDrawn::Failed(error.to_string()),
        })?;
    sys::set_group(Some(dot.id()));
    let left = || limits.within.saturating_sub(began.elapsed());
    let drawn = drawn_by(&mut dot, graph, limits.bytes, &left);
    sys::set_group(None);
    drawn.map_err(|why| why.unwrap_or(NotDrawn::Late(limits.within)))
}

/// The same, of a program that runs; no reason where no time was left.
fn drawn_by(
    dot: &mut Child,
    graph: &str,
    most: usize,
    left: &dyn Fn() -> Duration,
) -> Result<Vec<u8>, Option<NotDrawn>> {
    // In threads of their own: it may print before it has read all, and what it started may keep its streams open.
    let (input, output) = (dot.stdin.take(), dot.stdout.take());
    let graph = graph.as_bytes().to_vec();
    let write = move || input.map_or(Ok(()), |mut input| input.write_all(&graph));
    let read = move || {
        let mut bytes = Vec::new();
        let most = (most as u64).saturating_add(1);
        output.map_or(Ok(0), |output| output.take(most).read_to_end(&mut bytes))?;
        Ok(bytes)
    };
    let (written, printed) = match (apart(write), apart(read)) {
        (Ok(written), Ok(printed)) => (written, printed),
        (Err(error), _) | (_, Err(error)) => return Err(ended(dot, Some(error.to_string()))),
    };
    let bytes = match printed.recv_timeout(left()) {
        Ok(Ok(bytes)) if bytes.len() <= most => bytes,
        Ok(Ok(_)) => {
            return Err(ended(
                dot,
                Some(format!("it printed more than {most} bytes")),
            ));
        }
        Ok(Err::<_, io::Error>(error)) => return Err(ended(dot, Some(error.to_string()))),
        Err(RecvTimeoutError::Timeout) => return Err(ended(dot, None)),
        Err(error) => return Err(ended(dot, Some(error.to_string()))),
    };
    let failed = |why: &dyn Display| Err(Some(NotDrawn::Failed(why.to_string())));
    match status(dot, left)? {
        status if !status.success() => failed(&status),
        _ => match written.recv_timeout(left()) {
            Ok(Err(error)) => failed(&error),
            Ok(Ok(())) if !bytes.is_empty() => Ok(bytes),
            _ => failed(&"it drew nothing"),
        },
    }
}

/// What a thread needs by far; without a number the standard library looks for one in the environment.
const STACK: usize = 1 << 18;

/// Does something meanwhile, and says what came of it.
fn apart<T: Send + 'static>(does: impl FnOnce() -> T + Send + 'static) -> io::Result<Receiver<T>> {
    let (said, heard) = channel();
    thread::Builder::new().stack_size(STACK).spawn(move || {
        let _ = said.send(does()); // where nobody waits any more it is not missed
    })?;
    Ok(heard)
}

fn status(dot: &mut Child, left: &dyn Fn() -> Duration) -> Result<ExitStatus, Option<NotDrawn>> {
    loop {
        match dot.try_wait() {
            Ok(Some(status)) => return Ok(status),
            Ok(None) if left().is_zero() => return Err(ended(dot, None)),
            Ok(None) => thread::sleep(PAUSE),
            Err(error) => return Err(Some(NotDrawn::Failed(error.to_string()))),
        }
    }
}

/// Ends it, and all that it started; not called once it is known to have ended, when its number may be another's.
fn ended(dot: &mut Child, why: Option<String>) -> Option<NotDrawn> {
    sys::end_group(dot.id());
    let _ = dot.wait();
    why.map(NotDrawn::Failed)
}
