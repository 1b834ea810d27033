//! What the source tells of its merging, heard through the real `log` crate: how
//! many groups there are and what they cost before and after, and each join; or
//! only when its merging began and ended.

use std::cell::{Cell, RefCell};
use std::fmt::{self, Write};
use std::sync::Once;
use std::time::Duration;

/// What one build told. Empty in mode 1, where nothing is merged.
#[derive(Clone, Debug, Default, PartialEq, Eq)]
pub struct Trace {
    /// N: the groups before merging.
    pub shapes: u64,
    /// The modelled size before merging.
    pub size_before: u64,
    /// Each join: first number, second number, gain.
    pub log: Vec<u32>,
    /// The groups after merging.
    pub groups_after: u64,
    /// The modelled size after merging.
    pub size_after: u64,
}

/// The lines that are listened to, by how they begin.
const LINES: [&str; 3] = ["optimizing ", "combining ", "optimized "];

thread_local! {
    /// The trace of this thread's build, while it is listened to.
    static HEARD: RefCell<Option<Trace>> = const { RefCell::new(None) };
    /// When this thread's merging began and ended, while it is timed.
    static CLOCK: Cell<Option<Clock>> = const { Cell::new(None) };
}

/// When merging began and ended, by a function that tells the time.
#[derive(Clone, Copy)]
struct Clock {
    now: fn() -> Duration,
    began: Option<Duration>,
    ended: Option<Duration>,
}

/// Does `work` and gives what the source told of it.
pub fn listen<T>(work: impl FnOnce() -> T) -> (T, Trace) {
    start();
    HEARD.with(|heard| heard.replace(Some(Trace::default())));
    let done = work();
    let trace = HEARD.with(|heard| heard.take());
    (done, trace.unwrap_or_default())
}

/// Does `work` and gives the time, by `now`, from the source's line before its
/// merging to the line after it. No line is written out; each is looked at by its first
/// piece, and costs some nanoseconds.
pub fn time<T>(now: fn() -> Duration, work: impl FnOnce() -> T) -> (T, Option<Duration>) {
    start();
    let clock = Clock {
        now,
        began: None,
        ended: None,
    };
    CLOCK.with(|at| at.set(Some(clock)));
    let done = work();
    let clock = CLOCK.with(Cell::take);
    let span = clock.and_then(|clock| clock.began.zip(clock.ended));
    (done, span.map(|(began, ended)| ended - began))
}

/// Does `work` with nobody listening, so that the source tells nothing. Not for
/// where another thread listens.
pub fn quietly<T>(work: impl FnOnce() -> T) -> T {
    let level = log::max_level();
    log::set_max_level(log::LevelFilter::Off);
    let done = work();
    log::set_max_level(level);
    done
}

/// Has the source's lines come here.
fn start() {
    static ONCE: Once = Once::new();
    ONCE.call_once(|| {
        if log::set_logger(&Listener).is_ok() {
            log::set_max_level(log::LevelFilter::Trace);
        }
    });
}

struct Listener;

impl log::Log for Listener {
    fn enabled(&self, _: &log::Metadata<'_>) -> bool {
        HEARD.with(|heard| heard.borrow().is_some())
    }

    fn log(&self, record: &log::Record<'_>) {
        CLOCK.with(|clock| {
            if let Some(mut at) = clock.get() {
                at.hear(record.args());
                clock.set(Some(at));
            }
        });
        if !self.enabled(record.metadata()) {
            return;
        }
        let mut line = Line(String::new());
        if write!(line, "{}", record.args()).is_ok() {
            HEARD.with(|heard| {
                if let Some(trace) = heard.borrow_mut().as_mut() {
                    trace.hear(&line.0);
                }
            });
        }
    }

    fn flush(&self) {}
}

impl Clock {
    fn hear(&mut self, line: &fmt::Arguments<'_>) {
        let mut first = FirstPiece::Other;
        // It gives up after the first piece.
        let _ = first.write_fmt(*line);
        match first {
            FirstPiece::Before => self.began = Some((self.now)()),
            FirstPiece::After => self.ended = Some((self.now)()),
            FirstPiece::Other => {}
        }
    }
}

/// What the first piece of a line says.
enum FirstPiece {
    Before,
    After,
    Other,
}

impl Write for FirstPiece {
    fn write_str(&mut self, part: &str) -> fmt::Result {
        let [before, _, after] = LINES.map(|l| part.starts_with(l));
        if before {
            *self = FirstPiece::Before;
        } else if after {
            *self = FirstPiece::After;
        }
        Err(fmt::Error)
    }
}

impl Trace {
    fn hear(&mut self, line: &str) {
        let [before, join, after] = LINES.map(|l| line.starts_with(l));
        match &numbers(line)[..] {
            [groups, size] if before => (self.shapes, self.size_before) = (*groups, *size),
            [groups, size, _] if after => (self.groups_after, self.size_after) = (*groups, *size),
            [first, second, gain] if join => {
                self.log.extend([first, second, gain].map(|n| *n as u32));
            }
            _ => panic!("the source's line is not understood: {line}"),
        }
    }
}

/// The runs of digits in a line. The source's shapes have none; it writes a gain
/// with a minus before it.
fn numbers(line: &str) -> Vec<u64> {
    line.split(|c: char| !c.is_ascii_digit())
        .filter_map(|digits| digits.parse().ok())
        .collect()
}

/// A line that gives up as soon as it begins like none of [`LINES`]: the source
/// tells much more, and writing all of it out would take most of a run.
struct Line(String);

impl Write for Line {
    fn write_str(&mut self, part: &str) -> fmt::Result {
        self.0.push_str(part);
        let wanted = |l: &&str| l.starts_with(&self.0) || self.0.starts_with(*l);
        if LINES.iter().any(wanted) {
            Ok(())
        } else {
            Err(fmt::Error)
        }
    }
}

#[cfg(test)]
mod tests {
    use super::*;

    #[test]
    fn lines_are_understood() {
        let mut trace = Trace::default();
        trace.hear("optimizing 3 encodings, 41B");
        trace.hear("combining 0+1 (B-, -B -8)");
        trace.hear("optimized 2 encodings, 33B, (8B saved)");
        assert_eq!(
            trace,
            Trace {
                shapes: 3,
                size_before: 41,
                log: vec![0, 1, 8],
                groups_after: 2,
                size_after: 33,
            }
        );
        let mut line = Line(String::new());
        assert!(write!(line, "adding ({})", 1).is_err());
        let mut line = Line(String::new());
        assert!(write!(line, "combining {}+{}", 1, 2).is_ok());
    }
}
