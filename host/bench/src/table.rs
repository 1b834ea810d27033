//! The tables of whole builds, in Markdown, and what they come to.

use std::fmt::Display;
use std::time::Duration;

use crate::whole::{measure, source_bytes, Best, Measured, MOST, RUNS};
use crate::workloads::{self, Workload};

/// From so many shapes on N is large.
const LARGE: u64 = 1_000;

/// Lines that are printed as soon as they are known, and kept.
#[derive(Default)]
struct Lines(String);

impl Lines {
    fn add(&mut self, line: &str) {
        println!("{line}");
        self.0 += line;
        self.0.push('\n');
    }
}

/// Measures all workloads, prints the tables and answers them.
pub fn whole() -> String {
    let mut lines = Lines::default();
    lines.add(&format!(
        "Milliseconds of processor time, the best of {RUNS} to {MOST} runs."
    ));
    let mut all = table(&mut lines, "fonts", workloads::fonts());
    all.extend(table(&mut lines, "large jobs", workloads::large()));
    let growing = table(&mut lines, "growth", workloads::growing());
    lines.add("");
    lines.add(&growth(&growing));
    all.extend(growing);
    lines.add(&ratios(&all));
    lines.0
}

/// Prints the source's memory alone, which takes seconds.
pub fn memory() {
    let all = workloads::fonts().chain(workloads::large());
    for workload in all.chain(workloads::growing()) {
        println!("{}: {} MB", workload.name, mb(source_bytes(&workload)));
    }
}

/// A line of a table, as far as it is looked at again.
struct Line {
    name: String,
    records: usize,
    shapes: u64,
    best: Best,
}

impl Line {
    /// How many times as long the source takes as the library without the clearing.
    fn ratio(&self) -> f64 {
        ratio(self.best.source, self.best.rest)
    }

    /// Nanoseconds a record, without the clearing.
    fn each(&self) -> f64 {
        1e9 * self.best.rest.as_secs_f64() / self.records as f64
    }
}

fn table(lines: &mut Lines, name: &str, all: impl Iterator<Item = Workload>) -> Vec<Line> {
    let columns = [
        name,
        "records",
        "sets",
        "ids",
        "N",
        "merges",
        "store, bytes",
        "source",
        "warm",
        "of it clearing",
        "rest",
        "fresh",
        "source / warm",
        "source / fresh",
        "source / rest",
        "rest, ns a record",
        "source, MB",
        "lent, MB",
    ];
    lines.add("");
    lines.add(&format!("| {} |", columns.join(" | ")));
    lines.add(&format!("|---|{}", "---:|".repeat(columns.len() - 1)));
    let mut told = Vec::new();
    for workload in all {
        let measured = measure(&workload);
        let sets = workload.job.sets.len();
        let line = Line {
            name: workload.name,
            records: measured.records,
            shapes: measured.done.shapes,
            best: measured.best,
        };
        lines.add(&row(&line, sets, &measured));
        told.push(line);
    }
    told
}

fn row(line: &Line, sets: usize, measured: &Measured) -> String {
    let Best {
        source,
        warm,
        clearing,
        rest,
        fresh,
    } = line.best;
    let done = &measured.done;
    let cells: [&dyn Display; 18] = [
        &line.name,
        &line.records,
        &sets,
        &done.distinct_ids,
        &done.shapes,
        &done.merges,
        &done.store_bytes,
        &ms(source),
        &ms(warm),
        &ms(clearing),
        &ms(rest),
        &ms(fresh),
        &format!("{:.2}", ratio(source, warm)),
        &format!("{:.2}", ratio(source, fresh)),
        &format!("{:.2}", line.ratio()),
        &format!("{:.0}", line.each()),
        &mb(measured.source_bytes),
        &mb(measured.lent_bytes),
    ];
    let cells: String = cells.iter().map(|cell| format!(" {cell} |")).collect();
    format!("|{cells}")
}

/// Where the source is nearest to the library without the clearing, and where N is large.
fn ratios(all: &[Line]) -> String {
    let least = |lines: &mut dyn Iterator<Item = &Line>| {
        let line = lines.min_by(|a, b| a.ratio().total_cmp(&b.ratio()));
        line.map_or("-".to_string(), |line| {
            format!("{:.2} ({})", line.ratio(), line.name)
        })
    };
    format!(
        "Least source / rest: {}; of N of at least {LARGE}: {}.",
        least(&mut all.iter()),
        least(&mut all.iter().filter(|line| line.shapes >= LARGE)),
    )
}

/// How the time of a record grows.
fn growth(all: &[Line]) -> String {
    let each: Vec<f64> = all.iter().map(Line::each).collect();
    let least = each.iter().copied().fold(f64::INFINITY, f64::min);
    let most = each.iter().copied().fold(0.0, f64::max);
    format!(
        "Growth: {least:.0} to {most:.0} ns a record, {:.2} times.",
        most / least
    )
}

/// Megabytes.
fn mb(bytes: u64) -> String {
    format!("{:.1}", bytes as f64 / 1e6)
}

fn ms(time: Duration) -> String {
    format!("{:.3}", 1000.0 * time.as_secs_f64())
}

fn ratio(source: Duration, ours: Duration) -> f64 {
    source.as_secs_f64() / ours.as_secs_f64()
}
