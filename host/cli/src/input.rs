//! A job that a command is given: as the job itself, or as its text, from which the axis
//! count and the regions' names come.

use crate::failure::Failure;
use crate::job::Job;
use crate::kind::{self, Kind};
use crate::text::Parsed;
use crate::{f2dot14, files, pack, words};
use ivs::{Refused, Tent};
use std::path::{Path, PathBuf};

const RECORD: usize = 12;

pub struct Input {
    pub file: PathBuf,
    pub axes: u32,
    pub job: Vec<u8>,
    /// Of a text: the regions' names, and the lines of regions and sets.
    text: Option<Lines>,
}

struct Lines {
    names: Vec<String>,
    regions: Vec<usize>,
    sets: Vec<usize>,
}

impl Input {
    /// The job of a file. The axis count is asked for where the file is no text.
    pub fn read(file: &Path, axes: Option<u32>) -> Result<Input, Failure> {
        Input::of(file, files::read(file)?, axes)
    }

    pub fn of(file: &Path, bytes: Vec<u8>, axes: Option<u32>) -> Result<Input, Failure> {
        let kind = kind::of(&bytes);
        if let Some(words) = kind::no_job(kind, file) {
            return Err(Failure::Other(words));
        }
        if kind == Kind::Text {
            return Input::of_text(file, pack::parsed(file, &bytes)?, axes);
        }
        let Some(axes) = axes else {
            return Err(Failure::Other(no_axes(file, &bytes)));
        };
        Ok(Input {
            file: file.to_path_buf(),
            axes,
            job: bytes,
            text: None,
        })
    }

    fn of_text(file: &Path, parsed: Parsed, axes: Option<u32>) -> Result<Input, Failure> {
        if let Some(axes) = axes.filter(|&axes| axes != parsed.axes) {
            let (file, own) = (file.display(), parsed.axes);
            let words = format!("{file} is a text for 'axes {own}', and --axes says {axes}");
            return Err(Failure::Other(words));
        }
        Ok(Input {
            file: file.to_path_buf(),
            axes: parsed.axes,
            job: parsed.job,
            text: Some(Lines {
                names: parsed.names,
                regions: parsed.region_lines,
                sets: parsed.set_lines,
            }),
        })
    }

    pub fn is_text(&self) -> bool {
        self.text.is_some()
    }

    /// The name of a region by its number: the text's, or the one that `show` gives.
    pub fn name(&self, region: usize) -> String {
        let named = self.text.as_ref().and_then(|text| text.names.get(region));
        named.cloned().unwrap_or_else(|| format!("r{region}"))
    }

    /// A region by its name, with its coordinates.
    pub fn region(&self, region: usize) -> String {
        format!(
            "{} ({})",
            self.name(region),
            coordinates(&self.tents(region))
        )
    }

    /// The coordinates of a region of a sound job.
    pub fn tents(&self, region: usize) -> Vec<Tent> {
        let axes = self.axes as usize;
        let records = self.job.chunks_exact(RECORD).skip(axes * region).take(axes);
        records.map(tent).collect()
    }

    /// The line of a set, of a text.
    pub fn set_line(&self, set: usize) -> Option<usize> {
        self.text.as_ref()?.sets.get(set).copied()
    }

    /// The job taken apart, with the text's names.
    pub fn decode(&self) -> Result<Job, Failure> {
        let mut job = Job::decode(self.axes, &self.job).map_err(|refused| self.refused(refused))?;
        if let Some(text) = &self.text {
            job.names.clone_from(&text.names);
        }
        Ok(job)
    }

    pub fn refused(&self, refused: Refused) -> Failure {
        Failure::Refused(
            self.file.display().to_string(),
            refused,
            self.words(&refused),
        )
    }

    /// A refusal in words. Of a text, which has no records, the line is told.
    pub fn words(&self, refused: &Refused) -> String {
        let words = words::of(self.axes, &self.job, refused);
        let Some(line) = self.line(refused.place as usize) else {
            return words;
        };
        let named = format!("{} {}", refused.number, refused.name());
        match words.strip_prefix(&refused.head()) {
            Some(rest) if refused.head() != named => format!("{named} at line {line}{rest}"),
            _ => words,
        }
    }

    /// The line of a record of a text's job.
    fn line(&self, record: usize) -> Option<usize> {
        let text = self.text.as_ref()?;
        let regions = self.axes as usize * text.regions.len();
        if record < regions {
            return Some(text.regions[record / self.axes as usize]);
        }
        let sets = self.job.get(RECORD * regions..RECORD * record)?;
        let set = sets.chunks(RECORD).filter(|record| record[0] == 3).count();
        text.sets.get(set).copied()
    }

    /// What is no error, and nobody means: coordinates out of order.
    pub fn warnings(&self) -> Vec<String> {
        let head = self.job.chunks_exact(RECORD).take_while(|r| r[0] == 1);
        let wrong = head.enumerate().filter_map(|(number, record)| {
            let (region, axis) = (number / self.axes as usize, number % self.axes as usize);
            let tent @ (start, peak, end) = tent(record);
            (start > peak || peak > end).then(|| (region, axis, coordinates(&[tent])))
        });
        let said = |(region, axis, coordinates): (usize, usize, String)| {
            let line = self.text.as_ref().and_then(|text| text.regions.get(region));
            let line = line.map_or(String::new(), |line| format!("line {line}: "));
            format!(
                "{line}start, peak and end of '{}' on axis {axis} are not in order ({coordinates}): \
                 a reader passes over that axis, and the panel's profile refuses the region",
                self.name(region)
            )
        };
        wrong.map(said).collect()
    }

    /// Says the warnings. Whether anybody reads them changes nothing.
    pub fn warn(&self) {
        for warning in self.warnings() {
            files::complain(&format!(
                "fenikezo: {}: warning: {warning}",
                self.file.display()
            ));
        }
    }
}

fn tent(record: &[u8]) -> Tent {
    let raw = |at: usize| i16::from_be_bytes([record[at], record[at + 1]]);
    (raw(4), raw(6), raw(8))
}

/// Coordinates as `0 1 1, 0 0 0`, a triple an axis.
pub fn coordinates(tents: &[Tent]) -> String {
    let axis = |&(start, peak, end): &Tent| [start, peak, end].map(f2dot14::text).join(" ");
    tents.iter().map(axis).collect::<Vec<_>>().join(", ")
}

/// What is said of a job without an axis count.
fn no_axes(file: &Path, job: &[u8]) -> String {
    let file = file.display();
    if job.is_empty() {
        return format!("{file} is empty: a text begins with 'axes N'; of a job say --axes N");
    }
    match ivs::written_for(job) {
        Some(axes) => format!("{file} is a job: say --axes N (it looks like {axes})"),
        None => format!("{file} is a job: say --axes N"),
    }
}
