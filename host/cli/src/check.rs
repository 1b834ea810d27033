//! `fenikezo check`: everything that is wrong with a job or its text, and what each mode makes
//! of it.

use crate::arguments::AFTER;
use crate::failure::{self, Failure};
use crate::faults;
use crate::files;
use crate::forecast::{self, Told};
use crate::input::Input;
use crate::json::{list, object, Json};
use crate::show_job::count;
use crate::words::MODES;
use crate::wrong::Wrong;
use clap::Args;
use ivs::Refused;
use std::fmt::Write;
use std::path::{Path, PathBuf};

/// Tells all that is wrong with a job or its text, and the bytes of its store in either mode
#[derive(Args)]
#[command(after_help = AFTER)]
pub struct Check {
    /// The job: records of 12 bytes, or its text
    pub job: PathBuf,
    /// The axis count that the job was written for, 1 to 64; a text has its own
    #[arg(long, value_name = "N")]
    pub axes: Option<u32>,
    /// Print JSON
    #[arg(long)]
    pub json: bool,
}

pub fn run(arguments: &Check) -> Result<(), Failure> {
    let bytes = files::read(&arguments.job)?;
    let (found, _) = Found::read(&arguments.job, &bytes, arguments.axes)?;
    let file = arguments.job.display().to_string();
    files::print(&if arguments.json {
        format!("{}\n", found.json(&file))
    } else {
        found.said(&file)
    })?;
    // All has been said, and the status is what a build would have.
    found.failure().map_or(Ok(()), Err)
}

/// What there is to say of a file.
pub struct Found {
    is_text: bool,
    /// Axes, regions and sets, of what is sound.
    counts: Option<[usize; 3]>,
    /// Of a text.
    wrong: Vec<Wrong>,
    /// Of a job.
    refused: Vec<(Refused, String)>,
    warnings: Vec<String>,
    /// What each mode says of a sound job.
    told: Option<[Told; 2]>,
    /// Why a mode refuses it.
    why: [String; 2],
}

impl Found {
    /// What there is to say of a file, and the job, unless it is a text that is none.
    pub fn read(
        file: &Path,
        bytes: &[u8],
        axes: Option<u32>,
    ) -> Result<(Found, Option<Input>), Failure> {
        match Input::of(file, bytes.to_vec(), axes) {
            Ok(input) => Ok((Found::of(&input), Some(input))),
            Err(Failure::Text(_, wrong)) => Ok((Found::of_text(wrong), None)),
            Err(failure) => Err(failure),
        }
    }

    fn of_text(wrong: Vec<Wrong>) -> Found {
        Found {
            is_text: true,
            counts: None,
            wrong,
            refused: Vec::new(),
            warnings: Vec::new(),
            told: None,
            why: [String::new(), String::new()],
        }
    }

    fn of(input: &Input) -> Found {
        let mut found = Found {
            is_text: input.is_text(),
            ..Found::of_text(Vec::new())
        };
        found.refused = faults::of(input.axes, &input.job);
        if !found.refused.is_empty() {
            return found;
        }
        let ends = |kind: u8| {
            input
                .job
                .chunks(12)
                .filter(|record| record[0] == kind)
                .count()
        };
        let axes = input.axes as usize;
        found.counts = Some([axes, ends(1) / axes, ends(3)]);
        found.warnings = input.warnings();
        let told = forecast::both(input);
        let why = |told: &Told| {
            told.as_ref()
                .err()
                .map(|refused| (*refused, input.words(refused)))
        };
        let refused: Vec<_> = told.iter().filter_map(why).collect();
        found.why = [0, 1].map(|mode| why(&told[mode]).map_or(String::new(), |(_, why)| why));
        if refused.len() == told.len() {
            found.refused = refused;
        }
        found.told = Some(told);
        found
    }

    pub fn is_fine(&self) -> bool {
        self.wrong.is_empty() && self.refused.is_empty()
    }

    /// The status of what is not fine; what there is to say has been said.
    pub fn failure(&self) -> Option<Failure> {
        let refused = self.wrong.is_empty();
        (!self.is_fine()).then_some(Failure::Some { refused })
    }

    /// Which modes take the job.
    pub fn takes(&self) -> [bool; 2] {
        let told = self.told.as_ref();
        [0, 1].map(|mode| told.is_some_and(|told| told[mode].is_ok()))
    }

    /// The lines that are wrong.
    pub fn lines(&self) -> impl Iterator<Item = usize> + '_ {
        self.wrong.iter().map(Wrong::number)
    }

    /// The records that are refused, none for what is about no record.
    pub fn places(&self) -> impl Iterator<Item = Option<u64>> + '_ {
        let of_record = |refused: &Refused| refused.head().contains(" at record ");
        self.refused
            .iter()
            .map(move |(refused, _)| (!self.is_text && of_record(refused)).then_some(refused.place))
    }

    fn said(&self, file: &str) -> String {
        let kind = if self.is_text { "a text" } else { "a job" };
        let mut text = match self.counts {
            Some([axes, regions, sets]) => format!(
                "{file}: {kind} for {}: {}, {}\n",
                count(axes, "axis", "axes"),
                count(regions, "region", "regions"),
                count(sets, "set", "sets")
            ),
            None => format!("{file}: {kind}\n"),
        };
        // Writing to a string cannot fail.
        for wrong in &self.wrong {
            let _ = writeln!(text, "wrong: {wrong}");
        }
        for (_, words) in &self.refused {
            let _ = writeln!(text, "refused: {words}");
        }
        for warning in &self.warnings {
            let _ = writeln!(text, "warning: {warning}");
        }
        for (mode, told) in self.told.iter().flatten().enumerate() {
            let name = MODES[mode];
            let _ = match told {
                Ok(done) => writeln!(text, "{name:<13} {:>10} bytes", done.store_bytes),
                Err(_) => writeln!(text, "{name:<13} refused: {}", self.why[mode]),
            };
        }
        text += if self.is_fine() {
            "nothing is wrong\n"
        } else {
            ""
        };
        text
    }

    pub fn json(&self, file: &str) -> Json {
        let number = |at: usize| Json::from(self.counts.map(|counts| counts[at]));
        let refused = |(refused, words): &(Refused, String)| failure::number(refused, words);
        let told = match &self.told {
            Some(told) => forecast::json(told, |refused| {
                let mode = usize::from(told[1].as_ref().err() == Some(refused));
                self.why[mode].clone()
            }),
            None => object([
                ("dedup", Json::Null),
                ("implicit", Json::Null),
                ("smaller", Json::Null),
            ]),
        };
        let own = object([
            ("file", file.into()),
            ("kind", if self.is_text { "text" } else { "job" }.into()),
            ("fine", self.is_fine().into()),
            ("axes", number(0)),
            ("regions", number(1)),
            ("sets", number(2)),
            ("wrong", list(&self.wrong, Wrong::json)),
            ("refused", list(&self.refused, refused)),
            (
                "warnings",
                list(&self.warnings, |words| words.as_str().into()),
            ),
        ]);
        own.and(told)
    }
}
