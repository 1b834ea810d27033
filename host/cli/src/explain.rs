//! `fenikezo explain`: all there is to say of a set, from its line to its row.

use crate::arguments::{Mode, AFTER};
use crate::failure::Failure;
use crate::files;
use crate::input::Input;
use crate::json::{list, object, Json};
use crate::show_job::count;
use crate::story::{Story, Told};
use crate::words::MODES;
use clap::Args;
use std::fmt::Write;
use std::path::PathBuf;

/// Explains sets of a job: id, place, row, the groups that led to its subtable, what it costs
#[derive(Args)]
#[command(after_help = AFTER)]
pub struct Explain {
    /// The job: records of 12 bytes, or its text
    pub job: PathBuf,
    /// The sets' numbers in the job, from 0
    #[arg(required = true, value_name = "SET")]
    pub sets: Vec<usize>,
    /// The axis count that the job was written for, 1 to 64; a text has its own
    #[arg(long, value_name = "N")]
    pub axes: Option<u32>,
    /// The mode of the build that is explained
    #[arg(long, value_enum, default_value = "dedup")]
    pub mode: Mode,
    /// Print JSON
    #[arg(long)]
    pub json: bool,
}

/// The most sets that are named of those that share an id.
const NAMED: usize = 8;

pub fn run(arguments: &Explain) -> Result<(), Failure> {
    let input = Input::read(&arguments.job, arguments.axes)?;
    let story = Story::of(&input, arguments.mode as u32)?;
    let told: Vec<Told> = arguments
        .sets
        .iter()
        .map(|&set| story.told(set))
        .collect::<Result<_, _>>()?;
    input.warn();
    files::print(&if arguments.json {
        let json = object([
            ("mode", MODES[arguments.mode as usize].into()),
            ("sets", list(&told, |told| json(&story, told))),
        ]);
        format!("{json}\n")
    } else {
        let all: Vec<String> = told.iter().map(|told| said(&story, told)).collect();
        all.join("\n")
    })
}

fn said(story: &Story<'_>, told: &Told) -> String {
    let line = told
        .line
        .map_or(String::new(), |line| format!(" (line {line})"));
    let values = match story.values(told.set) {
        empty if empty.is_empty() => " (empty)".to_string(),
        values => values,
    };
    let mut text = format!("set {}{line}:{values}\n", told.set);
    // Writing to a string cannot fail.
    let _ = writeln!(text, "  id {}, {}", told.id, shared(&told.alike));
    let _ = writeln!(
        text,
        "  row {} of subtable {} (map word {}):{}",
        told.inner,
        told.outer,
        told.word,
        pairs(&told.row)
    );
    let _ = writeln!(
        text,
        "  the row takes {}; its values alone would take {}",
        count(told.row_bytes, "byte", "bytes"),
        told.own_bytes
    );
    text += &groups(story, told);
    let _ = writeln!(text, "  {}", story.subtable(told.outer));
    text
}

/// The group that it started in, and those that it became.
fn groups(story: &Story<'_>, told: &Told) -> String {
    let Some(group) = told.group else {
        return String::new();
    };
    let mut text = format!("  it started in {}\n", story.group(group));
    for merge in &told.merges {
        let _ = writeln!(
            text,
            "  {} and {} were joined, which saved {}; what they became has the next free number, {}",
            story.group(merge.first),
            story.group(merge.second),
            count(merge.gain as usize, "byte", "bytes"),
            merge.joined
        );
    }
    text
}

/// Who else has the id.
fn shared(alike: &[usize]) -> String {
    let named: Vec<String> = alike.iter().take(NAMED).map(usize::to_string).collect();
    match alike.len() {
        0 => "of this set alone".to_string(),
        1 => format!("shared with set {}", named[0]),
        all if all <= NAMED => format!("shared with sets {}", named.join(", ")),
        all => format!(
            "shared with sets {} and {} more",
            named.join(", "),
            all - NAMED
        ),
    }
}

/// ` bold=1 light=0`.
fn pairs(row: &[(String, i32)]) -> String {
    if row.is_empty() {
        return " nothing, since all values are 0".to_string();
    }
    row.iter()
        .map(|(name, value)| format!(" {name}={value}"))
        .collect()
}

fn json(story: &Story<'_>, told: &Told) -> Json {
    let row = told
        .row
        .iter()
        .map(|(name, value)| (name.clone(), (*value).into()));
    let merge = |merge: &crate::story::Merge| {
        object([
            ("first", merge.first.into()),
            ("second", merge.second.into()),
            ("joined", merge.joined.into()),
            ("gain", merge.gain.into()),
        ])
    };
    object([
        ("set", told.set.into()),
        ("line", told.line.into()),
        ("values", story.set_json(told.set)),
        ("id", told.id.into()),
        ("shared_with", list(&told.alike, |&set| set.into())),
        ("outer", told.outer.into()),
        ("inner", told.inner.into()),
        ("word", told.word.into()),
        ("row", Json::Object(row.collect())),
        ("row_bytes", told.row_bytes.into()),
        ("own_bytes", told.own_bytes.into()),
        ("group", told.group.into()),
        ("merges", list(&told.merges, merge)),
        ("subtable", story.subtable_json(told.outer)),
    ])
}
