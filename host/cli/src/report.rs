//! `fenikezo report`: a page about a job, in one file, for who would rather look than read.

use crate::arguments::{Mode, AFTER};
use crate::check::Found;
use crate::failure::Failure;
use crate::files;
use crate::history::Group;
use crate::json::{list, object, Json};
use crate::story::{Columns, Story};
use crate::words::MODES;
use clap::Args;
use std::path::{Path, PathBuf};

/// Writes a page about a job: sizes, subtables, merges, rows and values, or what is wrong with it
#[derive(Args)]
#[command(after_help = AFTER)]
pub struct Report {
    /// The job: records of 12 bytes, or its text
    pub job: PathBuf,
    /// The axis count that the job was written for, 1 to 64; a text has its own
    #[arg(long, value_name = "N")]
    pub axes: Option<u32>,
    /// The mode of the build that is shown; where none is said, dedup, or the one that takes the job
    #[arg(long, value_enum)]
    pub mode: Option<Mode>,
    /// Where to write the page
    #[arg(
        short = 'o',
        long = "out",
        value_name = "HTML",
        required_unless_present = "json"
    )]
    pub page: Option<PathBuf>,
    /// Print what the page says as JSON
    #[arg(long)]
    pub json: bool,
}

const PAGE: &str = include_str!("page.html");
const DATA: &str = "@DATA@";
const RECORD: usize = 12;

pub fn run(arguments: &Report) -> Result<(), Failure> {
    let bytes = files::read(&arguments.job)?;
    let (found, input) = Found::read(&arguments.job, &bytes, arguments.axes)?;
    let story = match &input {
        Some(input) if found.is_fine() => Some((mode(arguments, &found), input)),
        _ => None,
    };
    let story = match story {
        Some((mode, input)) => Some((mode, Story::of(input, mode)?)),
        None => None,
    };
    let file = arguments.job.display().to_string();
    let json = object([("check", found.json(&file))])
        .and(wrong(&found, &bytes))
        .and(built(story.as_ref()))
        .to_string();
    let outputs: Vec<&Path> = arguments.page.iter().map(PathBuf::as_path).collect();
    let page = |path| (path, PAGE.replacen(DATA, &json, 1).into_bytes());
    files::write(&outputs.iter().map(|&path| page(path)).collect::<Vec<_>>())?;
    if arguments.json {
        files::print_beside(&outputs, &format!("{json}\n"))?;
    }
    let Some(failure) = found.failure() else {
        return Ok(());
    };
    for page in outputs {
        let page = page.display();
        files::complain(&format!(
            "fenikezo: {file}: something is wrong, as {page} says"
        ));
    }
    Err(failure)
}

/// The mode that is asked for, or that takes the job.
fn mode(arguments: &Report, found: &Found) -> u32 {
    let only_implicit = found.takes() == [false, true];
    arguments
        .mode
        .map_or(u32::from(only_implicit), |mode| mode as u32)
}

/// The lines of a text that are wrong, and the records of a job that are refused.
fn wrong(found: &Found, bytes: &[u8]) -> Json {
    let lines: Vec<&[u8]> = bytes.split(|&byte| byte == b'\n').collect();
    let line = |number: usize| {
        let line = lines.get(number.checked_sub(1)?)?;
        Some(String::from_utf8_lossy(line).trim_end().to_string())
    };
    let record = |place: Option<u64>| {
        let at = RECORD * place? as usize;
        let bytes = bytes.get(at..at + RECORD)?;
        Some(list(bytes, |&byte| u32::from(byte).into()))
    };
    object([
        ("lines", list(found.lines(), |number| line(number).into())),
        (
            "records",
            list(found.places(), |place| record(place).into()),
        ),
    ])
}

/// What was built, if it was.
fn built(story: Option<&(u32, Story<'_>)>) -> Json {
    let Some((mode, story)) = story else {
        let names = [
            "mode",
            "lined",
            "regions",
            "starting",
            "groups",
            "subtables",
            "sets",
        ];
        return object(names.map(|name| (name, Json::Null)));
    };
    let history = story.history.as_ref();
    let region_of = |index: usize| history.map_or(index, |history| history.regions[index]);
    let groups = history.map(|history| list(&history.groups, |group| group_json(group, region_of)));
    object([
        ("mode", MODES[*mode as usize].into()),
        ("lined", story.is_lined().into()),
        ("regions", story.regions_json()),
        ("starting", history.map(|history| history.starting).into()),
        ("groups", groups.into()),
        (
            "subtables",
            list(story.subtables.iter().enumerate(), |(outer, subtable)| {
                subtable_json(subtable, history.map(|history| history.subtables[outer]))
            }),
        ),
        (
            "sets",
            list(0..story.job.sets.len(), |set| set_json(story, set)),
        ),
    ])
}

/// Pairs of a region and a number.
fn pairs(of: impl Iterator<Item = (usize, i64)>) -> Json {
    list(of, |(region, number)| {
        Json::List(vec![region.into(), Json::Number(number)])
    })
}

fn group_json(group: &Group, region_of: impl Fn(usize) -> usize) -> Json {
    let shape = group
        .shape
        .iter()
        .map(|&(index, bytes)| (region_of(index), bytes.into()));
    let of = |(first, second, gain): (usize, usize, u32)| {
        Json::List(vec![first.into(), second.into(), gain.into()])
    };
    object([
        ("shape", pairs(shape)),
        ("sets", group.sets.into()),
        ("of", group.of.map(of).into()),
        ("into", group.into.into()),
    ])
}

fn subtable_json(subtable: &Columns, group: Option<usize>) -> Json {
    let columns = subtable.columns.iter();
    object([
        ("group", group.into()),
        ("rows", subtable.rows.into()),
        ("row_bytes", subtable.row_bytes.into()),
        ("bytes", subtable.bytes().into()),
        (
            "columns",
            pairs(columns.map(|&(region, bytes)| (region, bytes as i64))),
        ),
    ])
}

fn set_json(story: &Story<'_>, set: usize) -> Json {
    let id = story.packed.ids[set];
    let word = story.packed.map[id as usize];
    let values = story.job.sets[set].iter();
    object([
        ("line", story.line(set).into()),
        ("id", id.into()),
        ("outer", (word >> 16).into()),
        ("inner", (word & 0xFFFF).into()),
        (
            "group",
            story
                .history
                .as_ref()
                .map(|history| history.group_of[id as usize])
                .into(),
        ),
        (
            "values",
            pairs(values.map(|&(region, value)| (region.into(), value.into()))),
        ),
    ])
}
