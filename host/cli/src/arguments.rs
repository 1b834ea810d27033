//! What can be said on the command line. The comments are the help's words.

use crate::batch::Batch;
use crate::check::Check;
use crate::explain::Explain;
use crate::judge::Judge;
use crate::keep::Keep;
use crate::manual::{Completions, Man};
use crate::recover::Recover;
use crate::report::Report;
use crate::why;
use clap::{Args, Parser, Subcommand, ValueEnum};
use std::path::PathBuf;

pub const AFTER: &str = "\
A file '-' is standard input or standard output.
Exit status: 0 done, 2 refused by number, 1 for anything else. No file is left half written.";

const PROGRAM: &str = "\
A file '-' is standard input or standard output.
Exit status: 0 done, 2 refused by number, 3 where 'judge' says no, 1 for anything else. No file is
left half written.";

/// Packs OpenType item variation stores, exactly or not at all
#[derive(Parser)]
#[command(name = "fenikezo", version, after_help = PROGRAM)]
pub struct Arguments {
    #[command(subcommand)]
    pub command: Command,
}

#[derive(Subcommand)]
pub enum Command {
    Build(Build),
    Forecast(Forecast),
    Check(Check),
    Read(Read),
    Show(Show),
    Part(Part),
    Why(why::Asked),
    Explain(Explain),
    Report(Report),
    Pack(Pack),
    Recover(Recover),
    Judge(Judge),
    Keep(Keep),
    Widths(Widths),
    Font(Font),
    Batch(Batch),
    Man(Man),
    Completions(Completions),
}

impl Command {
    /// Whether JSON is asked for.
    pub fn json(&self) -> bool {
        match self {
            Command::Build(arguments) => arguments.json,
            Command::Forecast(arguments) => arguments.json,
            Command::Check(arguments) => arguments.json,
            Command::Read(arguments) => arguments.json,
            Command::Show(arguments) => arguments.json,
            Command::Part(arguments) => arguments.json,
            Command::Why(arguments) => arguments.json,
            Command::Explain(arguments) => arguments.json,
            Command::Report(arguments) => arguments.json,
            Command::Pack(arguments) => arguments.json,
            Command::Recover(arguments) => arguments.json,
            Command::Judge(arguments) => arguments.json,
            Command::Keep(arguments) => arguments.json,
            Command::Widths(arguments) => arguments.json,
            Command::Font(arguments) => arguments.command.json(),
            Command::Batch(arguments) => arguments.json,
            Command::Man(_) | Command::Completions(_) => false,
        }
    }
}

/// Builds the store of a job, and prints the numbers of the build
#[derive(Args)]
#[command(after_help = AFTER)]
pub struct Build {
    /// The job: records of 12 bytes, or its text
    pub job: PathBuf,
    /// The axis count that the job was written for, 1 to 64; a text has its own
    #[arg(long, value_name = "N")]
    pub axes: Option<u32>,
    /// Equal sets share an id, or every set has its own row in its order
    #[arg(long, value_enum, default_value = "dedup")]
    pub mode: Mode,
    /// The reader that the store is for: the panel's takes 16-bit values, regions that it does
    /// not skip, and 32 columns in a subtable
    #[arg(long, value_enum, default_value = "plain")]
    pub profile: Profile,
    /// Where to write the store
    #[arg(short = 'o', long = "out", value_name = "STORE")]
    pub store: Option<PathBuf>,
    /// Where to write the ids: the id of each set, one a line
    #[arg(long, value_name = "F")]
    pub ids: Option<PathBuf>,
    /// Where to write the map: outer x 65536 + inner of each id, one a line
    #[arg(long, value_name = "F")]
    pub map: Option<PathBuf>,
    /// Where to write the row of each set, one a line: outer x 65536 + inner, as `judge` reads it
    #[arg(long, value_name = "F")]
    pub words: Option<PathBuf>,
    /// Where to write the merges: first number, second number and gain a line
    #[arg(long, value_name = "F")]
    pub log: Option<PathBuf>,
    /// Where to write the origins: each starting shape's number and its final group a line
    #[arg(long, value_name = "F")]
    pub origins: Option<PathBuf>,
    /// Print the numbers as JSON, with the origins
    #[arg(long)]
    pub json: bool,
}

/// The two profiles.
#[derive(Clone, Copy, PartialEq, Eq, ValueEnum)]
pub enum Profile {
    Plain,
    Panel,
}

/// The two modes (J2).
#[derive(Clone, Copy, PartialEq, Eq, ValueEnum)]
pub enum Mode {
    #[value(alias = "0")]
    Dedup = 0,
    #[value(alias = "1")]
    Implicit = 1,
}

/// Tells how many bytes the store of a job takes in either mode, without building it
#[derive(Args)]
#[command(after_help = AFTER)]
pub struct Forecast {
    /// The job: records of 12 bytes, or its text
    pub job: PathBuf,
    /// The axis count that the job was written for, 1 to 64; a text has its own
    #[arg(long, value_name = "N")]
    pub axes: Option<u32>,
    /// Print the numbers as JSON, with the name of the smaller mode, null where both take as many bytes
    #[arg(long)]
    pub json: bool,
}

/// Reads one value of a store
#[derive(Args)]
#[command(after_help = AFTER)]
pub struct Read {
    /// The store
    pub store: PathBuf,
    /// The subtable's number
    pub outer: u32,
    /// The row's number in the subtable
    pub inner: u32,
    /// The region's number in the store's list
    pub region: u32,
    /// Print JSON
    #[arg(long)]
    pub json: bool,
}

const SHOW: &str = "\
Regions go by the text's names. Those of a job without a text are r0, r1 and so on, by their
numbers in the job; those of a store are #0, #1 and so on, by their numbers in the store's list,
which are others, or with --names those of the job's regions of the same coordinates.
A file '-' is standard input.";

/// Shows a job, its text or a store as tables
#[derive(Args)]
#[command(after_help = SHOW)]
pub struct Show {
    /// The job, its text, or the store
    pub file: PathBuf,
    /// The axis count of a job; a text or a store has its own
    #[arg(long, value_name = "N")]
    pub axes: Option<u32>,
    /// Show a job in the text form that `pack` reads
    #[arg(long)]
    pub text: bool,
    /// The job or the text by whose names the regions of a store are called
    #[arg(long, value_name = "JOB", conflicts_with = "text")]
    pub names: Option<PathBuf>,
    /// Print JSON
    #[arg(long)]
    pub json: bool,
}

/// Tells where two sets of a job part: the region, and both values
#[derive(Args)]
#[command(after_help = AFTER)]
pub struct Part {
    /// The job, or its text
    pub job: PathBuf,
    /// A set's number in the job, from 0
    pub first: u32,
    /// Another set's
    pub second: u32,
    /// The axis count of a job; a text has its own
    #[arg(long, value_name = "N")]
    pub axes: Option<u32>,
    /// Print JSON
    #[arg(long)]
    pub json: bool,
}

const TEXT: &str = "\
The text, a line each, in which '#' starts a comment:
  axes N                            first, and once
  region NAME START PEAK END ..     a triple an axis, as in 0 0.5 1
  set NAME=VALUE NAME=VALUE ..      none for the empty set
All that is wrong is told by its line, up to 20 things.
Coordinates are taken to the nearest 1/16384 (F2Dot14).";

/// Packs the text form of a job into the job's bytes
#[derive(Args)]
#[command(after_help = TEXT)]
pub struct Pack {
    /// The text
    pub text: PathBuf,
    /// Where to write the job
    #[arg(short = 'o', long = "out", value_name = "JOB")]
    pub job: PathBuf,
    /// Print what was packed as JSON
    #[arg(long)]
    pub json: bool,
}

/// Builds the width table (HVAR) of a job with a set for each glyph: in both modes, of which
/// the smaller table is written
#[derive(Args)]
#[command(after_help = AFTER)]
pub struct Widths {
    /// The job: records of 12 bytes, or its text, a set a glyph
    pub job: PathBuf,
    /// The axis count that the job was written for, 1 to 64; a text has its own
    #[arg(long, value_name = "N")]
    pub axes: Option<u32>,
    /// The mode whose table is written, whichever is smaller
    #[arg(long, value_enum)]
    pub mode: Option<Mode>,
    /// Where to write the table
    #[arg(short = 'o', long = "out", value_name = "HVAR")]
    pub table: PathBuf,
    /// Print the sizes as JSON
    #[arg(long)]
    pub json: bool,
}

/// Looks at a font's item variation stores, or packs them anew
#[derive(Args)]
pub struct Font {
    #[command(subcommand)]
    pub command: FontCommand,
}

#[derive(Subcommand)]
pub enum FontCommand {
    Show(FontShow),
    Repack(FontRepack),
}

impl FontCommand {
    fn json(&self) -> bool {
        match self {
            FontCommand::Show(arguments) => arguments.json,
            FontCommand::Repack(arguments) => arguments.json,
        }
    }
}

/// Shows which tables of a font have a store, their bytes, and what they would take with ours
#[derive(Args)]
#[command(after_help = AFTER)]
pub struct FontShow {
    /// The font: a TrueType or OpenType file
    pub font: PathBuf,
    /// Print JSON
    #[arg(long)]
    pub json: bool,
}

const REPACK: &str = "\
HVAR, VVAR and MVAR are packed anew, in the mode that is smaller. Every other table stays
byte for byte, but for the sum in head; of one that has a store this is said.
A file '-' is standard input or standard output.";

/// Packs the stores of a font anew, and writes the font with them
#[derive(Args)]
#[command(after_help = REPACK)]
pub struct FontRepack {
    /// The font: a TrueType or OpenType file
    pub font: PathBuf,
    /// Where to write the font
    #[arg(short = 'o', long = "out", value_name = "FONT")]
    pub out: PathBuf,
    /// Print JSON
    #[arg(long)]
    pub json: bool,
}
