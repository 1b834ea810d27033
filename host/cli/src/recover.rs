//! `fenikezo recover`: the job of a store, whoever wrote that.

use crate::arguments::AFTER;
use crate::failure::Failure;
use crate::files;
use crate::job::Job;
use crate::kind::{self, Kind};
use crate::numbers::{self, Number};
use crate::text;
use clap::Args;
use std::path::PathBuf;

/// Reads a store back into a job: its regions, and a set for each row
#[derive(Args)]
#[command(after_help = AFTER)]
pub struct Recover {
    /// The store
    pub store: PathBuf,
    /// Where to write the job
    #[arg(short = 'o', long = "out", value_name = "JOB")]
    pub job: PathBuf,
    /// Write the job's text in place of its bytes
    #[arg(long)]
    pub text: bool,
    /// Print the numbers as JSON
    #[arg(long)]
    pub json: bool,
}

pub fn run(arguments: &Recover) -> Result<(), Failure> {
    let store = files::read(&arguments.store)?;
    if kind::of(&store) == Kind::Font {
        return Err(Failure::Other(kind::a_font(&arguments.store)));
    }
    let refused = |refused| kind::refused_store(&arguments.store, &store, refused);
    let recovered = ivs::recover(&store).map_err(refused)?;
    let job = &recovered.job;
    let bytes = match arguments.text {
        true => {
            let job = Job::decode(job.axes(), job.bytes()).map_err(refused)?;
            text::text(&job).into_bytes()
        }
        false => job.bytes().to_vec(),
    };
    let numbers: [Number; 4] = [
        ("axes", "axes", job.axes().into()),
        ("regions", "regions", recovered.regions),
        ("sets", "sets", recovered.sets),
        ("bytes", "bytes", bytes.len() as u64),
    ];
    files::write(&[(arguments.job.as_path(), bytes)])?;
    let said = match arguments.json {
        true => format!("{}\n", numbers::json(&numbers)),
        false => numbers::table(&numbers),
    };
    files::print_beside(&[&arguments.job], &said)
}
