//! `fenikezo keep`: a store with only the rows that are still used.

use crate::failure::Failure;
use crate::kind::{self, Kind};
use crate::numbers::{self, Number};
use crate::{files, row_list};
use clap::Args;
use ivs::{Refusal, Refused};
use std::path::{Path, PathBuf};

const KEEP: &str = "\
A list has a row a line: outer x 65536 + inner, as 'build' writes its map, or the outer and the
inner number with a blank between them. '#' starts a comment. Places are written in the list's
order, a line each, as outer x 65536 + inner.
A file '-' is standard input or standard output.
Exit status: 0 done, 2 refused by number, 1 for anything else. No file is left half written.";

/// Writes a store with only the rows of a list, and where each of them then is
#[derive(Args)]
#[command(after_help = KEEP)]
pub struct Keep {
    /// The store
    pub store: PathBuf,
    /// The rows that stay, in any order, each as often as one likes
    pub rows: PathBuf,
    /// Where to write the store
    #[arg(short = 'o', long = "out", value_name = "STORE")]
    pub out: PathBuf,
    /// Where to write the new place of each row of the list
    #[arg(long, value_name = "F")]
    pub places: Option<PathBuf>,
    /// Print the numbers as JSON
    #[arg(long)]
    pub json: bool,
}

pub fn run(arguments: &Keep) -> Result<(), Failure> {
    let store = files::read(&arguments.store)?;
    if kind::of(&store) == Kind::Font {
        return Err(Failure::Other(kind::a_font(&arguments.store)));
    }
    let rows = row_list::read(&arguments.rows)?;
    let refused = |refused: Refused| match missing(&store, &rows, &refused) {
        Some(at) => no_row(arguments, &rows, at, refused),
        None => kind::refused_store(&arguments.store, &store, refused),
    };
    let kept = ivs::keep(&store, &rows).map_err(refused)?;
    let done = kept.done;
    let numbers: [Number; 5] = [
        ("bytes", "bytes", done.bytes),
        ("bytes before", "before", store.len() as u64),
        ("subtables", "subtables", done.subtables),
        ("regions", "regions", done.regions_kept),
        ("rows", "rows", done.rows_kept),
    ];
    let mut outputs: Vec<(&Path, Vec<u8>)> = vec![(&arguments.out, kept.store)];
    if let Some(places) = &arguments.places {
        outputs.push((places, row_list::text(&kept.places)));
    }
    files::write(&outputs)?;
    let said = match arguments.json {
        true => format!("{}\n", numbers::json(&numbers)),
        false => numbers::table(&numbers),
    };
    let outputs: Vec<&Path> = outputs.iter().map(|(path, _)| *path).collect();
    files::print_beside(&outputs, &said)
}

/// The first entry of the list that is no row, where that is what was refused.
fn missing(store: &[u8], rows: &[u32], refused: &Refused) -> Option<usize> {
    if refused.refusal() != Some(Refusal::NoRow) {
        return None;
    }
    let there = |&row: &u32| match ivs::read(store, row >> 16, row & 0xFFFF, 0) {
        Ok(_) => true,
        Err(refused) => refused.refusal() != Some(Refusal::NoRow),
    };
    rows.iter().position(|row| !there(row))
}

fn no_row(arguments: &Keep, rows: &[u32], at: usize, refused: Refused) -> Failure {
    let (outer, inner) = (rows[at] >> 16, rows[at] & 0xFFFF);
    let words = format!(
        "{}: entry {at} of {}, counted from 0, asks for row {inner} of subtable {outer}, which the store has not",
        refused.head(),
        arguments.rows.display()
    );
    Failure::Refused(arguments.store.display().to_string(), refused, words)
}
