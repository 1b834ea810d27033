//! `fenikezo widths`.

use crate::arguments::{Mode, Widths};
use crate::failure::{self, Failure};
use crate::files;
use crate::input::Input;
use crate::json::{object, Json};
use crate::words::MODES;
use ivs::Refused;
use std::fmt::Write;

pub fn run(arguments: &Widths) -> Result<(), Failure> {
    let input = Input::read(&arguments.job, arguments.axes)?;
    let tables =
        [Mode::Dedup, Mode::Implicit].map(|mode| (mode, table(input.axes, mode, &input.job)));
    let (mode, table) = taken(&tables, arguments.mode).map_err(|refused| input.refused(refused))?;
    input.warn();
    files::write(&[(arguments.table.as_path(), table.to_vec())])?;
    let said = if arguments.json {
        format!("{}\n", json(&input, &tables, mode))
    } else {
        sizes(&tables, mode)
    };
    files::print_beside(&[&arguments.table], &said)
}

type Built = Result<Vec<u8>, Refused>;

/// The table of a job in a mode. In mode 1 the glyph's number is the row's, so there is no
/// map.
fn table(axes: u32, mode: Mode, job: &[u8]) -> Built {
    let packed = ivs::pack(axes, mode as u32, job)?;
    let words = match mode {
        Mode::Dedup => ivs::set_words(&packed),
        Mode::Implicit => Vec::new(),
    };
    ivs::write_widths(&packed.store, &words)
}

/// The table that is asked for, or the smaller one; of a job that is refused in both modes,
/// the refusal of the first.
fn taken(tables: &[(Mode, Built); 2], asked: Option<Mode>) -> Result<(Mode, &[u8]), Refused> {
    let size = |(_, table): &&(Mode, Built)| table.as_ref().map_or(usize::MAX, Vec::len);
    let fitting = tables
        .iter()
        .filter(|(mode, _)| asked.unwrap_or(*mode) == *mode);
    let (mode, table) = fitting.min_by_key(size).expect("a mode is one of the two");
    match table {
        Ok(table) => Ok((*mode, table)),
        Err(refused) => Err(*refused),
    }
}

/// What each mode takes, and which is written.
fn sizes(tables: &[(Mode, Built); 2], written: Mode) -> String {
    let mut text = String::new();
    for (mode, table) in tables {
        let name = MODES[*mode as usize];
        let mark = if *mode == written { "  written" } else { "" };
        // Writing to a string cannot fail.
        let _ = match table {
            Ok(table) => writeln!(text, "{name:<13} {:>10}{mark}", table.len()),
            Err(refused) => writeln!(
                text,
                "{name:<13} refused: {} {}",
                refused.number,
                refused.name()
            ),
        };
    }
    text
}

/// Each mode's bytes or its refusal, and which is written.
fn json(input: &Input, tables: &[(Mode, Built); 2], written: Mode) -> Json {
    let table = |(_, table): &(Mode, Built)| match table {
        Ok(table) => object([("bytes", table.len().into())]),
        Err(refused) => failure::number(refused, &input.words(refused)),
    };
    object([
        ("dedup", table(&tables[0])),
        ("implicit", table(&tables[1])),
        ("written", MODES[written as usize].into()),
    ])
}
