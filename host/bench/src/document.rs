//! Puts the tables into docs/BENCH.md, between two lines that are there for it.

use std::fs;
use std::io::{Error, ErrorKind, Result};

/// The document.
pub const PATH: &str = concat!(env!("CARGO_MANIFEST_DIR"), "/../../docs/BENCH.md");

/// The line before the tables, and the line after them.
const MARKS: [&str; 2] = ["<!-- tables of whole builds -->", "<!-- end of tables -->"];

/// Writes the document anew, with these tables.
pub fn write(tables: &str) -> Result<()> {
    let text = fs::read_to_string(PATH)?;
    let none = || Error::new(ErrorKind::InvalidData, "the marks are not there");
    let (before, rest) = text.split_once(MARKS[0]).ok_or_else(none)?;
    let (_, after) = rest.split_once(MARKS[1]).ok_or_else(none)?;
    let [first, last] = MARKS;
    fs::write(PATH, format!("{before}{first}\n\n{tables}\n{last}{after}"))
}
