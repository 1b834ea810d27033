//! The times of the proved library beside the source's, on the same inputs in one run:
//! whole builds, and merging alone. Both must have given the same before a time is told.
//!
//! `bench` measures and prints all; `bench whole` and `bench merging` a part of it, `bench
//! memory` how much the source holds at once. With
//! `write` the tables of whole builds go into ../docs/BENCH.md as well.

mod clearing;
mod clock;
mod document;
mod fonts;
mod fresh;
mod inputs;
mod library;
mod memory;
mod merging;
mod table;
mod whole;
mod workloads;

use std::env;
use std::process::ExitCode;

fn main() -> ExitCode {
    if !oracle::PRESENT {
        eprintln!("bench: built without the source (FENIKEZO_SOURCE names its folder)");
        return ExitCode::FAILURE;
    }
    let asked: Vec<String> = env::args().skip(1).collect();
    if let Some(word) = asked.iter().find(|word| !WORDS.contains(&word.as_str())) {
        eprintln!("bench: '{word}' is none of {}", WORDS.join(", "));
        return ExitCode::FAILURE;
    }
    let said = |word: &str| asked.iter().any(|other| other == word);
    if said("memory") {
        table::memory();
        return ExitCode::SUCCESS;
    }
    let parts = [said("whole"), said("merging")];
    let all = parts == [false; 2];
    if all || parts[0] {
        let tables = table::whole();
        if said("write") {
            if let Err(error) = document::write(&tables) {
                eprintln!("bench: {}: {error}", document::PATH);
                return ExitCode::FAILURE;
            }
        }
    }
    if all || parts[1] {
        merging::print();
    }
    ExitCode::SUCCESS
}

/// What may be asked for.
const WORDS: [&str; 4] = ["whole", "merging", "memory", "write"];
