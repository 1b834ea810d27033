//! `fenikezo`: jobs and stores from a shell. The work is done by the proved library behind
//! the crate `ivs`; here are files, tables and words.

mod arguments;
mod batch;
mod big_endian;
mod build;
mod check;
mod explain;
mod f2dot14;
mod failure;
mod faults;
mod files;
mod font;
mod font_store;
mod font_table;
mod forecast;
mod history;
mod input;
mod job;
mod json;
mod judge;
mod keep;
mod kind;
mod manual;
mod names;
mod near;
mod numbers;
mod pack;
mod part;
mod places;
mod read;
mod recover;
mod report;
mod row_list;
mod sfnt;
mod show;
mod show_job;
mod show_store;
mod story;
mod text;
mod why;
mod widths;
mod words;
mod wrong;

use arguments::{Arguments, Command};
use clap::Parser;
use failure::Failure;
use std::process::ExitCode;

fn main() -> ExitCode {
    let arguments = match Arguments::try_parse() {
        Ok(arguments) => arguments,
        Err(error) => return usage(&error),
    };
    let failure = match run(&arguments.command) {
        Ok(()) => return ExitCode::SUCCESS,
        Err(failure) => failure,
    };
    if let Some(json) = failure.json().filter(|_| arguments.command.json()) {
        // Where even that cannot be printed, the words and the status still tell.
        let _ = files::print(&format!("{json}\n"));
    }
    let words = failure.to_string();
    if !words.is_empty() {
        files::complain(&words);
    }
    failure.status()
}

/// Help that was asked for, or what is wrong with the command line. Clap's own status for
/// that is 2, which here means refused.
fn usage(error: &clap::Error) -> ExitCode {
    let words = error.render().to_string();
    if error.use_stderr() {
        files::complain(words.trim_end());
        return ExitCode::FAILURE;
    }
    match files::print(&words) {
        Ok(()) => ExitCode::SUCCESS,
        Err(failure) => {
            files::complain(&failure.to_string());
            failure.status()
        }
    }
}

fn run(command: &Command) -> Result<(), Failure> {
    match command {
        Command::Build(arguments) => build::run(arguments),
        Command::Forecast(arguments) => forecast::run(arguments),
        Command::Check(arguments) => check::run(arguments),
        Command::Read(arguments) => read::run(arguments),
        Command::Show(arguments) => show::run(arguments),
        Command::Part(arguments) => part::run(arguments),
        Command::Why(arguments) => why::run(arguments),
        Command::Explain(arguments) => explain::run(arguments),
        Command::Report(arguments) => report::run(arguments),
        Command::Pack(arguments) => pack::run(arguments),
        Command::Recover(arguments) => recover::run(arguments),
        Command::Judge(arguments) => judge::run(arguments),
        Command::Keep(arguments) => keep::run(arguments),
        Command::Widths(arguments) => widths::run(arguments),
        Command::Font(arguments) => font::run(arguments),
        Command::Batch(arguments) => batch::run(arguments),
        Command::Man(_) => manual::man(),
        Command::Completions(arguments) => manual::completions(arguments),
    }
}
