//! `fenikezo man` and `fenikezo completions`: from the definitions of the command line.

use crate::arguments::Arguments;
use crate::failure::Failure;
use crate::files;
use clap::builder::StyledStr;
use clap::{Arg, Args, Command, CommandFactory};
use clap_complete::{generate, Shell};
use std::fmt::Write;

/// Prints the man page, for a file fenikezo.1
#[derive(Args)]
pub struct Man {}

/// Prints a shell's completions
#[derive(Args)]
pub struct Completions {
    /// The shell
    #[arg(value_enum)]
    pub shell: Shell,
}

pub fn completions(arguments: &Completions) -> Result<(), Failure> {
    let mut script = Vec::new();
    generate(
        arguments.shell,
        &mut Arguments::command(),
        "fenikezo",
        &mut script,
    );
    files::print(&String::from_utf8_lossy(&script))
}

pub fn man() -> Result<(), Failure> {
    let mut program = Arguments::command();
    program.build();
    let mut page = format!(
        ".TH FENIKEZO 1 \"\" \"fenikezo {}\"\n.SH NAME\nfenikezo \\- {}\n.SH SYNOPSIS\n",
        program.get_version().unwrap_or_default(),
        plain(program.get_about())
    );
    page += "\\fBfenikezo\\fR \\fICOMMAND\\fR ..\n.SH COMMANDS\n";
    for command in program.get_subcommands() {
        of_command(&mut page, "", command);
    }
    let _ = write!(
        page,
        ".SH NOTES\n{}",
        preformatted(&plain(program.get_after_help()))
    );
    page += ".SH SEE ALSO\nhb\\-shape(1), fonttools(1)\n";
    files::print(&page)
}

/// A command, or the commands that it has.
fn of_command(page: &mut String, before: &str, command: &Command) {
    let name = format!("{before}{}", command.get_name());
    let commands: Vec<&Command> = command
        .get_subcommands()
        .filter(|c| c.get_name() != "help")
        .collect();
    if name == "help" {
        return;
    }
    if !commands.is_empty() {
        for command in commands {
            of_command(page, &format!("{name} "), command);
        }
        return;
    }
    // Writing to a string cannot fail.
    let _ = writeln!(page, ".SS \"fenikezo {}{}\"", name, synopsis(command));
    let _ = writeln!(page, "{}.", escaped(&plain(command.get_about())));
    for argument in command.get_arguments().filter(|a| a.get_id() != "help") {
        let _ = writeln!(page, ".TP\n{}\n{}", heading(argument), help(argument));
    }
    // What only some commands say.
    let after = plain(command.get_after_help());
    if !after.starts_with("A file") && !after.is_empty() {
        let _ = write!(page, ".PP\n{}", preformatted(&after));
    }
}

/// The arguments that a command must have, and `..` for options.
fn synopsis(command: &Command) -> String {
    let mut text = String::new();
    for argument in command.get_arguments().filter(|a| a.is_positional()) {
        let _ = write!(text, " {}", value(argument).unwrap_or_default());
    }
    text
}

fn value(argument: &Arg) -> Option<String> {
    if !argument
        .get_num_args()
        .is_some_and(|number| number.takes_values())
    {
        return None;
    }
    let names = argument.get_value_names()?;
    Some(
        names
            .iter()
            .map(ToString::to_string)
            .collect::<Vec<_>>()
            .join(" "),
    )
}

/// `-o, --out STORE`.
fn heading(argument: &Arg) -> String {
    let value = value(argument).map_or(String::new(), |value| {
        format!("\\fI{}\\fR", escaped(&value))
    });
    if argument.is_positional() {
        return value;
    }
    let short = argument.get_short().map(|short| format!("\\-{short}"));
    let long = argument
        .get_long()
        .map(|long| format!("\\-\\-{}", escaped(long)));
    let names: Vec<String> = [short, long].into_iter().flatten().collect();
    format!("\\fB{}\\fR {value}", names.join(", "))
        .trim_end()
        .to_string()
}

fn help(argument: &Arg) -> String {
    let mut text = escaped(&plain(argument.get_help()));
    let values: Vec<String> = match argument.is_positional() || value(argument).is_some() {
        true => argument
            .get_possible_values()
            .iter()
            .map(|v| v.get_name().to_string())
            .collect(),
        false => Vec::new(),
    };
    if !values.is_empty() {
        let _ = write!(text, " ({})", escaped(&values.join(", ")));
    }
    let defaults = argument.get_default_values();
    if let (Some(default), true) = (defaults.first(), value(argument).is_some()) {
        let _ = write!(
            text,
            "; {} where nothing is said",
            default.to_string_lossy()
        );
    }
    format!("{text}.")
}

fn plain(text: Option<&StyledStr>) -> String {
    text.map(ToString::to_string).unwrap_or_default()
}

/// Lines as they stand.
fn preformatted(text: &str) -> String {
    format!(".nf\n{}\n.fi\n", escaped(text.trim_end()))
}

/// What roff would take for its own.
fn escaped(text: &str) -> String {
    let text = text.replace('\\', "\\e").replace('-', "\\-");
    let line = |line: &str| match line.starts_with(['.', '\'']) {
        true => format!("\\&{line}"),
        false => line.to_string(),
    };
    text.lines().map(line).collect::<Vec<_>>().join("\n")
}
