//! The commands of docs/USE.md and docs/JSON.md print what stands there.
//!
//! In a block, `$ cat NAME` is a file and what it holds, `$ fenikezo ..` a command and what it
//! prints, `$ echo $?` the status of the last one. All run one after another in one folder.

mod common;

use common::{command, folder, root};
use std::fs;
use std::path::Path;

/// The columns of a block: a longer line is broken, and its blanks are not compared.
const COLUMNS: usize = 96;

/// The commands of a paper, each with the lines below it.
fn commands(paper: &str) -> Vec<(String, String)> {
    let mut commands: Vec<(String, String)> = Vec::new();
    let mut inside = false;
    let lines: Vec<&str> = paper.lines().collect();
    for (number, line) in lines.iter().enumerate() {
        // A blank line is of the block, if the block goes on behind it.
        let next = lines.get(number + 1).copied().unwrap_or_default();
        let goes_on = next.starts_with("    ") && !next.starts_with("    $ ");
        let blank = line.is_empty() && inside && goes_on;
        let Some(text) = line.strip_prefix("    ").or(blank.then_some("")) else {
            inside = false;
            continue;
        };
        match text.strip_prefix("$ ") {
            Some(command) => {
                commands.push((command.to_string(), String::new()));
                inside = true;
            }
            None if inside => {
                let (_, said) = commands.last_mut().expect("inside a command");
                said.push_str(text);
                said.push('\n');
            }
            None => {}
        }
    }
    commands
}

fn same(said: &str, printed: &str) -> bool {
    let words = |text: &str| {
        text.split_whitespace()
            .map(str::to_string)
            .collect::<Vec<_>>()
    };
    let long = printed.lines().any(|line| line.chars().count() > COLUMNS);
    said == printed || long && words(said) == words(printed)
}

fn holds(paper: &str, folder: &Path) {
    let text = fs::read_to_string(root().join("docs").join(paper)).unwrap();
    let (mut status, mut ran) = (None, 0);
    for (line, said) in commands(&text) {
        if let Some(name) = line.strip_prefix("cat ") {
            fs::write(folder.join(name), said).unwrap();
        } else if line == "echo $?" {
            assert_eq!(status.map(|status| format!("{status}\n")), Some(said));
        } else {
            let arguments = line
                .strip_prefix("fenikezo ")
                .expect("a command of this program");
            let output = command(folder, arguments).output().unwrap();
            status = output.status.code();
            let printed = [output.stdout, output.stderr].concat();
            let printed = String::from_utf8(printed).unwrap();
            assert!(same(&said, &printed), "{paper}: $ {line}\n{printed}");
            ran += 1;
        }
    }
    assert!(ran > 10, "{paper}: {ran}");
}

#[test]
fn using_it() {
    holds("USE.md", &folder("use"));
}

#[test]
fn shapes_of_json() {
    holds("JSON.md", &folder("shapes"));
}
