//! README's worked example is what `make run` prints.

use std::fs;
use std::path::{Path, PathBuf};
use std::process::Command;

fn root() -> PathBuf {
    Path::new(env!("CARGO_MANIFEST_DIR")).join("../..")
}

fn file(name: &str) -> String {
    fs::read_to_string(root().join(name)).unwrap()
}

/// The text as a block of README.
fn indented(text: &str) -> String {
    let line = |line| match line {
        "" => "\n".to_string(),
        line => format!("    {line}\n"),
    };
    text.lines().map(line).collect()
}

#[test]
fn the_text() {
    let text = file("examples/two-sets.txt");
    let (_, said) = text.split_once('\n').unwrap();
    assert!(file("README.md").contains(&indented(said)), "{said}");
}

#[test]
fn the_commands_and_what_they_print() {
    let run = Command::new(root().join("examples/run"))
        .arg(env!("CARGO_BIN_EXE_fenikezo"))
        .output()
        .unwrap();
    assert!(run.status.success(), "{run:?}");
    let printed = String::from_utf8(run.stdout).unwrap();
    let readme = file("README.md");
    let commands: Vec<&str> = printed.split("$ ").skip(1).collect();
    assert_eq!(commands.len(), 6);
    // In README's order, with words between them.
    let mut rest = readme.as_str();
    for command in commands {
        let block = indented(&format!("$ {command}"));
        let found = rest.split_once(&block);
        let (_, after) = found.unwrap_or_else(|| panic!("not in README:\n{block}"));
        rest = after;
    }
}
