//! The program run from a test.

// Each file of tests takes what it needs.
#![allow(dead_code)]

use std::fs::{self, File};
use std::io::Write;
use std::path::{Path, PathBuf};
use std::process::{Command, Output, Stdio};

pub const TWO_SETS: &str =
    "axes 1\nregion bold 0 1 1\nregion light -1 -1 0\nset bold=1\nset light=1\n";

/// A folder of a test's own, empty.
pub fn folder(test: &str) -> PathBuf {
    let folder = Path::new(env!("CARGO_TARGET_TMPDIR")).join(test);
    let _ = fs::remove_dir_all(&folder);
    fs::create_dir_all(&folder).unwrap();
    folder
}

pub fn root() -> PathBuf {
    Path::new(env!("CARGO_MANIFEST_DIR")).join("../..")
}

pub fn command(folder: &Path, arguments: &str) -> Command {
    let mut command = Command::new(env!("CARGO_BIN_EXE_fenikezo"));
    command
        .args(arguments.split_whitespace())
        .current_dir(folder)
        .stdin(Stdio::null());
    command
}

/// Runs the program in a folder, with bytes for its standard input.
pub fn run(folder: &Path, arguments: &str, input: &[u8]) -> Output {
    let mut child = command(folder, arguments)
        .stdin(Stdio::piped())
        .stdout(Stdio::piped())
        .stderr(Stdio::piped())
        .spawn()
        .unwrap();
    // A program that never asks for its input may have left already.
    let _ = child.stdin.take().unwrap().write_all(input);
    child.wait_with_output().unwrap()
}

/// What a command that does its work prints.
pub fn done(folder: &Path, arguments: &str) -> String {
    let output = run(folder, arguments, &[]);
    let said = String::from_utf8(output.stderr).unwrap();
    assert_eq!(output.status.code(), Some(0), "{arguments}: {said}");
    String::from_utf8(output.stdout).unwrap()
}

/// What a command that does not do it says.
pub fn failed(folder: &Path, arguments: &str, status: i32) -> String {
    let output = run(folder, arguments, &[]);
    let said = String::from_utf8(output.stderr).unwrap();
    assert_eq!(output.status.code(), Some(status), "{arguments}: {said}");
    assert_eq!(output.stdout, b"", "{arguments}");
    said
}

/// Both streams of a command that ends with a status.
pub fn ended(folder: &Path, arguments: &str, status: i32) -> (String, String) {
    let output = run(folder, arguments, &[]);
    let text = |bytes| String::from_utf8(bytes).unwrap();
    let (out, said) = (text(output.stdout), text(output.stderr));
    assert_eq!(output.status.code(), Some(status), "{arguments}: {said}");
    (out, said)
}

pub fn full() -> File {
    File::options().write(true).open("/dev/full").unwrap()
}

/// The names in a folder.
pub fn names(folder: &Path) -> Vec<String> {
    let name = |entry: std::io::Result<fs::DirEntry>| entry.unwrap().file_name();
    let mut names: Vec<String> = fs::read_dir(folder)
        .unwrap()
        .map(|entry| name(entry).into_string().unwrap())
        .collect();
    names.sort();
    names
}
