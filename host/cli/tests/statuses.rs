//! The exit status is 0, 1 or 2, also where nothing can be said.

mod common;

use common::{command, folder, full, TWO_SETS};
use std::fs::{self, File};
use std::path::Path;
use std::process::Stdio;
use std::sync::{Mutex, MutexGuard, PoisonError};

/// Held by each test: a process that is just being started would keep a pipe open.
static ALONE: Mutex<()> = Mutex::new(());

fn alone() -> MutexGuard<'static, ()> {
    ALONE.lock().unwrap_or_else(PoisonError::into_inner)
}

/// The end of a pipe whose other end is shut.
fn shut() -> Stdio {
    let mut child = std::process::Command::new("true")
        .stdin(Stdio::piped())
        .spawn()
        .unwrap();
    let end = child.stdin.take().unwrap();
    child.wait().unwrap();
    end.into()
}

fn job(folder: &Path) {
    fs::write(folder.join("text"), TWO_SETS).unwrap();
    fs::write(folder.join("wrong"), "axes 1\nset a=1\n").unwrap();
    fs::write(folder.join("bad"), [4; 12]).unwrap();
}

fn status(folder: &Path, arguments: &str, out: Stdio, error: Stdio) -> Option<i32> {
    let mut command = command(folder, arguments);
    command.stdout(out).stderr(error).status().unwrap().code()
}

#[test]
fn words_that_cannot_be_said() {
    let (folder, _alone) = (folder("unsaid"), alone());
    job(&folder);
    let commands = [
        ("build nothing", 1),
        ("build bad --axes 1", 2),
        ("pack wrong -o job", 1),
        ("build", 1),
        ("forecast bad --axes 1 --json", 2),
    ];
    for (arguments, expected) in commands {
        let out = || Stdio::from(File::create(folder.join("out")).unwrap());
        let full = status(&folder, arguments, out(), full().into());
        assert_eq!(full, Some(expected), "{arguments}");
        let pipe = status(&folder, arguments, out(), shut());
        assert_eq!(pipe, Some(expected), "{arguments}");
    }
}

/// The numbers of a store on standard output are said beside it; warnings are not asked for.
#[test]
fn numbers_and_warnings_that_cannot_be_said() {
    let (folder, _alone) = (folder("unsaid_numbers"), alone());
    job(&folder);
    let text = TWO_SETS.replace("0 1 1", "1 0 1");
    fs::write(folder.join("warned"), text).unwrap();
    for error in [|| Stdio::from(full()), shut] {
        let taken = status(&folder, "build text -o -", Stdio::null(), error());
        assert_eq!(taken, Some(1));
        let warned = status(&folder, "build warned -o store", Stdio::null(), error());
        assert_eq!(warned, Some(0));
    }
}

#[test]
fn what_cannot_be_printed_is_not_done() {
    let (folder, _alone) = (folder("unprinted"), alone());
    job(&folder);
    for arguments in [
        "--help",
        "--version",
        "build --help",
        "build text",
        "show text",
    ] {
        let error = folder.join("error");
        let out = Stdio::from(File::create(&error).unwrap());
        assert_eq!(
            status(&folder, arguments, full().into(), out),
            Some(1),
            "{arguments}"
        );
        let said = fs::read_to_string(error).unwrap();
        let words = "fenikezo: cannot write standard output: ";
        assert!(said.starts_with(words), "{arguments}: {said}");
        assert_eq!(
            status(&folder, arguments, shut(), Stdio::null()),
            Some(1),
            "{arguments}"
        );
        assert_eq!(
            status(&folder, arguments, Stdio::null(), Stdio::null()),
            Some(0)
        );
    }
}
