//! The man page and the completions have every command and option that `--help` has.

mod common;

use common::{done, folder};
use std::process::Command;

/// The words of a help's part: `-o`, `--out`, `build`.
fn commands(folder: &std::path::Path) -> Vec<String> {
    let help = done(folder, "--help");
    let (_, list) = help.split_once("Commands:\n").unwrap();
    let lines = list.lines().take_while(|line| !line.is_empty());
    let names = lines.filter_map(|line| line.split_whitespace().next());
    names
        .filter(|name| *name != "help")
        .map(str::to_string)
        .collect()
}

fn options(help: &str) -> Vec<String> {
    let words = help.split([' ', ',', '\n', '[', ']']);
    let mut options: Vec<String> = words
        .filter(|word| word.starts_with("--") && *word != "--help")
        .map(str::to_string)
        .collect();
    options.sort();
    options.dedup();
    options
}

#[test]
fn the_man_page_has_them_all() {
    let folder = folder("man");
    let page = done(&folder, "man");
    let plain = page
        .replace("\\-", "-")
        .replace("\\fB", "")
        .replace("\\fR", "");
    for name in commands(&folder) {
        assert!(plain.contains(&format!(".SS \"fenikezo {name}")), "{name}");
        for option in options(&done(&folder, &format!("{name} --help"))) {
            assert!(plain.contains(&option), "{name} {option}");
        }
    }
    assert!(page.starts_with(".TH FENIKEZO 1 "), "{page}");
    // No line is taken for a request that is none.
    let known = [".TH", ".SH", ".SS", ".TP", ".PP", ".nf", ".fi"];
    for line in page.lines().filter(|line| line.starts_with('.')) {
        assert!(known.contains(&line.split(' ').next().unwrap()), "{line}");
    }
}

#[test]
fn completions_have_them_all() {
    let folder = folder("completions");
    for shell in ["bash", "zsh", "fish"] {
        let script = done(&folder, &format!("completions {shell}"));
        for name in commands(&folder) {
            assert!(script.contains(&name), "{shell}: {name}");
        }
        for option in ["axes", "ids", "mode"] {
            assert!(script.contains(option), "{shell}: {option}");
        }
    }
    let asked = "source <(\"$0\" completions bash) && complete -p fenikezo";
    let output = Command::new("bash")
        .args(["-c", asked, env!("CARGO_BIN_EXE_fenikezo")])
        .output()
        .unwrap();
    let said = String::from_utf8(output.stdout).unwrap();
    assert!(said.contains("_fenikezo"), "{said}");
}
