//! Every public function and type of the crate has an example, which the tests of the
//! documentation run.

use std::fs;
use std::path::Path;

/// A line that begins a public item; fields, variants and constants of a kind are told of
/// where they stand.
fn begins(line: &str) -> bool {
    let line = line.trim_start();
    ["pub fn ", "pub const fn ", "pub struct ", "pub enum "]
        .iter()
        .any(|item| line.starts_with(item))
}

/// The doc comment right above a line, attributes left out, has an example.
fn has_example(lines: &[&str]) -> bool {
    let above = lines.iter().rev().map(|line| line.trim_start());
    let mut words = above.skip_while(|line| line.starts_with("#[") || line.ends_with(")]"));
    let mut comment = words.by_ref().take_while(|line| line.starts_with("///"));
    comment.any(|line| line == "/// ```")
}

#[test]
fn every_item_has_an_example() {
    let mut without = Vec::new();
    for file in fs::read_dir(Path::new(env!("CARGO_MANIFEST_DIR")).join("src")).unwrap() {
        let path = file.unwrap().path();
        let name = path.file_name().unwrap().to_str().unwrap().to_string();
        // The calls as they are, and the words: no part of what is public.
        if !name.ends_with(".rs") || ["raw.rs", "wording.rs"].contains(&&*name) {
            continue;
        }
        let text = fs::read_to_string(&path).unwrap();
        let lines: Vec<&str> = text.lines().collect();
        for (at, line) in lines.iter().enumerate() {
            // What is lent is shown by the call that it is lent to.
            let shown = line.starts_with("pub struct Lent<");
            if begins(line) && !shown && !has_example(&lines[..at]) {
                without.push(format!("{name}:{}: {}", at + 1, line.trim()));
            }
        }
    }
    assert!(without.is_empty(), "no example:\n{}", without.join("\n"));
}
