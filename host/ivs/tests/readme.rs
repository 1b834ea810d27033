//! README's examples of linking are those that are compiled and run; its refusals and the
//! header's are those that are given.

use std::fs;
use std::path::Path;

fn file(name: &str) -> String {
    let root = Path::new(env!("CARGO_MANIFEST_DIR")).join("../..");
    fs::read_to_string(root.join(name)).unwrap()
}

/// README shows these lines, one after another, as an indented block.
fn shown<'a>(lines: impl Iterator<Item = &'a str>) {
    let indent = |line| match line {
        "" => "\n".to_string(),
        line => format!("    {line}\n"),
    };
    let block: String = lines.map(indent).collect();
    assert!(!block.is_empty());
    assert!(
        file("README.md").contains(&block),
        "not in README:\n{block}"
    );
}

/// The function `main` of an example, from its first line on.
fn main_of(name: &str, begins: &str) {
    let source = file(name);
    let (_, main) = source.split_once(begins).unwrap();
    shown(format!("{begins}{main}").trim_end().lines());
}

/// cli/tests/install.rs runs it.
#[test]
fn from_rust() {
    main_of("host/ivs/examples/value.rs", "fn main()");
}

/// cli/tests/install.rs compiles it against the installed library, and runs it.
#[test]
fn from_c() {
    main_of("examples/value.c", "int main(void)");
}

/// The header's numbers are the library's, and README's are the header's.
#[test]
fn lent() {
    let (readme, header) = (file("README.md"), file("include/ivs.h"));
    assert!(header.contains(&format!("#define IVS_PAIRS {}\n", ivs::PAIRS)));
    assert!(header.contains("16 r + min(r, 1,024) x (g + 16 + 3 w), where w is g / 32 rounded up"));
    assert!(readme.contains("16 r + min(r, 1,024) x (g + 16 + 3 w) words"));
    for records in [0_usize, 1, 57, 1_023, 1_024, 1_025, 1_048_576] {
        for regions in [0_usize, 1, 32, 33, 256, 32_767] {
            let shape = regions + 16 + 3 * regions.div_ceil(32);
            let words = 16 * records + records.min(1_024) * shape;
            assert_eq!(ivs::work_words(records, regions), words);
        }
    }
}

#[test]
fn refusals() {
    let (readme, header) = (file("README.md"), file("include/ivs.h"));
    let retired = |number: &u32| *number == 5;
    let build = (1..=14).filter(|number| !retired(number));
    for number in build
        .chain(20..=22)
        .chain(30..=34)
        .chain(40..=43)
        .chain(50..=53)
        .chain(60..=64)
        .chain([73, 74])
    {
        let name = ivs::Refused::bare(number).name();
        assert!(
            readme.contains(&format!("\n| {number} | {name} | ")),
            "{name}"
        );
        assert!(header.contains(&format!("{number} {name}")), "{name}");
    }
}
