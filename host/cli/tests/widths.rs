//! `fenikezo widths`, from outside.

use ivs::{JobWriter, Reading};
use std::fs;
use std::path::{Path, PathBuf};
use std::process::{Command, Output};

fn folder(test: &str) -> PathBuf {
    let folder = Path::new(env!("CARGO_TARGET_TMPDIR")).join(test);
    let _ = fs::remove_dir_all(&folder);
    fs::create_dir_all(&folder).unwrap();
    folder
}

/// A glyph for each value, wider by it where the font is bold.
fn job(values: impl Iterator<Item = i32>) -> Vec<u8> {
    let mut job = JobWriter::new(1);
    let bold = job.region(&[(0, 0x4000, 0x4000)]).unwrap();
    for value in values {
        job.set(&[(bold, value)]).unwrap();
    }
    job.finish()
}

fn run(folder: &Path, arguments: &str) -> Output {
    Command::new(env!("CARGO_BIN_EXE_fenikezo"))
        .args(arguments.split_whitespace())
        .current_dir(folder)
        .output()
        .unwrap()
}

fn done(folder: &Path, arguments: &str) -> String {
    let output = run(folder, arguments);
    let said = String::from_utf8_lossy(&output.stderr).into_owned();
    assert_eq!(output.status.code(), Some(0), "{arguments}: {said}");
    String::from_utf8(output.stdout).unwrap()
}

/// Two widths and many glyphs: a map is smaller. All widths apart: the rows alone are.
#[test]
fn the_smaller_table_is_written() {
    let folder = folder("smaller");
    for (values, mode) in [(2, "dedup"), (400, "implicit")] {
        let value = |glyph: u32| (glyph % values) as i32 * 300 - 299;
        fs::write(folder.join("job"), job((0..400).map(value))).unwrap();
        let said = done(&folder, "widths job --axes 1 -o hvar");
        let written: Vec<&str> = said
            .lines()
            .filter(|line| line.ends_with("written"))
            .collect();
        assert!(written.len() == 1 && written[0].starts_with(mode), "{said}");
        let table = fs::read(folder.join("hvar")).unwrap();
        let sizes = said
            .lines()
            .map(|line| line.split_whitespace().nth(1).unwrap());
        let sizes: Vec<usize> = sizes.map(|size| size.parse().unwrap()).collect();
        assert_eq!(sizes.iter().min(), Some(&table.len()));
        for glyph in 0..400 {
            let read = ivs::read_width(&table, glyph, 0);
            assert_eq!(read, Ok(Reading::Written(value(glyph))));
        }
        for (mode, size) in ["dedup", "implicit"].into_iter().zip(sizes) {
            done(
                &folder,
                &format!("widths job --axes 1 -o hvar --mode {mode}"),
            );
            assert_eq!(fs::read(folder.join("hvar")).unwrap().len(), size);
        }
    }
}

/// 65,536 glyphs are too many for mode 1, and the other mode is taken; where it is fixed,
/// or no mode will do, the refusal is given.
#[test]
fn a_mode_that_is_refused() {
    let folder = folder("refused");
    fs::write(folder.join("job"), job((0..65_536).map(|glyph| glyph % 3))).unwrap();
    let said = done(&folder, "widths job --axes 1 -o hvar");
    assert!(said.contains("refused: 9 SETS_FULL"), "{said}");
    fs::remove_file(folder.join("hvar")).unwrap();
    let output = run(&folder, "widths job --axes 1 -o hvar --mode implicit");
    let said = String::from_utf8(output.stderr).unwrap();
    assert!(
        output.status.code() == Some(2) && said.contains("9 SETS_FULL"),
        "{said}"
    );
    fs::write(folder.join("job"), &job([1].into_iter())[..12 * 2]).unwrap();
    let output = run(&folder, "widths job --axes 1 -o hvar");
    let said = String::from_utf8(output.stderr).unwrap();
    assert!(
        output.status.code() == Some(2) && said.contains("8 UNFINISHED"),
        "{said}"
    );
    assert!(!folder.join("hvar").exists());
}

#[test]
fn the_table_on_standard_output_is_not_spoiled() {
    let folder = folder("standard");
    fs::write(folder.join("job"), job([5, -300, 5].into_iter())).unwrap();
    let output = run(&folder, "widths job --axes 1 -o -");
    assert_eq!(
        ivs::read_width(&output.stdout, 1, 0),
        Ok(Reading::Written(-300))
    );
    assert!(String::from_utf8(output.stderr)
        .unwrap()
        .contains("written"));
}

/// README shows the sizes of the job that ships.
#[test]
fn readme_shows_the_sizes() {
    let root = Path::new(env!("CARGO_MANIFEST_DIR")).join("../..");
    let folder = folder("shown");
    fs::copy(
        root.join("examples/two-sets.job"),
        folder.join("two-sets.job"),
    )
    .unwrap();
    let arguments = "widths two-sets.job --axes 1 -o HVAR";
    let said = format!("$ fenikezo {arguments}\n{}", done(&folder, arguments));
    let block: String = said.lines().map(|line| format!("    {line}\n")).collect();
    let readme = fs::read_to_string(root.join("README.md")).unwrap();
    assert!(readme.contains(&block), "not in README:\n{block}");
}
