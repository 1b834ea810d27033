//! The program `fenikezo`, from outside.

use std::fs;
use std::io::Write;
use std::path::{Path, PathBuf};
use std::process::{Command, Output, Stdio};

/// A folder of a test's own, empty.
fn folder(test: &str) -> PathBuf {
    let folder = Path::new(env!("CARGO_TARGET_TMPDIR")).join(test);
    let _ = fs::remove_dir_all(&folder);
    fs::create_dir_all(&folder).unwrap();
    folder
}

fn example(name: &str) -> Vec<u8> {
    let examples = Path::new(env!("CARGO_MANIFEST_DIR")).join("../../examples");
    fs::read(examples.join(name)).unwrap()
}

/// Runs the program in a folder, with bytes for its standard input.
fn run(folder: &Path, arguments: &str, input: &[u8]) -> Output {
    let mut child = Command::new(env!("CARGO_BIN_EXE_fenikezo"))
        .args(arguments.split_whitespace())
        .current_dir(folder)
        .stdin(Stdio::piped())
        .stdout(Stdio::piped())
        .stderr(Stdio::piped())
        .spawn()
        .unwrap();
    // A program that never asks for its input may have left already.
    let _ = child.stdin.take().unwrap().write_all(input);
    child.wait_with_output().unwrap()
}

/// What a command that does its work prints.
fn done(folder: &Path, arguments: &str) -> String {
    let output = run(folder, arguments, &[]);
    let said = String::from_utf8(output.stderr).unwrap();
    assert_eq!(output.status.code(), Some(0), "{arguments}: {said}");
    String::from_utf8(output.stdout).unwrap()
}

/// What a command that does not do it says.
fn failed(folder: &Path, arguments: &str, status: i32) -> String {
    let output = run(folder, arguments, &[]);
    assert_eq!(output.status.code(), Some(status), "{arguments}");
    assert_eq!(output.stdout, b"", "{arguments}");
    String::from_utf8(output.stderr).unwrap()
}

fn files(folder: &Path) -> Vec<String> {
    let name = |entry: std::io::Result<fs::DirEntry>| entry.unwrap().file_name();
    let mut names: Vec<String> = fs::read_dir(folder)
        .unwrap()
        .map(|entry| name(entry).into_string().unwrap())
        .collect();
    names.sort();
    names
}

#[test]
fn from_text_to_a_value_read_back() {
    let folder = folder("from_text");
    fs::write(folder.join("text"), example("two-sets.txt")).unwrap();
    done(&folder, "pack text -o job");
    assert_eq!(
        fs::read(folder.join("job")).unwrap(),
        example("two-sets.job")
    );
    let table = done(
        &folder,
        "build job --axes 1 -o store --ids ids --map map --log log --origins origins",
    );
    assert!(table.starts_with("bytes                 42\n"), "{table}");
    let text = |name: &str| fs::read_to_string(folder.join(name)).unwrap();
    assert_eq!(text("ids"), "0\n1\n");
    assert_eq!(text("map"), "1\n0\n");
    assert_eq!(text("log"), "0 1 8\n");
    assert_eq!(text("origins"), "0 0\n1 0\n");
    assert_eq!(done(&folder, "read store 0 1 0"), "1\n");
    assert_eq!(done(&folder, "read store 0 1 1"), "0\n");
    let shown = done(&folder, "show store");
    assert!(shown.contains("subtable 0: 2 rows of 2 bytes"), "{shown}");
    let all = ["ids", "job", "log", "map", "origins", "store", "text"];
    assert_eq!(files(&folder), all);
}

#[test]
fn numbers_as_json() {
    let folder = folder("json");
    fs::write(folder.join("job"), example("two-sets.job")).unwrap();
    let json = done(&folder, "build job --axes 1 --mode implicit --json");
    assert_eq!(
        json,
        "{\"bytes\": 42, \"subtables\": 1, \"regions\": 2, \"ids\": 2, \"shapes\": 0, \
         \"merges\": 0, \"pairs\": 0, \"size_before\": 18, \"size_after\": 18, \"forecast\": 42, \
         \"origins\": []}\n"
    );
    let json = done(&folder, "build job --axes 1 --json");
    assert!(json.ends_with("\"origins\": [[0, 0], [1, 0]]}\n"), "{json}");
}

/// The text of a job in a file `job` of the folder.
fn packed(folder: &Path, text: &str) {
    fs::write(folder.join("text"), text).unwrap();
    done(folder, "pack text -o job");
}

#[test]
fn a_forecast_of_both_modes() {
    let folder = folder("forecast");
    // Twelve equal sets, of which mode 0 has one row.
    let sets = "set a=1 b=70000\n".repeat(12);
    packed(
        &folder,
        &format!("axes 1\nregion a 0 1 1\nregion b -1 -1 0\n{sets}"),
    );
    let told = done(&folder, "forecast job --axes 1");
    let lines: Vec<&str> = told.lines().collect();
    assert_eq!(lines[0], "                   dedup   implicit");
    assert_eq!(lines[1], "bytes                 44        110");
    assert_eq!(lines[4], "ids                    1         12");
    assert_eq!(lines[10], "dedup is smaller, by 66 bytes");
    for (mode, bytes) in [("dedup", 44), ("implicit", 110)] {
        let built = done(&folder, &format!("build job --axes 1 --mode {mode} --json"));
        assert!(
            built.starts_with(&format!("{{\"bytes\": {bytes}, ")),
            "{built}"
        );
        let told = done(&folder, "forecast job --axes 1 --json");
        let counts = built.split(", \"origins\"").next().unwrap();
        let alike = format!("\"{mode}\": {counts}}}");
        assert!(told.contains(&alike), "{told}");
        assert!(told.ends_with(", \"smaller\": \"dedup\"}\n"), "{told}");
    }
    assert_eq!(files(&folder), ["job", "text"]);
}

/// 1,025 shapes are for mode 1 alone, 65,536 sets for mode 0.
#[test]
fn a_forecast_where_one_mode_refuses() {
    let folder = folder("forecast_refused");
    fs::write(folder.join("job"), jobs::edges::shapes(1_025).to_bytes()).unwrap();
    let told = done(&folder, "forecast job --axes 1");
    assert!(
        told.contains("\nsubtables              -          1\n"),
        "{told}"
    );
    let last = "\ndedup is refused: 10 SHAPES_FULL: the sets have more than 1,024 shapes, \
                too many for --mode dedup; --mode implicit takes them\n";
    assert!(told.ends_with(last), "{told}");
    let told = done(&folder, "forecast job --axes 1 --json");
    let refused = "{\"dedup\": {\"refused\": 10, \"name\": \"SHAPES_FULL\", \"place\": 0, \
                   \"byte\": 0, \"words\": \"10 SHAPES_FULL: ";
    assert!(told.starts_with(refused), "{told}");
    assert!(told.ends_with(", \"smaller\": \"implicit\"}\n"), "{told}");
    fs::write(
        folder.join("job"),
        jobs::edges::one_shape(65_536).to_bytes(),
    )
    .unwrap();
    let told = done(&folder, "forecast job --axes 1");
    assert!(
        told.contains("\nsubtables              2          -\n"),
        "{told}"
    );
    let last = "\nimplicit is refused: 9 SETS_FULL at record 131072 (byte 1572864): ";
    assert!(told.contains(last), "{told}");
}

#[test]
fn a_forecast_where_both_refuse() {
    let folder = folder("forecast_both");
    fs::write(folder.join("job"), &example("two-sets.job")[..5 * 12]).unwrap();
    let said = failed(&folder, "forecast job --axes 1", 2);
    let why = "fenikezo: job: refused: 8 UNFINISHED after record 5 (byte 60): the last set has \
               no end record; ";
    assert!(said.starts_with(why), "{said}");
}

#[test]
fn where_two_sets_part() {
    let folder = folder("part");
    let text = "axes 2\nregion light -1 -1 0 0 0.5 1\nregion bold 0 1 1 0 0 0\n\
                set bold=10 light=7\nset light=7 bold=-3\nset light=7 bold=10\nset light=7\n";
    packed(&folder, text);
    let alike = "set 0 and set 2 are equal\n";
    assert_eq!(done(&folder, "part text 0 2"), alike);
    assert_eq!(done(&folder, "part job 0 2 --axes 2"), alike);
    let named = "set 0 and set 1 part at bold (0 1 1, 0 0 0): 10 and -3\n";
    assert_eq!(done(&folder, "part text 0 1"), named);
    let numbered = "set 3 and set 0 part at r1 (0 1 1, 0 0 0): 0 and 10\n";
    assert_eq!(done(&folder, "part job 3 0 --axes 2"), numbered);
    for file in ["text", "job --axes 2"] {
        let said = failed(&folder, &format!("part {file} 0 4"), 2);
        let why = "64 NO_SET: the job has 4 sets, 0 to 3; ask for two of its sets, counted from 0";
        assert!(said.contains(why), "{said}");
    }
    let said = failed(&folder, "part job 0 1", 1);
    assert_eq!(
        said,
        "fenikezo: job is a job: say --axes N (it looks like 2)\n"
    );
    let said = failed(&folder, "part job 0 1 --axes 1", 2);
    assert!(
        said.ends_with("; the job looks as if written for 2 axes\n"),
        "{said}"
    );
    assert_eq!(files(&folder), ["job", "text"]);
}

#[test]
fn a_refusal_is_2_and_leaves_no_file() {
    let folder = folder("refusal");
    let mut job = example("two-sets.job");
    job.truncate(5 * 12);
    fs::write(folder.join("job"), job).unwrap();
    fs::write(folder.join("ids"), "before").unwrap();
    let said = failed(&folder, "build job --axes 1 -o store --ids ids", 2);
    assert!(
        said.contains("8 UNFINISHED after record 5 (byte 60)"),
        "{said}"
    );
    assert!(said.contains("add the end record"), "{said}");
    assert_eq!(files(&folder), ["ids", "job"]);
    assert_eq!(fs::read(folder.join("ids")).unwrap(), b"before");
    failed(&folder, "show job --axes 1", 2);
    failed(&folder, "read job 0 0 0", 2);
}

#[test]
fn anything_else_is_1_and_leaves_no_file() {
    let folder = folder("anything_else");
    fs::write(folder.join("job"), example("two-sets.job")).unwrap();
    fs::write(folder.join("text"), "axes 1\nset a=1\n").unwrap();
    failed(&folder, "build nothing --axes 1 -o store", 1);
    failed(&folder, "build job -o store", 1);
    failed(&folder, "build job --axes 1 -o store --ids no/ids", 1);
    failed(&folder, "build job --axes 1 -o store --ids store", 1);
    failed(&folder, "build job --axes 1 -o store --ids ./store", 1);
    failed(&folder, "build job --axes 1 -o store --ids .", 1);
    failed(&folder, "show job", 1);
    let said = failed(&folder, "pack text -o packed", 1);
    assert!(
        said.contains("text: line 2: no region 'a' before this line"),
        "{said}"
    );
    assert_eq!(files(&folder), ["job", "text"]);
}

#[test]
fn text_and_job_are_inverse() {
    let folder = folder("inverse");
    let text = "axes 2\n\
                region r0 0 1 1 -1 -0.5 0\n\
                region r1 -2 0.3333 1.99994 0 0 0\n\
                set r1=-2147483648 r0=2147483647\n\
                set\n\
                set r0=0\n";
    let dressed = format!("# a comment\n\n{}", text.replace(' ', "   "));
    fs::write(folder.join("text"), dressed).unwrap();
    done(&folder, "pack text -o job");
    assert_eq!(done(&folder, "show --text job --axes 2"), text);
    let again = run(&folder, "pack - -o -", text.as_bytes());
    assert_eq!(again.stdout, fs::read(folder.join("job")).unwrap());
}

#[test]
fn a_store_on_standard_output_is_alone_there() {
    let folder = folder("standard");
    let output = run(&folder, "build - --axes 1 -o -", &example("two-sets.job"));
    assert_eq!(output.status.code(), Some(0));
    assert_eq!(output.stdout.len(), 42);
    fs::write(folder.join("store"), &output.stdout).unwrap();
    assert!(done(&folder, "show store").starts_with("store: 42 bytes, 1 axis,"));
}

#[test]
fn widths_of_a_shown_store() {
    let folder = folder("widths");
    let text = "axes 1\nregion a 0 1 1\nregion b -1 -1 0\nset a=-100 b=-70000\n";
    fs::write(folder.join("text"), text).unwrap();
    done(&folder, "pack text -o job");
    done(&folder, "build job --axes 1 -o store");
    let shown = done(&folder, "show store");
    let words: Vec<&str> = shown.split_whitespace().collect();
    let end = ["row", "#1:4", "#0:2", "0", "-70000", "-100"];
    assert_eq!(words[words.len() - end.len()..], end);
}
