//! `fenikezo batch`, from outside.

mod common;

use common::{done, ended, failed, folder, names, TWO_SETS};
use std::fs;
use std::path::Path;

fn fill(folder: &Path) {
    fs::create_dir(folder.join("jobs")).unwrap();
    let put = |name: &str, bytes: &[u8]| fs::write(folder.join("jobs").join(name), bytes).unwrap();
    put("a.txt", TWO_SETS.as_bytes());
    put("b.job", &[4; 12]);
    put("c.txt", b"axes 1\nset x=1\nset y=1\n");
    put(
        "e.txt",
        format!("{TWO_SETS}{}", "set bold=1\n".repeat(20)).as_bytes(),
    );
    put("notes.md", b"no job");
    done(folder, "pack jobs/a.txt -o jobs/d.job");
}

const SAID: &str = "jobs/a.txt: 42 bytes, dedup\n\
    jobs/b.job: refused: 30 UNKNOWN_KIND at record 0 (byte 0): byte 0, the kind, is 0x04 and must \
    be 1 (axis), 2 (value) or 3 (end); look whether bytes were lost or added before it\n\
    jobs/c.txt: line 2: no region 'x' before this line\n\
    jobs/c.txt: line 3: no region 'y' before this line\n\
    jobs/d.job: 42 bytes, dedup\n\
    jobs/e.txt: 42 bytes, dedup\n\
    5 jobs: 3 done, 1 refused, 1 wrong\n";

#[test]
fn the_others_are_done() {
    let folder = folder("batch");
    fill(&folder);
    for jobs in ["--jobs 1", "--jobs 3", ""] {
        let arguments = format!("batch jobs -o stores --axes 1 {jobs}");
        let (out, said) = ended(&folder, &arguments, 1);
        assert_eq!((out.as_str(), said.as_str()), (SAID, ""));
        assert_eq!(
            names(&folder.join("stores")),
            ["a.store", "d.store", "e.store"]
        );
        done(&folder, "build jobs/a.txt -o store");
        let store = fs::read(folder.join("store")).unwrap();
        assert_eq!(fs::read(folder.join("stores/d.store")).unwrap(), store);
        fs::remove_dir_all(folder.join("stores")).unwrap();
    }
}

#[test]
fn the_status_says_what_was_wrong() {
    let folder = folder("batch_status");
    fill(&folder);
    fs::remove_file(folder.join("jobs/c.txt")).unwrap();
    ended(&folder, "batch jobs --axes 1", 2);
    fs::remove_file(folder.join("jobs/b.job")).unwrap();
    // A job's axis count is the one that it looks like.
    let (out, _) = ended(&folder, "batch jobs --mode implicit", 0);
    assert!(out.starts_with("jobs/a.txt: 42 bytes, implicit\n"), "{out}");
    assert!(
        out.ends_with("3 jobs: 3 done, 0 refused, 0 wrong\n"),
        "{out}"
    );
    fs::write(folder.join("jobs/a.job"), "").unwrap();
    let said = failed(&folder, "batch jobs -o stores", 1);
    assert_eq!(said, "fenikezo: two jobs of jobs would be a.store\n");
    failed(&folder, "batch nothing", 1);
    fs::create_dir(folder.join("none")).unwrap();
    assert_eq!(
        done(&folder, "batch none"),
        "0 jobs: 0 done, 0 refused, 0 wrong\n"
    );
}

#[test]
fn as_json() {
    let folder = folder("batch_json");
    fill(&folder);
    let (out, _) = ended(&folder, "batch jobs -o stores --axes 1 --json", 1);
    let first = "{\"jobs\": [{\"file\": \"jobs/a.txt\", \"mode\": \"dedup\", \"bytes\": 42, \
                 \"store\": \"stores/a.store\"}, {\"file\": \"jobs/b.job\", \"refused\": 30, ";
    assert!(out.starts_with(first), "{out}");
    assert!(
        out.contains("{\"file\": \"jobs/c.txt\", \"wrong\": [{\"line\": 2, "),
        "{out}"
    );
    assert!(
        out.ends_with("], \"done\": 3, \"refused\": 1, \"wrong\": 1}\n"),
        "{out}"
    );
}

/// A bar is drawn on a terminal alone; `script` makes one.
#[test]
fn a_bar_on_a_terminal() {
    let folder = folder("batch_bar");
    fill(&folder);
    let program = env!("CARGO_BIN_EXE_fenikezo");
    let run = |error: &str| {
        let line = format!("stty cols 80; {program} batch jobs --axes 1 >out {error}");
        let output = std::process::Command::new("script")
            .args(["-qec", &line, "/dev/null"])
            .current_dir(&folder)
            .output()
            .expect("util-linux is there");
        assert_eq!(fs::read_to_string(folder.join("out")).unwrap(), SAID);
        String::from_utf8_lossy(&output.stdout).into_owned()
    };
    assert!(run("").contains(" of 5"));
    assert_eq!(run("2>/dev/null"), "");
}
