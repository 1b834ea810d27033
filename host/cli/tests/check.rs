//! `fenikezo check`, from outside.

mod common;

use common::{ended, folder, TWO_SETS};
use std::fs;

#[test]
fn nothing_is_wrong() {
    let folder = folder("check_fine");
    fs::write(folder.join("text"), TWO_SETS).unwrap();
    let (out, _) = ended(&folder, "check text", 0);
    assert_eq!(
        out,
        "text: a text for 1 axis: 2 regions, 2 sets\n\
         dedup                 42 bytes\n\
         implicit              42 bytes\n\
         nothing is wrong\n"
    );
}

#[test]
fn all_that_is_wrong_with_a_text() {
    let folder = folder("check_text");
    fs::write(
        folder.join("text"),
        "axes 1\nset a=1\nset b\nregion c 1 0 1 2\n",
    )
    .unwrap();
    let (out, said) = ended(&folder, "check text", 1);
    assert_eq!(
        out,
        "text: a text\n\
         wrong: line 2: no region 'a' before this line\n\
         wrong: line 3: 'b' is no NAME=VALUE\n\
         wrong: line 4: '2' is no coordinate from -2 to 1.99994\n\
         wrong: line 4: 'c' has 4 of 3 coordinates; give start, peak and end for the 1 axis\n"
    );
    assert_eq!(said, "");
}

#[test]
fn all_that_is_wrong_with_a_job() {
    let folder = folder("check_job");
    let mut job = [[3; 12], [2; 12]].concat();
    job.extend([3, 0, 0, 0, 0, 0, 0, 0, 0, 0, 0, 9]);
    fs::write(folder.join("job"), &job).unwrap();
    let (out, _) = ended(&folder, "check job --axes 1", 2);
    let lines: Vec<&str> = out.lines().collect();
    assert_eq!(lines[0], "job: a job");
    assert!(lines[1].starts_with("refused: 31 NOT_ZERO at record 0 (byte 0): byte 1 is 0x03"));
    assert!(lines[2].starts_with("refused: 31 NOT_ZERO at record 0 (byte 0): byte 2 is 0x03"));
    assert_eq!(lines.len(), 1 + 11 + 5 + 1 + 1, "{out}");
    assert!(
        lines[17].starts_with("refused: 6 UNKNOWN_REGION at record 1 (byte 12)"),
        "{out}"
    );
    assert!(
        lines[18].starts_with("refused: 31 NOT_ZERO at record 2 (byte 24): byte 11"),
        "{out}"
    );
}

#[test]
fn warnings_and_a_mode_that_refuses() {
    let folder = folder("check_warned");
    fs::write(folder.join("text"), TWO_SETS.replace("0 1 1", "1 0 1")).unwrap();
    let (out, _) = ended(&folder, "check text", 0);
    assert!(
        out.contains("\nwarning: line 2: start, peak and end of 'bold' on axis 0"),
        "{out}"
    );
    fs::write(folder.join("job"), jobs::edges::shapes(1_025).to_bytes()).unwrap();
    let (out, _) = ended(&folder, "check job --axes 1", 0);
    assert!(
        out.contains("\ndedup         refused: 10 SHAPES_FULL: "),
        "{out}"
    );
    assert!(out.ends_with("nothing is wrong\n"), "{out}");
}
