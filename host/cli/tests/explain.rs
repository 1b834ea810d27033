//! `fenikezo explain`, from outside.

mod common;

use common::{done, failed, folder, TWO_SETS};
use std::fs;

#[test]
fn a_set_from_its_line_to_its_row() {
    let folder = folder("explain");
    fs::write(folder.join("text"), format!("{TWO_SETS}set bold=1\n")).unwrap();
    assert_eq!(
        done(&folder, "explain text 0 1"),
        "set 0 (line 4): bold=1\n  \
           id 0, shared with set 2\n  \
           row 1 of subtable 0 (map word 1): bold=1 light=0\n  \
           the row takes 2 bytes; its values alone would take 1\n  \
           it started in group 0 (1 set of bold:1)\n  \
           group 0 (1 set of bold:1) and group 1 (1 set of light:1) were joined, which saved 8 \
           bytes; what they became has the next free number, 2\n  \
           subtable 0 has 2 rows of 2 bytes in columns bold:1 light:1, 14 bytes in all\n\
         \n\
         set 1 (line 5): light=1\n  \
           id 1, of this set alone\n  \
           row 0 of subtable 0 (map word 0): bold=0 light=1\n  \
           the row takes 2 bytes; its values alone would take 1\n  \
           it started in group 1 (1 set of light:1)\n  \
           group 0 (1 set of bold:1) and group 1 (1 set of light:1) were joined, which saved 8 \
           bytes; what they became has the next free number, 2\n  \
           subtable 0 has 2 rows of 2 bytes in columns bold:1 light:1, 14 bytes in all\n"
    );
    let said = done(&folder, "explain text 2 --mode implicit");
    assert!(
        said.contains("\n  id 2, of this set alone\n  row 2 of subtable 0"),
        "{said}"
    );
    assert!(!said.contains("group"), "{said}");
    let said = failed(&folder, "explain text 0 3", 2);
    let why = "64 NO_SET: the job has 3 sets, 0 to 2; ask for one of its sets, counted from 0\n";
    assert!(said.ends_with(why), "{said}");
}

#[test]
fn as_json() {
    let folder = folder("explain_json");
    fs::write(folder.join("text"), TWO_SETS).unwrap();
    assert_eq!(
        done(&folder, "explain text 0 --json"),
        "{\"mode\": \"dedup\", \"sets\": [{\"set\": 0, \"line\": 4, \"values\": {\"bold\": 1}, \
         \"id\": 0, \"shared_with\": [], \"outer\": 0, \"inner\": 1, \"word\": 1, \"row\": \
         {\"bold\": 1, \"light\": 0}, \"row_bytes\": 2, \"own_bytes\": 1, \"group\": 0, \"merges\": \
         [{\"first\": 0, \"second\": 1, \"joined\": 2, \"gain\": 8}], \"subtable\": {\"outer\": 0, \
         \"group\": 2, \"rows\": 2, \"row_bytes\": 2, \"bytes\": 14, \"columns\": [{\"region\": \
         \"bold\", \"bytes\": 1}, {\"region\": \"light\", \"bytes\": 1}]}}]}\n"
    );
}

/// The row that is told is the row that the store has.
#[test]
fn rows_are_the_stores() {
    let folder = folder("explain_rows");
    let text = "axes 1\nregion a 0 1 1\nregion b -1 -1 0\nregion c 0 1 1\nregion d 0 0.5 1\n\
                set d=0 c=70000\nset a=70000\nset b=-3 a=1\nset\nset b=0\n";
    fs::write(folder.join("text"), text).unwrap();
    done(&folder, "build text -o store");
    for set in 0..5 {
        let said = done(&folder, &format!("explain text {set}"));
        let row = said
            .lines()
            .find(|line| line.starts_with("  row "))
            .unwrap();
        let words: Vec<&str> = row.split_whitespace().collect();
        let (inner, outer) = (words[1], words[4]);
        let shown = done(&folder, "show store --names text --json");
        for pair in &words[8.min(words.len())..] {
            let Some((name, value)) = pair.split_once('=') else {
                continue;
            };
            // Of two regions of the same coordinates the first that a value names is told.
            let region = match name {
                "c" => 0,
                "b" => 1,
                other => panic!("{other}: {shown}"),
            };
            let read = done(&folder, &format!("read store {outer} {inner} {region}"));
            assert_eq!(read.trim(), value, "{said}");
        }
    }
    let said = done(&folder, "explain text 3");
    assert!(said.contains("shared with set 4"), "{said}");
}
