//! `fenikezo recover`, `judge` and `keep`: what they write, what they say, and their statuses.

mod common;

use common::{command, done, ended, failed, folder, names};
use std::fs;
use std::path::Path;

const TEXT: &str = "axes 1\nregion bold 0 1 1\nregion light -1 -1 0\nset bold=12 light=-8\n\
                    set bold=14\nset light=-300\nset bold=12 light=-8\n";

/// A text, its job, and its store with the row of each set.
fn fill(folder: &Path) {
    fs::write(folder.join("text"), TEXT).unwrap();
    done(folder, "pack text -o job");
    done(folder, "build text -o store --words words");
}

#[test]
fn recovered_as_bytes_and_as_text() {
    let folder = folder("recovered");
    fill(&folder);
    let said = done(&folder, "recover store -o again");
    let table = "axes                   1\nregions                2\nsets                   3\n\
                 bytes                108\n";
    assert_eq!(said, table);
    done(&folder, "recover store -o again.txt --text");
    let text = fs::read_to_string(folder.join("again.txt")).unwrap();
    let due =
        "axes 1\nregion r0 0 1 1\nregion r1 -1 -1 0\nset r1=-300\nset r1=-8 r0=12\nset r0=14\n";
    assert_eq!(text, due);
    // The text is the job's, and what is built of it gives the old store's sets.
    done(&folder, "pack again.txt -o packed");
    let job = fs::read(folder.join("again")).unwrap();
    assert_eq!(fs::read(folder.join("packed")).unwrap(), job);
    done(&folder, "build again.txt -o anew --words anew.words");
    done(&folder, "judge again.txt anew anew.words");
    fs::write(folder.join("rows"), "0\n1\n2\n").unwrap();
    done(&folder, "judge again.txt store rows");
    // The numbers go beside a job on standard output.
    let (out, said) = ended(&folder, "recover store -o - --text", 0);
    assert_eq!(out, due);
    assert!(said.starts_with("axes "), "{said}");
}

#[test]
fn judged_yes_and_no() {
    let folder = folder("judged");
    fill(&folder);
    assert_eq!(
        done(&folder, "judge text store words"),
        "yes: store gives 4 sets of text\n"
    );
    assert_eq!(
        done(&folder, "judge job store words --axes 1"),
        "yes: store gives 4 sets of job\n"
    );
    let no = |words: &str, said: &str| {
        fs::write(folder.join("other"), words).unwrap();
        let (out, error) = ended(&folder, "judge text store other", 3);
        assert_eq!((out, error), (format!("no: {said}\n"), String::new()));
    };
    no(
        "1\n2\n1\n1\n",
        "set 2 (line 6): row 1 of subtable 0 reads -8 for light (-1 -1 0) and should read -300",
    );
    no(
        "1\n1\n0\n1\n",
        "set 1 (line 5): row 1 of subtable 0 reads 12 for bold (0 1 1) and should read 14",
    );
    no(
        "1\n2\n0\n",
        "set 3 (line 7): it has no row: the list has 3 rows",
    );
    no(
        "1\n2\n0 3\n1\n",
        "set 2 (line 6): the store has no row 3 of subtable 0",
    );
    no(
        "1\n2\n1 0 # subtable 1\n1\n",
        "set 2 (line 6): the store has no row 0 of subtable 1",
    );
    // What a row has beside the set's own values.
    fs::write(
        folder.join("bold"),
        "axes 1\nregion bold 0 1 1\nset bold=12\n",
    )
    .unwrap();
    let (out, _) = ended(&folder, "judge bold store words", 3);
    let said =
        "no: set 0 (line 3): row 1 of subtable 0 reads -8 for #1 (-1 -1 0) and should read 0\n";
    assert_eq!(out, said);
}

/// One byte of a row is another: the first set that has the row is named.
#[test]
fn one_changed_byte() {
    let folder = folder("changed_byte");
    fill(&folder);
    let mut store = fs::read(folder.join("store")).unwrap();
    let last = store.len() - 4; // of row 1, the last byte of bold
    store[last] ^= 2;
    fs::write(folder.join("store"), store).unwrap();
    let (out, _) = ended(&folder, "judge text store words", 3);
    let said =
        "no: set 0 (line 4): row 1 of subtable 0 reads 14 for bold (0 1 1) and should read 12\n";
    assert_eq!(out, said);
}

#[test]
fn a_store_that_is_at_fault() {
    let folder = folder("at_fault");
    fill(&folder);
    let good = fs::read(folder.join("store")).unwrap();
    let no = |store: &[u8], said: &str| {
        fs::write(folder.join("bad"), store).unwrap();
        let (out, _) = ended(&folder, "judge text bad words", 3);
        assert_eq!(out, format!("no: the store itself: {said}\n"));
    };
    let cut =
        "the bytes are no item variation store, or end too early; look whether the store was \
               cut off or damaged";
    no(&good[..good.len() - 1], &format!("20 BAD_STORE: {cut}"));
    // A subtable that no set is in.
    let mut more = good.clone();
    more[7] = 2;
    more.splice(12..12, [0, 0, 0, 1]);
    for offset in [5, 11] {
        more[offset] += 4;
    }
    no(&more, "subtable 1 is malformed, or ends too early");
    no(b"", "20 BAD_STORE: the file is empty");
    let mut twice = good.clone();
    let list = u32::from_be_bytes(twice[2..6].try_into().unwrap()) as usize;
    twice.copy_within(list + 4..list + 10, list + 10);
    no(&twice, "its regions #0 and #1 are the same (0 1 1)");
    let two = "axes 2\nregion both 0 1 1 0 0 0\nset both=1\n";
    fs::write(folder.join("two"), two).unwrap();
    let (out, _) = ended(&folder, "judge two store words", 3);
    assert_eq!(out, "no: the store itself: it has 1 axis, and the job 2\n");
}

#[test]
fn kept_with_places() {
    let folder = folder("kept");
    fill(&folder);
    fs::write(folder.join("rows"), "2 # the last\n0 0\n2\n").unwrap();
    let said = done(&folder, "keep store rows -o kept --places places");
    let table = "bytes                 44\nbytes before          47\nsubtables              1\n\
                 regions                2\nrows                   2\n";
    assert_eq!(said, table);
    assert_eq!(
        fs::read_to_string(folder.join("places")).unwrap(),
        "1\n0\n1\n"
    );
    assert_eq!(done(&folder, "read kept 0 1 0"), "14\n");
    assert_eq!(done(&folder, "read kept 0 0 1"), "-300\n");
    // With all its rows nothing changes any more.
    fs::write(folder.join("all"), "0\n1\n").unwrap();
    done(&folder, "keep kept all -o again");
    let kept = fs::read(folder.join("kept")).unwrap();
    assert_eq!(fs::read(folder.join("again")).unwrap(), kept);
}

#[test]
fn what_is_refused_or_wrong() {
    let folder = folder("whole_wrong");
    fill(&folder);
    fs::write(folder.join("rows"), "0\n1\n0 9\n").unwrap();
    fs::write(folder.join("text.rows"), "0\nbold\n").unwrap();
    fs::write(folder.join("bad"), [4; 12]).unwrap();
    let before = names(&folder);
    for (arguments, status, said) in [
        ("keep store rows -o new --places places", 2, "store: refused: 21 NO_ROW: entry 2 of rows, counted from 0, asks for row 9 of subtable 0, which the store has not"),
        ("keep store text.rows -o new", 1, "text.rows: line 2: 'bold' is no row: give outer x 65536 + inner, or both numbers, each up to 65535"),
        ("keep text rows -o new", 2, "text: refused: 20 BAD_STORE: this is the text of a job: 'fenikezo build' makes its store"),
        ("keep store words -o store", 1, "store would be written over: give another output"),
        ("keep store words -o new --places words", 1, "words would be written over: give another output"),
        ("keep store words -o new --places new", 1, "two outputs are to go to new"),
        ("recover store -o store", 1, "store would be written over: give another output"),
        ("recover job -o new", 2, "job: refused: 20 BAD_STORE: this looks like a job: 'fenikezo build' makes its store"),
        ("recover nothing -o new", 1, "cannot read nothing: No such file or directory (os error 2)"),
        ("judge bad store words --axes 1", 2, "bad: refused: 30 UNKNOWN_KIND at record 0 (byte 0): byte 0, the kind, is 0x04 and must be 1 (axis), 2 (value) or 3 (end); look whether bytes were lost or added before it"),
        ("judge job store words", 1, "job is a job: say --axes N (it looks like 1)"),
        ("judge text store text.rows", 1, "text.rows: line 2: 'bold' is no row: give outer x 65536 + inner, or both numbers, each up to 65535"),
    ] {
        assert_eq!(failed(&folder, arguments, status), format!("fenikezo: {said}\n"), "{arguments}");
        assert_eq!(names(&folder), before, "{arguments}");
    }
}

#[test]
fn as_json() {
    let folder = folder("whole_json");
    fill(&folder);
    let said = done(&folder, "recover store -o again --json");
    assert_eq!(
        said,
        "{\"axes\": 1, \"regions\": 2, \"sets\": 3, \"bytes\": 108}\n"
    );
    let said = done(&folder, "keep store words -o kept --json");
    assert_eq!(
        said,
        "{\"bytes\": 47, \"before\": 47, \"subtables\": 1, \"regions\": 2, \"rows\": 3}\n"
    );
    fs::write(folder.join("other"), "1\n").unwrap();
    let (out, _) = ended(&folder, "judge text store other --json", 3);
    let said = "{\"verdict\": \"no\", \"set\": 1, \"line\": 5, \"outer\": null, \"inner\": null, \"region\": null, \
                \"reads\": null, \"should\": null, \"words\": \"set 1 (line 5): it has no row: the list has 1 row\"}\n";
    assert_eq!(out, said);
    let (out, said) = ended(&folder, "keep text words -o new --json", 2);
    assert!(
        out.starts_with("{\"file\": \"text\", \"refused\": 20, "),
        "{out}"
    );
    assert!(
        said.starts_with("fenikezo: text: refused: 20 BAD_STORE"),
        "{said}"
    );
    // A no that cannot be said is no answer.
    let full = command(&folder, "judge text store other")
        .stdout(common::full())
        .status();
    assert_eq!(full.unwrap().code(), Some(1));
}
