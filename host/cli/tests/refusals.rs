//! What `fenikezo` says of a job that the library refuses at a record: number, name, place,
//! what stands there, what was due, what to do.

use std::fs;
use std::path::{Path, PathBuf};
use std::process::Command;

const REGION: [u8; 12] = [1, 0, 0, 0, 0, 0, 0x40, 0, 0x40, 0, 0, 0];
const VALUE: [u8; 12] = [2, 0, 0, 0, 0, 0, 0, 5, 0, 0, 0, 0];
const END: [u8; 12] = [3, 0, 0, 0, 0, 0, 0, 0, 0, 0, 0, 0];

/// The record with some bytes changed.
fn with(mut record: [u8; 12], bytes: &[(usize, u8)]) -> [u8; 12] {
    for &(at, byte) in bytes {
        record[at] = byte;
    }
    record
}

/// What `fenikezo build` says of these records, behind the file's name.
fn said(test: &str, axes: u32, records: &[[u8; 12]]) -> String {
    said_with(&[], test, axes, records)
}

/// The same with more words on the command line.
fn said_with(words: &[&str], test: &str, axes: u32, records: &[[u8; 12]]) -> String {
    let folder = Path::new(env!("CARGO_TARGET_TMPDIR"));
    let file: PathBuf = folder.join(format!("refusals_{test}.job"));
    fs::write(&file, records.concat()).unwrap();
    let output = Command::new(env!("CARGO_BIN_EXE_fenikezo"))
        .args(["build", &format!("--axes={axes}")])
        .args(words)
        .arg(&file)
        .output()
        .unwrap();
    let said = String::from_utf8(output.stderr).unwrap();
    assert_eq!(output.status.code(), Some(2), "{said}");
    let head = format!("fenikezo: {}: refused: ", file.display());
    said.strip_prefix(&head)
        .expect(&said)
        .trim_end()
        .to_string()
}

#[test]
fn an_unknown_kind() {
    assert_eq!(
        said("kind", 1, &[REGION, with(END, &[(0, 0x1F), (5, 1)])]),
        "30 UNKNOWN_KIND at record 1 (byte 12): byte 0, the kind, is 0x1F and must be 1 (axis), \
         2 (value) or 3 (end); look whether bytes were lost or added before it"
    );
}

#[test]
fn the_byte_that_is_not_zero() {
    assert_eq!(
        said("axis", 1, &[REGION, with(REGION, &[(10, 0x20), (11, 1)])]),
        "31 NOT_ZERO at record 1 (byte 12): byte 10 is 0x20 and must be 0: an axis record has \
         nothing behind its coordinates; write 0 there"
    );
    assert_eq!(
        said("value", 1, &[REGION, with(VALUE, &[(2, 7)])]),
        "31 NOT_ZERO at record 1 (byte 12): byte 2 is 0x07 and must be 0: a value record has \
         nothing between the two bytes of its region; write 0 there"
    );
    assert_eq!(
        said("end", 1, &[REGION, END, with(END, &[(1, 0xFF)])]),
        "31 NOT_ZERO at record 2 (byte 24): byte 1 is 0xFF and must be 0: an end record has \
         nothing but its kind; write 0 there"
    );
}

#[test]
fn an_axis_record_out_of_turn() {
    let second = with(REGION, &[(2, 1)]);
    let next = with(REGION, &[(1, 1)]);
    assert_eq!(
        said("turn", 2, &[REGION, second, next, next]),
        "32 AXIS_OUT_OF_TURN at record 3 (byte 36): region 1 axis 0 stands here, region 1 axis 1 \
         was due; write all axes of region 0, all of region 1 and so on; is the axis count the \
         job's?"
    );
    // Late as well, and not the next.
    let late = said("late_turn", 1, &[REGION, VALUE, END, REGION]);
    let stands =
        "32 AXIS_OUT_OF_TURN at record 3 (byte 36): region 0 axis 0 stands here, region 1 \
                  axis 0 was due; ";
    assert!(late.starts_with(stands), "{late}");
}

#[test]
fn another_axis_count() {
    let second = with(REGION, &[(2, 1)]);
    let of = |region| [with(REGION, &[(1, region)]), with(second, &[(1, region)])];
    let job = [&of(0)[..], &of(1), &[END]].concat();
    let axes = "the job looks as if written for 2 axes";
    assert_eq!(
        said("two", 1, &job),
        format!(
            "32 AXIS_OUT_OF_TURN at record 1 (byte 12): region 0 axis 1 stands here, region 1 \
             axis 0 was due; {axes}"
        )
    );
    assert!(said("two_of_three", 3, &job).ends_with(axes));
    assert_eq!(
        said("one", 2, &[REGION, VALUE, END]),
        "34 REGION_UNFINISHED at record 1 (byte 12): a value stands here, region 0 axis 1 was \
         due; the job looks as if written for 1 axis"
    );
}

#[test]
fn an_axis_record_too_late() {
    assert_eq!(
        said("late", 1, &[REGION, VALUE, END, with(REGION, &[(1, 1)])]),
        "33 AXIS_TOO_LATE at record 3 (byte 36): region 1 axis 0 stands here, and the sets began \
         at record 1; write the axis records of all regions before the first set"
    );
}

#[test]
fn a_region_that_lacks_an_axis() {
    let second = with(REGION, &[(2, 1)]);
    let next = with(REGION, &[(1, 1)]);
    assert_eq!(
        said("lacks", 2, &[REGION, second, next, END]),
        "34 REGION_UNFINISHED at record 3 (byte 36): an end stands here, region 1 axis 1 was due; \
         write every axis of a region; is the axis count the job's?"
    );
}

#[test]
fn regions_and_ends() {
    assert_eq!(
        said("unknown", 1, &[REGION, with(VALUE, &[(1, 7)])]),
        "6 UNKNOWN_REGION at record 1 (byte 12): region 7 is named, and the job has one, region \
         0; add the region's axis records, or name another"
    );
    let twin = with(REGION, &[(1, 1)]);
    assert_eq!(
        said("twice", 1, &[REGION, twin, VALUE, with(VALUE, &[(1, 1)])]),
        "7 REGION_TWICE at record 3 (byte 36): region 1 is named, and record 2 of this set has \
         named region 0, of the same coordinates; keep one value for each region in a set, zeros \
         counted"
    );
    assert_eq!(
        said("open", 1, &[REGION, VALUE]),
        "8 UNFINISHED after record 2 (byte 24): the last set has no end record; add the end record \
         or the axis records that are missing"
    );
}

#[test]
fn what_the_panel_does_not_take() {
    let panel = ["--profile=panel"];
    let long = with(VALUE, &[(5, 1)]);
    assert_eq!(
        said_with(&panel, "long", 1, &[REGION, long, END]),
        "70 LONG_VALUE at record 1 (byte 12): the value of region 0 is 65541, and the panel's \
         reader takes -32768 to 32767; build without the profile, or make the value smaller"
    );
    // From -0.5 to 1, with the peak at 1.
    let around = with(REGION, &[(4, 0xE0)]);
    assert_eq!(
        said_with(&panel, "around", 1, &[around, VALUE, END]),
        "71 BAD_REGION at record 0 (byte 0): region 0 axis 0 has start -0.5, peak 1, end 1: \
         0 lies inside, and the peak is elsewhere; keep start <= peak <= end within -1 to 1, \
         and the peak at 0 where start is below 0 and end above"
    );
}
