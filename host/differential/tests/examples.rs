//! The worked examples of docs/RULES.md (P1 to P12) with the numbers given there, and the
//! edges (E1 to E4), by the plain reading and by the proved build.

use differential::proved;
use jobs::{edges, examples, hex, Job};
use plain::{number, Done, Refused};

/// The answer to the example of that name.
fn example(name: &str) -> Done {
    let all = examples::all();
    let example = all.iter().find(|e| e.name == name).expect("an example");
    answer(&example.job, example.mode).expect("a done build")
}

fn answer(job: &Job, mode: u32) -> Result<Done, Refused> {
    proved::alike(job.axes as u32, mode, &job.to_bytes())
}

/// One set {R0: a, R1: b}: the word count, the columns' regions and the row.
fn one_subtable(done: &Done, columns: usize) -> (u16, Vec<u8>, Vec<u8>) {
    assert_eq!(done.counts.subtables, 1);
    let at = 12 + 4 + 6 * done.counts.regions_kept as usize;
    let store = &done.store;
    assert_eq!(
        u32::from_be_bytes([store[8], store[9], store[10], store[11]]) as usize,
        at
    );
    let word_count = u16::from_be_bytes([store[at + 2], store[at + 3]]);
    let row = at + 6 + 2 * columns;
    (
        word_count,
        store[at + 6..row].to_vec(),
        store[row..].to_vec(),
    )
}

/// No sets, in both modes.
#[test]
fn p1_and_p2() {
    let p1 = example("P1");
    assert_eq!((p1.counts.store_bytes, p1.counts.subtables), (12, 0));
    assert_eq!(p1.counts.forecast, 12);
    let p2 = example("P2");
    assert_eq!((p2.counts.store_bytes, p2.counts.subtables), (16, 1));
    assert_eq!(p2.store[8..12], [0, 0, 0, 0]);
    assert_eq!(p2.counts.forecast, 16);
}

/// {R0:10}, byte for byte.
#[test]
fn p3() {
    let p3 = example("P3");
    let said = "0001 0000000C 0001 00000016 0001 0001 0000 4000 4000 0001 0000 0001 0000 0A";
    assert_eq!(Some(p3.store), hex::to_bytes(said));
    assert_eq!((p3.counts.store_bytes, p3.map), (31, vec![0]));
}

/// {R0:0}: the row has no bytes.
#[test]
fn p4() {
    let p4 = example("P4");
    assert_eq!((p4.counts.store_bytes, p4.counts.regions_kept), (22, 0));
    assert_eq!(p4.store[16..], [0, 1, 0, 0, 0, 0]);
}

/// {R0:-128, R1:128}: the wider column is first.
#[test]
fn p5() {
    let subtable = one_subtable(&example("P5"), 2);
    assert_eq!(subtable, (1, vec![0, 1, 0, 0], vec![0x00, 0x80, 0x80]));
}

/// 127 takes a byte and -129 two.
#[test]
fn p6() {
    let one = one_subtable(&example("P6, 127"), 1);
    assert_eq!(one, (0, vec![0, 0], vec![0x7F]));
    let two = one_subtable(&example("P6, -129"), 1);
    assert_eq!(two, (1, vec![0, 0], vec![0xFF, 0x7F]));
}

/// {R0:100, R1:70000}: a One beside a Four takes two bytes.
#[test]
fn p7() {
    let p7 = example("P7");
    let row = vec![0x00, 0x01, 0x11, 0x70, 0x00, 0x64];
    assert_eq!(one_subtable(&p7, 2), (0x8001, vec![0, 1, 0, 0], row));
    // Which the forecast knows (A3).
    assert_eq!((p7.counts.forecast, p7.counts.store_bytes), (44, 44));
}

/// {R0:1}, {R1:1}: one merge, and the rows in their order.
#[test]
fn p8() {
    let p8 = example("P8");
    assert_eq!(p8.log, [0, 1, 8]);
    let c = p8.counts;
    assert_eq!((c.size_before, c.size_after, c.store_bytes), (26, 18, 42));
    assert_eq!((p8.ids, p8.map), (vec![0, 1], vec![1, 0]));
}

/// Five sets on R0 and five on R1 gain nothing; five and four gain 1.
#[test]
fn p9_and_p10() {
    let p9 = example("P9").counts;
    assert_eq!((p9.merges, p9.subtables, p9.pairs), (0, 2, 1));
    let p10 = example("P10");
    assert_eq!((p10.counts.merges, p10.counts.subtables), (1, 1));
    assert_eq!(p10.log[2], 1);
}

/// {R0:1} and {R0:1, R1:0} are one set.
#[test]
fn p11() {
    assert_eq!(example("P11").ids, [0, 0]);
}

/// An empty set and {R0:10}: the row of zero is first.
#[test]
fn p12() {
    let p12 = example("P12");
    assert_eq!((p12.log[2], p12.counts.subtables), (9, 1));
    assert_eq!(p12.map, [0, 1]);
    assert_eq!(p12.store[p12.store.len() - 2..], [0, 10]);
}

/// A group of 65,535 sets, and of one more (E1).
#[test]
fn sets_of_one_shape() {
    let one = answer(&edges::one_shape(65_535), 0).expect("done");
    assert_eq!(one.counts.subtables, 1);
    let two = answer(&edges::one_shape(65_536), 0).expect("done");
    assert_eq!(two.counts.subtables, 2);
    assert_eq!(two.map.last(), Some(&0x0001_0000));
    assert_eq!(two.map[65_534], 65_534);
    // The second subtable: 1 item, word count 0x8001, 1 region, and 4 bytes.
    let second = &two.store[two.store.len() - 12..];
    assert_eq!(second[..8], [0, 1, 0x80, 1, 0, 1, 0, 0]);
    // Its offset, head and region are in the forecast (A3).
    let more = two.counts.forecast - one.counts.forecast;
    assert_eq!(more, 4 + 8 + 4);
    assert_eq!(two.counts.forecast, two.counts.store_bytes);
}

/// As many sets in mode 1, and one more (E2). The end record that is refused stands
/// after one axis record and 65,536 values and 65,535 ends.
#[test]
fn sets_of_mode_1() {
    let done = answer(&edges::one_shape(65_535), 1).expect("done");
    assert_eq!(
        (done.counts.subtables, done.counts.distinct_ids),
        (1, 65_535)
    );
    let refused = answer(&edges::one_shape(65_536), 1).expect_err("refused");
    assert_eq!(
        (refused.number, refused.place),
        (number::SETS_FULL, 131_072)
    );
}

/// As many shapes as are taken, and one more (E3).
#[test]
fn shapes() {
    let done = answer(&edges::shapes(1_024), 0).expect("done");
    assert_eq!(done.counts.shapes, 1_024);
    let refused = answer(&edges::shapes(1_025), 0).expect_err("refused");
    assert_eq!((refused.number, refused.place), (number::SHAPES_FULL, 0));
    assert!(answer(&edges::shapes(1_025), 1).is_ok());
}

/// As many records as are taken, and one more (E4).
#[test]
fn records() {
    let mut job = edges::most_records();
    assert!(answer(&job, 1).is_ok());
    job.sets.push(Vec::new());
    let refused = answer(&job, 1).expect_err("refused");
    assert_eq!((refused.number, refused.place), (number::BAD_JOB_LENGTH, 0));
}
