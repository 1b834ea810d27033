//! Where the rules and the source part: one input for each, with both answers.
//! docs/DIFFERENCES.md tells them in words. The rules' answer is the plain reading's and
//! the proved build's; without the source only that is shown.

use differential::proved::alike;
use jobs::{edges, Job};
use oracle::Built;
use plain::{number, Refused};
use std::panic::catch_unwind;

/// The source's answer, if it is there.
fn source(job: &Job, mode: u32) -> Option<Built> {
    oracle::build(job.axes as u16, mode, &job.regions, &job.sets)
}

fn refused(job: &Job, mode: u32) -> Refused {
    let answer = alike(job.axes as u32, mode, &job.to_bytes());
    answer.expect_err("refused")
}

/// The rows' bytes of the one subtable.
fn rows(built: &Built) -> Vec<u8> {
    let [Some(subtable)] = &built.store.item_variation_data[..] else {
        panic!("one subtable: {built:?}");
    };
    subtable.delta_sets.clone()
}

#[test]
fn a_region_named_twice() {
    // Refused; the source keeps both, and the greater value is the row's.
    let job = Job::one_axis(1).with(&[&[(0, 2), (0, 1)]]);
    assert_eq!(refused(&job, 0).number, number::REGION_TWICE);
    if let Some(built) = source(&job, 0) {
        assert_eq!(rows(&built), [2]);
    }
    // Zeros are counted too; the source drops them first.
    let job = Job::one_axis(1).with(&[&[(0, 0), (0, 5)], &[(0, 5)]]);
    assert_eq!((refused(&job, 0).number, refused(&job, 0).place), (7, 2));
    if let Some(built) = source(&job, 0) {
        assert_eq!((rows(&built), built.ids), (vec![5], vec![0, 0]));
    }
    // The greater value decides the width, too: -300 alone would be of two bytes.
    let job = Job::one_axis(1).with(&[&[(0, -300), (0, 1)]]);
    if let Some(built) = source(&job, 0) {
        assert_eq!(rows(&built), [1]);
    }
    // Two rows that read the same get two ids, and the source's order of rows
    // stops looking at the second name: 5 comes before -5.
    let twice = |last: i32| vec![(0, 1), (0, 2), (1, last)];
    let mut job = Job::one_axis(2);
    job.sets = vec![twice(5), twice(-5), vec![(0, 2), (1, 5)]];
    if let Some(built) = source(&job, 0) {
        assert_eq!(
            (rows(&built), built.ids),
            (vec![2, 5, 2, 0xFB, 2, 5], vec![0, 1, 2])
        );
    }
}

#[test]
fn too_many_sets_in_mode_1() {
    // Refused at the 65,536th end record; the source panics.
    let job = edges::one_shape(65_536);
    assert_eq!(refused(&job, 1).number, number::SETS_FULL);
    if oracle::PRESENT {
        assert!(catch_unwind(|| source(&job, 1)).is_err());
    }
}

#[test]
fn more_than_1024_shapes() {
    // Refused; the source takes any number.
    let job = edges::shapes(1_025);
    assert_eq!(refused(&job, 0).number, number::SHAPES_FULL);
    if let Some(built) = source(&job, 0) {
        assert_eq!(built.map.len(), 1_025);
    }
}

#[test]
fn no_axes_and_many() {
    // Refused; the source takes any axis count and never looks at it.
    for axes in [0, 65] {
        let answer = alike(axes, 0, &[]);
        assert_eq!(answer.map_err(|r| r.number), Err(number::BAD_AXES));
        let regions = [vec![[0, 1, 1]; axes as usize]];
        if let Some(built) = oracle::build(axes as u16, 0, &regions, &[vec![(0, 1)]]) {
            assert_eq!(built.store.bytes().len(), 25 + 6 * axes as usize);
        }
    }
    // Regions of another number of axes than the store's: no job can say that.
    if let Some(built) = oracle::build(2, 0, &[vec![[0, 1, 1]]], &[vec![(0, 1)]]) {
        assert_eq!(built.store.variation_region_list.axis_count, 2);
        assert_eq!(
            built.store.variation_region_list.variation_regions[0]
                .region_axes
                .len(),
            1
        );
    }
}

#[test]
fn list_and_subtable_of_equal_bytes() {
    // Both are placed (B4); the source's crate writes
    // tables of equal bytes once.
    let job = Job {
        axes: 1,
        regions: vec![vec![[1, 0, 300]]],
        sets: vec![vec![(0, 300)]],
    };
    let done = alike(1, 0, &job.to_bytes()).expect("done");
    assert_eq!(done.store.len(), 32);
    assert_eq!(done.store[12..22], done.store[22..]);
}
