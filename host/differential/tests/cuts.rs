//! What the large jobs of jobs/src/edges.rs are that lie on both sides of a cut, by the plain
//! reading; `edges` of compare.rs compares the proved build and the source
//! on them.

use jobs::{edges, Job};
use plain::{Done, Sizes};

fn built(job: &Job) -> Done {
    let done = plain::build(job.axes as u32, 0, &job.to_bytes(), &Sizes::PLENTY);
    done.expect("a done build")
}

/// A group is cut after 65,535 rows, and after as many again.
#[test]
fn the_second_cut() {
    for (sets, last) in [(131_070, 0x0001_FFFE), (131_071, 0x0002_0000)] {
        let done = built(&edges::one_shape(sets));
        let subtables = 2 + u64::from(sets == 131_071);
        assert_eq!((done.counts.shapes, done.counts.subtables), (1, subtables));
        assert_eq!(done.map.last(), Some(&last));
    }
}

/// It is the merged group that is cut: none of the three that it is made of has as many rows.
/// The row behind the cut is of a group that was merged into it.
#[test]
fn a_merged_group() {
    for (sets, last) in [(65_535, 0xFFFE), (65_536, 0x0001_0000)] {
        let done = built(&edges::merged(sets));
        let counts = &done.counts;
        assert_eq!((counts.shapes, counts.merges), (3, 2));
        assert_eq!(counts.subtables, 1 + u64::from(sets == 65_536));
        assert_eq!(done.map[0], last);
    }
}

/// The group behind one that is cut is a subtable further on.
#[test]
fn a_group_behind_a_cut() {
    for (sets, outer) in [(65_535, 1), (65_536, 2)] {
        let done = built(&edges::behind(sets));
        let counts = &done.counts;
        assert_eq!((counts.shapes, counts.merges), (2, 0));
        assert_eq!(counts.subtables, u64::from(outer) + 1);
        let last = (outer - 1, (sets - 1) as u32 % 65_535);
        assert_eq!(done.map[sets - 1], last.0 << 16 | last.1);
        for (row, word) in done.map[sets..].iter().enumerate() {
            assert_eq!(*word, outer << 16 | row as u32);
        }
    }
}
