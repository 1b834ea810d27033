//! Where two sets part (Q1 to Q5), on jobs with the answers worked out by hand, by the plain
//! reading and by the library.

use jobs::{edges, Job, RECORD};
use plain::{Parted, Parting};

/// The answer of both, or the refusal's number, place and byte.
fn part(axes: u32, job: &[u8], first: u32, second: u32) -> Result<Parted, (u32, u64, u64)> {
    let said = plain::part(axes, job, first, second, usize::MAX);
    let said = said.map_err(|refused| (refused.number, refused.place, refused.byte));
    let at = |at: ivs::Parting| Parting {
        index: at.index as usize,
        region: at.region as usize,
        values: [at.first, at.second],
    };
    let proved = match ivs::part(axes, job, first, second) {
        Ok(ivs::Parted::Equal) => Ok(Parted::Equal),
        Ok(ivs::Parted::Smaller(parting)) => Ok(Parted::Smaller(at(parting))),
        Ok(ivs::Parted::Larger(parting)) => Ok(Parted::Larger(at(parting))),
        Err(refused) => Err((refused.number, refused.place, refused.byte)),
    };
    assert_eq!(proved, said, "sets {first} and {second}");
    said
}

fn smaller(index: usize, region: usize, values: [i32; 2]) -> Result<Parted, (u32, u64, u64)> {
    Ok(Parted::Smaller(Parting {
        index,
        region,
        values,
    }))
}

fn larger(index: usize, region: usize, values: [i32; 2]) -> Result<Parted, (u32, u64, u64)> {
    Ok(Parted::Larger(Parting {
        index,
        region,
        values,
    }))
}

const EQUAL: Result<Parted, (u32, u64, u64)> = Ok(Parted::Equal);

#[test]
fn indexes_go_by_first_use() {
    // Region 2 is index 0, by a zero; region 0 is index 1; region 1 is never named.
    let sets: [&[(u16, i32)]; 4] = [&[(2, 0), (0, 5)], &[(0, 4), (2, 9)], &[(0, 5)], &[]];
    let job = Job::one_axis(3).with(&sets).to_bytes();
    assert_eq!(part(1, &job, 0, 1), smaller(0, 2, [0, 9]));
    assert_eq!(part(1, &job, 1, 0), larger(0, 2, [9, 0]));
    assert_eq!(part(1, &job, 0, 2), EQUAL);
    assert_eq!(part(1, &job, 1, 1), EQUAL);
    assert_eq!(part(1, &job, 3, 0), smaller(1, 0, [0, 5]));
}

/// Values are signed, of all 32 bits; none counts as 0.
#[test]
fn values_are_signed() {
    let sets: [&[(u16, i32)]; 4] = [&[(0, i32::MIN)], &[(0, i32::MAX)], &[], &[(0, -1)]];
    let job = Job::one_axis(1).with(&sets).to_bytes();
    assert_eq!(part(1, &job, 0, 1), smaller(0, 0, [i32::MIN, i32::MAX]));
    assert_eq!(part(1, &job, 2, 3), larger(0, 0, [0, -1]));
    assert_eq!(part(1, &job, 2, 1), smaller(0, 0, [0, i32::MAX]));
    assert_eq!(part(1, &job, 0, 3), smaller(0, 0, [i32::MIN, -1]));
}

/// Of regions that have the same coordinates, the one that was named first is told.
#[test]
fn equal_regions() {
    let mut job = Job::one_axis(3);
    job.regions[2] = job.regions[0].clone();
    let job = job.with(&[&[(2, 5)], &[(0, 5)], &[(0, 6)], &[(1, 1)]]);
    let job = job.to_bytes();
    assert_eq!(part(1, &job, 0, 1), EQUAL);
    assert_eq!(part(1, &job, 1, 2), smaller(0, 2, [5, 6]));
    assert_eq!(part(1, &job, 3, 2), smaller(0, 2, [0, 6]));
}

#[test]
fn refusals_in_their_order() {
    let job = Job::one_axis(1).with(&[&[(0, 1)], &[]]).to_bytes();
    for (first, second) in [(2, 0), (0, 2), (2, 2), (u32::MAX, 0)] {
        assert_eq!(part(1, &job, first, second), Err((64, 0, 0)));
    }
    assert_eq!(part(1, &[], 0, 0), Err((64, 0, 0)));
    // The job's own come first.
    assert_eq!(part(0, &job, 2, 2), Err((1, 0, 0)));
    assert_eq!(part(65, &job[..5], 2, 2), Err((1, 0, 0)));
    assert_eq!(part(1, &job[..5], 2, 2), Err((3, 0, 0)));
    assert_eq!(part(1, &job[..2 * RECORD], 2, 2), Err((8, 2, 0)));
    let mut hurt = job.clone();
    hurt[3 * RECORD + 9] = 1;
    assert_eq!(part(1, &hurt, 0, 0), Err((31, 3, 9)));
    hurt[RECORD] = 9;
    assert_eq!(part(1, &hurt, 0, 0), Err((30, 1, 0)));
}

/// Neither so many sets nor so many shapes are refused: nothing is built.
#[test]
fn what_no_mode_refuses() {
    let job = edges::one_shape(65_536).to_bytes();
    let due = smaller(0, 0, [70_000, 70_000 + 65_535]);
    assert_eq!(part(1, &job, 0, 65_535), due);
    let job = edges::shapes(1_025).to_bytes();
    assert_eq!(part(1, &job, 1_024, 1_024), EQUAL);
    assert_eq!(part(1, &job, 1_024, 1_025), Err((64, 0, 0)));
}
