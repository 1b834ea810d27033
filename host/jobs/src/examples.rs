//! The worked examples of docs/RULES.md by name, and other small jobs that are easy to
//! get wrong. All have one axis; region 0 is R0, (0, 0x4000, 0x4000), and region 1 is R1.

use crate::Job;

/// A named job with its mode.
pub struct Example {
    /// P1 to P12, or what the job is about.
    pub name: &'static str,
    /// The mode.
    pub mode: u32,
    /// The job.
    pub job: Job,
}

/// `count` different sets that name one region with a value of width One.
fn ones(region: u16, count: i32) -> impl Iterator<Item = Vec<(u16, i32)>> {
    (1..=count).map(move |value| vec![(region, value)])
}

/// As P9 and P10: `first` sets on R0 and `second` on R1.
fn two_regions(first: i32, second: i32) -> Job {
    let mut job = Job::one_axis(2);
    job.sets = ones(0, first).chain(ones(1, second)).collect();
    job
}

/// All examples.
pub fn all() -> Vec<Example> {
    let none = || Job::one_axis(0);
    let one = || Job::one_axis(1);
    let two = || Job::one_axis(2);
    let mut equal = Job::one_axis(3);
    equal.regions[2] = equal.regions[0].clone();
    let equal = equal.with(&[&[(2, 5)], &[(0, 5)], &[(1, 5), (2, 1)]]);
    let alike = Job {
        axes: 1,
        regions: vec![vec![[1, 0, 300]]],
        sets: vec![vec![(0, 300)]],
    };
    #[rustfmt::skip]
    let examples = [
        ("P1", 0, none()),
        ("P2", 1, none()),
        ("P3", 0, one().with(&[&[(0, 10)]])),
        ("P4", 0, one().with(&[&[(0, 0)]])),
        ("P5", 0, two().with(&[&[(0, -128), (1, 128)]])),
        ("P6, 127", 0, one().with(&[&[(0, 127)]])),
        ("P6, -129", 0, one().with(&[&[(0, -129)]])),
        ("P7", 0, two().with(&[&[(0, 100), (1, 70_000)]])),
        ("P8", 0, two().with(&[&[(0, 1)], &[(1, 1)]])),
        ("P9", 0, two_regions(5, 5)),
        ("P10", 0, two_regions(5, 4)),
        ("P11", 0, two().with(&[&[(0, 1)], &[(0, 1), (1, 0)]])),
        ("P12", 0, one().with(&[&[], &[(0, 10)]])),
        ("first use is not the job's order", 0, two().with(&[&[(1, 300)], &[(0, 300), (1, 1)]])),
        ("first use by a zero", 0, two().with(&[&[(1, 0), (0, 5)], &[(1, 5), (0, 6)]])),
        ("equal regions", 0, equal.clone()),
        ("equal regions, implicit", 1, equal),
        ("a region never used", 0, Job::one_axis(3).with(&[&[(0, 1)], &[(2, 1)]])),
        ("only zeros, implicit", 1, two().with(&[&[(0, 0)], &[(1, 0)]])),
        ("an empty set alone", 0, one().with(&[&[]])),
        ("an empty set alone, implicit", 1, one().with(&[&[]])),
        ("equal sets, implicit", 1, one().with(&[&[(0, 7)], &[(0, 7)]])),
        ("negative before absent", 0, two().with(&[&[(0, 1)], &[(0, 1), (1, -10)], &[(0, 1), (1, 10)]])),
        ("a byte beside a long, negative", 0, two().with(&[&[(0, -1), (1, i32::MIN)]])),
        ("list and subtable of equal bytes", 0, alike),
    ];
    let example = |(name, mode, job)| Example { name, mode, job };
    examples.map(example).into_iter().collect()
}
