//! What whole builds are measured on: jobs by name, the same in every run.

use std::collections::BTreeSet;

use jobs::{edges, Job, Rng};

use crate::fonts;
use crate::inputs::{input, row, Kind};

/// A job with the mode it is built in.
pub struct Workload {
    /// Its name in the table.
    pub name: String,
    /// 0 deduplicating, 1 implicit indices.
    pub mode: u32,
    /// The regions and the sets.
    pub job: Job,
}

const SEED: u64 = 20_261_115;

/// The fonts' stores.
pub fn fonts() -> impl Iterator<Item = Workload> {
    let one = |(name, text): (&str, &str)| shared(name, fonts::job(text));
    fonts::FONTS.into_iter().map(one)
}

/// Large jobs. Each is made when it is asked for, since each takes much memory.
pub fn large() -> impl Iterator<Item = Workload> {
    let makers: [fn() -> Workload; 14] = [
        || shared("60,000 sets over 12 regions", twelve_regions()),
        || own("60,000 sets over 12 regions, mode 1", twelve_regions()),
        || shared("200,000 sets, under 2,000 distinct", few_distinct()),
        || shared("40,000 sets over 40 regions, mixed widths", forty_regions()),
        || {
            let job = in_any_order(forty_regions());
            shared("40,000 sets over 40 regions, values in any order", job)
        },
        || many_shapes(Kind::Half),
        || many_shapes(Kind::Dense),
        || many_shapes(Kind::Sparse),
        || shared("100,000 sets over 8 dense regions", eight_dense()),
        || shared("the record limit, over 256 regions", edges::most_records()),
        || {
            let job = in_any_order(edges::most_records());
            shared("the record limit, values in any order", job)
        },
        || shared("the record limit, 1,024 shapes", most_and_shapes()),
        || shared("20,000 sets over 5,000 regions", five_thousand()),
        || shared("2,000 sets over 32,767 regions", most_regions()),
    ];
    makers.into_iter().map(|make| make())
}

/// Growth: jobs of about so many records, all with the same shapes.
pub fn growing() -> impl Iterator<Item = Workload> {
    let sizes = [1_000, 3_000, 10_000, 30_000, 100_000, 300_000, 1_000_000];
    sizes.into_iter().map(|records| {
        let job = of_shapes(&shapes(12, 32, 6, &[1, 1, 1, 2]), records / 7);
        shared(&format!("{records} records"), job)
    })
}

fn shared(name: &str, job: Job) -> Workload {
    Workload {
        name: name.to_string(),
        mode: 0,
        job,
    }
}

fn own(name: &str, job: Job) -> Workload {
    Workload {
        mode: 1,
        ..shared(name, job)
    }
}

/// 200 shapes of six regions each.
fn twelve_regions() -> Job {
    of_shapes(&shapes(12, 200, 6, &[1, 1, 1, 2]), 60_000)
}

/// 1,900 sets of 60 shapes of three regions each, said again and again.
fn few_distinct() -> Job {
    let rng = &mut Rng::new(SEED);
    let mut job = of_shapes(&shapes(10, 60, 3, &[1, 1, 2]), 1_900);
    let again = |_| job.sets[rng.below(job.sets.len())].clone();
    job.sets = (0..200_000).map(again).collect();
    job
}

/// 300 shapes of twenty regions each, in one, two and four bytes.
fn forty_regions() -> Job {
    of_shapes(&shapes(40, 300, 20, &[1, 1, 2, 2, 4]), 40_000)
}

/// 1,024 shapes over 200 regions, as merging alone is measured on.
fn many_shapes(kind: Kind) -> Workload {
    let name = format!("1,024 shapes over 200 regions, {}", kind.name());
    shared(&name, input(kind, 1_024, 200, SEED).job)
}

/// All eight regions in each set, in one or two bytes: 256 shapes.
fn eight_dense() -> Job {
    of_shapes(&shapes(8, 256, 8, &[1, 2]), 100_000)
}

/// 1,024 shapes of twelve regions each of 64, and as many sets as there is room for.
fn most_and_shapes() -> Job {
    let sets = (1_048_576 - 64) / 13;
    of_shapes(&shapes(64, 1_024, 12, &[1, 1, 2, 4]), sets)
}

/// 400 shapes of 24 regions each of 5,000.
fn five_thousand() -> Job {
    of_shapes(&shapes(5_000, 400, 24, &[1, 1, 2]), 20_000)
}

/// 100 shapes of 300 regions each of as many as there may be.
fn most_regions() -> Job {
    of_shapes(&shapes(jobs::REGIONS, 100, 300, &[1, 1, 2]), 2_000)
}

/// A shape: a width for each region.
type Shape = Vec<u32>;

/// So many different shapes over so many regions, each with `columns` that are not 0.
fn shapes(regions: usize, count: usize, columns: usize, widths: &[u32]) -> Vec<Shape> {
    let rng = &mut Rng::new(SEED);
    let mut found = BTreeSet::new();
    while found.len() < count {
        let mut numbers: Vec<usize> = (0..regions).collect();
        rng.shuffle(&mut numbers);
        let mut shape = vec![0; regions];
        for &region in &numbers[..columns] {
            shape[region] = rng.pick(widths);
        }
        found.insert(shape);
    }
    found.into_iter().collect()
}

/// A job of so many sets, the n-th of the n-th shape, and round again.
fn of_shapes(shapes: &[Shape], sets: usize) -> Job {
    let rng = &mut Rng::new(SEED + 1);
    let mut job = Job::one_axis(shapes[0].len());
    job.sets = (0..sets)
        .map(|n| row(rng, &shapes[n % shapes.len()]))
        .collect();
    job
}

/// The job with each set's values in an order of its own.
fn in_any_order(mut job: Job) -> Job {
    let rng = &mut Rng::new(SEED + 2);
    for set in &mut job.sets {
        rng.shuffle(set);
    }
    job
}
