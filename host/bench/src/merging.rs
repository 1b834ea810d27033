//! Merging alone: the proved library's beside the source's. Both must have made the
//! same merges before a time is told.

use std::time::{Duration, Instant};

use crate::clock::cpu_time;
use crate::inputs::{input, Input, Kind};
use crate::library::{self, Memory};

/// Kind, shapes, regions.
const INPUTS: [(Kind, usize, usize); 8] = [
    (Kind::Half, 64, 16),
    (Kind::Half, 256, 64),
    (Kind::Half, 1024, 64),
    (Kind::Half, 1024, 256),
    (Kind::Dense, 1024, 64),
    (Kind::Dense, 1024, 256),
    (Kind::Sparse, 1024, 64),
    (Kind::Sparse, 1024, 256),
];

/// The best of at least so many runs is told, and of more where they are short.
const RUNS: usize = 5;

/// How long the runs of an input go on at least, up to [`MOST`].
const ENOUGH: Duration = Duration::from_secs(2);

/// The most runs of an input.
const MOST: usize = 200;

const SEED: u64 = 20_261_115;

/// The best times.
struct Best {
    library: Duration,
    optimize: Duration,
    build: Duration,
}

/// Measures and prints each input.
pub fn print() {
    println!(
        "Best of {RUNS} to {MOST} runs, in ms of processor time. merge: merging alone; build: the source's whole."
    );
    println!();
    println!("| shapes x regions | kind | merges | pairs weighed | source: build | source: merge | library: merge | source / library |");
    println!("|---|---|---:|---:|---:|---:|---:|---:|");
    for (kind, shapes, regions) in INPUTS {
        let input = input(kind, shapes, regions, SEED);
        let (merges, weighed) = same(&input);
        let best = times(&input);
        // Listening costs the source something; its whole build, unheard, bounds that.
        let source = best.optimize.min(best.build);
        let ratio = source.as_secs_f64() / best.library.as_secs_f64();
        println!(
            "| {shapes} x {regions} | {} | {merges} | {weighed} | {:.2} | {:.2} | {:.2} | {ratio:.2} |",
            kind.name(),
            ms(best.build),
            ms(best.optimize),
            ms(best.library),
        );
    }
}

/// The number of merges and of pairs weighed, once both agree on the groups, on
/// each merge and on the modelled sizes.
fn same(input: &Input) -> (usize, u64) {
    let job = &input.job;
    let (_, trace) = oracle::build_traced(job.axes as u16, 0, &job.regions, &job.sets)
        .expect("the source is there");
    let ours = library::optimize(&input.groups, &input.order, &mut Memory::default());
    assert_eq!(trace.shapes, input.groups.len() as u64, "groups");
    assert!(trace.log == ours.log, "the merges differ");
    assert_eq!([trace.size_before, trace.size_after], ours.sizes, "sizes");
    (ours.log.len() / 3, ours.weighed)
}

/// The best times of several runs, in turn, so that both meet the same machine.
fn times(input: &Input) -> Best {
    let job = &input.job;
    let mut lent = Memory::default();
    let mut best = Best {
        library: Duration::MAX,
        optimize: Duration::MAX,
        build: Duration::MAX,
    };
    let began = Instant::now();
    for run in 0..MOST {
        if run >= RUNS && began.elapsed() >= ENOUGH {
            break;
        }
        let source = oracle::build_timed(job.axes as u16, &job.regions, &job.sets, cpu_time)
            .expect("the source is there");
        let ours = library::optimize(&input.groups, &input.order, &mut lent);
        best.optimize = best.optimize.min(source.optimize);
        best.build = best.build.min(source.build);
        best.library = best.library.min(ours.took);
    }
    best
}

fn ms(time: Duration) -> f64 {
    1000.0 * time.as_secs_f64()
}
