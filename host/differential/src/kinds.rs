//! The runs, one for each kind of jobs: the program and the tests make the same.

use crate::parts::Parts;
use crate::run::{Run, Share};
use crate::{built, cases, maps, replay, sizes, stores, Case};
use std::ops::Range;

/// The seeds of a run: 20,000 random jobs, and as many damaged ones.
pub const SEEDS: Range<u64> = 0..20_000;

/// One random job in so many has its lent memory around each size, and so has one damaged
/// job in so many of those that are taken.
const AROUND: usize = 20;

/// Where there are many calls, the pair records hold noise in one of so many. A prime, so
/// that no size of lent memory falls in step with it.
const NOISY: usize = 61;

/// The source's recorded answers.
pub fn recorded() -> Run {
    replayed(replay::all(&replay::folder()))
}

/// The source's recorded glyph maps.
pub fn recorded_maps() -> Run {
    replayed(maps::all(&replay::folder()))
}

/// The list of cases with all that a build answers and leaves.
pub fn built() -> Run {
    replayed(built::all(&replay::folder()))
}

fn replayed(run: Result<Run, String>) -> Run {
    run.unwrap_or_else(|what| {
        let mut run = Run::default();
        run.plain.count(Err(what));
        run
    })
}

/// The worked examples.
pub fn examples() -> Run {
    Run::over(ALL, cases::examples)
}

/// The edges.
pub fn edges() -> Run {
    Run::over(Share { around: 0, ..ALL }, cases::edges)
}

/// Axis counts and modes, good and bad.
pub fn axes_and_modes() -> Run {
    Run::over(Share { noisy: 7, ..ALL }, cases::axes_and_modes)
}

/// All small jobs; those of up to two sets go through the library without exception.
pub fn small() -> Run {
    let share = Share {
        short: |job| ends(job) <= 2,
        ..some(401)
    };
    Run::over(share, cases::small)
}

/// All short sequences of records; those of up to three without exception.
pub fn records() -> Run {
    let share = Share {
        short: |job| job.len() <= 12 * 3,
        ..some(1_201)
    };
    Run::over(share, cases::records)
}

/// Records of every form.
pub fn forms() -> Run {
    Run::over(some(7), cases::forms)
}

/// Every damage to one job.
pub fn each_damage() -> Run {
    Run::over(some(5), cases::each_damage)
}

/// The random jobs of some seeds.
pub fn random(seeds: &Range<u64>) -> Run {
    let share = Share {
        around: AROUND,
        ..some(1)
    };
    Run::over(share, |visit| cases::random(seeds.clone(), visit))
}

/// The same jobs, damaged.
pub fn damaged(seeds: &Range<u64>) -> Run {
    let share = Share {
        around: AROUND,
        ..some(3)
    };
    Run::over(share, |visit| cases::damaged(seeds.clone(), visit))
}

/// Large random jobs, one for four hundred of the others.
pub fn large(seeds: &Range<u64>) -> Run {
    let few = seeds.start..seeds.start + (seeds.end - seeds.start) / 400;
    let share = Share {
        forecast: 1,
        ..some(1)
    };
    Run::over(share, |visit| cases::large(few, visit))
}

/// Wide random jobs, one for four hundred of the others.
pub fn wide(seeds: &Range<u64>) -> Run {
    let few = seeds.start..seeds.start + (seeds.end - seeds.start) / 400;
    let share = Share {
        forecast: 1,
        ..some(1)
    };
    Run::over(share, |visit| cases::wide(few, visit))
}

/// The plain reading in memory around each size, on one random job in twenty.
pub fn sizes(seeds: &Range<u64>) -> Run {
    let mut run = Run::default();
    let some = seeds.start..seeds.start + (seeds.end - seeds.start) / 20;
    cases::random(some, &mut |case: &Case<'_>| {
        run.plain.count(sizes::check(case))
    });
    run
}

/// Where sets part: in the examples, at the limits, and in one random job in five, as it is
/// and damaged.
pub fn parts(seeds: &Range<u64>) -> Run {
    let mut parts = Parts::default();
    let few = (seeds.end - seeds.start) / 5;
    let mut visit = |case: &Case<'_>| parts.case(case);
    cases::examples(&mut visit);
    cases::axes_and_modes(&mut visit);
    cases::edges(&mut visit);
    cases::random(seeds.start..seeds.start + few, &mut visit);
    cases::damaged(seeds.start..seeds.start + few, &mut visit);
    let mut run = Run::default();
    run.plain.add(parts.plain);
    run.proved.add(parts.proved);
    run
}

/// The reader on the stores of one random job in ten, 120 times, seven in eight damaged:
/// of 20,000 seeds 210,000 damaged stores.
pub fn stores(seeds: &Range<u64>) -> Run {
    let some = seeds.start..seeds.start + (seeds.end - seeds.start) / 10;
    stores::damaged(some, 120)
}

/// All jobs, with memory around each size, and noise in all of it in every call.
const ALL: Share = Share {
    linked: 1,
    short: |_| true,
    around: 1,
    forecast: 1,
    noisy: 1,
};

/// The end records of a job.
fn ends(job: &[u8]) -> usize {
    job.chunks(12).filter(|record| record[0] == 3).count()
}

/// Some of the jobs, with memory just over each size, and of one in three the forecast.
fn some(linked: usize) -> Share {
    Share {
        linked,
        short: |_| false,
        around: 0,
        forecast: 3,
        noisy: NOISY,
    }
}
