//! The times of one workload: whole builds by the source and by the library.

use std::mem::size_of;
use std::time::{Duration, Instant};

use differential::known::Source;
use ivs::{Done, Lent, Packed, Pair, PAIRS};

use crate::clearing::split;
use crate::clock::{cpu_time, time};
use crate::fresh::Fresh;
use crate::memory;
use crate::workloads::Workload;

/// The best of at least so many runs is told, and of more where they are short.
pub const RUNS: usize = 5;

/// How long the runs of a workload go on at least, up to [`MOST`].
const ENOUGH: Duration = Duration::from_secs(4);

/// The most runs of a workload.
pub const MOST: usize = 400;

/// The best times of a workload.
#[derive(Clone, Copy)]
pub struct Best {
    /// The source, from its empty builder to store and map.
    pub source: Duration,
    /// The library, with the same work and pair records lent each time.
    pub warm: Duration,
    /// Of it the clearing of both.
    pub clearing: Duration,
    /// And the rest.
    pub rest: Duration,
    /// The library, with work and pair records newly mapped.
    pub fresh: Duration,
}

/// A workload measured.
pub struct Measured {
    /// Records of the job.
    pub records: usize,
    /// The numbers of the build.
    pub done: Done,
    /// The times.
    pub best: Best,
    /// Bytes that the source holds at once at the most, the sets that it is given among them.
    pub source_bytes: u64,
    /// Bytes that are lent to the library, the store's among them.
    pub lent_bytes: u64,
}

/// Measures a workload, once the source and the library have given the same.
///
/// # Panics
/// Where they differ, or without the source.
pub fn measure(workload: &Workload) -> Measured {
    let job = workload.job.to_bytes();
    let records = workload.job.records();
    let axes = workload.job.axes as u32;
    let packed = ivs::pack(axes, workload.mode, &job).expect("the job is built");
    let done = packed.done;
    let mut buffers = Buffers::like(&packed);
    same(workload, packed);
    let work = ivs::job_words(axes, &job);
    let best = times(workload, &job, work, &mut buffers, done);
    Measured {
        records,
        done,
        best,
        source_bytes: source_bytes(workload),
        lent_bytes: buffers.bytes() + (size_of::<u32>() * work + size_of::<Pair>() * PAIRS) as u64,
    }
}

/// The most memory that the source holds, in a run of its own: counting takes time.
pub fn source_bytes(workload: &Workload) -> u64 {
    let Workload { mode, job, .. } = workload;
    memory::count();
    let took = oracle::build_whole(job.axes as u16, *mode, &job.regions, &job.sets, cpu_time);
    took.expect("the source is there");
    memory::most()
}

/// Store, ids, map, log, N and sizes are the source's.
fn same(workload: &Workload, packed: Packed) {
    let done = plain::Done {
        counts: differential::proved::counts(&packed.done),
        store: packed.store,
        ids: packed.ids,
        map: packed.map,
        log: packed.log,
        origins: packed.origins,
    };
    let source = Source::of(&workload.job, workload.mode);
    let held = differential::check::source(workload.mode, &done, source.as_ref());
    held.unwrap_or_else(|what| panic!("{}: {what}", workload.name));
}

/// What is lent beside work and pair records.
struct Buffers {
    out: Vec<u8>,
    ids: Vec<u32>,
    map: Vec<u32>,
    log: Vec<u32>,
    origins: Vec<u32>,
}

impl Buffers {
    /// As much as that build filled, and for log and origins what any could ask for.
    fn like(packed: &Packed) -> Buffers {
        Buffers {
            out: vec![0; packed.store.len()],
            ids: vec![0; packed.ids.len()],
            map: vec![0; packed.map.len()],
            log: vec![0; 3 * 1_023],
            origins: vec![0; 2 * 1_024],
        }
    }

    fn bytes(&self) -> u64 {
        let words = [&self.ids, &self.map, &self.log, &self.origins].map(Vec::len);
        (self.out.len() + size_of::<u32>() * words.iter().sum::<usize>()) as u64
    }

    fn lent<'a>(&'a mut self, work: &'a mut [u32], pairs: &'a mut [Pair]) -> Lent<'a> {
        Lent {
            work,
            pairs,
            out: &mut self.out,
            ids: &mut self.ids,
            map: &mut self.map,
            log: &mut self.log,
            origins: &mut self.origins,
        }
    }
}

/// The best times of several runs, in turn, so that all meet the same machine.
fn times(
    workload: &Workload,
    bytes: &[u8],
    words: usize,
    buffers: &mut Buffers,
    due: Done,
) -> Best {
    let Workload { mode, job, .. } = workload;
    let axes = job.axes as u32;
    let mut build = |work: &mut [u32], pairs: &mut [Pair]| {
        let done = ivs::build_into(axes, *mode, bytes, &mut buffers.lent(work, pairs));
        assert_eq!(done, Ok(due), "the same each time");
    };
    let (mut work, mut pairs) = (vec![0; words], vec![Pair::default(); PAIRS]);
    build(&mut work, &mut pairs);
    let mut best = Best {
        source: Duration::MAX,
        warm: Duration::MAX,
        clearing: Duration::MAX,
        rest: Duration::MAX,
        fresh: Duration::MAX,
    };
    let began = Instant::now();
    for run in 0..MOST {
        if run >= RUNS && began.elapsed() >= ENOUGH {
            break;
        }
        let took = oracle::build_whole(axes as u16, *mode, &job.regions, &job.sets, cpu_time);
        best.source = best.source.min(took.expect("the source is there"));
        let took = split(&mut work, &mut pairs, &mut build);
        best.warm = best.warm.min(took.whole);
        best.clearing = best.clearing.min(took.whole - took.rest);
        best.rest = best.rest.min(took.rest);
        let (mapped, took) = time(|| {
            let (mut work, mut pairs) = (Fresh::words(words), Fresh::pairs(PAIRS));
            build(work.all(), pairs.all());
            (work, pairs)
        });
        drop(mapped);
        best.fresh = best.fresh.min(took);
    }
    best
}
