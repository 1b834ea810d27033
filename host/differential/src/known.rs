//! All that is said of one job: by the plain reading, and by the source where it is there.

use crate::Case;
use jobs::{Job, RECORD};
use oracle::Trace;
use plain::{Done, Refused, Sizes};

/// What is said of one job, asked for once.
pub struct Known {
    /// What the plain reading answers.
    pub said: Result<Done, Refused>,
    /// The job, where it is sound.
    pub job: Option<Job>,
    /// What the source answers; of a job that the plain reading builds, where the source is.
    pub source: Option<Source>,
}

/// What the source answers.
pub struct Source {
    /// The store, its pieces placed as B4 says.
    pub store: Vec<u8>,
    /// The id of each set.
    pub ids: Vec<u32>,
    /// For each id, outer x 65,536 + inner.
    pub map: Vec<u32>,
    /// What it tells of its merging.
    pub trace: Trace,
}

impl Known {
    /// Asks both.
    pub fn of(case: &Case<'_>) -> Known {
        let said = plain::build(case.axes, case.mode, case.job, &Sizes::PLENTY);
        let over = case.job.len() > RECORD * plain::RECORD_LIMIT;
        let job = Job::parse(case.axes as usize, case.job).filter(|_| !over);
        let asked = job.as_ref().filter(|_| said.is_ok());
        let source = asked.and_then(|job| Source::of(job, case.mode));
        Known { said, job, source }
    }
}

impl Source {
    /// Asks the source, where it is there.
    pub fn of(job: &Job, mode: u32) -> Option<Source> {
        let asked = oracle::build_traced(job.axes as u16, mode, &job.regions, &job.sets);
        let (built, trace) = asked?;
        Some(Source {
            store: built.store.bytes(),
            ids: built.ids,
            map: built.map,
            trace,
        })
    }
}
