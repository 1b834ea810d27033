//! What a build would say, with nothing lent to write to.

use crate::building::{done, job_words, Done, Pair, PAIRS};
use crate::raw;
use crate::refusals::Refused;

/// The numbers that a build of this job would have, exactly: how many bytes the store takes,
/// and how much there is to lend for it. Refused is what a build would refuse whatever is
/// lent: by 1 to 3, 6 to 10 or 30 to 34.
///
/// ```
/// let mut job = ivs::JobWriter::new(1);
/// let bold = job.region(&[(0, 0x4000, 0x4000)])?;
/// let light = job.region(&[(-0x4000, -0x4000, 0)])?;
/// job.set(&[(bold, 100), (light, 70_000)])?;         // 100 takes two bytes beside 70,000
/// let job = job.finish();
/// let told = ivs::forecast(1, 0, &job)?;
/// assert_eq!((told.store_bytes, told.forecast), (44, 44));
/// let packed = ivs::pack(1, 0, &job)?;
/// assert_eq!((packed.store.len(), packed.done), (44, told));
///
/// let refused = ivs::forecast(1, 0, &job[..12 * 3]).unwrap_err();
/// assert_eq!((refused.number, refused.place), (8, 3));
/// # Ok::<(), Box<dyn std::error::Error>>(())
/// ```
pub fn forecast(axes: u32, mode: u32, job: &[u8]) -> Result<Done, Refused> {
    let mut work = vec![0; job_words(axes, job)];
    let mut pairs = vec![Pair::default(); PAIRS];
    forecast_with(axes, mode, job, &mut work, &mut pairs)
}

/// [`forecast`] in lent memory: work and pairs as for a build, and left as by it.
///
/// ```
/// let end = [3, 0, 0, 0, 0, 0, 0, 0, 0, 0, 0, 0];     // one set, which is empty
/// let mut work = vec![7; ivs::work_words(1, 0)];
/// let mut pairs = vec![ivs::Pair::default(); ivs::PAIRS];
/// let told = ivs::forecast_with(1, 0, &end, &mut work, &mut pairs)?;
/// assert_eq!((told.store_bytes, told.distinct_ids, told.shapes), (22, 1, 1));
/// assert!(work.iter().all(|&word| word == 0));
/// let refused = ivs::forecast_with(1, 0, &end, &mut work[1..], &mut pairs).unwrap_err();
/// assert_eq!((refused.number, refused.short), (4, Some(ivs::Short::Work(32))));
/// # Ok::<(), ivs::Refused>(())
/// ```
pub fn forecast_with(
    axes: u32,
    mode: u32,
    job: &[u8],
    work: &mut [u32],
    pairs: &mut [Pair],
) -> Result<Done, Refused> {
    let mut report = [0; 16];
    forecast_report(axes, mode, job, work, pairs, &mut report);
    done(&report).map_err(|refused| refused.short_of(axes, job, work.len()))
}

/// [`forecast_with`], with the report as the library fills it (include/ivs.h). The answer is
/// the refusal number, 0 for done.
///
/// ```
/// let mut report = [9; 16];
/// let number = ivs::forecast_report(1, 2, &[], &mut [], &mut [], &mut report);
/// assert_eq!((number, report[0], report[15]), (2, 2, 0));
/// ```
pub fn forecast_report(
    axes: u32,
    mode: u32,
    job: &[u8],
    work: &mut [u32],
    pairs: &mut [Pair],
    report: &mut [u64; 16],
) -> u32 {
    raw::forecast(axes, mode, job, work, pairs, report)
}
