//! A store read back into a job.

use crate::limits::RECORDS;
use crate::refusals::{Refused, RECORD};
use crate::{raw, Job};

/// The job of a store, and how much of everything it has. [`recover`] has the example.
///
/// ```
/// let store = ivs::pack(3, 0, &[])?.store;           // no regions and no sets
/// let recovered = ivs::recover(&store)?;
/// assert_eq!((recovered.job, recovered.regions, recovered.sets), (ivs::Job::new(3, vec![]), 0, 0));
/// # Ok::<(), ivs::Refused>(())
/// ```
#[derive(Clone, Debug, PartialEq, Eq)]
pub struct Recovered {
    /// The job, with the store's axis count.
    pub job: Job,
    /// The regions, in the order of the store's list.
    pub regions: u64,
    /// The sets: one for each row, by outer and inner number.
    pub sets: u64,
}

/// What [`recover_into`] wrote.
///
/// ```
/// let mut job = ivs::JobWriter::new(1);
/// let bold = job.region(&[(0, 0x4000, 0x4000)])?;
/// job.set(&[(bold, 10)])?;
/// let store = job.job().pack(ivs::Mode::Deduplicating)?.store;
/// let (mut work, mut out) = (vec![0; ivs::recover_words(store.len())], [0; 36]);
/// let done = ivs::recover_into(&store, &mut work, &mut out)?;
/// assert_eq!((done.bytes, done.axes, done.regions, done.sets), (36, 1, 1, 1));
/// # Ok::<(), ivs::Error>(())
/// ```
#[derive(Clone, Copy, Debug, Default, PartialEq, Eq)]
pub struct RecoveredInto {
    /// Bytes of the job.
    pub bytes: u64,
    /// Its axis count.
    pub axes: u32,
    /// Its regions.
    pub regions: u64,
    /// Its sets.
    pub sets: u64,
}

/// The job of a store, whoever wrote that: its regions in the order of its list, then a set for
/// each row, subtable by subtable, which names the region of each value that is not zero. Built
/// in mode 0 every old row has a row that reads the same, by the regions' coordinates; the
/// build may be refused by 10 alone.
///
/// Refused by 20 where the store is malformed anywhere, by 50 where its list has a region twice,
/// by 51 where a job cannot have its regions or axes, by 52 where the job would be too long.
///
/// ```
/// let mut job = ivs::JobWriter::new(1);
/// let bold = job.region(&[(0, 0x4000, 0x4000)])?;
/// let light = job.region(&[(-0x4000, -0x4000, 0)])?;
/// job.set(&[(light, -300)])?;                        // light is used first: 0 in the store
/// job.set(&[(bold, 10), (light, 0)])?;
/// let store = job.job().pack(ivs::Mode::Implicit)?.store;
///
/// let recovered = ivs::recover(&store)?;
/// assert_eq!((recovered.job.axes(), recovered.regions, recovered.sets), (1, 2, 2));
/// let again = recovered.job.pack(ivs::Mode::Deduplicating)?;
/// assert_eq!(again.value(0, 0), Some(-300));         // row 0 was set 0, and region 0 is light
/// assert_eq!((again.value(1, 0), again.value(1, 1)), (Some(0), Some(10)));
///
/// let refused = ivs::recover(&store[..20]).unwrap_err();
/// assert_eq!(refused.refusal(), Some(ivs::Refusal::BadStore));
/// # Ok::<(), ivs::Error>(())
/// ```
pub fn recover(store: &[u8]) -> Result<Recovered, Refused> {
    let mut work = vec![0; recover_words(store.len())];
    let mut out = vec![0; RECORD * RECORDS];
    let done = recover_into(store, &mut work, &mut out)?;
    out.truncate(done.bytes as usize);
    out.shrink_to_fit();
    Ok(Recovered {
        job: Job::new(done.axes, out),
        regions: done.regions,
        sets: done.sets,
    })
}

/// [`recover`] in lent memory: work as [`recover_words`] says, and left as zeros; out for the
/// job, of which what is not written is left as it was. Refused by 53 where out is short.
///
/// ```
/// let end = [3, 0, 0, 0, 0, 0, 0, 0, 0, 0, 0, 0];
/// let axis = [1, 0, 0, 0, 0, 0, 0x40, 0, 0x40, 0, 0, 0];
/// let value = [2, 0, 0, 0, 0, 0, 0, 9, 0, 0, 0, 0];
/// let job = [axis, value, end].concat();
/// let store = ivs::pack(1, 0, &job)?.store;
/// let mut work = vec![7; ivs::recover_words(store.len())];
/// let mut out = vec![0xFF; job.len() + 1];
/// ivs::recover_into(&store, &mut work, &mut out)?;
/// assert_eq!((&out[..job.len()], out[job.len()]), (&job[..], 0xFF));
/// let short = &mut out[..35];
/// let refused = ivs::recover_into(&store, &mut work, short).unwrap_err();
/// assert_eq!(refused.refusal(), Some(ivs::Refusal::JobShort));
/// # Ok::<(), ivs::Refused>(())
/// ```
pub fn recover_into(
    store: &[u8],
    work: &mut [u32],
    out: &mut [u8],
) -> Result<RecoveredInto, Refused> {
    let mut report = [0; 16];
    if recover_report(store, work, out, &mut report) != 0 {
        return Err(Refused::of(&report).short_of_words(recover_words(store.len())));
    }
    Ok(RecoveredInto {
        bytes: report[2],
        axes: report[3] as u32,
        regions: report[4],
        sets: report[5],
    })
}

/// [`recover_into`], with the report as the library fills it (include/ivs.h). The answer is the
/// refusal number, 0 for done.
///
/// ```
/// let mut report = [9; 16];
/// assert_eq!(ivs::recover_report(&[], &mut [], &mut [], &mut report), 20);
/// assert_eq!((report[0], report[15]), (20, 0));
/// ```
pub fn recover_report(
    store: &[u8],
    work: &mut [u32],
    out: &mut [u8],
    report: &mut [u64; 16],
) -> u32 {
    raw::recover(store, work, out, report)
}

/// The words of work that recovering a store of so many bytes needs.
///
/// ```
/// assert!(ivs::recover_words(1_000) <= 4 * 1_000 + 65_536);
/// ```
pub fn recover_words(bytes: usize) -> usize {
    raw::recover_words(bytes)
}
