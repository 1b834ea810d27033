//! A store judged by the sets of a job, whoever built it.

use crate::building::head_regions;
use crate::raw;
use crate::refusals::{Refused, RECORD};

/// Whether a store gives a job's sets. [`judge`] has the example.
///
/// ```
/// let store = ivs::pack(2, 0, &[])?.store;
/// assert_eq!(ivs::judge(2, &[], &store, &[])?, ivs::Verdict::Yes);
/// assert_eq!(ivs::judge(1, &[], &store, &[])?, ivs::Verdict::Store); // of other axes
/// # Ok::<(), ivs::Refused>(())
/// ```
#[derive(Clone, Copy, Debug, PartialEq, Eq)]
pub enum Verdict {
    /// The store is well formed and gives every set its values.
    Yes,
    /// The first set, from 0, whose row is not there or does not give its values: each region
    /// that the set names its value, every other that the store lists zero.
    Set(u64),
    /// The store itself is at fault: malformed, of another axis count, or with a region twice.
    Store,
}

/// Judges a store by a job: word n of `words` is the row of set n, outer x 65,536 + inner. The
/// store may order regions, subtables and rows as it likes, keep what nobody uses and leave
/// room between its parts. A set without a word fails; words past the sets are not looked at.
///
/// Refused where the job is, by 1, 3, 6 to 8 or 30 to 34.
///
/// ```
/// use ivs::{judge, Verdict};
///
/// let mut writer = ivs::JobWriter::new(1);
/// let bold = writer.region(&[(0, 0x4000, 0x4000)])?;
/// writer.set(&[(bold, 10)])?;
/// writer.set(&[(bold, -3)])?;
/// let job = writer.job();
/// let packed = job.pack(ivs::Mode::Deduplicating)?;
/// let words = ivs::set_words(&packed);
/// assert_eq!(job.judge(&packed.store, &words)?, Verdict::Yes);
/// let turned = [words[1], words[0]];
/// assert_eq!(job.judge(&packed.store, &turned)?, Verdict::Set(0));
/// assert_eq!(job.judge(&packed.store, &words[..1])?, Verdict::Set(1));
/// assert_eq!(job.judge(&packed.store[1..], &words)?, Verdict::Store);
///
/// let refused = judge(0, job.bytes(), &packed.store, &words).unwrap_err();
/// assert_eq!(refused.refusal(), Some(ivs::Refusal::BadAxes));
/// # Ok::<(), ivs::Error>(())
/// ```
pub fn judge(axes: u32, job: &[u8], store: &[u8], words: &[u32]) -> Result<Verdict, Refused> {
    let mut work = vec![0; needed(axes, job, store)];
    judge_with(axes, job, store, words, &mut work)
}

/// [`judge`] in lent memory: work as [`judge_words`] says, and left as by a build.
///
/// ```
/// let end = [3, 0, 0, 0, 0, 0, 0, 0, 0, 0, 0, 0];     // one set, which is empty
/// let store = [0, 1, 0, 0, 0, 12, 0, 1, 0, 0, 0, 16, 0, 1, 0, 0, 0, 1, 0, 0, 0, 0]; // a row of no bytes
/// let mut work = vec![7; ivs::judge_words(1, 0, store.len())];
/// assert_eq!(ivs::judge_with(1, &end, &store, &[0], &mut work)?, ivs::Verdict::Yes);
/// assert!(work.iter().all(|&word| word == 0));
/// let refused = ivs::judge_with(1, &end, &store, &[0], &mut work[1..]).unwrap_err();
/// assert_eq!(refused.refusal(), Some(ivs::Refusal::WorkShort));
/// # Ok::<(), ivs::Refused>(())
/// ```
pub fn judge_with(
    axes: u32,
    job: &[u8],
    store: &[u8],
    words: &[u32],
    work: &mut [u32],
) -> Result<Verdict, Refused> {
    let mut report = [0; 16];
    if judge_report(axes, job, store, words, work, &mut report) != 0 {
        return Err(Refused::of(&report).short_of_words(needed(axes, job, store)));
    }
    Ok(match report[2] {
        1 => Verdict::Yes,
        2 => Verdict::Set(report[3]),
        _ => Verdict::Store,
    })
}

/// [`judge_with`], with the report as the library fills it (include/ivs.h). The answer is the
/// refusal number, 0 where the store was judged.
///
/// ```
/// let mut report = [9; 16];
/// assert_eq!(ivs::judge_report(0, &[], &[], &[], &mut [], &mut report), 1);
/// assert_eq!((report[0], report[15]), (1, 0));
/// ```
pub fn judge_report(
    axes: u32,
    job: &[u8],
    store: &[u8],
    words: &[u32],
    work: &mut [u32],
    report: &mut [u64; 16],
) -> u32 {
    raw::judge(axes, job, store, words, work, report)
}

/// The words of work that judging needs: for a job of so many records, with so many regions by
/// [`head_regions`](crate::head_regions), and a store of so many bytes; 0 above the record limit.
///
/// ```
/// assert!(ivs::judge_words(0, 0, 1_000) <= ivs::work_words(0, 0) + 4 * 1_000 + 65_536);
/// ```
pub fn judge_words(records: usize, regions: usize, bytes: usize) -> usize {
    raw::judge_words(records, regions, bytes)
}

fn needed(axes: u32, job: &[u8], store: &[u8]) -> usize {
    judge_words(job.len() / RECORD, head_regions(axes, job), store.len())
}
