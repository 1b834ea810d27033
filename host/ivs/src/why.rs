//! Why two ids of a job are where they are, and the bytes that show one. The job is built anew
//! for it, in mode 0; no log is read.

use crate::building::{Lent, Room};
use crate::raw;
use crate::refusals::Refused;

/// Mode 0, in which sets share ids.
const DEDUPLICATING: u32 = 0;

/// Why two ids are where they are. [`why`](why()) has the example.
///
/// ```
/// let job = [3, 0, 0, 0, 0, 0, 0, 0, 0, 0, 0, 0];     // one set, which is empty
/// let store = ivs::pack(1, 0, &job)?.store;
/// assert_eq!(ivs::why(1, &job, &store, 0, 0)?, ivs::Why::SameSubtable);
/// # Ok::<(), ivs::Refused>(())
/// ```
#[derive(Clone, Copy, Debug, PartialEq, Eq)]
pub enum Why {
    /// Both have their rows in one subtable.
    SameSubtable,
    /// They are of one group, which has more than 65,535 rows and was cut between them.
    CutApart,
    /// They are of two groups, which were never joined.
    NeverJoined {
        /// What the group of each costs, in bytes.
        costs: [u64; 2],
        /// What they would cost as one.
        joined: u64,
        /// What joining them would save: the costs less what they would cost as one, which is 0
        /// or less.
        gain: i64,
    },
}

/// What is asked to show an id. [`show`](show()) has the example.
///
/// ```
/// assert_eq!([ivs::Shows::EndRecord, ivs::Shows::Row].map(ivs::Shows::number), [0, 1]);
/// ```
#[derive(Clone, Copy, Debug, PartialEq, Eq)]
pub enum Shows {
    /// The end record in the job of the first set that has the id.
    EndRecord = 0,
    /// The id's row in the store.
    Row = 1,
}

impl Shows {
    /// Its number, as [`show_report`] takes it.
    ///
    /// ```
    /// assert_eq!(ivs::Shows::Row.number(), 1);
    /// ```
    pub const fn number(self) -> u32 {
        self as u32
    }
}

/// Why two ids are where they are: of a job and its store in mode 0, byte for byte.
///
/// Refused is what a build of the job refuses; then 62 where there is no such id, and 63 where
/// the store is another.
///
/// ```
/// use ivs::{why, Why};
///
/// let mut job = ivs::JobWriter::new(1);
/// let bold = job.region(&[(0, 0x4000, 0x4000)])?;
/// let light = job.region(&[(-0x4000, -0x4000, 0)])?;
/// for value in 1..=20 {
///     job.set(&[(bold, value)])?;                    // ids 0 to 19
/// }
/// for value in 1..=20 {
///     job.set(&[(light, value)])?;                   // ids 20 to 39
/// }
/// let job = job.finish();
/// let mut store = ivs::pack(1, 0, &job)?.store;
/// assert_eq!(why(1, &job, &store, 0, 19)?, Why::SameSubtable);
/// let apart = Why::NeverJoined { costs: [32, 32], joined: 94, gain: -30 };
/// assert_eq!(why(1, &job, &store, 0, 20)?, apart);
///
/// let refused = why(1, &job, &store, 0, 40).unwrap_err();
/// assert_eq!(refused.refusal(), Some(ivs::Refusal::NoId));
/// store[0] ^= 1;
/// let refused = why(1, &job, &store, 0, 20).unwrap_err();
/// assert_eq!(refused.refusal(), Some(ivs::Refusal::OtherStore));
/// # Ok::<(), ivs::Error>(())
/// ```
pub fn why(axes: u32, job: &[u8], store: &[u8], first: u32, second: u32) -> Result<Why, Refused> {
    let mut room = Room::of(axes, DEDUPLICATING, job)?;
    why_with(axes, job, store, first, second, &mut room.lent())
}

/// [`why`](why()) in lent memory, as for a build in mode 0, and left as by it.
///
/// ```
/// let job = [3, 0, 0, 0, 0, 0, 0, 0, 0, 0, 0, 0];     // one set, which is empty
/// let store = ivs::pack(1, 0, &job)?.store;
/// let mut out = [0xFF; 23];
/// let mut lent = ivs::Lent {
///     work: &mut vec![7; ivs::job_words(1, &job)],
///     pairs: &mut vec![ivs::Pair::default(); ivs::PAIRS],
///     out: &mut out,
///     ids: &mut [9],
///     map: &mut [9],
///     log: &mut [],
///     origins: &mut [9, 9],
/// };
/// assert_eq!(ivs::why_with(1, &job, &store, 0, 0, &mut lent)?, ivs::Why::SameSubtable);
/// assert_eq!((&out[..22], out[22]), (&store[..], 0xFF));
/// # Ok::<(), ivs::Refused>(())
/// ```
pub fn why_with(
    axes: u32,
    job: &[u8],
    store: &[u8],
    first: u32,
    second: u32,
    lent: &mut Lent<'_>,
) -> Result<Why, Refused> {
    let mut report = [0; 16];
    if why_report(axes, job, store, first, second, lent, &mut report) != 0 {
        return Err(Refused::of(&report).short_of(axes, job, lent.work.len()));
    }
    Ok(match report[2] {
        1 => Why::SameSubtable,
        2 => Why::CutApart,
        _ => Why::NeverJoined {
            costs: [report[3], report[4]],
            joined: report[5],
            // Two's complement of 64 bits.
            gain: report[6] as i64,
        },
    })
}

/// [`why_with`], with the report as the library fills it (include/ivs.h). The answer is the
/// refusal number, 0 where there is a reason.
///
/// ```
/// let mut lent = ivs::Lent {
///     work: &mut [],                                 // a job of no records needs none
///     pairs: &mut vec![ivs::Pair::default(); ivs::PAIRS],
///     out: &mut [0; 12],
///     ids: &mut [],
///     map: &mut [],
///     log: &mut [],
///     origins: &mut [],
/// };
/// let mut report = [9; 16];
/// assert_eq!(ivs::why_report(1, &[], &[], 0, 0, &mut lent, &mut report), 62); // no id at all
/// assert_eq!((report[0], report[15]), (62, 0));
/// ```
pub fn why_report(
    axes: u32,
    job: &[u8],
    store: &[u8],
    first: u32,
    second: u32,
    lent: &mut Lent<'_>,
    report: &mut [u64; 16],
) -> u32 {
    raw::why(axes, job, store, first, second, lent, report)
}

/// The bytes that show an id, as a part of the job or of its store in mode 0 and no copy: the end
/// record of the first set that has it, or its row. A row of no columns has no bytes.
///
/// Refused as [`why`](why()).
///
/// ```
/// use ivs::{show, Shows};
///
/// let mut job = ivs::JobWriter::new(1);
/// let bold = job.region(&[(0, 0x4000, 0x4000)])?;
/// for value in [10, 10, 300] {
///     job.set(&[(bold, value)])?;
/// }
/// let job = job.finish();
/// let store = ivs::pack(1, 0, &job)?.store;          // sets 0 and 1 have id 0, set 2 has id 1
/// assert_eq!(show(1, &job, &store, 1, Shows::Row)?, [1, 44]);
/// let end = show(1, &job, &store, 1, Shows::EndRecord)?;
/// assert_eq!(end.as_ptr(), job[12 * 6..].as_ptr());  // the last of seven records
/// assert_eq!(end, [3, 0, 0, 0, 0, 0, 0, 0, 0, 0, 0, 0]);
///
/// let refused = show(1, &job, &store[1..], 0, Shows::Row).unwrap_err();
/// assert_eq!(refused.refusal(), Some(ivs::Refusal::OtherStore));
/// # Ok::<(), ivs::Error>(())
/// ```
pub fn show<'a>(
    axes: u32,
    job: &'a [u8],
    store: &'a [u8],
    id: u32,
    what: Shows,
) -> Result<&'a [u8], Refused> {
    let mut room = Room::of(axes, DEDUPLICATING, job)?;
    show_with(axes, job, store, id, what, &mut room.lent())
}

/// [`show`](show()) in lent memory, as for a build in mode 0, and left as by it.
///
/// ```
/// let job = [3, 0, 0, 0, 0, 0, 0, 0, 0, 0, 0, 0];     // one set, which is empty
/// let store = ivs::pack(1, 0, &job)?.store;
/// let mut lent = ivs::Lent {
///     work: &mut vec![7; ivs::job_words(1, &job)],
///     pairs: &mut vec![ivs::Pair::default(); ivs::PAIRS],
///     out: &mut [0xFF; 22],
///     ids: &mut [9],
///     map: &mut [9],
///     log: &mut [],
///     origins: &mut [9, 9],
/// };
/// let end = ivs::show_with(1, &job, &store, 0, ivs::Shows::EndRecord, &mut lent)?;
/// assert_eq!(end, job);
/// let row = ivs::show_with(1, &job, &store, 0, ivs::Shows::Row, &mut lent)?;
/// assert_eq!(row, []);
/// # Ok::<(), ivs::Refused>(())
/// ```
pub fn show_with<'a>(
    axes: u32,
    job: &'a [u8],
    store: &'a [u8],
    id: u32,
    what: Shows,
    lent: &mut Lent<'_>,
) -> Result<&'a [u8], Refused> {
    let mut report = [0; 16];
    if show_report(axes, job, store, id, what.number(), lent, &mut report) != 0 {
        return Err(Refused::of(&report).short_of(axes, job, lent.work.len()));
    }
    let whole = match what {
        Shows::EndRecord => job,
        Shows::Row => store,
    };
    let (start, length) = (report[2] as usize, report[3] as usize);
    Ok(&whole[start..start + length])
}

/// [`show_with`], with the report as the library fills it (include/ivs.h): where the part starts
/// and how long it is, of the job where `what` is 0, else of the store. The answer is the refusal
/// number, 0 where there is such a part.
///
/// ```
/// let mut lent = ivs::Lent {
///     work: &mut [],                                 // a job of no records needs none
///     pairs: &mut vec![ivs::Pair::default(); ivs::PAIRS],
///     out: &mut [0; 12],
///     ids: &mut [],
///     map: &mut [],
///     log: &mut [],
///     origins: &mut [],
/// };
/// let mut report = [9; 16];
/// assert_eq!(ivs::show_report(1, &[], &[], 0, 1, &mut lent, &mut report), 62); // no id at all
/// assert_eq!((report[0], report[2], report[3]), (62, 0, 0));
/// ```
pub fn show_report(
    axes: u32,
    job: &[u8],
    store: &[u8],
    id: u32,
    what: u32,
    lent: &mut Lent<'_>,
    report: &mut [u64; 16],
) -> u32 {
    raw::show(axes, job, store, id, what, lent, report)
}
