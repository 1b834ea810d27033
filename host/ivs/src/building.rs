//! Building a store: in lent memory, and in memory of its own.

use crate::forecast::forecast_with;
use crate::kept;
use crate::raw;
use crate::refusals::{Refused, RECORD};

/// A record for a pair of groups that waits to be merged: room that is lent, with nothing
/// in it for who lends it.
///
/// ```
/// let pairs = vec![ivs::Pair::default(); ivs::PAIRS];
/// assert_eq!(std::mem::size_of_val(&pairs[..]), 12 << 20);
/// ```
#[repr(C)]
#[derive(Clone, Copy, Debug, Default, PartialEq, Eq)]
pub struct Pair {
    /// The bytes that joining the two would save.
    pub gain: u32,
    /// The smaller of the two groups' numbers.
    pub first: u32,
    /// The other.
    pub second: u32,
}

/// For which reader a store is built. What the panel's takes is built as for any other.
///
/// ```
/// let job = ivs::JobWriter::new(1).job();
/// assert_eq!(job.pack_for(ivs::Profile::Panel, ivs::Mode::Deduplicating)?.store.len(), 12);
/// # Ok::<(), ivs::Refused>(())
/// ```
#[derive(Clone, Copy, Debug, Default, PartialEq, Eq)]
pub enum Profile {
    /// Any reader of OpenType.
    #[default]
    Plain,
    /// The instrument makers' reader: values of 16 bits, regions that it does not skip, at
    /// most 32 columns in a subtable. All else is refused by 70, 71 or 72.
    Panel,
}

/// The pair records that a build needs, whatever its job is: 12 MiB.
pub const PAIRS: usize = 1_048_576;

/// Memory lent to a build; [`build_into`] has the example.
pub struct Lent<'a> {
    /// As many words as [`work_words`] says; all zeros after a call that was not refused
    /// by 1 to 4.
    pub work: &'a mut [u32],
    /// At least [`PAIRS`] records; all zeros after a call that was not refused by 1 to 4.
    pub pairs: &'a mut [Pair],
    /// The store's bytes.
    pub out: &'a mut [u8],
    /// The n-th word is the n-th set's id.
    pub ids: &'a mut [u32],
    /// For each id, outer x 65,536 + inner.
    pub map: &'a mut [u32],
    /// For each merge: first number, second number, gain.
    pub log: &'a mut [u32],
    /// For each starting shape, in order: its number, and the place of its final group.
    pub origins: &'a mut [u32],
}

/// The numbers of a done build, or of a forecast. What a build has written: `store_bytes` of
/// out, a word of ids for each set, `distinct_ids` words of map, 3 x `merges` words of log,
/// 2 x `shapes` words of origins.
///
/// ```
/// let done = ivs::pack(1, 1, &[])?.done;              // no sets in mode 1: one subtable, null
/// assert_eq!((done.store_bytes, done.subtables, done.distinct_ids), (16, 1, 0));
/// # Ok::<(), ivs::Refused>(())
/// ```
#[derive(Clone, Copy, Debug, Default, PartialEq, Eq)]
pub struct Done {
    /// Bytes of the store.
    pub store_bytes: u64,
    /// Subtables in the store, a null one included.
    pub subtables: u64,
    /// Regions kept.
    pub regions_kept: u64,
    /// Distinct ids.
    pub distinct_ids: u64,
    /// N: the groups before merging; 0 in mode 1.
    pub shapes: u64,
    /// Merges.
    pub merges: u64,
    /// Pairs weighed.
    pub pairs: u64,
    /// Modelled size before merging.
    pub size_before: u64,
    /// Modelled size after merging.
    pub size_after: u64,
    /// The forecast of the store's bytes: as many as there are.
    pub forecast: u64,
}

/// The answer that a report has, of a build or of a forecast (include/ivs.h).
pub(crate) fn done(report: &[u64; 16]) -> Result<Done, Refused> {
    if report[0] != 0 {
        return Err(Refused::of(report));
    }
    Ok(Done {
        store_bytes: report[2],
        subtables: report[3],
        regions_kept: report[4],
        distinct_ids: report[5],
        shapes: report[6],
        merges: report[7],
        pairs: report[8],
        size_before: report[9],
        size_after: report[10],
        forecast: report[11],
    })
}

/// A store with everything that a build says of it.
///
/// ```
/// let packed = ivs::pack(1, 0, &[])?;                // no regions and no sets
/// assert_eq!(packed.store, [0, 1, 0, 0, 0, 8, 0, 0, 0, 1, 0, 0]);
/// assert_eq!(packed.done, ivs::Done { store_bytes: 12, forecast: 12, ..Default::default() });
/// # Ok::<(), ivs::Refused>(())
/// ```
#[derive(Clone, Debug, PartialEq, Eq)]
pub struct Packed {
    /// The numbers.
    pub done: Done,
    /// The store.
    pub store: Vec<u8>,
    /// The id of each set.
    pub ids: Vec<u32>,
    /// For each id, outer x 65,536 + inner.
    pub map: Vec<u32>,
    /// For each merge: first number, second number, gain.
    pub log: Vec<u32>,
    /// For each starting shape, in order: its number, and the place of its final group in the
    /// final order, from 0, before cutting. None in mode 1.
    pub origins: Vec<u32>,
    /// For each region of the job its number in the store's list, or none where no row has a
    /// column for it: [`Packed::region`].
    pub regions: Vec<Option<u32>>,
}

/// The words of work that a job of so many records needs, with so many regions at its head
/// ([`head_regions`]); 0 above the record limit.
///
/// ```
/// assert_eq!(ivs::work_words(1, 0), 32);
/// assert_eq!(ivs::work_words(1_048_576, 200), 16 * 1_048_576 + 1_024 * (200 + 16 + 3 * 7));
/// assert_eq!(ivs::work_words(1_048_577, 200), 0);
/// ```
pub fn work_words(records: usize, regions: usize) -> usize {
    raw::work_words(records, regions)
}

/// The regions at a job's head: the axis records that it begins with over the axis count,
/// rounded up, at most as many as there may be; none for no axes.
///
/// ```
/// let job = [[1; 12]; 5].concat(); // no sound job: the kinds alone are looked at
/// assert_eq!(ivs::head_regions(2, &job), 3);
/// assert_eq!(ivs::head_regions(0, &job), 0);
/// ```
pub fn head_regions(axes: u32, job: &[u8]) -> usize {
    raw::head_regions(axes, job)
}

/// The words of work that a job needs: [`work_words`] of its records and [`head_regions`].
///
/// ```
/// let mut writer = ivs::JobWriter::new(1);
/// writer.region(&[(0, 0x4000, 0x4000)])?;
/// writer.set(&[])?;
/// assert_eq!(ivs::job_words(1, &writer.finish()), ivs::work_words(2, 1));
/// # Ok::<(), ivs::JobError>(())
/// ```
pub fn job_words(axes: u32, job: &[u8]) -> usize {
    work_words(job.len() / RECORD, head_regions(axes, job))
}

/// One build in lent memory.
///
/// ```
/// let mut writer = ivs::JobWriter::new(1);
/// let bold = writer.region(&[(0, 0x4000, 0x4000)])?;
/// writer.set(&[(bold, 10)])?;
/// let job = writer.finish();
///
/// let mut work = vec![0; ivs::job_words(1, &job)];
/// let mut pairs = vec![ivs::Pair::default(); ivs::PAIRS];
/// let (mut out, mut ids, mut map, mut origins) = ([0xFF; 40], [0; 1], [0; 1], [0; 2]);
/// let mut lent = ivs::Lent {
///     work: &mut work,
///     pairs: &mut pairs,
///     out: &mut out,
///     ids: &mut ids,
///     map: &mut map,
///     log: &mut [],
///     origins: &mut origins,
/// };
/// let done = ivs::build_into(1, 0, &job, &mut lent)?;
/// assert_eq!((done.store_bytes, done.forecast), (31, 31));
/// assert_eq!(lent.out[29..33], [0, 10, 0xFF, 0xFF]); // past the store nothing is written
/// assert_eq!(ivs::build_into(1, 0, &job, &mut lent), Ok(done)); // the same memory, once more
///
/// lent.pairs = &mut lent.pairs[1..];
/// let refused = ivs::build_into(1, 0, &job, &mut lent).unwrap_err();
/// assert_eq!((refused.number, refused.short), (4, Some(ivs::Short::Pairs(1_048_576))));
/// lent.work = &mut lent.work[1..];                   // tested before the pair records
/// let refused = ivs::build_into(1, 0, &job, &mut lent).unwrap_err();
/// assert_eq!(
///     refused.to_string(),
///     "4 WORK_SHORT: the words of work lent are too few; lend 108 of them"
/// );
/// # Ok::<(), Box<dyn std::error::Error>>(())
/// ```
pub fn build_into(axes: u32, mode: u32, job: &[u8], lent: &mut Lent<'_>) -> Result<Done, Refused> {
    build_into_for(Profile::Plain, axes, mode, job, lent)
}

/// As [`build_into`], for a profile.
///
/// ```
/// let mut writer = ivs::JobWriter::new(1);
/// let odd = writer.region(&[(-0x4000, 0x2000, 0x4000)])?; // 0 inside, and the peak elsewhere
/// writer.set(&[(odd, 10)])?;
/// let job = writer.finish();
///
/// let mut work = vec![0; ivs::job_words(1, &job)];
/// let mut pairs = vec![ivs::Pair::default(); ivs::PAIRS];
/// let (mut out, mut ids, mut map, mut origins) = ([0xFF; 40], [0; 1], [0; 1], [0; 2]);
/// let mut lent = ivs::Lent {
///     work: &mut work,
///     pairs: &mut pairs,
///     out: &mut out,
///     ids: &mut ids,
///     map: &mut map,
///     log: &mut [],
///     origins: &mut origins,
/// };
/// assert!(ivs::build_into_for(ivs::Profile::Plain, 1, 0, &job, &mut lent).is_ok());
/// let refused = ivs::build_into_for(ivs::Profile::Panel, 1, 0, &job, &mut lent).unwrap_err();
/// assert_eq!((refused.number, refused.name(), refused.place), (71, "BAD_REGION", 0));
/// # Ok::<(), Box<dyn std::error::Error>>(())
/// ```
pub fn build_into_for(
    profile: Profile,
    axes: u32,
    mode: u32,
    job: &[u8],
    lent: &mut Lent<'_>,
) -> Result<Done, Refused> {
    let mut report = [0; 16];
    build_report_for(profile, axes, mode, job, lent, &mut report);
    done(&report).map_err(|refused| refused.short_of(axes, job, lent.work.len()))
}

/// One build in lent memory, with the report as the library fills it (include/ivs.h).
/// The answer is the refusal number, 0 for done.
///
/// ```
/// let mut lent = ivs::Lent {
///     work: &mut [],                                 // a job of no records needs none
///     pairs: &mut vec![ivs::Pair::default(); ivs::PAIRS],
///     out: &mut [0; 12],
///     ids: &mut [],
///     map: &mut [],
///     log: &mut [],
///     origins: &mut [],
/// };
/// let mut report = [9; 16];
/// assert_eq!(ivs::build_report(1, 0, &[], &mut lent, &mut report), 0);
/// assert_eq!((report[2], report[11], report[15]), (12, 12, 0)); // bytes, forecast, nothing
/// assert_eq!(ivs::build_report(1, 7, &[], &mut lent, &mut report), 2);
/// ```
pub fn build_report(
    axes: u32,
    mode: u32,
    job: &[u8],
    lent: &mut Lent<'_>,
    report: &mut [u64; 16],
) -> u32 {
    build_report_for(Profile::Plain, axes, mode, job, lent, report)
}

/// As [`build_report`], for a profile.
///
/// ```
/// let mut lent = ivs::Lent {
///     work: &mut [],
///     pairs: &mut vec![ivs::Pair::default(); ivs::PAIRS],
///     out: &mut [0; 12],
///     ids: &mut [],
///     map: &mut [],
///     log: &mut [],
///     origins: &mut [],
/// };
/// let mut report = [9; 16];
/// let number = ivs::build_report_for(ivs::Profile::Panel, 1, 0, &[], &mut lent, &mut report);
/// assert_eq!((number, report[2]), (0, 12));
/// ```
pub fn build_report_for(
    profile: Profile,
    axes: u32,
    mode: u32,
    job: &[u8],
    lent: &mut Lent<'_>,
    report: &mut [u64; 16],
) -> u32 {
    raw::build(profile, axes, mode, job, lent, report)
}

/// One build in memory of its own, of which it takes as much as [`forecast`](crate::forecast)
/// says: where many jobs follow one another, [`build_into`] can lend the same to all.
///
/// ```
/// let mut job = ivs::JobWriter::new(1);
/// let bold = job.region(&[(0, 0x4000, 0x4000)])?;
/// for value in [10, -300, 10] {
///     job.set(&[(bold, value)])?;
/// }
/// let job = job.finish();
/// let packed = ivs::pack(1, 0, &job)?;
/// assert_eq!(packed.ids, [0, 1, 0]);                 // the third set is the first again
/// let word = packed.map[1];                          // outer x 65,536 + inner of id 1
/// let value = ivs::read(&packed.store, word >> 16, word & 0xFFFF, 0)?;
/// assert_eq!(value, ivs::Reading::Written(-300));
/// assert_eq!(packed.origins, [0, 0, 1, 0]);          // both shapes went into one group
///
/// let refused = ivs::pack(1, 0, &job[..12 * 2]).unwrap_err();
/// assert_eq!((refused.number, refused.name(), refused.place), (8, "UNFINISHED", 2));
/// # Ok::<(), Box<dyn std::error::Error>>(())
/// ```
pub fn pack(axes: u32, mode: u32, job: &[u8]) -> Result<Packed, Refused> {
    pack_for(Profile::Plain, axes, mode, job)
}

/// As [`pack`], for a profile.
///
/// ```
/// let mut job = ivs::JobWriter::new(1);
/// let bold = job.region(&[(0, 0x4000, 0x4000)])?;
/// job.set(&[(bold, 32_767)])?;
/// let fits = job.clone().finish();
/// let packed = ivs::pack_for(ivs::Profile::Panel, 1, 0, &fits)?;
/// assert_eq!(packed, ivs::pack(1, 0, &fits)?);       // built as for any other reader
///
/// job.set(&[(bold, 32_768)])?;
/// let refused = ivs::pack_for(ivs::Profile::Panel, 1, 0, &job.finish()).unwrap_err();
/// assert_eq!((refused.number, refused.name(), refused.place), (70, "LONG_VALUE", 3));
/// # Ok::<(), Box<dyn std::error::Error>>(())
/// ```
pub fn pack_for(profile: Profile, axes: u32, mode: u32, job: &[u8]) -> Result<Packed, Refused> {
    let mut room = match Room::of(axes, mode, job) {
        Ok(room) => room,
        Err(refused) => return Err(earlier(profile, axes, mode, job, refused)),
    };
    let done = build_into_for(profile, axes, mode, job, &mut room.lent())?;
    room.log.truncate(3 * done.merges as usize);
    Ok(Packed {
        done,
        regions: kept::regions(axes, job, &room.out),
        store: room.out,
        ids: room.ids,
        map: room.map,
        log: room.log,
        origins: room.origins,
    })
}

/// Memory for a build, of which there is as much as a forecast says.
pub(crate) struct Room {
    work: Vec<u32>,
    pairs: Vec<Pair>,
    out: Vec<u8>,
    ids: Vec<u32>,
    map: Vec<u32>,
    log: Vec<u32>,
    origins: Vec<u32>,
}

impl Room {
    pub(crate) fn of(axes: u32, mode: u32, job: &[u8]) -> Result<Room, Refused> {
        let mut work = vec![0; job_words(axes, job)];
        let mut pairs = vec![Pair::default(); PAIRS];
        let told = forecast_with(axes, mode, job, &mut work, &mut pairs)?;
        let sets = job.chunks_exact(RECORD).filter(|r| r[0] == 3).count();
        Ok(Room {
            work,
            pairs,
            out: vec![0; told.store_bytes as usize],
            ids: vec![0; sets],
            map: vec![0; told.distinct_ids as usize],
            log: vec![0; 3 * told.shapes.saturating_sub(1) as usize],
            origins: vec![0; 2 * told.shapes as usize],
        })
    }

    pub(crate) fn lent(&mut self) -> Lent<'_> {
        Lent {
            work: &mut self.work,
            pairs: &mut self.pairs,
            out: &mut self.out,
            ids: &mut self.ids,
            map: &mut self.map,
            log: &mut self.log,
            origins: &mut self.origins,
        }
    }
}

/// What a job that is refused without a profile is refused by with it: the profile may not
/// take a record before the one that answered.
fn earlier(profile: Profile, axes: u32, mode: u32, job: &[u8], refused: Refused) -> Refused {
    if profile == Profile::Plain {
        return refused;
    }
    let mut lent = Lent {
        work: &mut vec![0; job_words(axes, job)],
        pairs: &mut vec![Pair::default(); PAIRS],
        out: &mut [],
        ids: &mut [],
        map: &mut [],
        log: &mut [],
        origins: &mut [],
    };
    build_into_for(profile, axes, mode, job, &mut lent).map_or_else(|refused| refused, |_| refused)
}
