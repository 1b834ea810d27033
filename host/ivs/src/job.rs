//! A job with its axis count, so that it is said once; the mode by its name; one error.

use crate::{building, forecast, judging, part, why};
use crate::{Done, JobError, JobWriter, Packed, Parted, Profile, Refused, Shows, Verdict, Why};
use std::error;
use std::fmt;

/// How equal sets are kept.
///
/// ```
/// assert_eq!([ivs::Mode::Deduplicating, ivs::Mode::Implicit].map(u32::from), [0, 1]);
/// ```
#[derive(Clone, Copy, Debug, Default, PartialEq, Eq, Hash)]
pub enum Mode {
    /// Mode 0: equal sets share a row; rows are grouped by shape, and groups are merged while
    /// that saves bytes.
    #[default]
    Deduplicating = 0,
    /// Mode 1: every set has a row of its own, in its order, in one subtable.
    Implicit = 1,
}

impl Mode {
    /// Its number, as the calls take it that are lent memory.
    ///
    /// ```
    /// assert_eq!(ivs::Mode::Implicit.number(), 1);
    /// ```
    pub const fn number(self) -> u32 {
        self as u32
    }
}

impl From<Mode> for u32 {
    fn from(mode: Mode) -> u32 {
        mode.number()
    }
}

/// A job's bytes with their axis count. [`JobWriter::job`] makes one; the bytes may be anybody's.
///
/// ```
/// use ivs::{Job, JobWriter, Mode, Refusal};
///
/// let mut writer = JobWriter::new(1);
/// let bold = writer.region(&[(0, 0x4000, 0x4000)])?;
/// writer.set(&[(bold, 10)])?;
/// let job = writer.job();
/// assert_eq!(job.pack(Mode::Deduplicating)?.value(0, bold), Some(10));
///
/// let cut = Job::new(1, job.bytes()[..24].to_vec());
/// let refused = cut.pack(Mode::Implicit).unwrap_err();
/// assert_eq!(refused.refusal(), Some(Refusal::Unfinished));
/// # Ok::<(), ivs::Error>(())
/// ```
#[derive(Clone, Debug, PartialEq, Eq, Hash)]
pub struct Job {
    axes: u32,
    bytes: Vec<u8>,
}

impl Job {
    /// A job of so many axes, whatever its bytes are: they are looked at when it is used.
    ///
    /// ```
    /// assert!(ivs::Job::new(1, vec![]).pack(ivs::Mode::Implicit).is_ok());
    /// assert!(ivs::Job::new(1, vec![7]).pack(ivs::Mode::Implicit).is_err());
    /// ```
    pub fn new(axes: u32, bytes: Vec<u8>) -> Job {
        Job { axes, bytes }
    }

    /// The axis count.
    ///
    /// ```
    /// assert_eq!(ivs::JobWriter::new(3).job().axes(), 3);
    /// ```
    pub fn axes(&self) -> u32 {
        self.axes
    }

    /// The job's bytes.
    ///
    /// ```
    /// assert_eq!(ivs::JobWriter::new(3).job().bytes(), []);
    /// ```
    pub fn bytes(&self) -> &[u8] {
        &self.bytes
    }

    /// [`pack`](crate::pack) of it.
    ///
    /// ```
    /// let packed = ivs::JobWriter::new(1).job().pack(ivs::Mode::Deduplicating)?;
    /// assert_eq!(packed.store.len(), 12);
    /// # Ok::<(), ivs::Refused>(())
    /// ```
    pub fn pack(&self, mode: Mode) -> Result<Packed, Refused> {
        building::pack(self.axes, mode.number(), &self.bytes)
    }

    /// [`pack_for`](crate::pack_for) of it: by a profile.
    ///
    /// ```
    /// use ivs::{Mode, Profile, Refusal};
    ///
    /// let mut writer = ivs::JobWriter::new(1);
    /// let bold = writer.region(&[(0, 0x4000, 0x4000)])?;
    /// writer.set(&[(bold, 40_000)])?;
    /// let refused = writer.job().pack_for(Profile::Panel, Mode::Deduplicating).unwrap_err();
    /// assert_eq!(refused.refusal(), Some(Refusal::LongValue));
    /// # Ok::<(), ivs::Error>(())
    /// ```
    pub fn pack_for(&self, profile: Profile, mode: Mode) -> Result<Packed, Refused> {
        building::pack_for(profile, self.axes, mode.number(), &self.bytes)
    }

    /// [`forecast`](crate::forecast()) of it.
    ///
    /// ```
    /// let job = ivs::JobWriter::new(1).job();
    /// assert_eq!(job.forecast(ivs::Mode::Implicit)?.store_bytes, 16);
    /// # Ok::<(), ivs::Refused>(())
    /// ```
    pub fn forecast(&self, mode: Mode) -> Result<Done, Refused> {
        forecast::forecast(self.axes, mode.number(), &self.bytes)
    }

    /// Where two of its sets part: [`part`](crate::part()).
    ///
    /// ```
    /// let mut writer = ivs::JobWriter::new(1);
    /// writer.set(&[])?;
    /// writer.set(&[])?;
    /// assert_eq!(writer.job().part(0, 1)?, ivs::Parted::Equal);
    /// # Ok::<(), ivs::Error>(())
    /// ```
    pub fn part(&self, first: u32, second: u32) -> Result<Parted, Refused> {
        part::part(self.axes, &self.bytes, first, second)
    }

    /// Why two ids of its store are where they are: [`why`](crate::why()).
    ///
    /// ```
    /// let mut writer = ivs::JobWriter::new(1);
    /// writer.set(&[])?;
    /// let job = writer.job();
    /// let store = job.pack(ivs::Mode::Deduplicating)?.store;
    /// assert_eq!(job.why(&store, 0, 0)?, ivs::Why::SameSubtable);
    /// # Ok::<(), ivs::Error>(())
    /// ```
    pub fn why(&self, store: &[u8], first: u32, second: u32) -> Result<Why, Refused> {
        why::why(self.axes, &self.bytes, store, first, second)
    }

    /// The part of it, or of its store, that shows an id: [`show`](crate::show()).
    ///
    /// ```
    /// let mut writer = ivs::JobWriter::new(1);
    /// writer.set(&[])?;
    /// let job = writer.job();
    /// let store = job.pack(ivs::Mode::Deduplicating)?.store;
    /// assert_eq!(job.show(&store, 0, ivs::Shows::EndRecord)?, job.bytes());
    /// # Ok::<(), ivs::Error>(())
    /// ```
    pub fn show<'a>(&'a self, store: &'a [u8], id: u32, what: Shows) -> Result<&'a [u8], Refused> {
        why::show(self.axes, &self.bytes, store, id, what)
    }

    /// Whether a store gives its sets, by a row's word for each: [`judge`](crate::judge).
    ///
    /// ```
    /// let job = ivs::Job::new(1, vec![3, 0, 0, 0, 0, 0, 0, 0, 0, 0, 0, 0]);
    /// assert_eq!(job.judge(&[], &[])?, ivs::Verdict::Store);  // that is no store
    /// # Ok::<(), ivs::Refused>(())
    /// ```
    pub fn judge(&self, store: &[u8], words: &[u32]) -> Result<Verdict, Refused> {
        judging::judge(self.axes, &self.bytes, store, words)
    }

    /// A refusal of this job in words: [`Refused::explain`].
    ///
    /// ```
    /// let job = ivs::Job::new(1, vec![9; 12]);
    /// let refused = job.pack(ivs::Mode::Implicit).unwrap_err();
    /// assert!(job.explain(&refused).contains("byte 0, the kind, is 0x09"));
    /// ```
    pub fn explain(&self, refused: &Refused) -> String {
        refused.explain(self.axes, &self.bytes)
    }
}

/// Whatever can go wrong in this crate, for who wants one type behind `?`: a job that cannot
/// be said, or a call that is refused.
///
/// ```
/// fn store(value: i32) -> Result<Vec<u8>, ivs::Error> {
///     let mut job = ivs::JobWriter::new(1);
///     let bold = job.region(&[(0, 0x4000, 0x4000)])?;
///     job.set(&[(bold, value)])?;
///     Ok(job.job().pack(ivs::Mode::Deduplicating)?.store)
/// }
/// assert_eq!(store(10)?.len(), 31);
/// # Ok::<(), ivs::Error>(())
/// ```
#[derive(Clone, Copy, Debug, PartialEq, Eq)]
pub enum Error {
    /// What a [`JobWriter`] cannot say.
    Job(JobError),
    /// A call that was refused.
    Refused(Refused),
}

impl From<JobError> for Error {
    fn from(error: JobError) -> Error {
        Error::Job(error)
    }
}

impl From<Refused> for Error {
    fn from(refused: Refused) -> Error {
        Error::Refused(refused)
    }
}

impl fmt::Display for Error {
    fn fmt(&self, f: &mut fmt::Formatter<'_>) -> fmt::Result {
        match self {
            Error::Job(error) => error.fmt(f),
            Error::Refused(refused) => refused.fmt(f),
        }
    }
}

impl error::Error for Error {
    fn source(&self) -> Option<&(dyn error::Error + 'static)> {
        match self {
            Error::Job(error) => Some(error),
            Error::Refused(refused) => Some(refused),
        }
    }
}

impl From<JobWriter> for Job {
    fn from(writer: JobWriter) -> Job {
        writer.job()
    }
}
