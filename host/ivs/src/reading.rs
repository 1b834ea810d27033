//! Reading one value of a store.

use crate::raw;
use crate::refusals::Refused;

/// What reading one value answers when it is not refused.
///
/// ```
/// let mut job = ivs::JobWriter::new(1);
/// let bold = job.region(&[(0, 0x4000, 0x4000)])?;
/// job.set(&[(bold, 10)])?;
/// let store = job.job().pack(ivs::Mode::Deduplicating)?.store;
/// let value = match ivs::read(&store, 0, 0, 0)? {
///     ivs::Reading::Written(value) => value,
///     ivs::Reading::NoColumn => 0,
/// };
/// assert_eq!(value, 10);
/// # Ok::<(), ivs::Error>(())
/// ```
#[derive(Clone, Copy, Debug, PartialEq, Eq)]
pub enum Reading {
    /// The row has a column for the region, with this value.
    Written(i32),
    /// The row has no column for the region, which means zero.
    NoColumn,
}

/// The value of a region (by its number in the store's list) in row `inner` of subtable
/// `outer`.
///
/// ```
/// use ivs::{read, Reading};
///
/// let mut job = ivs::JobWriter::new(1);
/// let bold = job.region(&[(0, 0x4000, 0x4000)])?;
/// job.set(&[(bold, -3)])?;
/// let store = ivs::pack(1, 0, &job.finish())?.store;
/// assert_eq!(read(&store, 0, 0, 0), Ok(Reading::Written(-3)));
/// let number = |outer, inner, region| read(&store, outer, inner, region).unwrap_err().number;
/// assert_eq!([number(1, 0, 0), number(0, 1, 0), number(0, 0, 1)], [21, 21, 22]);
/// assert_eq!(read(&store[..30], 0, 0, 0).unwrap_err().name(), "BAD_STORE");
/// # Ok::<(), Box<dyn std::error::Error>>(())
/// ```
pub fn read(store: &[u8], outer: u32, inner: u32, region: u32) -> Result<Reading, Refused> {
    reading(raw::read(store, outer, inner, region))
}

/// The reading that a word stands for, or the refusal in its high half.
pub(crate) fn reading(word: u64) -> Result<Reading, Refused> {
    match (word >> 32) as u32 {
        0 => Ok(Reading::Written(word as u32 as i32)),
        1 => Ok(Reading::NoColumn),
        number => Err(Refused::bare(number)),
    }
}
