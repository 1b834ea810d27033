//! Refusals: the numbers of an answer, and in words as far as these go.
//! [`Refused::explain`] says more, with the job at hand.

use crate::building::{job_words, PAIRS};
use crate::wording;
use std::error::Error;
use std::fmt;

/// Bytes of a job's record.
pub(crate) const RECORD: usize = 12;

/// WORK_SHORT, of which there are two kinds.
const WORK_SHORT: u32 = 4;

/// Those of a record, of which SETS_FULL has nothing more to say.
pub(crate) const UNKNOWN_REGION: u32 = 6;
pub(crate) const REGION_TWICE: u32 = 7;
const SETS_FULL: u32 = 9;
pub(crate) const UNKNOWN_KIND: u32 = 30;
pub(crate) const NOT_ZERO: u32 = 31;
pub(crate) const AXIS_OUT_OF_TURN: u32 = 32;
pub(crate) const AXIS_TOO_LATE: u32 = 33;
pub(crate) const REGION_UNFINISHED: u32 = 34;

/// Those of the panel's profile at a record.
pub(crate) const LONG_VALUE: u32 = 70;
pub(crate) const BAD_REGION: u32 = 71;

/// That of the job's end.
pub(crate) const UNFINISHED: u32 = 8;

/// That of a set that is asked for.
pub(crate) const NO_SET: u32 = 64;

/// A call that was refused: nothing was written to what was lent, but for work and pairs.
///
/// ```
/// // A value record that names region 7, of which there is none.
/// let job = [2, 7, 0, 0, 0, 0, 0, 1, 0, 0, 0, 0];
/// let refused = ivs::pack(1, 0, &job).unwrap_err();
/// assert_eq!(
///     refused.to_string(),
///     "6 UNKNOWN_REGION at record 0 (byte 0): the value names a region that has no axis records; \
///      add the region's axis records, or name another"
/// );
/// // An end record whose byte 9 is not 0: the byte is named.
/// let job = [3, 0, 0, 0, 0, 0, 0, 0, 0, 8, 0, 0];
/// let refused = ivs::pack(1, 0, &job).unwrap_err();
/// assert_eq!((refused.number, refused.place, refused.byte), (31, 0, 9));
/// assert_eq!(
///     refused.to_string(),
///     "31 NOT_ZERO at record 0 (byte 0), byte 9 of it: a byte that must be 0 is not; \
///      write 0 there"
/// );
/// ```
#[derive(Clone, Copy, Debug, PartialEq, Eq)]
pub struct Refused {
    /// The refusal number: 1 to 14, 30 to 34, 60 and 61 of a job, 70 to 72 by the panel's profile,
    /// 20 to 22 of a store, 40 to 42 of a glyph map, 43 of a width table, 50 to 53 of a store that
    /// is recovered, 62 and 63 of a question to a build, 64 of a set, 73 and 74 of rows that are kept.
    pub number: u32,
    /// The record's index from 0 for 6, 7, 9, 30 to 34, 70 and 71; the record count for 8; else 0.
    pub place: u64,
    /// For 31 the byte within the record, from 0; else 0.
    pub byte: u64,
    /// For 4 what was short, as lent to [`crate::build_into`]; else none.
    pub short: Option<Short>,
}

/// What WORK_SHORT is about, and how much of it is needed.
///
/// ```
/// let end = [3, 0, 0, 0, 0, 0, 0, 0, 0, 0, 0, 0];     // one set, which is empty
/// let refused = ivs::forecast_with(1, 0, &end, &mut [], &mut []).unwrap_err();
/// assert_eq!(refused.short, Some(ivs::Short::Work(32)));
/// ```
#[derive(Clone, Copy, Debug, PartialEq, Eq)]
pub enum Short {
    /// Words of work.
    Work(usize),
    /// Pair records.
    Pairs(usize),
}

impl Refused {
    /// The refusal of that number, with no place.
    ///
    /// ```
    /// assert_eq!(ivs::Refused::bare(20).name(), "BAD_STORE");
    /// ```
    pub const fn bare(number: u32) -> Refused {
        Refused {
            number,
            place: 0,
            byte: 0,
            short: None,
        }
    }

    /// The refusal of a report (include/ivs.h).
    pub(crate) fn of(report: &[u64; 16]) -> Refused {
        Refused {
            place: report[1],
            byte: report[12],
            ..Refused::bare(report[0] as u32)
        }
    }

    /// With what was short of a call that was lent so many words of work for a job: the words
    /// are tested before the pair records.
    pub(crate) fn short_of(self, axes: u32, job: &[u8], work: usize) -> Refused {
        let words = job_words(axes, job);
        let short = if work < words {
            Short::Work(words)
        } else {
            Short::Pairs(PAIRS)
        };
        Refused {
            short: (self.number == WORK_SHORT).then_some(short),
            ..self
        }
    }

    /// With the words of work that the call needs, where they were short.
    pub(crate) fn short_of_words(self, words: usize) -> Refused {
        Refused {
            short: (self.number == WORK_SHORT).then_some(Short::Work(words)),
            ..self
        }
    }

    /// The refusal's name in docs/RULES.md.
    ///
    /// ```
    /// assert_eq!(ivs::pack(0, 0, &[]).unwrap_err().name(), "BAD_AXES");
    /// ```
    pub fn name(&self) -> &'static str {
        wording::of(self.number).0
    }

    /// Number, name and place: what every account of a refusal begins with.
    ///
    /// ```
    /// let refused = ivs::pack(1, 0, &[0; 12]).unwrap_err();
    /// assert_eq!(refused.head(), "30 UNKNOWN_KIND at record 0 (byte 0)");
    /// ```
    pub fn head(&self) -> String {
        let (number, name) = (self.number, self.name());
        let (record, byte) = (self.place, self.place.saturating_mul(RECORD as u64));
        match number {
            UNKNOWN_REGION
            | REGION_TWICE
            | SETS_FULL
            | UNKNOWN_KIND..=REGION_UNFINISHED
            | LONG_VALUE
            | BAD_REGION => {
                format!("{number} {name} at record {record} (byte {byte})")
            }
            UNFINISHED => format!("{number} {name} after record {record} (byte {byte})"),
            _ => format!("{number} {name}"),
        }
    }

    /// What happened and what to do, of WORK_SHORT by what was short.
    fn said(&self) -> String {
        let (_, what, remedy) = wording::of(self.number);
        match self.short {
            None => format!("{what}; {remedy}"),
            Some(Short::Work(words)) => {
                let words = grouped(words);
                format!("the words of work lent are too few; lend {words} of them")
            }
            Some(Short::Pairs(records)) => {
                let records = grouped(records);
                format!("the pair records lent are too few; lend {records} of them")
            }
        }
    }
}

impl fmt::Display for Refused {
    fn fmt(&self, f: &mut fmt::Formatter<'_>) -> fmt::Result {
        f.write_str(&self.head())?;
        if self.number == NOT_ZERO {
            write!(f, ", byte {} of it", self.byte)?;
        }
        write!(f, ": {}", self.said())
    }
}

/// A number with a comma before every three digits from the right.
fn grouped(number: usize) -> String {
    let digits = number.to_string();
    let comma = |at: usize| at > 0 && (digits.len() - at) % 3 == 0;
    let mut said = String::new();
    for (at, digit) in digits.chars().enumerate() {
        if comma(at) {
            said.push(',');
        }
        said.push(digit);
    }
    said
}

impl Error for Refused {}

#[cfg(test)]
mod tests {
    use super::*;

    #[test]
    fn numbers_are_grouped() {
        let said = [0, 17, 999, 1_000, 65_536, 1_048_576].map(grouped);
        assert_eq!(said, ["0", "17", "999", "1,000", "65,536", "1,048,576"]);
    }

    #[test]
    fn what_was_short_is_said() {
        let said = |short| {
            let refused = Refused {
                short,
                ..Refused::bare(WORK_SHORT)
            };
            refused.to_string()
        };
        assert_eq!(
            said(Some(Short::Work(1_049_600))),
            "4 WORK_SHORT: the words of work lent are too few; lend 1,049,600 of them"
        );
        assert_eq!(
            said(Some(Short::Pairs(crate::PAIRS))),
            "4 WORK_SHORT: the pair records lent are too few; lend 1,048,576 of them"
        );
        assert_eq!(
            said(None),
            "4 WORK_SHORT: the work or the pair records lent are too few; \
             lend as many words as work_words says, and 1,048,576 pair records"
        );
    }
}
