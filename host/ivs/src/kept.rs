//! A packed job asked by the job's own numbers: which region of the store one is, and which
//! value a set has.

use crate::refusals::RECORD;
use crate::{read, Packed, Reading, Store, Tent};
use std::collections::HashMap;

impl Packed {
    /// The number in the store's list of a region of the job, to be used with
    /// [`read`](crate::read()): a store numbers its regions anew, by their first use in a set,
    /// and drops those that no row has a column for. None for such a region, and for one that
    /// the job does not have.
    ///
    /// ```
    /// let mut job = ivs::JobWriter::new(1);
    /// let bold = job.region(&[(0, 0x4000, 0x4000)])?;
    /// let light = job.region(&[(-0x4000, -0x4000, 0)])?;
    /// let unused = job.region(&[(0, 0x2000, 0x4000)])?;
    /// job.set(&[(light, 7), (bold, 10), (unused, 0)])?;
    /// let packed = job.job().pack(ivs::Mode::Deduplicating)?;
    /// assert_eq!([light, bold, unused].map(|r| packed.region(r)), [Some(0), Some(1), None]);
    /// # Ok::<(), ivs::Error>(())
    /// ```
    pub fn region(&self, region: u16) -> Option<u32> {
        *self.regions.get(usize::from(region))?
    }

    /// The row of a set, outer x 65,536 + inner: the map's word of its id. Sets go by their
    /// numbers in the job, from 0.
    ///
    /// ```
    /// let mut job = ivs::JobWriter::new(1);
    /// job.set(&[])?;
    /// let packed = job.job().pack(ivs::Mode::Deduplicating)?;
    /// assert_eq!((packed.word(0), packed.word(1)), (Some(0), None));
    /// # Ok::<(), ivs::Error>(())
    /// ```
    pub fn word(&self, set: usize) -> Option<u32> {
        self.map.get(*self.ids.get(set)? as usize).copied()
    }

    /// The value that a set has for a region, read back from the store: zero where its row has
    /// no column for it. Both go by their numbers in the job; none where the job has no such
    /// set or region.
    ///
    /// ```
    /// let mut job = ivs::JobWriter::new(1);
    /// let bold = job.region(&[(0, 0x4000, 0x4000)])?;
    /// let light = job.region(&[(-0x4000, -0x4000, 0)])?;
    /// job.set(&[(light, -300)])?;
    /// job.set(&[(bold, 10)])?;
    /// let packed = job.job().pack(ivs::Mode::Deduplicating)?;
    /// assert_eq!(packed.value(0, light), Some(-300));
    /// assert_eq!(packed.value(0, bold), Some(0));
    /// assert_eq!(packed.value(1, bold), Some(10));
    /// assert_eq!(packed.value(2, bold), None);
    /// # Ok::<(), ivs::Error>(())
    /// ```
    pub fn value(&self, set: usize, region: u16) -> Option<i32> {
        let word = self.word(set)?;
        let Some(number) = *self.regions.get(usize::from(region))? else {
            return Some(0);
        };
        // A build's own row and region are there.
        match read(&self.store, word >> 16, word & 0xFFFF, number) {
            Ok(Reading::Written(value)) => Some(value),
            Ok(Reading::NoColumn) => Some(0),
            Err(_) => None,
        }
    }
}

/// For each region of a job that was built, its number in the store's list. Regions of one
/// job are one where their coordinates are equal, so these say which is which.
pub(crate) fn regions(axes: u32, job: &[u8], store: &[u8]) -> Vec<Option<u32>> {
    let list = Store::decode(store).map_or(Vec::new(), |store| store.regions);
    let numbers: HashMap<Vec<Tent>, u32> = list.into_iter().zip(0..).collect();
    let records = job.chunks_exact(RECORD).take_while(|record| record[0] == 1);
    let tents: Vec<Tent> = records.map(tent).collect();
    let number = |region: &[Tent]| numbers.get(region).copied();
    tents.chunks(axes as usize).map(number).collect()
}

/// Start, peak and end of an axis record.
fn tent(record: &[u8]) -> Tent {
    let raw = |at: usize| i16::from_be_bytes([record[at], record[at + 1]]);
    (raw(4), raw(6), raw(8))
}
