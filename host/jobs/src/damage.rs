//! Damage: small changes that a job file can suffer on its way. The result may
//! still be a sound job.

use crate::job::axis_record;
use crate::{Rng, RECORD};

/// The kinds of damage.
#[derive(Clone, Copy, Debug, PartialEq, Eq)]
pub enum Damage {
    /// One byte gets another value.
    ByteChanged,
    /// One byte that is zero gets a small value, or one small byte becomes zero:
    /// kinds, region numbers and zero bytes are hit more often than by chance.
    SmallByteChanged,
    /// The end is cut off, at any byte.
    Truncated,
    /// The end is cut off between two records.
    RecordsCut,
    /// Two records change places.
    RecordsSwapped,
    /// A record stands twice, once at another place.
    RecordRepeated,
    /// A record is left out.
    RecordDropped,
    /// A record gets a kind that there is not.
    KindUnknown,
    /// A byte that must be 0 is not.
    ZeroSet,
    /// An axis record gets the number of another region or axis nearby.
    AxisRenumbered,
    /// The axis record that would be next stands behind the first record of the sets.
    AxisLate,
    /// The last axis record is left out.
    AxisDropped,
    /// A record stands once more at another place, there with none to all of the first three
    /// of these.
    Several,
}

/// All kinds of damage.
pub const ALL: [Damage; 13] = [
    Damage::ByteChanged,
    Damage::SmallByteChanged,
    Damage::Truncated,
    Damage::RecordsCut,
    Damage::RecordsSwapped,
    Damage::RecordRepeated,
    Damage::RecordDropped,
    Damage::KindUnknown,
    Damage::ZeroSet,
    Damage::AxisRenumbered,
    Damage::AxisLate,
    Damage::AxisDropped,
    Damage::Several,
];

/// The job with damage of a kind that the random numbers choose. A job without
/// records is left as it is.
pub fn any(rng: &mut Rng, job: &[u8]) -> (Damage, Vec<u8>) {
    let kind = rng.pick(&ALL);
    (kind, of_kind(kind, rng, job))
}

/// The job with damage of one kind.
pub fn of_kind(kind: Damage, rng: &mut Rng, job: &[u8]) -> Vec<u8> {
    let mut bytes = job.to_vec();
    let records = job.len() / RECORD;
    if records == 0 {
        return bytes;
    }
    let axes = job.chunks(RECORD).take_while(|r| r[0] == 1).count();
    let one = RECORD * rng.below(records);
    let other = RECORD * rng.below(records);
    match kind {
        Damage::ByteChanged => {
            let at = rng.below(bytes.len());
            bytes[at] = bytes[at].wrapping_add(rng.between(1, 255) as u8);
        }
        Damage::SmallByteChanged => {
            let at = one + rng.pick(&[0, 0, 1, 1, 2, 3, 8, 9, 10, 11]);
            bytes[at] = if bytes[at] == 0 {
                rng.between(1, 4) as u8
            } else {
                rng.below(bytes[at] as usize) as u8
            };
        }
        Damage::Truncated => bytes.truncate(rng.below(job.len())),
        Damage::RecordsCut => bytes.truncate(one),
        Damage::RecordsSwapped => {
            for i in 0..RECORD {
                bytes.swap(one + i, other + i);
            }
        }
        Damage::RecordRepeated => {
            bytes.splice(other..other, job[one..one + RECORD].iter().copied());
        }
        Damage::RecordDropped => {
            bytes.drain(one..one + RECORD);
        }
        Damage::KindUnknown => kind_unknown(rng, &mut bytes[one..one + RECORD]),
        Damage::ZeroSet => zero_set(rng, &mut bytes[one..one + RECORD]),
        Damage::AxisRenumbered if axes > 0 => {
            let one = RECORD * rng.below(axes);
            renumbered(rng, &mut bytes[one..one + RECORD]);
        }
        Damage::AxisLate if 0 < axes && axes < records => {
            // Of a job that is whole, the next is the first axis of a region.
            let last = &job[RECORD * (axes - 1)..];
            let region = u16::from_be_bytes([last[3], last[1]]).wrapping_add(1);
            let at = RECORD * rng.between(axes + 1, records);
            bytes.splice(at..at, axis_record(region, 0, [0; 3]));
        }
        Damage::AxisDropped if axes > 0 => {
            bytes.drain(RECORD * (axes - 1)..RECORD * axes);
        }
        Damage::Several => {
            let mut record = job[one..one + RECORD].to_vec();
            let hurts = [kind_unknown, zero_set, renumbered];
            for hurt in hurts {
                if rng.one_in(2) {
                    hurt(rng, &mut record);
                }
            }
            bytes.splice(other..other, record);
        }
        // A job that has nothing to be damaged so.
        Damage::AxisRenumbered | Damage::AxisLate | Damage::AxisDropped => {}
    }
    bytes
}

/// The record gets a kind that there is not.
fn kind_unknown(rng: &mut Rng, record: &mut [u8]) {
    record[0] = rng.pick(&[0, 4, 5, 0x81, 255]);
}

/// A byte of the record that must be 0 is not.
fn zero_set(rng: &mut Rng, record: &mut [u8]) {
    let byte = match record[0] {
        1 => rng.pick(&[10, 11]),
        2 => rng.pick(&[2, 8, 9, 10, 11]),
        _ => rng.between(1, 11),
    };
    record[byte] |= 1 << rng.below(8);
}

/// The record's region, or the byte behind it, becomes one more or one less.
fn renumbered(rng: &mut Rng, record: &mut [u8]) {
    let byte = rng.between(1, 2);
    record[byte] = record[byte].wrapping_add(rng.pick(&[1, 255]));
}

/// Shows the job with every byte changed to every other value, cut off at every
/// byte, and with every two records swapped and every record repeated everywhere.
pub fn each(job: &[u8], mut visit: impl FnMut(&[u8])) {
    let mut bytes = job.to_vec();
    for at in 0..job.len() {
        for change in 1..=255 {
            bytes[at] = job[at].wrapping_add(change);
            visit(&bytes);
        }
        bytes[at] = job[at];
        visit(&job[..at]);
    }
    let records: Vec<&[u8]> = job.chunks(RECORD).collect();
    for one in 0..records.len() {
        for other in 0..records.len() {
            let mut swapped = records.clone();
            swapped.swap(one, other);
            visit(&swapped.concat());
            let mut repeated = records.clone();
            repeated.insert(other, records[one]);
            visit(&repeated.concat());
        }
    }
}

/// A store with one field or byte changed, or its end cut off, or left as it is.
pub fn store(rng: &mut Rng, store: &[u8]) -> Vec<u8> {
    let mut bytes = store.to_vec();
    if bytes.len() < 2 {
        return bytes;
    }
    match rng.below(8) {
        0 => {}
        1 => bytes.truncate(rng.below(store.len())),
        2 => bytes.truncate(store.len() - 1),
        3 | 4 => {
            // A field of two bytes, most often in the header or a subtable's.
            let at = 2 * rng.below(bytes.len().min(64) / 2);
            let old = u16::from_be_bytes([bytes[at], bytes[at + 1]]);
            let new = match rng.below(4) {
                0 => old.wrapping_add(1),
                1 => old.wrapping_sub(1),
                2 => old ^ 0x8000,
                _ => rng.pick(&[0, 1, 2, 0x7FFF, 0x8000, 0x8001, 0xFFFF]),
            };
            bytes[at..at + 2].copy_from_slice(&new.to_be_bytes());
        }
        _ => {
            let at = rng.below(bytes.len());
            bytes[at] = bytes[at].wrapping_add(rng.between(1, 255) as u8);
        }
    }
    bytes
}

#[cfg(test)]
mod tests {
    use super::*;
    use crate::Job;

    #[test]
    fn every_kind_keeps_its_word() {
        let job = Job::one_axis(2).with(&[&[(0, 1)], &[(1, 300)]]).to_bytes();
        for seed in 0..200 {
            for kind in ALL {
                let hurt = of_kind(kind, &mut Rng::new(seed), &job);
                let changed = hurt.iter().zip(&job).filter(|(a, b)| a != b).count();
                match kind {
                    Damage::Truncated => assert!(hurt.len() < job.len() && changed == 0),
                    Damage::RecordsCut => assert!(hurt.len() % RECORD == 0 && changed == 0),
                    Damage::RecordsSwapped => assert_eq!(hurt.len(), job.len()),
                    Damage::RecordRepeated | Damage::Several | Damage::AxisLate => {
                        assert_eq!(hurt.len(), job.len() + RECORD)
                    }
                    Damage::RecordDropped | Damage::AxisDropped => {
                        assert_eq!(hurt.len(), job.len() - RECORD)
                    }
                    Damage::ByteChanged
                    | Damage::SmallByteChanged
                    | Damage::KindUnknown
                    | Damage::ZeroSet
                    | Damage::AxisRenumbered => {
                        assert_eq!((hurt.len(), changed), (job.len(), 1))
                    }
                }
            }
        }
        assert!(any(&mut Rng::new(0), &[]).1.is_empty());
        let (mut count, records) = (0, job.len() / RECORD);
        each(&job, |_| count += 1);
        assert_eq!(count, 256 * job.len() + 2 * records * records);
    }
}
