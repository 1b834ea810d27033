//! Records that break one rule of their form or several, each at every kind of place in a
//! job: R30 to R34 and the byte that is named, one against the other.

use crate::job::{axis_record, value_record, END_RECORD};
use crate::RECORD;

/// Kinds that there are, and some that there are not.
const KINDS: [u8; 6] = [1, 2, 3, 0, 4, 255];

/// The least region number that is not tried. There are two regions, so that both the next
/// one and the one after it are out of turn somewhere.
const REGIONS: u8 = 4;

/// Shows every job of one and of two axes that is a beginning and a record behind it: all of
/// some kinds, region numbers and axis numbers, with none, one or two bytes behind these that
/// are not 0.
pub fn each(mut visit: impl FnMut(usize, &[u8])) {
    for axes in [1, 2] {
        for mut job in beginnings(axes) {
            let at = job.len();
            for kind in KINDS {
                for (region, axis) in (0..REGIONS).flat_map(|r| [(r, 0), (r, 1)]) {
                    for hurt in hurts() {
                        job.truncate(at);
                        job.extend([kind, region, axis]);
                        job.resize(at + RECORD, 0);
                        for (byte, value) in hurt.iter().zip([0x80, 1]) {
                            job[at + byte] = value;
                        }
                        visit(axes as usize, &job);
                    }
                }
            }
        }
    }
}

/// What stands before the record: nothing; a last region that lacks an axis (of one axis, one
/// region); two regions; these and a value; these and a set.
fn beginnings(axes: u8) -> Vec<Vec<u8>> {
    let region = |region: u16| (0..axes).flat_map(move |axis| axis_record(region, axis, [0, 1, 2]));
    let regions: Vec<u8> = region(0).chain(region(1)).collect();
    let lacking = regions[..regions.len() - RECORD].to_vec();
    let value = [&regions[..], &value_record(0, 5)].concat();
    let set = [&value[..], &END_RECORD].concat();
    vec![Vec::new(), lacking, regions, value, set]
}

/// None, one or two of the bytes behind the axis number.
fn hurts() -> Vec<Vec<usize>> {
    let mut all = vec![Vec::new()];
    for one in 3..RECORD {
        all.push(vec![one]);
        all.extend((one + 1..RECORD).map(|other| vec![one, other]));
    }
    all
}

#[cfg(test)]
mod tests {
    use super::*;

    #[test]
    fn all_different() {
        let mut seen = std::collections::BTreeSet::new();
        each(|axes, job| {
            assert_eq!(job.len() % RECORD, 0);
            assert!(seen.insert((axes, job.to_vec())));
        });
        assert_eq!(seen.len(), 2 * 5 * 6 * 8 * (1 + 9 + 36));
    }
}
