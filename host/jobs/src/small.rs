//! All jobs of a small kind, one after another.

use crate::job::{axis_record, value_record, END_RECORD};
use crate::{Job, RECORD};

/// All jobs over one axis with these regions and up to this many sets, each set
/// one of all that name each region with one of the values or not at all.
pub struct Small {
    /// The peak of each region; equal peaks are equal regions.
    pub peaks: &'static [i16],
    /// The values a set can give a region.
    pub values: &'static [i32],
    /// The most sets of a job.
    pub sets: usize,
    /// Sets that name the regions from the last to the first too.
    pub backwards: bool,
}

/// The kinds that are gone through. Together 1,317,439 jobs.
pub const KINDS: [Small; 5] = [
    Small {
        peaks: &[1],
        values: &[0, 1, -128, 128, -32_769],
        sets: 7,
        backwards: false,
    },
    Small {
        peaks: &[1, 2],
        values: &[0, 1, 128, 70_000],
        sets: 3,
        backwards: true,
    },
    Small {
        peaks: &[1, 1],
        values: &[0, 1, 2, 300],
        sets: 5,
        backwards: false,
    },
    Small {
        peaks: &[1, 2, 1],
        values: &[1, 300],
        sets: 4,
        backwards: true,
    },
    Small {
        peaks: &[1, 2, 3],
        values: &[1, 200],
        sets: 4,
        backwards: false,
    },
];

impl Small {
    /// Shows every job of the kind to `visit`, shorter ones first.
    pub fn each(&self, mut visit: impl FnMut(&Job)) {
        let options = self.all_sets();
        let region = |peak: &i16| vec![[0, *peak, 0x4000]];
        let mut job = Job {
            axes: 1,
            regions: self.peaks.iter().map(region).collect(),
            sets: Vec::new(),
        };
        for length in 0..=self.sets {
            each_sequence(options.len(), length, |sequence| {
                job.sets.clear();
                job.sets
                    .extend(sequence.iter().map(|&i| options[i].clone()));
                visit(&job);
            });
        }
    }

    /// Every set that the kind allows.
    fn all_sets(&self) -> Vec<Vec<(u16, i32)>> {
        let mut sets = Vec::new();
        each_sequence(self.values.len() + 1, self.peaks.len(), |choice| {
            let mut set: Vec<(u16, i32)> = Vec::new();
            for (region, &c) in choice.iter().enumerate() {
                if let Some(&value) = self.values.get(c) {
                    set.push((region as u16, value));
                }
            }
            let peak = |v: &(u16, i32)| self.peaks[v.0 as usize];
            let twice = (1..set.len()).any(|i| set[..i].iter().any(|v| peak(v) == peak(&set[i])));
            if twice {
                return;
            }
            if self.backwards && set.len() > 1 {
                sets.push(set.iter().rev().copied().collect());
            }
            sets.push(set);
        });
        sets
    }
}

/// Sound and bad records, out of which [`each_record_sequence`] makes jobs for
/// one axis and for two.
#[rustfmt::skip]
pub fn alphabet() -> Vec<[u8; RECORD]> {
    vec![
        axis_record(0, 0, [0, 1, 2]),
        axis_record(1, 0, [0, 1, 2]),
        axis_record(0, 1, [0, 1, 2]),
        axis_record(1, 1, [-1, 0, 1]),
        value_record(0, 1),
        value_record(0, 0),
        value_record(1, 300),
        END_RECORD,
        [2, 0, 0, 0, 0, 0, 0, 0, 0, 0, 0, 1],
        [4, 0, 0, 0, 0, 0, 0, 0, 0, 0, 0, 0],
    ]
}

/// Shows every job of up to `records` records of the alphabet, as bytes.
pub fn each_record_sequence(records: usize, mut visit: impl FnMut(&[u8])) {
    let alphabet = alphabet();
    let mut job = Vec::new();
    for length in 0..=records {
        each_sequence(alphabet.len(), length, |sequence| {
            job.clear();
            job.extend(sequence.iter().flat_map(|&i| alphabet[i]));
            visit(&job);
        });
    }
}

/// Shows every sequence of `length` numbers below `options`, as one counts.
fn each_sequence(options: usize, length: usize, mut visit: impl FnMut(&[usize])) {
    let mut sequence = vec![0; length];
    loop {
        visit(&sequence);
        let Some(up) = sequence.iter().rposition(|&n| n + 1 < options) else {
            return;
        };
        sequence[up] += 1;
        sequence[up + 1..].fill(0);
    }
}

#[cfg(test)]
mod tests {
    use super::*;
    use std::collections::BTreeSet;

    #[test]
    fn every_sequence_once() {
        let mut seen = BTreeSet::new();
        each_sequence(3, 4, |s| assert!(seen.insert(s.to_vec())));
        assert_eq!(seen.len(), 81);
        let mut none = 0;
        each_sequence(3, 0, |_| none += 1);
        assert_eq!(none, 1);
    }

    #[test]
    fn small_jobs_are_sound_and_different() {
        let kind = Small {
            sets: 2,
            ..KINDS[3]
        };
        let mut seen = BTreeSet::new();
        kind.each(|job| {
            let bytes = job.to_bytes();
            assert_eq!(Job::parse(1, &bytes).as_ref(), Some(job));
            assert!(seen.insert(bytes));
        });
        assert_eq!(seen.len(), 1 + 23 + 23 * 23);
    }
}
