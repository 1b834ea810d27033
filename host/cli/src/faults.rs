//! All faults of a job's records. The library is the one judge of jobs, and names the first;
//! so what it names is mended in a copy, as far as that can be, and it is asked again.

use ivs::Refused;

const RECORD: usize = 12;
/// The most that are looked for.
const FAULTS: usize = 20;

const BAD_JOB_LENGTH: u32 = 3;
const UNKNOWN_REGION: u32 = 6;
const REGION_TWICE: u32 = 7;
const SHAPES_FULL: u32 = 10;
const UNKNOWN_KIND: u32 = 30;
const NOT_ZERO: u32 = 31;
const AXIS_TOO_LATE: u32 = 33;

/// The refusals of a job's records, each at its place, with words; up to 20.
pub fn of(axes: u32, job: &[u8]) -> Vec<(Refused, String)> {
    let mut copy = Copy::of(job);
    let mut faults = Vec::new();
    while faults.len() < FAULTS {
        let refused = match ivs::forecast(axes, 0, &copy.records) {
            Err(refused) if refused.number != SHAPES_FULL => refused,
            // Too many shapes are no fault of a record.
            _ => break,
        };
        let there = Refused {
            place: copy.place(refused.place),
            ..refused
        };
        faults.push((there, there.explain(axes, job)));
        if !copy.mend(&refused) {
            break;
        }
    }
    faults
}

/// A job from which what is wrong is taken out.
struct Copy {
    records: Vec<u8>,
    /// The number of each record in the job itself.
    numbers: Vec<u64>,
}

impl Copy {
    fn of(job: &[u8]) -> Copy {
        Copy {
            records: job.to_vec(),
            numbers: (0..(job.len() / RECORD) as u64).collect(),
        }
    }

    /// A place of the copy in the job itself.
    fn place(&self, place: u64) -> u64 {
        let after = |last: &u64| last + 1 + place - self.numbers.len() as u64;
        match self.numbers.get(place as usize) {
            Some(&number) => number,
            None => self.numbers.last().map_or(place, after),
        }
    }

    /// Takes away what was refused. Not so where it would make others of what follows: of an
    /// axis record that is missing, all records after it are to blame.
    fn mend(&mut self, refused: &Refused) -> bool {
        let place = refused.place as usize;
        let at = RECORD * place;
        match refused.number {
            BAD_JOB_LENGTH => {
                let cut = self.records.len() % RECORD;
                self.records.truncate(self.records.len() - cut);
                return cut != 0;
            }
            NOT_ZERO => self.records[at + refused.byte as usize] = 0,
            UNKNOWN_KIND | UNKNOWN_REGION | REGION_TWICE | AXIS_TOO_LATE => {
                self.records.drain(at..at + RECORD);
                self.numbers.remove(place);
            }
            _ => return false,
        }
        true
    }
}

#[cfg(test)]
mod tests {
    use super::*;

    const REGION: [u8; RECORD] = [1, 0, 0, 0, 0, 0, 0x40, 0, 0x40, 0, 0, 0];
    const VALUE: [u8; RECORD] = [2, 0, 0, 0, 0, 0, 0, 5, 0, 0, 0, 0];
    const END: [u8; RECORD] = [3, 0, 0, 0, 0, 0, 0, 0, 0, 0, 0, 0];

    fn with(mut record: [u8; RECORD], at: usize, byte: u8) -> [u8; RECORD] {
        record[at] = byte;
        record
    }

    fn faults(axes: u32, job: &[u8]) -> Vec<(u32, u64, u64)> {
        let number = |(refused, words): (Refused, String)| {
            assert!(words.starts_with(&refused.head()), "{words}");
            (refused.number, refused.place, refused.byte)
        };
        of(axes, job).into_iter().map(number).collect()
    }

    #[test]
    fn each_at_its_place() {
        let two = with(with(END, 3, 1), 9, 2);
        let late = with(REGION, 1, 1);
        let job = [
            REGION,
            VALUE,
            VALUE,
            END,
            with(END, 0, 9),
            two,
            late,
            with(VALUE, 1, 7),
            VALUE,
        ];
        let all = [
            (7, 2, 0),
            (30, 4, 0),
            (31, 5, 3),
            (31, 5, 9),
            (33, 6, 0),
            (6, 7, 0),
            (8, 9, 0),
        ];
        assert_eq!(faults(1, &job.concat()), all);
        let mut cut = job.concat();
        cut.push(1);
        assert_eq!(faults(1, &cut)[0], (3, 0, 0));
        assert_eq!(faults(1, &cut)[1..], all);
        assert_eq!(faults(1, &[REGION, VALUE, END].concat()), []);
    }

    #[test]
    fn what_makes_others_is_the_last() {
        let job = [REGION, with(REGION, 1, 2), with(REGION, 1, 3), END].concat();
        assert_eq!(faults(1, &job), [(32, 1, 0)]);
        assert_eq!(faults(0, &job), [(1, 0, 0)]);
        let kinds = vec![9; RECORD * 50];
        assert_eq!(faults(1, &kinds).len(), FAULTS);
    }
}
