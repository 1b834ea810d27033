//! Where two sets part, by the library and by the plain reading, on sets that are picked at
//! random: the report word for word, and what is left in work, which held noise.

use crate::check::same;
use crate::noise::{not_zero, Guarded, Noisy};
use crate::{Case, Tally};
use jobs::{hex, Rng, RECORD};
use plain::{number, Done, Parted, Refused, Sizes};

/// What the plain reading answers.
type Said = Result<Parted, Refused>;

/// So many pairs of sets of a job; the first is lent a word too few.
const PAIRS: usize = 6;

/// The comparison, and the memory that it lends from call to call.
#[derive(Default)]
pub struct Parts {
    /// The plain reading with the answers of a build.
    pub plain: Tally,
    /// The library with the plain reading.
    pub proved: Tally,
    work: Guarded<u32>,
}

impl Parts {
    /// Compares on some pairs of sets of a job, of which one is now and then not there. The
    /// job's mode does not matter: it is looked at in mode 0 alone.
    pub fn case(&mut self, case: &Case<'_>) {
        if case.mode != 0 {
            return;
        }
        let built = plain::build(case.axes, 0, case.job, &Sizes::PLENTY);
        let rng = &mut Rng::new(hex::digest(case.job));
        let sets = case.job.chunks(RECORD).filter(|r| r[0] == 3).count();
        let words = plain::job_words(case.axes, case.job);
        for pair in 0..PAIRS {
            let [one, other] = [0; 2].map(|_| rng.below(sets + usize::from(pair == 0)) as u32);
            let work = (words + pair).saturating_sub(1);
            let said = plain::part(case.axes, case.job, one, other, work);
            let told = |what| format!("{}: sets {one} and {other}: {what}", case.name);
            self.plain
                .count(laws(&said, &built, one, other, work < words).map_err(told));
            let held = self.proved(case, one, other, work, &said);
            self.proved.count(held.map_err(told));
        }
    }

    /// The library's answer is this one, and work is as it was, or zeros (L2).
    fn proved(
        &mut self,
        case: &Case<'_>,
        first: u32,
        second: u32,
        work: usize,
        due: &Said,
    ) -> Result<(), String> {
        self.work.fill(work);
        let mut report: [u64; 16] = std::array::from_fn(|i| u64::from(u32::noise()[i]) << 29);
        let lent = self.work.lend();
        let answer = ivs::part_report(case.axes, case.job, first, second, lent, &mut report);
        same("report", &report, &report_of(due))?;
        same("answer", &u64::from(answer), &report[0])?;
        let early = matches!(due, Err(refused) if refused.number <= number::WORK_SHORT);
        let left = if early { 0 } else { work };
        same("written past work", &self.work.spoilt_past(left), &None)?;
        same("work", &not_zero(&self.work.lent()[..left]), &None)
    }
}

/// The report of an answer, by include/ivs.h.
fn report_of(said: &Said) -> [u64; 16] {
    let mut report = [0; 16];
    let (standing, at) = match said {
        Ok(Parted::Equal) => return report,
        Ok(Parted::Smaller(at)) => (1, at),
        Ok(Parted::Larger(at)) => (2, at),
        Err(refused) => {
            report[0] = u64::from(refused.number);
            report[1] = refused.place;
            report[12] = refused.byte;
            return report;
        }
    };
    let [first, second] = at.values.map(|value| i64::from(value) as u64);
    report[2..7].copy_from_slice(&[standing, at.index as u64, at.region as u64, first, second]);
    report
}

/// What a build of mode 0 says of the two sets: equal ones have one id, and within a subtable
/// the smaller one is the earlier row; and it is refused likewise, but for sets that are not
/// there and for too many shapes.
fn laws(
    said: &Said,
    built: &Result<Done, Refused>,
    one: u32,
    other: u32,
    short: bool,
) -> Result<(), String> {
    let (done, parted) = match (built, said) {
        (Ok(done), Ok(parted)) => (done, parted),
        (Ok(done), Err(refused)) => {
            let there = |set: u32| (set as usize) < done.ids.len();
            let due = match (short, there(one) && there(other)) {
                (true, _) => number::WORK_SHORT,
                (false, false) => number::NO_SET,
                (false, true) => 0,
            };
            return same("refusal", &(refused.number, refused.place), &(due, 0));
        }
        (Err(full), _) if full.number == number::SHAPES_FULL => return Ok(()),
        (Err(refused), _) if refused.number > number::BAD_JOB_LENGTH && short => {
            return same("refusal", said, &Err(Refused::at(number::WORK_SHORT, 0)));
        }
        (Err(refused), _) => return same("refusal", said, &Err(*refused)),
    };
    let word = |set: u32| {
        let id = done.ids[set as usize];
        (id, done.map[id as usize])
    };
    let ((id, row), (other_id, other_row)) = (word(one), word(other));
    match parted {
        Parted::Equal => same("one id", &id, &other_id),
        _ if id == other_id => Err("two sets that part have one id".into()),
        Parted::Smaller(_) if row >> 16 == other_row >> 16 => {
            same("the smaller first", &(row < other_row), &true)
        }
        Parted::Larger(_) if row >> 16 == other_row >> 16 => {
            same("the larger last", &(row > other_row), &true)
        }
        _ => Ok(()),
    }
}
