//! The calls on a whole store (recover, judge, keep) by the library, in lent memory that held
//! noise, beside the plain reading: the report word for word, all that is written, all that is
//! not, and work.

use crate::check::same;
use crate::noise::{not_zero, Guarded, Noisy};
use plain::stores::{Kept, Recovered, Verdict};
use plain::{number, Refused};

/// The memory that is lent from call to call.
#[derive(Default)]
pub struct Whole {
    work: Guarded<u32>,
    out: Guarded<u8>,
    places: Guarded<u32>,
}

type Held = Result<(), String>;

impl Whole {
    /// A store read back into a job, lent so many bytes and words of work.
    pub fn recover(&mut self, store: &[u8], room: usize, work: usize) -> Result<Recovered, u32> {
        let enough = work >= ivs::recover_words(store.len());
        let due = plain::stores::recover(store, room, enough);
        self.work.fill(work);
        self.out.fill(room);
        self.places.fill(0);
        let mut report = noisy();
        let (lent, out) = (self.work.lend(), self.out.lend());
        let answer = ivs::recover_report(store, lent, out, &mut report);
        let held = (|| {
            let counts = due.as_ref().map(|done| {
                let [axes, regions, sets] = done.counts;
                [done.job.len() as u64, axes, regions, sets]
            });
            reported(answer, &report, counts.map_err(|&no| Refused::at(no, 0)))?;
            let job = due.as_ref().map_or(&[][..], |done| &done.job);
            self.written(job, &[])?;
            self.left(&due.as_ref().map_err(|&no| no))
        })();
        told("recover", store, held);
        due
    }

    /// A store judged by a job, lent so many words of work.
    pub fn judge(
        &mut self,
        axes: u32,
        job: &[u8],
        store: &[u8],
        words: &[u32],
        work: usize,
    ) -> Result<Verdict, Refused> {
        let regions = ivs::head_regions(axes, job);
        let needed = ivs::judge_words(job.len() / jobs::RECORD, regions, store.len());
        let due = plain::stores::judge(axes, job, store, words, work >= needed);
        self.work.fill(work);
        let mut report = noisy();
        let lent = self.work.lend();
        let answer = ivs::judge_report(axes, job, store, words, lent, &mut report);
        let held = (|| {
            let counts = due.map(|verdict| match verdict {
                Verdict::Yes => [1, 0, 0, 0],
                Verdict::Set(set) => [2, set, 0, 0],
                Verdict::Store => [3, 0, 0, 0],
            });
            reported(answer, &report, counts)?;
            self.left(&due.map_err(|refused| refused.number))
        })();
        told("judge", store, held);
        due
    }

    /// A store cut down to rows, lent so many places, bytes and words of work.
    pub fn keep(
        &mut self,
        store: &[u8],
        rows: &[u32],
        [places, room, work]: [usize; 3],
    ) -> Result<Kept, u32> {
        let enough = work >= ivs::keep_words(store.len(), rows.len());
        let due = plain::stores::keep(store, rows, places, room, enough);
        self.work.fill(work);
        self.out.fill(room);
        self.places.fill(places);
        let mut report = noisy();
        let (lent, out, into) = (self.work.lend(), self.out.lend(), self.places.lend());
        let answer = ivs::keep_report(store, rows, lent, out, into, &mut report);
        let held = (|| {
            let counts = due.as_ref().map(|done| {
                let [subtables, regions, rows] = done.counts;
                [done.store.len() as u64, subtables, regions, rows]
            });
            reported(answer, &report, counts.map_err(|&no| Refused::at(no, 0)))?;
            match &due {
                Ok(done) => self.written(&done.store, &done.places)?,
                Err(_) => self.written(&[], &[])?,
            }
            self.left(&due.as_ref().map_err(|&no| no))
        })();
        told("keep", store, held);
        due
    }

    /// The output begins with these bytes and the places with these words; nothing else of them
    /// is touched.
    fn written(&self, out: &[u8], places: &[u32]) -> Held {
        same("out", &self.out.lent()[..out.len()], out)?;
        same("written past out", &self.out.spoilt_past(out.len()), &None)?;
        same("places", &self.places.lent()[..places.len()], places)?;
        let past = self.places.spoilt_past(places.len());
        same("written past places", &past, &None)
    }

    /// Work is as it was after refusals 1 to 4, else zeros (L2).
    fn left<T>(&self, due: &Result<T, u32>) -> Held {
        let early = matches!(due, Err(no) if *no <= number::WORK_SHORT);
        let left = if early { 0 } else { self.work.lent().len() };
        same("written past work", &self.work.spoilt_past(left), &None)?;
        same("work", &not_zero(&self.work.lent()[..left]), &None)
    }
}

fn noisy() -> [u64; 16] {
    std::array::from_fn(|i| u64::from(u32::noise()[i]) << 29)
}

/// The report has these words from the second on, or the refusal (include/ivs.h).
fn reported(answer: u32, report: &[u64; 16], due: Result<[u64; 4], Refused>) -> Held {
    let mut words = [0; 16];
    match due {
        Ok(counts) => words[2..6].copy_from_slice(&counts),
        Err(refused) => {
            words[0] = u64::from(refused.number);
            words[1] = refused.place;
            words[12] = refused.byte;
        }
    }
    same("report", report, &words)?;
    same("answer", &u64::from(answer), &report[0])
}

fn told(call: &str, store: &[u8], held: Held) {
    if let Err(what) = held {
        panic!("{call} of {}: {what}", jobs::hex::of(store));
    }
}
