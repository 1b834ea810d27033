//! A run over some jobs: the plain reading and the proved build compared on each, and
//! counted apart.

use crate::known::Known;
use crate::proved::{self, Buffers};
use crate::{check, Case, Tally};

/// What a run has counted so far.
#[derive(Default)]
pub struct Run {
    /// The plain reading with the source, and with what else must hold.
    pub plain: Tally,
    /// The proved build and reader, with the plain reading and the source.
    pub proved: Tally,
    /// The jobs of these whose store, ids and map by the proved build were compared with
    /// the source's own.
    pub with_source: u64,
    buffers: Buffers,
    cases: usize,
}

/// How many of the jobs that are shown go through the proved build.
#[derive(Clone, Copy)]
pub struct Share {
    /// One in so many (odd, so that both modes come up): a build clears 12 MiB of pair
    /// records, whatever its job is.
    pub linked: usize,
    /// And every job that is short by this.
    pub short: fn(&[u8]) -> bool,
    /// One in so many of all jobs with memory around each size, where it is taken at all,
    /// and not just over it; 0: none.
    pub around: usize,
    /// The forecast is compared on one job in so many of all, where it is taken at all (odd).
    pub forecast: usize,
    /// The pair records hold noise in one call of so many, and are looked at in full.
    pub noisy: usize,
}

impl Run {
    /// Compares on all cases that are shown.
    pub fn over(share: Share, cases: impl FnOnce(&mut dyn FnMut(&Case<'_>))) -> Run {
        let mut run = Run {
            buffers: Buffers::noisy_in_one_of(share.noisy),
            ..Run::default()
        };
        cases(&mut |case| run.case(share, case));
        if let Err(what) = run.buffers.unseen() {
            run.proved.count(Err(what));
        }
        run
    }

    fn case(&mut self, share: Share, case: &Case<'_>) {
        let known = Known::of(case);
        self.plain.count(check::case(case, &known));
        let number = self.cases;
        self.cases += 1;
        if number % share.linked != 0 && !(share.short)(case.job) {
            return;
        }
        // Cases come in pairs, one of each mode.
        let around = share.around > 0 && number / 2 % share.around == 0;
        let held = if around {
            proved::around(case, &known, &mut self.buffers)
        } else {
            let mut held = proved::case(case, &known, &mut self.buffers);
            if number % share.forecast == 0 {
                held = held.and_then(|()| proved::forecast(case, &known, &mut self.buffers));
            }
            held
        };
        self.with_source += u64::from(held.is_ok() && known.source.is_some());
        self.proved.count(held);
    }

    /// For tests: all held, and there were some of both.
    ///
    /// # Panics
    /// When not.
    pub fn assert(&self) {
        self.plain.assert();
        self.proved.assert();
    }
}
