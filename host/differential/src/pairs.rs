//! The pair records that are lent.
//!
//! They are 12 MiB for every job, of which a small one uses the first few. To fill them with
//! noise and to look through them takes far longer than such a job, so in most calls they
//! are what the call before has left, zeros, and only the first are looked at afterwards. In
//! one call of so many they hold noise, and all are looked at: before it, for what the
//! calls that were not looked at in full have left, and after it.

use crate::noise::{not_zero, Guarded};
use ivs::Pair;

/// So many records are looked at after every call.
const LOOKED: usize = 4_096;

/// Pair records to lend, used again from call to call.
pub struct Pairs {
    records: Guarded<Pair>,
    /// One call of so many finds noise in them.
    every: usize,
    /// Calls since there was noise.
    calls: usize,
    /// What they held when they were lent.
    lent: Hold,
    /// What they hold since; of a call that has not been looked at, anything.
    hold: Hold,
}

/// What pair records hold.
#[derive(Clone, Copy, PartialEq)]
enum Hold {
    Anything,
    Noise,
    Zeros,
}

impl Default for Pairs {
    /// Noise in every call.
    fn default() -> Pairs {
        Pairs::noisy_in_one_of(1)
    }
}

impl Pairs {
    /// Noise in the first of every so many calls.
    pub fn noisy_in_one_of(every: usize) -> Pairs {
        Pairs {
            records: Guarded::default(),
            every,
            calls: 0,
            lent: Hold::Anything,
            hold: Hold::Anything,
        }
    }

    /// Makes so many records ready to be lent.
    pub fn ready(&mut self, count: usize) -> Result<(), String> {
        self.calls += 1;
        self.lent = std::mem::replace(&mut self.hold, Hold::Anything);
        if self.calls < self.every && self.lent != Hold::Anything {
            if self.lent == Hold::Noise {
                self.records.lend().fill(Pair::default());
                self.lent = Hold::Zeros;
            }
            self.records.again(count);
            return Ok(());
        }
        let seen = self.unseen();
        self.records.fill(count);
        self.lent = Hold::Noise;
        self.calls = 0;
        seen
    }

    /// The records that are ready.
    pub fn lend(&mut self) -> &mut [Pair] {
        self.records.lend()
    }

    /// The call has left them as it found them, or has made all of them zeros; that is
    /// looked at in full where there was noise.
    pub fn left(&mut self, untouched: bool) -> Result<(), String> {
        let (noisy, count) = (self.lent == Hold::Noise, self.records.lent().len());
        if noisy && untouched {
            past(&self.records, 0)?;
            self.hold = Hold::Noise;
            return Ok(());
        }
        past(&self.records, count)?;
        let looked = if noisy { count } else { LOOKED.min(count) };
        zeros(&self.records.lent()[..looked])?;
        self.hold = Hold::Zeros;
        Ok(())
    }

    /// The calls since there was noise have left zeros, also where that was not looked at.
    pub fn unseen(&self) -> Result<(), String> {
        if self.lent != Hold::Zeros {
            return Ok(());
        }
        let told = |what| format!("{what}, by one of {} calls", self.calls);
        zeros(self.records.lent()).map_err(told)
    }
}

fn zeros(pairs: &[Pair]) -> Result<(), String> {
    match not_zero(pairs) {
        None => Ok(()),
        Some(at) => Err(format!("pairs: {:?} at {at}", pairs[at])),
    }
}

fn past(records: &Guarded<Pair>, count: usize) -> Result<(), String> {
    match records.spoilt_past(count) {
        None => Ok(()),
        Some(at) => Err(format!("pairs: written at {at}, {count} being due")),
    }
}

#[cfg(test)]
mod tests {
    use super::*;

    const COUNT: usize = 3 * LOOKED;

    fn ready(every: usize) -> Pairs {
        let mut pairs = Pairs::noisy_in_one_of(every);
        pairs.ready(COUNT).unwrap();
        pairs
    }

    #[test]
    fn noise_is_left_or_cleared() {
        let mut pairs = ready(1);
        assert_eq!(pairs.left(true), Ok(()));
        assert!(pairs.left(false).is_err());
        pairs.lend().fill(Pair::default());
        assert!(pairs.left(true).is_err());
        assert_eq!(pairs.left(false), Ok(()));
        pairs.ready(COUNT).unwrap();
        pairs.lend()[..COUNT - 1].fill(Pair::default());
        assert!(pairs.left(false).is_err());
    }

    #[test]
    fn what_was_not_seen_is_seen_later() {
        let mut pairs = ready(4);
        pairs.lend().fill(Pair::default());
        pairs.left(false).unwrap();
        // One record fewer, and one more.
        for count in [COUNT - 1, COUNT] {
            pairs.ready(count).unwrap();
            assert_eq!(pairs.lend().len(), count);
            assert_eq!((pairs.left(true), pairs.left(false)), (Ok(()), Ok(())));
        }
        pairs.ready(COUNT).unwrap();
        pairs.lend()[LOOKED - 1].gain = 1;
        assert!(pairs.left(false).is_err());
        pairs.lend()[LOOKED - 1].gain = 0;
        pairs.lend()[LOOKED].second = 1;
        assert_eq!(pairs.left(false), Ok(()));
        assert!(pairs.unseen().is_err());
        // Said once, and noise again.
        assert!(pairs.ready(COUNT).is_err());
        assert_eq!((pairs.unseen(), pairs.left(true)), (Ok(()), Ok(())));
    }

    #[test]
    fn noise_again_after_a_call_that_was_not_looked_at() {
        let mut pairs = ready(9);
        pairs.lend()[LOOKED].first ^= 1;
        pairs.ready(COUNT).unwrap();
        assert_ne!(pairs.lend()[LOOKED], Pair::default());
        assert_eq!(pairs.left(true), Ok(()));
    }

    #[test]
    fn noise_that_was_left_is_not_lent_again() {
        let mut pairs = ready(2);
        assert_eq!(pairs.left(true), Ok(()));
        for noisy in [false, true] {
            pairs.ready(COUNT).unwrap();
            assert_eq!(pairs.lend()[COUNT - 1] != Pair::default(), noisy);
            assert_eq!(pairs.left(true), Ok(()));
        }
    }
}
