//! What lent memory holds before a call: noise, which is told apart from anything that a
//! call leaves there. It repeats after so many words, so that it is copied and not made.

use ivs::Pair;
use std::sync::OnceLock;

/// A prime, so that no table of a call falls in step with it.
const PERIOD: usize = 16_381;

/// A word, byte or record of lent memory.
pub trait Noisy: Copy + PartialEq + std::fmt::Debug + 'static {
    /// Zero.
    const ZERO: Self;

    /// The noise, once round.
    fn noise() -> &'static [Self];
}

/// The noise as words.
fn words() -> &'static [u32] {
    static WORDS: OnceLock<Vec<u32>> = OnceLock::new();
    let word = |at: u32| at.wrapping_mul(0x9E37_79B9) ^ 0xA5C3_96E1;
    WORDS.get_or_init(|| (0..PERIOD as u32).map(word).collect())
}

impl Noisy for u32 {
    const ZERO: u32 = 0;

    fn noise() -> &'static [u32] {
        words()
    }
}

impl Noisy for u8 {
    const ZERO: u8 = 0;

    fn noise() -> &'static [u8] {
        static BYTES: OnceLock<Vec<u8>> = OnceLock::new();
        BYTES.get_or_init(|| words().iter().map(|word| *word as u8).collect())
    }
}

impl Noisy for Pair {
    const ZERO: Pair = Pair {
        gain: 0,
        first: 0,
        second: 0,
    };

    fn noise() -> &'static [Pair] {
        static PAIRS: OnceLock<Vec<Pair>> = OnceLock::new();
        let pair = |&word: &u32| Pair {
            gain: word,
            first: !word,
            second: word.rotate_left(7),
        };
        PAIRS.get_or_init(|| words().iter().map(pair).collect())
    }
}

/// So many words of noise to lend, with more of it on both sides.
#[derive(Default)]
pub struct Guarded<T> {
    words: Vec<T>,
    count: usize,
}

/// The words on each side. Odd, so that bytes are lent from an odd place on.
const SIDE: usize = 19;

impl<T: Noisy> Guarded<T> {
    /// Noise everywhere, of which so many words are lent.
    pub fn fill(&mut self, count: usize) {
        self.words.clear();
        fill(&mut self.words, SIDE + count + SIDE);
        self.count = count;
    }

    /// So many words are lent: as many as before stay as they are, more are zeros. Noise on
    /// both sides.
    pub fn again(&mut self, count: usize) {
        self.words.truncate(SIDE + self.count.min(count));
        self.words.resize(SIDE + count, T::ZERO);
        fill(&mut self.words, SIDE + count + SIDE);
        self.count = count;
    }

    /// What is lent, to write into.
    pub fn lend(&mut self) -> &mut [T] {
        &mut self.words[SIDE..SIDE + self.count]
    }

    /// What is lent; nothing at first.
    pub fn lent(&self) -> &[T] {
        self.words.get(SIDE..SIDE + self.count).unwrap_or_default()
    }

    /// The first word past the first `count` that are lent, or on a side, that does not
    /// hold its noise any more, by its place in what is lent.
    pub fn spoilt_past(&self, count: usize) -> Option<isize> {
        let front = spoilt(&self.words[..SIDE], 0);
        let at = front.or_else(|| spoilt(&self.words, SIDE + count))?;
        Some(at as isize - SIDE as isize)
    }
}

/// Noise behind what there is, up to so many words.
fn fill<T: Noisy>(words: &mut Vec<T>, count: usize) {
    words.reserve(count - words.len());
    while words.len() < count {
        let noise = &T::noise()[words.len() % PERIOD..];
        let part = noise.len().min(count - words.len());
        words.extend_from_slice(&noise[..part]);
    }
}

/// The first place from `from` on that does not hold its noise any more.
fn spoilt<T: Noisy>(words: &[T], from: usize) -> Option<usize> {
    let mut at = from;
    while at < words.len() {
        let noise = &T::noise()[at % PERIOD..];
        let part = noise.len().min(words.len() - at);
        if words[at..at + part] != noise[..part] {
            return (at..at + part).find(|&i| words[i] != T::noise()[i % PERIOD]);
        }
        at += part;
    }
    None
}

/// The first place that is not zero.
pub fn not_zero<T: Noisy>(words: &[T]) -> Option<usize> {
    let zeros = [T::ZERO; 1_024];
    let clear = |part: &[T]| *part == zeros[..part.len()];
    let part = words.chunks(zeros.len()).position(|part| !clear(part))?;
    let from = part * zeros.len();
    (from..words.len()).find(|&i| words[i] != T::ZERO)
}

#[cfg(test)]
mod tests {
    use super::*;

    #[test]
    fn every_change_is_found() {
        let mut words: Vec<u32> = Vec::new();
        fill(&mut words, 2 * PERIOD + 7);
        assert_eq!(spoilt(&words, 0), None);
        for at in [0, 1, PERIOD - 1, PERIOD, 2 * PERIOD, 2 * PERIOD + 6] {
            words[at] ^= 1;
            assert_eq!(spoilt(&words, 0), Some(at));
            assert_eq!(spoilt(&words, at), Some(at));
            assert_eq!(spoilt(&words, at + 1), None);
            words[at] ^= 1;
        }
        let mut lent = Guarded::<u8>::default();
        lent.fill(5);
        assert_eq!((lent.lent().len(), lent.spoilt_past(0)), (5, None));
        lent.lend()[2] ^= 1;
        assert_eq!((lent.spoilt_past(0), lent.spoilt_past(3)), (Some(2), None));
        for (at, place) in [(SIDE + 5, 5), (SIDE - 1, -1)] {
            lent.words[at] ^= 1;
            assert_eq!(lent.spoilt_past(5), Some(place));
        }
        lent.fill(5);
        lent.lend().fill(1);
        for (count, due) in [(7, &[1, 1, 1, 1, 1, 0, 0][..]), (3, &[1, 1, 1])] {
            lent.again(count);
            assert_eq!((lent.lent(), lent.spoilt_past(count)), (due, None));
        }
        let mut zeros = vec![0u8; 3_000];
        assert_eq!(not_zero(&zeros), None);
        for at in [0, 1_023, 1_024, 2_999] {
            zeros[at] = 1;
            assert_eq!(not_zero(&zeros), Some(at));
            zeros[at] = 0;
        }
    }
}
