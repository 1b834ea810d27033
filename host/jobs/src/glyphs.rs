//! Lists of words for glyph maps, a word for each glyph: outer x 65,536 + inner.

use crate::Rng;

/// The most glyphs of a map.
pub const MOST: usize = 1_048_576;

/// A short list with the name it is recorded by.
pub struct Example {
    /// Its name.
    pub name: String,
    /// The words.
    pub words: Vec<u32>,
}

/// Short lists: none, one, repeats at the end, and each number of outer and inner bits.
pub fn examples() -> Vec<Example> {
    let example = |name: &str, words: &[u32]| Example {
        name: name.into(),
        words: words.to_vec(),
    };
    let mut all = vec![
        example("no glyphs", &[]),
        example("one glyph, zero", &[0]),
        example("one glyph, every bit", &[u32::MAX]),
        example("three words", &[1, 2, 3]),
        example("repeats at the end", &[5, 7, 7, 7]),
        example("repeats before the end", &[7, 7, 7, 5]),
        example("all alike", &[9; 12]),
        example("a widest word that is left out", &[0x1_0000, 9, 9]),
        example("outer and inner", &[0x0040_0100, 1]),
    ];
    for bits in 1..=16 {
        let top = 1 << (bits - 1);
        all.push(example(&format!("inner of {bits} bits"), &[0, top]));
        all.push(example(&format!("outer of {bits} bits"), &[0, top << 16]));
        all.push(example(
            &format!("outer and inner of {bits} bits"),
            &[top << 16, top],
        ));
    }
    all
}

/// The list of a seed, of fewer than 40 words.
pub fn random(seed: u64) -> Vec<u32> {
    let rng = &mut Rng::new(seed);
    let n = rng.below(40);
    words(rng, n)
}

/// So many words, with so many outer and inner bits as comes up, some of them at the end
/// alike.
pub fn words(rng: &mut Rng, n: usize) -> Vec<u32> {
    let (outer, inner) = (rng.between(0, 16), rng.between(0, 16));
    let mut word = || (rng.below(1 << outer) << 16 | rng.below(1 << inner)) as u32;
    let mut words: Vec<u32> = (0..n).map(|_| word()).collect();
    let alike = if rng.one_in(2) { rng.below(n + 1) } else { 0 };
    if let Some(&last) = words.last() {
        words[n - alike..].fill(last);
    }
    words
}

/// The lengths at the limits: format 1 starts at 65,536 entries that are left, and no map
/// has more than [`MOST`] glyphs.
pub const EDGES: [usize; 5] = [65_535, 65_536, 65_537, MOST - 1, MOST];

/// So many words, each one more than the last.
pub fn rising(count: usize) -> Vec<u32> {
    (0..count as u32).collect()
}

/// The same up to 65,533 of them, and from there on all 7.
pub fn level(count: usize) -> Vec<u32> {
    let mut words = rising(count);
    words[65_533.min(count)..].fill(7);
    words
}
