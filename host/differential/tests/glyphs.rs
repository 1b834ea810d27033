//! Glyph maps: the proved writer and reader beside the plain reading of the rules, and
//! the writer beside the source's own, where the source is.

use jobs::glyphs::{level, rising, words, EDGES};
use jobs::Rng;
use plain::glyphs::{read, write, MOST};

/// The proved writer in lent memory around the size that is due, all of it looked at, and
/// the source. The map, where there is one.
fn compared(words: &[u32]) -> Option<Vec<u8>> {
    let due = write(words, usize::MAX);
    if let (Ok(map), Some(source)) = (&due, oracle::glyphs::map(words)) {
        assert_eq!(map, &source, "the source writes another map of {words:?}");
    }
    let size = due.as_ref().map_or(0, Vec::len);
    for room in [size.saturating_sub(1), size, size + 3] {
        let mut out = vec![0xEE; room];
        let said = ivs::write_glyphs_into(words, &mut out).map_err(|refused| refused.number);
        let due = write(words, room);
        assert_eq!(said, due.as_ref().map(Vec::len).map_err(|&number| number));
        let written = due.unwrap_or_default();
        assert!(out.starts_with(&written), "another map of {words:?}");
        assert!(out[written.len()..].iter().all(|&byte| byte == 0xEE));
    }
    due.ok()
}

/// The proved reader and the plain reading say the same.
fn same_reading(map: &[u8], glyph: u32) -> Result<u32, u32> {
    let said = ivs::read_glyph(map, glyph).map_err(|refused| refused.number);
    assert_eq!(said, read(map, glyph), "glyph {glyph} of {map:02x?}");
    said
}

/// So many of the numbers below n, the last ones among them.
fn some(rng: &mut Rng, n: usize, count: usize) -> Vec<usize> {
    let last = n.saturating_sub(3)..n;
    let others: Vec<usize> = (0..count.min(n)).map(|_| rng.below(n)).collect();
    last.chain(others).collect()
}

/// Every glyph's word comes back, past the end the last one's.
fn comes_back(rng: &mut Rng, words: &[u32], map: &[u8], count: usize) {
    for glyph in some(rng, words.len(), count) {
        assert_eq!(same_reading(map, glyph as u32), Ok(words[glyph]));
    }
    for past in [words.len() as u32, u32::MAX] {
        assert_eq!(same_reading(map, past), words.last().copied().ok_or(42));
    }
}

#[test]
fn the_source_is_asked() {
    let empty = oracle::glyphs::map(&[]);
    assert_eq!(empty, oracle::PRESENT.then(|| vec![0; 4]));
}

#[test]
fn random_maps() {
    let rounds = 20_000;
    let rng = &mut Rng::new(103);
    for _ in 0..rounds {
        let n = rng.below(40);
        let words = words(rng, n);
        let map = compared(&words).expect("no list this short is refused");
        comes_back(rng, &words, &map, 5);
    }
}

#[test]
fn damaged_maps() {
    let rounds = 100_000;
    let rng = &mut Rng::new(42);
    let (mut read, mut refused) = (0, 0);
    for _ in 0..rounds {
        let n = rng.below(12);
        let mut map = write(&words(rng, n), 100).expect("a short list");
        if rng.one_in(2) {
            let at = if rng.one_in(2) {
                rng.below(4)
            } else {
                rng.below(map.len())
            };
            map[at] ^= 1 << rng.below(8);
        }
        if rng.one_in(4) {
            map.truncate(rng.below(map.len() + 1));
        }
        match same_reading(&map, rng.below(15) as u32) {
            Ok(_) => read += 1,
            Err(_) => refused += 1,
        }
    }
    assert!(read > rounds / 10 && refused > rounds / 10);
}

#[test]
fn maps_at_the_limits() {
    let rng = &mut Rng::new(16);
    // The limit is of the glyphs that are given, not of the entries that are left.
    for n in EDGES.into_iter().chain([MOST + 1]) {
        let words = rising(n);
        let map = compared(&words);
        assert_eq!(map.is_some(), n <= MOST);
        if let Some(map) = map {
            assert_eq!(map[0], u8::from(n > 65_535));
            comes_back(rng, &words, &map, 100);
        }
        assert!(compared(&level(n)).map_or(true, |map| map[0] == 0));
    }
}
