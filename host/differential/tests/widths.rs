//! Width tables: the proved writer and reader beside the plain reading of the rules, on
//! stores that were built, with words and without, and on damaged tables. (The source has
//! no width table to compare with; its store and its glyph map are compared elsewhere.)

use jobs::glyphs::words;
use jobs::{damage, random, Rng};
use plain::table::{read, write};
use plain::{Reading, Sizes};

fn told(reading: ivs::Reading) -> Reading {
    match reading {
        ivs::Reading::Written(value) => Reading::Written(value),
        ivs::Reading::NoColumn => Reading::NoColumn,
    }
}

/// The proved writer in lent memory around the size that is due, all of it looked at.
fn compared(store: &[u8], words: &[u32]) -> Result<Vec<u8>, u32> {
    let due = write(store, words, usize::MAX);
    let size = due.as_ref().map_or(0, Vec::len);
    for room in [0, 19, size.saturating_sub(1), size, size + 3] {
        let mut out = vec![0xEE; room];
        let said = ivs::write_widths_into(store, words, &mut out).map_err(|no| no.number);
        let due = write(store, words, room);
        assert_eq!(said, due.as_ref().map(Vec::len).map_err(|&number| number));
        let written = due.unwrap_or_default();
        assert!(out.starts_with(&written), "another table of {words:?}");
        assert!(out[written.len()..].iter().all(|&byte| byte == 0xEE));
    }
    due
}

/// The proved reader and the plain reading say the same.
fn same_reading(table: &[u8], glyph: u32, region: u32) -> Result<Reading, u32> {
    let said = ivs::read_width(table, glyph, region);
    let said = said.map(told).map_err(|refused| refused.number);
    let due = read(table, glyph, region);
    assert_eq!(said, due, "glyph {glyph}, region {region} of {table:02x?}");
    said
}

/// A built store of a seed, with its words and its regions; none of a job that is refused.
fn built(seed: u64, mode: u32) -> Option<(Vec<u8>, Vec<u32>, u32)> {
    let job = random::job(seed);
    let built = plain::build(job.axes as u32, mode, &job.to_bytes(), &Sizes::PLENTY).ok()?;
    let word = |&id: &u32| built.map[id as usize];
    let words = built.ids.iter().map(word).collect();
    Some((built.store, words, built.counts.regions_kept as u32))
}

/// Every glyph of the table reads as its word's row of the store, past the end as the last.
#[test]
fn tables_of_built_stores() {
    let seeds = 600;
    let (mut tables, mut values) = (0, 0);
    for seed in 0..seeds {
        for mode in [0, 1] {
            let Some((store, words, regions)) = built(seed, mode) else {
                continue;
            };
            let table = compared(&store, &words).unwrap();
            let bare = compared(&store, &[]).unwrap();
            tables += 2;
            let past = [words.len() as u32, u32::MAX];
            for glyph in (0..words.len() as u32).chain(past) {
                let word = words.get(glyph as usize).or(words.last());
                for region in 0..=regions {
                    let said = same_reading(&table, glyph, region);
                    let due = match word {
                        Some(word) => plain::read(&store, word >> 16, word & 0xFFFF, region),
                        None => plain::read(&store, 0, glyph, region),
                    };
                    assert_eq!(said, due);
                    let rows = same_reading(&bare, glyph, region);
                    assert_eq!(rows, plain::read(&store, 0, glyph, region));
                    if mode == 1 && (glyph as usize) < words.len() {
                        assert_eq!(said, rows, "in mode 1 glyph n has row n");
                    }
                    values += 1;
                }
            }
        }
    }
    assert!(tables > 2 * seeds && values > 10 * tables);
}

#[test]
fn any_words_and_any_bytes_for_a_store() {
    let rounds = 10_000;
    let rng = &mut Rng::new(43);
    for _ in 0..rounds {
        let (long, glyphs) = (rng.below(30), rng.below(20));
        let store: Vec<u8> = (0..long).map(|_| rng.bits() as u8).collect();
        let table = compared(&store, &words(rng, glyphs)).unwrap();
        let _ = same_reading(&table, rng.below(25) as u32, rng.below(3) as u32);
    }
    let many = vec![5; ivs::GLYPHS + 1];
    assert_eq!(compared(&[1, 2], &many), Err(40));
    let table = compared(&[1, 2], &many[1..]).unwrap();
    assert_eq!(table[20..22], [1, 2]);
}

#[test]
fn damaged_tables() {
    let rounds = 60_000;
    let rng = &mut Rng::new(20);
    let mut seen = std::collections::BTreeMap::new();
    for round in 0..rounds {
        let Some((store, words, regions)) = built(round % 97, rng.below(2) as u32) else {
            continue;
        };
        let words = if rng.one_in(3) { Vec::new() } else { words };
        let mut table = write(&store, &words, usize::MAX).unwrap();
        match rng.below(5) {
            0 => table[rng.below(20)] ^= 1 << rng.below(8),
            1 => {
                // An offset that is near an edge of the table or of the head.
                let edge = [19, 20, 21, table.len() - 1, table.len(), 20 + store.len()];
                let offset = edge[rng.below(edge.len())] as u32;
                let at = 4 + 4 * rng.below(2);
                table[at..at + 4].copy_from_slice(&offset.to_be_bytes());
            }
            2 => table.truncate(rng.below(table.len() + 1)),
            3 => table = damage::store(rng, &table),
            _ => {}
        }
        let glyph = match rng.below(8) {
            0 => rng.bits() as u32,
            _ => rng.below(words.len() + 2) as u32,
        };
        let region = rng.below(regions as usize + 1) as u32;
        let said = same_reading(&table, glyph, region);
        *seen
            .entry(said.map_or_else(|number| number, |_| 0))
            .or_insert(0) += 1;
    }
    for number in [0, 20, 21, 22, 42, 43] {
        assert!(seen.get(&number) > Some(&5), "{number}: {seen:?}");
    }
}
