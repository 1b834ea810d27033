//! The tables that are packed anew: HVAR and VVAR, whose maps name the rows of their store,
//! and MVAR, whose records do.

use crate::big_endian::{u16_at, u32_at};
use crate::font_store::{Rows, Unpacked};
use ivs::Refused;

/// The table packed anew in a mode; none where it is none of the three.
pub fn repacked(
    tag: &[u8; 4],
    table: &[u8],
    glyphs: u32,
    mode: u32,
) -> Option<Result<Vec<u8>, Unpacked>> {
    Some(match tag {
        b"HVAR" => metrics(table, glyphs, mode, 3),
        b"VVAR" => metrics(table, glyphs, mode, 4),
        b"MVAR" => values(table, mode),
        _ => return None,
    })
}

fn cut_off() -> Unpacked {
    Unpacked::Other("it is cut off".to_string())
}

/// HVAR, or VVAR, which has one map more. The sets are those of the advances, a glyph each,
/// then those of each other map that is there.
fn metrics(table: &[u8], glyphs: u32, mode: u32, maps: usize) -> Result<Vec<u8>, Unpacked> {
    let store = u32_at(table, 4)
        .and_then(|at| table.get(at..))
        .ok_or_else(cut_off)?;
    let rows = Rows::of(store)?;
    let named = (0..maps).map(|map| words(table, map, glyphs, &rows));
    let named: Vec<Option<Vec<u32>>> = named.collect::<Result<_, _>>()?;
    let all: Vec<u32> = named.iter().flatten().flatten().copied().collect();
    let packed = rows.pack(mode, &all)?;
    let new = ivs::set_words(&packed);
    let mut parts = new.chunks(glyphs as usize);
    let mut new: Vec<Option<&[u32]>> = Vec::new();
    for map in &named {
        new.push(map.as_ref().and_then(|_| parts.next()));
    }
    if mode == 1 {
        // Row n is glyph n's, with no map.
        new[0] = None;
    }
    Ok(written(&packed.store, &new)?)
}

/// The word of each glyph by a map of a table. None where there is no map; but without a map
/// of the advances the word is the glyph's number, and what is past the rows does not vary.
fn words(
    table: &[u8],
    map: usize,
    glyphs: u32,
    rows: &Rows<'_>,
) -> Result<Option<Vec<u32>>, Unpacked> {
    let at = u32_at(table, 8 + 4 * map).ok_or_else(cut_off)?;
    if at == 0 {
        let own = |glyph| if rows.has(glyph) { glyph } else { u32::MAX };
        return Ok((map == 0).then(|| (0..glyphs).map(own).collect()));
    }
    let map = table.get(at..).ok_or_else(cut_off)?;
    let words = (0..glyphs).map(|glyph| ivs::read_glyph(map, glyph));
    Ok(Some(words.collect::<Result<_, _>>()?))
}

/// The proved writer's table, with the further maps behind it and their offsets in its head.
fn written(store: &[u8], maps: &[Option<&[u32]>]) -> Result<Vec<u8>, Refused> {
    let head = 8 + 4 * maps.len();
    let mut table = ivs::write_widths(store, maps[0].unwrap_or_default())?;
    // VVAR's head has an offset more.
    let longer = head - 20;
    table.splice(20..20, vec![0; longer]);
    for at in [4, 8] {
        let offset = u32::from_be_bytes([table[at], table[at + 1], table[at + 2], table[at + 3]]);
        if offset != 0 {
            put(&mut table, at, offset + longer as u32);
        }
    }
    for (number, words) in maps.iter().enumerate().skip(1) {
        if let Some(words) = words {
            let offset = table.len() as u32;
            put(&mut table, 8 + 4 * number, offset);
            table.extend(ivs::write_glyphs(words)?);
        }
    }
    Ok(table)
}

/// MVAR: head and records stay, with other row numbers in the records and the store behind.
fn values(table: &[u8], mode: u32) -> Result<Vec<u8>, Unpacked> {
    let field = |at: usize| u16_at(table, at).ok_or_else(cut_off);
    let (size, count, store) = (field(6)?, field(8)?, field(10)?);
    let end = 12 + size * count;
    if size < 8 || end > u16::MAX.into() {
        return Err(Unpacked::Other("its records have another form".to_string()));
    }
    let mut new = table.get(..end).ok_or_else(cut_off)?.to_vec();
    let at = |number: usize| 12 + size * number + 4;
    let named = (0..count).map(|number| u32_at(table, at(number)).map(|word| word as u32));
    let named: Vec<u32> = named.collect::<Option<_>>().ok_or_else(cut_off)?;
    let packed = Rows::of(table.get(store..).ok_or_else(cut_off)?)?.pack(mode, &named)?;
    for (number, word) in ivs::set_words(&packed).into_iter().enumerate() {
        // A record that names no row goes on naming none.
        if named[number] != u32::MAX {
            put(&mut new, at(number), word);
        }
    }
    new[10..12].copy_from_slice(&(end as u16).to_be_bytes());
    new.extend(packed.store);
    Ok(new)
}

fn put(bytes: &mut [u8], at: usize, number: u32) {
    bytes[at..at + 4].copy_from_slice(&number.to_be_bytes());
}

#[cfg(test)]
mod tests {
    use super::*;
    use ivs::{JobWriter, Reading};

    const GLYPHS: u32 = 40;

    /// A table with every map, of rows in no order: map m gives glyph g the row 7 g + m, and
    /// the last glyph none.
    fn made(maps: usize) -> Vec<u8> {
        let mut job = JobWriter::new(1);
        let bold = job.region(&[(0, 0x4000, 0x4000)]).unwrap();
        let light = job.region(&[(-0x4000, -0x4000, 0)]).unwrap();
        for row in 0..50 {
            job.set(&[(light, row % 5), (bold, 100 * row - 300)])
                .unwrap();
        }
        let packed = ivs::pack(1, 1, &job.finish()).unwrap();
        let row = |map: usize, glyph: u32| (7 * glyph + map as u32) % 50;
        let words = |map: usize| -> Vec<u32> {
            let mut words: Vec<u32> = (0..GLYPHS).map(|glyph| row(map, glyph)).collect();
            words[GLYPHS as usize - 1] = u32::MAX;
            words
        };
        let words: Vec<Vec<u32>> = (0..maps).map(words).collect();
        let words: Vec<Option<&[u32]>> = words.iter().map(|words| Some(&words[..])).collect();
        written(&packed.store, &words).unwrap()
    }

    /// What a map of a table gives a glyph at a place, on the one axis.
    fn value(table: &[u8], map: usize, glyph: u32, place: f64) -> f64 {
        let store = &table[u32_at(table, 4).unwrap()..];
        let word = match u32_at(table, 8 + 4 * map).unwrap() {
            0 => glyph,
            at => ivs::read_glyph(&table[at..], glyph).unwrap(),
        };
        let regions = ivs::Store::decode(store).unwrap().regions;
        let scalar = |&(_, peak, _): &ivs::Tent| (place / f64::from(peak)).max(0.0);
        let one = |(number, region): (u32, &Vec<ivs::Tent>)| match ivs::read(
            store,
            word >> 16,
            word & 0xFFFF,
            number,
        ) {
            Ok(Reading::Written(value)) => f64::from(value) * scalar(&region[0]),
            Ok(Reading::NoColumn) => 0.0,
            Err(refused) => {
                assert_eq!((word, refused.number), (u32::MAX, 21));
                0.0
            }
        };
        (0..).zip(&regions).map(one).sum()
    }

    #[test]
    fn every_map_gives_every_glyph_what_it_gave() {
        for (tag, maps) in [(b"HVAR", 3), (b"VVAR", 4)] {
            let old = made(maps);
            for mode in [0, 1] {
                let new = repacked(tag, &old, GLYPHS, mode).unwrap().ok().unwrap();
                assert_eq!(u32_at(&new, 4), Some(8 + 4 * maps));
                assert_eq!(u32_at(&new, 8) == Some(0), mode == 1);
                for (map, glyph) in (0..maps).flat_map(|map| (0..GLYPHS).map(move |g| (map, g))) {
                    for place in [-16_384.0, 0.0, 16_384.0] {
                        let [before, after] = [&old, &new].map(|t| value(t, map, glyph, place));
                        assert_eq!(before, after, "map {map}, glyph {glyph}");
                    }
                }
            }
        }
    }

    #[test]
    fn a_map_that_is_not_there_stays_away() {
        let mut old = made(3);
        put(&mut old, 12, 0);
        let new = repacked(b"HVAR", &old, GLYPHS, 0).unwrap().ok().unwrap();
        assert_eq!(u32_at(&new, 12), Some(0));
        assert_eq!(value(&old, 2, 5, 16_384.0), value(&new, 2, 5, 16_384.0));
    }

    #[test]
    fn what_is_no_table_is_refused() {
        let old = made(3);
        for cut in 0..old.len() {
            // Nothing goes wrong; what is cut behind the last map is not seen.
            let _ = repacked(b"HVAR", &old[..cut], GLYPHS, 0).unwrap();
            let _ = repacked(b"MVAR", &old[..cut], GLYPHS, 0).unwrap();
        }
        let mut row = old;
        let at = u32_at(&row, 8).unwrap();
        // The first entry of the first map, in two bytes.
        row[at + 4..at + 6].fill(0x77);
        let said = repacked(b"HVAR", &row, GLYPHS, 0).unwrap();
        assert!(matches!(said, Err(Unpacked::Other(words)) if words.contains("not there")));
    }
}
