//! A width table (OpenType's HVAR): written, and read one glyph and region at a time. Its
//! head is version 1.0 and four offsets: of the store, of the map of the widths, and of the
//! maps of the two side bearings.

use crate::glyphs;
use crate::reading::{read as read_store, Reading};

/// The bytes are no width table.
pub const BAD: u32 = 43;

/// The most bytes of a table: what offsets of four bytes reach.
const LONGEST: usize = 4_294_967_295;

/// The table of a store and a word for each glyph, where `room` bytes are lent for it; or
/// the refusal. Of no words there is no map.
pub fn write(store: &[u8], words: &[u32], room: usize) -> Result<Vec<u8>, u32> {
    let map = match words {
        [] => Vec::new(),
        words => glyphs::write(words, usize::MAX)?,
    };
    let at = if map.is_empty() { 0 } else { 20 + store.len() };
    let mut table = vec![0, 1, 0, 0, 0, 0, 0, 20];
    table.extend(&(at as u32).to_be_bytes());
    table.extend([0; 8]);
    table.extend(store);
    table.extend(map);
    if table.len() > room.min(LONGEST) {
        return Err(glyphs::SHORT);
    }
    Ok(table)
}

/// The value that a glyph's width has for a region, or the refusal.
pub fn read(table: &[u8], glyph: u32, region: u32) -> Result<Reading, u32> {
    let (store, map) = parts(table).ok_or(BAD)?;
    let (outer, inner) = match map {
        None => (0, glyph),
        Some(map) => {
            let word = glyphs::read(map, glyph)?;
            (word / 65_536, word % 65_536)
        }
    };
    read_store(store, outer, inner, region)
}

/// The store and the map, each with all that follows it; none of what is no table.
fn parts(table: &[u8]) -> Option<(&[u8], Option<&[u8]>)> {
    let head = table.get(..20)?;
    if head[..2] != [0, 1] {
        return None;
    }
    let offset = |at: usize| {
        let bytes = head[at..at + 4].iter();
        bytes.fold(0, |n: usize, &byte| 256 * n + usize::from(byte))
    };
    let from = |at: usize| {
        let part = table.get(at..)?;
        (at >= 20 && !part.is_empty()).then_some(part)
    };
    let store = from(offset(4))?;
    let map = match offset(8) {
        0 => None,
        at => Some(from(at)?),
    };
    Some((store, map))
}

#[cfg(test)]
mod tests {
    use super::*;

    #[test]
    fn tables_of_the_proofs() {
        // Two regions and one subtable: rows {R1: -1} and {R1: 5}.
        let store = [
            0, 1, 0, 0, 0, 12, 0, 1, 0, 0, 0, 28, 0, 1, 0, 2, 0, 0, 0x40, 0, 0x40, 0, 0xC0, 0,
            0xC0, 0, 0, 0, 0, 2, 0, 0, 0, 1, 0, 1, 0xFF, 5,
        ];
        let bare = write(&store, &[], 58).unwrap();
        let mapped = write(&store, &[1, 0, 0], 64).unwrap();
        assert_eq!((bare.len(), mapped.len()), (58, 64));
        assert_eq!(write(&store, &[], 57), Err(glyphs::SHORT));
        assert_eq!(mapped[8..12], [0, 0, 0, 58]);
        assert_eq!(read(&bare, 1, 1), Ok(Reading::Written(5)));
        assert_eq!(read(&bare, 65_536, 1), Err(21));
        assert_eq!(read(&mapped, 0, 1), Ok(Reading::Written(5)));
        assert_eq!(read(&mapped, 1_000, 1), Ok(Reading::Written(-1)));
        assert_eq!(read(&mapped[..19], 0, 1), Err(BAD));
    }
}
