//! The width table, OpenType's HVAR: an item variation store, and for each glyph the row
//! that its width varies by.

use crate::reading::reading;
use crate::refusals::Refused;
use crate::{raw, Packed, Reading, GLYPHS};

/// Bytes of a table before its store.
const HEAD: usize = 20;

/// The table of a store, which goes in as it is, and a word for each glyph, which is outer
/// x 65,536 + inner. Without words there is no map: row n of subtable 0 is glyph n's, which
/// is what mode 1 builds.
///
/// ```
/// let mut job = ivs::JobWriter::new(1);
/// let bold = job.region(&[(0, 0x4000, 0x4000)])?;
/// for wider in [10, -300, 10] {
///     job.set(&[(bold, wider)])?;                    // a set a glyph
/// }
/// let job = job.finish();
/// let shared = ivs::pack(1, 0, &job)?;
/// let table = ivs::write_widths(&shared.store, &ivs::set_words(&shared))?;
/// assert_eq!(ivs::read_width(&table, 1, 0)?, ivs::Reading::Written(-300));
/// assert_eq!(ivs::read_width(&table, 9, 0)?, ivs::Reading::Written(10)); // past the end, the last
///
/// let rows = ivs::pack(1, 1, &job)?;
/// let table = ivs::write_widths(&rows.store, &[])?;
/// assert_eq!(ivs::read_width(&table, 1, 0)?, ivs::Reading::Written(-300));
/// assert_eq!(ivs::read_width(&table, 3, 0).unwrap_err().name(), "NO_ROW");
/// # Ok::<(), Box<dyn std::error::Error>>(())
/// ```
pub fn write_widths(store: &[u8], words: &[u32]) -> Result<Vec<u8>, Refused> {
    let map = match words.len().min(GLYPHS) {
        0 => 0,
        glyphs => 6 + 4 * glyphs,
    };
    let mut table = vec![0; HEAD + store.len() + map];
    let bytes = write_widths_into(store, words, &mut table)?;
    table.truncate(bytes);
    Ok(table)
}

/// [`write_widths`] in lent memory: the bytes written. Past them nothing is touched.
///
/// ```
/// let mut out = [0xFF; 24];
/// assert_eq!(ivs::write_widths_into(&[7, 8], &[], &mut out)?, 22);
/// assert_eq!(out[20..], [7, 8, 0xFF, 0xFF]);         // the store is copied as it is
/// let refused = ivs::write_widths_into(&[7, 8], &[], &mut out[..21]).unwrap_err();
/// assert_eq!((refused.number, refused.name()), (41, "GLYPH_MAP_SHORT"));
/// # Ok::<(), ivs::Refused>(())
/// ```
pub fn write_widths_into(store: &[u8], words: &[u32], out: &mut [u8]) -> Result<usize, Refused> {
    let word = raw::write_widths(store, words, out);
    match (word >> 32) as u32 {
        0 => Ok(word as u32 as usize),
        number => Err(Refused::bare(number)),
    }
}

/// The value that a glyph's width has for a region (by its number in the store's list),
/// whatever the bytes of the table are.
///
/// ```
/// let mut job = ivs::JobWriter::new(1);
/// let bold = job.region(&[(0, 0x4000, 0x4000)])?;
/// job.set(&[(bold, 10)])?;
/// let rows = job.job().pack(ivs::Mode::Implicit)?;
/// let table = ivs::write_widths(&rows.store, &[])?;
/// assert_eq!(ivs::read_width(&table, 0, 0)?, ivs::Reading::Written(10));
/// assert_eq!(ivs::read_width(&table[..19], 0, 0).unwrap_err().name(), "BAD_WIDTHS");
/// # Ok::<(), ivs::Error>(())
/// ```
pub fn read_width(table: &[u8], glyph: u32, region: u32) -> Result<Reading, Refused> {
    reading(raw::read_width(table, glyph, region))
}

/// The words of a job whose n-th set is glyph n's: of each set the map's word of its id.
///
/// ```
/// let ends = [[3, 0, 0, 0, 0, 0, 0, 0, 0, 0, 0, 0]; 2].concat(); // two sets, one id
/// assert_eq!(ivs::set_words(&ivs::pack(1, 0, &ends)?), [0, 0]);
/// # Ok::<(), ivs::Refused>(())
/// ```
pub fn set_words(packed: &Packed) -> Vec<u32> {
    let word = |&id: &u32| packed.map[id as usize];
    packed.ids.iter().map(word).collect()
}
