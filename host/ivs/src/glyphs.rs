//! The glyph map, OpenType's DeltaSetIndexMap: where in a store each glyph's deltas stand.

use crate::raw;
use crate::refusals::Refused;

/// The most glyphs of a map.
pub const GLYPHS: usize = 1_048_576;

/// The map of a word for each glyph, outer x 65,536 + inner, in the fewest bytes that
/// OpenType allows for it.
///
/// ```
/// let map = ivs::write_glyphs(&[5, 7, 7, 7])?;       // trailing repeats are left out
/// assert_eq!(map, [0, 2, 0, 2, 5, 7]);
/// assert_eq!(ivs::read_glyph(&map, 3)?, 7);          // past the end, the last
/// let refused = ivs::read_glyph(&ivs::write_glyphs(&[])?, 0).unwrap_err();
/// assert_eq!(refused.name(), "BAD_GLYPH_MAP");       // an empty map has no word
/// # Ok::<(), ivs::Refused>(())
/// ```
pub fn write_glyphs(words: &[u32]) -> Result<Vec<u8>, Refused> {
    let mut map = vec![0; 6 + 4 * words.len().min(GLYPHS)];
    let bytes = write_glyphs_into(words, &mut map)?;
    map.truncate(bytes);
    Ok(map)
}

/// [`write_glyphs`] in lent memory: the bytes written. Past them nothing is touched.
///
/// ```
/// let mut out = [0xFF; 8];
/// assert_eq!(ivs::write_glyphs_into(&[5, 7, 7], &mut out)?, 6);
/// assert_eq!(out, [0, 2, 0, 2, 5, 7, 0xFF, 0xFF]);
/// let refused = ivs::write_glyphs_into(&[1], &mut out[..4]).unwrap_err();
/// assert_eq!((refused.number, refused.name()), (41, "GLYPH_MAP_SHORT"));
/// # Ok::<(), ivs::Refused>(())
/// ```
pub fn write_glyphs_into(words: &[u32], out: &mut [u8]) -> Result<usize, Refused> {
    answered(raw::write_glyphs(words, out)).map(|bytes| bytes as usize)
}

/// The word of a glyph in a map, whatever its bytes are; one past the map's end has the
/// last entry's.
///
/// ```
/// let map = ivs::write_glyphs(&[0x1_0002, 7])?;
/// assert_eq!([0, 1, 2].map(|glyph| ivs::read_glyph(&map, glyph)), [Ok(0x1_0002), Ok(7), Ok(7)]);
/// assert_eq!(ivs::read_glyph(&map[..5], 0).unwrap_err().number, 42); // cut off
/// # Ok::<(), ivs::Refused>(())
/// ```
pub fn read_glyph(map: &[u8], glyph: u32) -> Result<u32, Refused> {
    answered(raw::read_glyph(map, glyph))
}

/// The low half of an answer, or the refusal in its high half.
fn answered(word: u64) -> Result<u32, Refused> {
    match (word >> 32) as u32 {
        0 => Ok(word as u32),
        number => Err(Refused::bare(number)),
    }
}
