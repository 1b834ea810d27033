//! A glyph map (OpenType's DeltaSetIndexMap; G1 to G7): written, and read one
//! glyph at a time. A word is outer x 65,536 + inner.

/// Too many glyphs, the output short, no glyph map.
pub const TOO_MANY: u32 = 40;
/// See [`TOO_MANY`].
pub const SHORT: u32 = 41;
/// See [`TOO_MANY`].
pub const BAD: u32 = 42;

/// The most glyphs of a map.
pub const MOST: usize = 1_048_576;

/// The map of a word for each glyph, where `room` bytes are lent for it; or the refusal.
pub fn write(words: &[u32], room: usize) -> Result<Vec<u8>, u32> {
    if words.len() > MOST {
        return Err(TOO_MANY);
    }
    let bits = |n: u64| u64::from(64 - n.leading_zeros());
    let inner_bits = words.iter().map(|&w| bits(u64::from(w % 65_536)));
    let inner_bits = inner_bits.max().unwrap_or(0).max(1);
    let entry = |&w: &u32| u64::from(w / 65_536) << inner_bits | u64::from(w % 65_536);
    let size = words.iter().map(|w| bits(entry(w)).div_ceil(8));
    let size = size.max().unwrap_or(0).max(1) as usize;

    let mut kept = words;
    while let [.., before, last] = kept {
        if before != last {
            break;
        }
        kept = &kept[..kept.len() - 1];
    }
    let form = ((size - 1) as u8) << 4 | (inner_bits - 1) as u8;
    let mut map = match u16::try_from(kept.len()) {
        Ok(count) => [&[0, form], &count.to_be_bytes()[..]].concat(),
        Err(_) => [&[1, form], &(kept.len() as u32).to_be_bytes()[..]].concat(),
    };
    for word in kept {
        map.extend(&entry(word).to_be_bytes()[8 - size..]);
    }
    if map.len() > room {
        return Err(SHORT);
    }
    Ok(map)
}

/// The word of a glyph, or the refusal.
pub fn read(map: &[u8], glyph: u32) -> Result<u32, u32> {
    entry(map, glyph)
        .and_then(|(bits, entry)| {
            let outer = u16::try_from(entry >> bits).ok()?;
            Some(u32::from(outer) << 16 | (entry & ((1 << bits) - 1)) as u32)
        })
        .ok_or(BAD)
}

/// The inner bits and the entry of a glyph; none of what is no map.
fn entry(map: &[u8], glyph: u32) -> Option<(u32, u64)> {
    let (head, count) = match map.first()? {
        0 => (4, number(map.get(2..4)?)),
        1 => (6, number(map.get(2..6)?)),
        _ => return None,
    };
    let form = map[1];
    if form & 0xC0 != 0 || count == 0 {
        return None;
    }
    let size = usize::from(form >> 4) + 1;
    let entries = map[head..].get(..count as usize * size)?;
    let last = u64::from(glyph).min(count - 1) as usize;
    let entry = number(&entries[last * size..][..size]);
    Some((u32::from(form & 0x0F) + 1, entry))
}

/// Bytes as a number, the highest first.
fn number(bytes: &[u8]) -> u64 {
    bytes.iter().fold(0, |n, &byte| n << 8 | u64::from(byte))
}

#[cfg(test)]
mod tests {
    use super::*;

    #[test]
    fn maps_of_the_proofs() {
        let map = |words: &[u32]| write(words, 100).unwrap();
        assert_eq!(map(&[1, 2, 3]), [0, 1, 0, 3, 1, 2, 3]);
        assert_eq!(map(&[5, 7, 7, 7]), [0, 2, 0, 2, 5, 7]);
        assert_eq!(map(&[]), [0, 0, 0, 0]);
        assert_eq!(map(&[0x0040_0100, 1]), [0, 0x18, 0, 2, 0x81, 0, 0, 1]);
        assert_eq!(read(&map(&[5, 7, 7, 7]), 1_000), Ok(7));
        assert_eq!(read(&map(&[]), 0), Err(BAD));
        assert_eq!(read(&[0, 0x20, 0, 1, 2, 0, 0], 0), Err(BAD));
    }
}
