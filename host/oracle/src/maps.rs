//! Recorded glyph maps of the source, as text, in the form of [`crate::vectors`]:
//!
//! ```text
//! case repeats at the end
//! words hex 00000005..      or: words seed 17 DIGEST, or: words rising 65536 DIGEST
//! map 0002000205..          or: map 262150 bytes, digest 0123456789abcdef
//! ```

use crate::fields::{word_bytes, Bytes, Fields};
use jobs::{glyphs, hex};
use std::fmt;

/// How a case names its words.
#[derive(Clone, Debug, PartialEq, Eq)]
pub enum Origin {
    /// Written out.
    Hex,
    /// The seed that [`glyphs::random`] makes them from.
    Seed(u64),
    /// So many of [`glyphs::rising`].
    Rising(usize),
    /// So many of [`glyphs::level`].
    Level(usize),
}

/// One recorded map.
#[derive(Clone, Debug, PartialEq, Eq)]
pub struct Case {
    /// What it is called.
    pub name: String,
    /// Where the words come from.
    pub origin: Origin,
    /// A word for each glyph.
    pub words: Vec<u32>,
    /// The map.
    pub map: Bytes,
}

impl Origin {
    /// The words of a seed or a length.
    fn words(&self) -> Option<Vec<u32>> {
        match self {
            Origin::Hex => None,
            Origin::Seed(seed) => Some(glyphs::random(*seed)),
            Origin::Rising(count) => Some(glyphs::rising(*count)),
            Origin::Level(count) => Some(glyphs::level(*count)),
        }
    }

    /// The maker's name and its number.
    fn maker(&self) -> Option<(&str, u64)> {
        match self {
            Origin::Hex => None,
            Origin::Seed(seed) => Some(("seed", *seed)),
            Origin::Rising(count) => Some(("rising", *count as u64)),
            Origin::Level(count) => Some(("level", *count as u64)),
        }
    }
}

impl Case {
    /// Asks the source. None without it.
    pub fn record(name: &str, origin: Origin, words: Vec<u32>) -> Option<Case> {
        let map = crate::glyphs::map(&words)?;
        Some(Case {
            name: name.into(),
            origin,
            words,
            map: Bytes::of(map),
        })
    }

    /// Asks the source for the map of what a maker makes.
    pub fn record_made(origin: Origin) -> Option<Case> {
        let (maker, number) = origin.maker()?;
        let (name, words) = (format!("{maker} {number}"), origin.words()?);
        Case::record(&name, origin, words)
    }
}

impl fmt::Display for Case {
    fn fmt(&self, f: &mut fmt::Formatter<'_>) -> fmt::Result {
        writeln!(f, "case {}", self.name)?;
        let bytes = word_bytes(&self.words);
        match self.origin.maker() {
            None => writeln!(f, "words hex {}", hex::of(&bytes))?,
            Some((maker, number)) => {
                let digest = hex::digest(&bytes);
                writeln!(f, "words {maker} {number} {digest:016x}")?
            }
        }
        writeln!(f, "map {}", self.map)
    }
}

/// The cases of a file, or what is wrong with it.
pub fn parse(text: &str) -> Result<Vec<Case>, String> {
    let mut fields = Fields::new(text);
    let mut cases = Vec::new();
    while let Some(name) = fields.case()? {
        let (origin, words) = parse_words(fields.field("words")?)?;
        cases.push(Case {
            name: name.into(),
            origin,
            words,
            map: fields.bytes("map")?,
        });
    }
    Ok(cases)
}

/// The words that a `words` line names, checked against their digest.
fn parse_words(text: &str) -> Result<(Origin, Vec<u32>), String> {
    let parts: Vec<&str> = text.split(' ').collect();
    let bad = || format!("bad words: {text}");
    let (origin, digest) = match parts[..] {
        ["hex", digits] => {
            let bytes = hex::to_bytes(digits).ok_or_else(bad)?;
            let words = bytes
                .chunks(4)
                .map(|b| b.try_into().map(u32::from_be_bytes));
            let words = words.collect::<Result<_, _>>().map_err(|_| bad())?;
            return Ok((Origin::Hex, words));
        }
        ["seed", seed, digest] => (Origin::Seed(seed.parse().map_err(|_| bad())?), digest),
        ["rising", count, digest] => (Origin::Rising(count.parse().map_err(|_| bad())?), digest),
        ["level", count, digest] => (Origin::Level(count.parse().map_err(|_| bad())?), digest),
        _ => return Err(bad()),
    };
    let words = origin.words().ok_or_else(bad)?;
    if format!("{:016x}", hex::digest(&word_bytes(&words))) != digest {
        return Err(format!("the generator makes other words now: {text}"));
    }
    Ok((origin, words))
}

#[cfg(test)]
mod tests {
    use super::*;

    fn case(name: &str, origin: Origin, words: &[u32]) -> Case {
        Case {
            name: name.into(),
            words: origin.words().unwrap_or(words.to_vec()),
            origin,
            map: Bytes::All(vec![0, 1]),
        }
    }

    #[test]
    fn what_is_written_is_read() {
        let cases = [
            case("none", Origin::Hex, &[]),
            case("two words", Origin::Hex, &[1, 0x0203_0405]),
            case("a seed", Origin::Seed(5), &[]),
            case("some", Origin::Rising(9), &[]),
            case("others", Origin::Level(7), &[]),
        ];
        let text: String = cases.iter().map(|c| format!("\n# a note\n{c}")).collect();
        assert_eq!(parse(&text).as_deref(), Ok(&cases[..]));
    }

    #[test]
    fn what_is_wrong_is_said() {
        let good = case("one", Origin::Seed(5), &[]).to_string();
        for (old, new) in [("words", "word"), ("map 00", "map 0"), ("seed", "sand")] {
            assert!(parse(&good.replace(old, new)).is_err(), "{new}");
        }
        let other = good.replace("seed 5", "seed 4");
        assert!(parse(&other).is_err_and(|e| e.contains("other words")));
        assert!(parse("case x\nwords hex 000000\nmap 00").is_err());
    }
}
