//! The source's glyph map, asked. Of its `variations.rs`, which leans on too much to be
//! compiled whole, `build.rs` takes the two items that pack a DeltaSetIndexMap, unchanged;
//! here are stand-ins of the types that they use.

/// The bytes of the source's map of these words; none without the source.
pub fn map(words: &[u32]) -> Option<Vec<u8>> {
    ask(words)
}

#[cfg(glyph_map)]
fn ask(words: &[u32]) -> Option<Vec<u8>> {
    Some(source::map(words))
}

#[cfg(not(glyph_map))]
fn ask(_: &[u32]) -> Option<Vec<u8>> {
    None
}

/// The length and digest of the items that are taken; none without the source.
pub fn source_digest() -> Option<String> {
    #[cfg(glyph_map)]
    let text: Option<&[u8]> = Some(include_bytes!(concat!(env!("OUT_DIR"), "/glyph_map.rs")));
    #[cfg(not(glyph_map))]
    let text: Option<&[u8]> = None;
    let name = "the two items of variations.rs that pack a map";
    text.map(|text| crate::digest_line(name, text))
}

#[cfg(glyph_map)]
mod source {
    /// The inner bits and the bytes of an entry, in a byte.
    #[derive(Clone, Copy)]
    struct EntryFormat(u8);

    impl EntryFormat {
        fn from_bits(bits: u8) -> Option<EntryFormat> {
            (bits & 0xC0 == 0).then_some(EntryFormat(bits))
        }

        fn bit_count(self) -> u8 {
            (self.0 & 0x0F) + 1
        }

        fn entry_size(self) -> u8 {
            (self.0 >> 4) + 1
        }
    }

    /// A map, as its bytes.
    struct DeltaSetIndexMap(Vec<u8>);

    impl DeltaSetIndexMap {
        fn format_0(form: EntryFormat, count: u16, data: Vec<u8>) -> DeltaSetIndexMap {
            DeltaSetIndexMap([&[0, form.0], &count.to_be_bytes()[..], &data].concat())
        }

        fn format_1(form: EntryFormat, count: u32, data: Vec<u8>) -> DeltaSetIndexMap {
            DeltaSetIndexMap([&[1, form.0], &count.to_be_bytes()[..], &data].concat())
        }
    }

    /// The source's items, which are not ours to mend.
    #[allow(warnings, clippy::all)]
    mod items {
        use super::{DeltaSetIndexMap, EntryFormat};

        include!(concat!(env!("OUT_DIR"), "/glyph_map.rs"));
    }

    pub fn map(words: &[u32]) -> Vec<u8> {
        words.iter().copied().collect::<DeltaSetIndexMap>().0
    }
}
