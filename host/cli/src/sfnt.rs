//! A font file: its tables by the directory, and the file written anew with others in it.

use crate::big_endian::{u16_at, u32_at};
use ttf_parser::{fonts_in_collection, Face, RawFace, Tag};

/// Bytes of the file's head and of a record of its directory.
const HEAD: usize = 12;
const RECORD: usize = 16;

/// Where in `head` the sum over the file stands, and what file and sum together make.
const SUM: std::ops::Range<usize> = 8..12;
const WHOLE: u32 = 0xB1B0_AFBA;

pub struct Font<'a> {
    bytes: &'a [u8],
    raw: RawFace<'a>,
    /// In the order of the directory.
    records: Vec<Record>,
    pub axes: usize,
    pub glyphs: u32,
}

struct Record {
    tag: Tag,
    offset: usize,
}

impl<'a> Font<'a> {
    pub fn parse(bytes: &'a [u8]) -> Result<Font<'a>, String> {
        if fonts_in_collection(bytes).is_some() {
            return Err("a collection of fonts; take them apart first".to_string());
        }
        let face = Face::from_slice(bytes, 0).map_err(|error| error.to_string())?;
        let raw = RawFace::from_slice(bytes, 0).map_err(|error| error.to_string())?;
        let records = records(bytes).ok_or("the directory of its tables is cut off")?;
        let font = Font {
            bytes,
            raw,
            records,
            axes: usize::from(face.variation_axes().len()),
            glyphs: face.number_of_glyphs().into(),
        };
        match font
            .records
            .iter()
            .find(|record| font.raw.table(record.tag).is_none())
        {
            Some(record) => Err(format!(
                "its table {} is cut off, or out of order",
                record.tag
            )),
            None => Ok(font),
        }
    }

    pub fn table(&self, tag: &[u8; 4]) -> Option<&'a [u8]> {
        self.raw.table(Tag::from_bytes(tag))
    }

    /// The file with these tables in place of its own; every other one is as it was, but for
    /// the sum over the file. Tables stand in the order they stood in.
    pub fn with(&self, new: &[([u8; 4], Vec<u8>)]) -> Vec<u8> {
        let of = |tag: Tag| {
            let new = new.iter().find(|(other, _)| Tag::from_bytes(other) == tag);
            new.map_or_else(
                || self.raw.table(tag).unwrap_or_default(),
                |(_, bytes)| bytes,
            )
        };
        let mut file = self.bytes[..HEAD + RECORD * self.records.len()].to_vec();
        let mut order: Vec<usize> = (0..self.records.len()).collect();
        order.sort_by_key(|&number| self.records[number].offset);
        let mut sum_at = None;
        for number in order {
            let tag = self.records[number].tag;
            let (at, bytes) = (file.len(), of(tag));
            file.extend(bytes);
            file.resize(file.len().next_multiple_of(4), 0);
            if tag == Tag::from_bytes(b"head") && bytes.len() >= SUM.end {
                file[at..][SUM].fill(0);
                sum_at = Some(at + SUM.start);
            }
            let record = HEAD + RECORD * number;
            let sum = sum(&file[at..]);
            put(&mut file, record + 4, sum);
            put(&mut file, record + 8, at as u32);
            put(&mut file, record + 12, bytes.len() as u32);
        }
        if let Some(at) = sum_at {
            let whole = WHOLE.wrapping_sub(sum(&file));
            put(&mut file, at, whole);
        }
        file
    }
}

/// The directory; none where it is cut off.
fn records(bytes: &[u8]) -> Option<Vec<Record>> {
    let record = |number: usize| {
        let at = HEAD + RECORD * number;
        let tag = bytes.get(at..at + 4)?;
        Some(Record {
            tag: Tag::from_bytes(&[tag[0], tag[1], tag[2], tag[3]]),
            offset: u32_at(bytes, at + 8)?,
        })
    };
    (0..u16_at(bytes, 4)?).map(record).collect()
}

/// The sum of a table or a file, in words of four bytes.
fn sum(bytes: &[u8]) -> u32 {
    let words = bytes.chunks_exact(4);
    let word = |word: &[u8]| u32::from_be_bytes([word[0], word[1], word[2], word[3]]);
    words.map(word).fold(0, u32::wrapping_add)
}

fn put(bytes: &mut [u8], at: usize, number: u32) {
    bytes[at..at + 4].copy_from_slice(&number.to_be_bytes());
}
