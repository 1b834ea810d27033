//! A file of recorded answers, line by line: comments (`#`) and empty lines passed over, a
//! name and its rest on each other one; and bytes that are written out, or told by length
//! and digest where they are long.

use jobs::hex;
use std::fmt;

/// Answers up to this many bytes are written out.
const WRITTEN_OUT: usize = 1_500;

/// Bytes, or how many and their digest.
#[derive(Clone, Debug, PartialEq, Eq)]
pub enum Bytes {
    /// Written out.
    All(Vec<u8>),
    /// Their length and digest.
    Digest(usize, u64),
}

impl Bytes {
    pub(crate) fn of(bytes: Vec<u8>) -> Bytes {
        if bytes.len() <= WRITTEN_OUT {
            Bytes::All(bytes)
        } else {
            Bytes::Digest(bytes.len(), hex::digest(&bytes))
        }
    }

    /// These are the bytes that were recorded.
    pub fn is(&self, bytes: &[u8]) -> bool {
        match self {
            Bytes::All(all) => all == bytes,
            Bytes::Digest(length, digest) => {
                *length == bytes.len() && *digest == hex::digest(bytes)
            }
        }
    }

    fn parse(text: &str) -> Option<Bytes> {
        match text.split_once(" bytes, digest ") {
            Some((length, digest)) => Some(Bytes::Digest(
                length.parse().ok()?,
                u64::from_str_radix(digest, 16).ok()?,
            )),
            None => hex::to_bytes(text).map(Bytes::All),
        }
    }
}

impl fmt::Display for Bytes {
    fn fmt(&self, f: &mut fmt::Formatter<'_>) -> fmt::Result {
        match self {
            Bytes::All(bytes) => f.write_str(&hex::of(bytes)),
            Bytes::Digest(length, digest) => write!(f, "{length} bytes, digest {digest:016x}"),
        }
    }
}

/// Words as bytes, big-endian.
pub fn word_bytes(words: &[u32]) -> Vec<u8> {
    words.iter().flat_map(|w| w.to_be_bytes()).collect()
}

/// The lines of a file that are left.
pub(crate) struct Fields<'a> {
    lines: Box<dyn Iterator<Item = (usize, &'a str)> + 'a>,
    /// The line where the case began.
    began: usize,
}

impl<'a> Fields<'a> {
    pub(crate) fn new(text: &'a str) -> Fields<'a> {
        let lines = text
            .lines()
            .enumerate()
            .map(|(n, line)| (n + 1, line.trim()))
            .filter(|(_, line)| !line.is_empty() && !line.starts_with('#'));
        Fields {
            lines: Box::new(lines),
            began: 0,
        }
    }

    /// The name of the next case; none at the end of the file.
    pub(crate) fn case(&mut self) -> Result<Option<&'a str>, String> {
        let Some((number, line)) = self.lines.next() else {
            return Ok(None);
        };
        self.began = number;
        let name = line.strip_prefix("case ");
        name.map(Some)
            .ok_or_else(|| format!("line {number}: a case is wanted here"))
    }

    /// The rest of the next line, which has this name.
    pub(crate) fn field(&mut self, name: &str) -> Result<&'a str, String> {
        let (n, line) = self.lines.next().ok_or("the file ends within a case")?;
        let rest = line.strip_prefix(name).and_then(|l| l.strip_prefix(' '));
        rest.ok_or_else(|| format!("line {n}: {name} is wanted here"))
    }

    /// A field that is bytes.
    pub(crate) fn bytes(&mut self, name: &str) -> Result<Bytes, String> {
        let text = self.field(name)?;
        Bytes::parse(text).ok_or_else(|| self.bad(name))
    }

    /// Something is wrong with this case.
    pub(crate) fn bad(&self, what: &str) -> String {
        format!("case at line {}: bad {what}", self.began)
    }
}
