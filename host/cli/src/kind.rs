//! What a file is, by its first bytes: so that who gives the wrong one is told.

use crate::big_endian::{u16_at, u32_at};
use crate::failure::Failure;
use ivs::Refused;
use std::path::Path;

#[derive(Clone, Copy, Debug, PartialEq, Eq)]
pub enum Kind {
    Empty,
    Text,
    Job,
    Store,
    Font,
}

const BAD_STORE: u32 = 20;

/// What these bytes are. A job is what they are if nothing else.
pub fn of(bytes: &[u8]) -> Kind {
    if bytes.is_empty() {
        return Kind::Empty;
    }
    if is_font(bytes) {
        return Kind::Font;
    }
    if is_text(bytes) {
        return Kind::Text;
    }
    // A store begins with its format, 0001, and no record of a job has kind 0.
    let refused = |number: u32| ivs::read(bytes, 0, 0, 0).is_err_and(|r| r.number == number);
    if bytes.starts_with(&[0, 1]) && !refused(BAD_STORE) {
        return Kind::Store;
    }
    Kind::Job
}

/// What to do with a font, which is neither a job nor a store.
pub fn a_font(file: &Path) -> String {
    let file = file.display();
    format!("{file} is a font: look at it by 'fenikezo font show {file}'")
}

/// What to do with a file that is no job.
pub fn no_job(kind: Kind, file: &Path) -> Option<String> {
    Some(match kind {
        Kind::Font => a_font(file),
        Kind::Store => {
            let file = file.display();
            format!("{file} is a store, and no job: look at it by 'fenikezo show {file}'")
        }
        Kind::Empty | Kind::Text | Kind::Job => return None,
    })
}

/// What to say of a file that is no store; none where it may be one that is damaged.
fn no_store(bytes: &[u8]) -> Option<&'static str> {
    Some(match of(bytes) {
        Kind::Text => "this is the text of a job: 'fenikezo build' makes its store",
        Kind::Job if (1..=3).contains(&bytes[0]) => {
            "this looks like a job: 'fenikezo build' makes its store"
        }
        Kind::Empty => "the file is empty",
        Kind::Job | Kind::Store | Kind::Font => return None,
    })
}

/// A store that was refused; of what is no store at all it is said what it is.
pub fn refused_store(file: &Path, bytes: &[u8], refused: Refused) -> Failure {
    let words = store_words(bytes, &refused);
    Failure::Refused(file.display().to_string(), refused, words)
}

/// Why a store was refused.
pub fn store_words(bytes: &[u8], refused: &Refused) -> String {
    match no_store(bytes).filter(|_| refused.number == BAD_STORE) {
        Some(what) => format!("{}: {what}", refused.head()),
        None => refused.to_string(),
    }
}

/// A file of tables by a directory, of one font or several, packed for the web or not.
fn is_font(bytes: &[u8]) -> bool {
    match bytes.get(..4) {
        Some(b"ttcf" | b"wOFF" | b"wOF2") => !is_text(bytes),
        Some(b"\0\x01\0\0" | b"OTTO" | b"true") => has_directory(bytes),
        _ => false,
    }
}

/// Whether behind the head there are as many records as it says, of tags and of tables that
/// begin in the file: a store may begin as a font does.
fn has_directory(bytes: &[u8]) -> bool {
    let letters = |tag: &[u8]| tag.iter().all(|byte| (b' '..=b'~').contains(byte));
    let is_record = |number: usize| {
        let at = 12 + 16 * number;
        let tag = bytes.get(at..at + 4);
        let begins = u32_at(bytes, at + 8);
        tag.is_some_and(letters) && begins.is_some_and(|begins| begins <= bytes.len())
    };
    u16_at(bytes, 4).is_some_and(|tables| tables > 0 && (0..tables).all(is_record))
}

/// Letters, blanks and ends of lines, in whatever encoding; one in ten may be something else,
/// which the text's own errors name. What begins as a record or a store does is none.
fn is_text(bytes: &[u8]) -> bool {
    let marked = bytes.starts_with(b"\xFF\xFE") || bytes.starts_with(b"\xFE\xFF");
    let letter = |byte: &&u8| matches!(byte, b'\t'..=b'\r' | b' '..=b'~' | 0x80..);
    let letters = bytes.iter().filter(letter).count();
    marked || bytes.first().is_some_and(|&first| first > 3) && 10 * letters > 9 * bytes.len()
}

#[cfg(test)]
mod tests {
    use super::*;

    #[test]
    fn each_kind() {
        assert_eq!(of(b""), Kind::Empty);
        assert_eq!(of(b"axes 1\n"), Kind::Text);
        assert_eq!(of(b"r\xE9gion"), Kind::Text);
        assert_eq!(of(b"\xFF\xFEa\0"), Kind::Text);
        assert_eq!(of(b"OTTO is here"), Kind::Text);
        assert_eq!(of(b"axes 1\nset \x01\n"), Kind::Text);
        assert_eq!(of(&[3, 0, 0, 0, 0, 0, 0, 0, 0, 0, 0, 0]), Kind::Job);
        assert_eq!(of(&[9, 0]), Kind::Job);
        let store = ivs::pack(1, 0, &[]).unwrap().store;
        assert_eq!(of(&store), Kind::Store);
        assert_eq!(of(&store[..9]), Kind::Job);
        // As a store its list of regions would be at byte 1, of none.
        let mut font = vec![0, 1, 0, 0, 0, 1, 0, 0, 0, 0, 0, 0];
        assert_eq!(of(&font), Kind::Store);
        font.extend(*b"head\0\0\0\0\0\0\0\x1C\0\0\0\0");
        assert_eq!(of(&font), Kind::Font);
        assert_eq!(of(b"wOF2\0\x01\0\0"), Kind::Font);
    }
}
