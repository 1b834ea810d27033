//! What is wrong with a text: where, and in words.

use crate::json::{object, Json};
use std::fmt;

#[derive(Clone, Debug, PartialEq, Eq)]
pub struct Wrong {
    /// The line's number, from 1.
    line: usize,
    /// The letter's in the line, from 1, where one is to blame.
    column: Option<usize>,
    what: String,
}

impl Wrong {
    /// The most that are said; of the others it is said how many.
    pub const SAID: usize = 20;

    pub fn line(line: usize, what: String) -> Wrong {
        Wrong {
            line,
            column: None,
            what: printable(&what),
        }
    }

    pub fn at(line: usize, column: usize, what: String) -> Wrong {
        Wrong {
            column: Some(column),
            ..Wrong::line(line, what)
        }
    }

    /// The line's number.
    pub fn number(&self) -> usize {
        self.line
    }

    pub fn json(&self) -> Json {
        object([
            ("line", self.line.into()),
            ("column", self.column.into()),
            ("words", self.what.as_str().into()),
        ])
    }

    /// The first of them in words, and how many more there are.
    pub fn first(all: &[Wrong]) -> impl Iterator<Item = String> + '_ {
        let more = match all.len().saturating_sub(Wrong::SAID) {
            0 => None,
            more => Some(format!("and {more} more")),
        };
        all.iter()
            .take(Wrong::SAID)
            .map(Wrong::to_string)
            .chain(more)
    }
}

impl fmt::Display for Wrong {
    fn fmt(&self, f: &mut fmt::Formatter<'_>) -> fmt::Result {
        write!(f, "line {}", self.line)?;
        if let Some(column) = self.column {
            write!(f, ", column {column}")?;
        }
        write!(f, ": {}", self.what)
    }
}

/// With control characters written out: a terminal would take them for its own.
fn printable(words: &str) -> String {
    let mut text = String::new();
    for letter in words.chars() {
        if letter.is_control() {
            text.extend(letter.escape_default());
        } else {
            text.push(letter);
        }
    }
    text
}
