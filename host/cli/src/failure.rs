//! Why a command did not do what it was asked, and the exit status that says so.

use crate::json::{list, object, Json};
use crate::wrong::Wrong;
use ivs::Refused;
use std::fmt;
use std::process::ExitCode;

pub enum Failure {
    /// The library refused a file: its name, the refusal, and why in words.
    Refused(String, Refused, String),
    /// Of a file that was refused in both modes: its name, and each mode's refusal and words.
    Both(String, Box<[(Refused, String); 2]>),
    /// A text that is no job: its name, and what is wrong with it.
    Text(String, Vec<Wrong>),
    /// Some of many were refused or went wrong, which has been said; whether all were refused.
    Some { refused: bool },
    /// The answer is no, which has been said.
    No,
    /// Anything else: bad usage, no file.
    Other(String),
}

impl Failure {
    pub fn status(&self) -> ExitCode {
        ExitCode::from(match self {
            Failure::Refused(..) | Failure::Both(..) | Failure::Some { refused: true } => 2,
            Failure::No => 3,
            Failure::Text(..) | Failure::Other(_) | Failure::Some { refused: false } => 1,
        })
    }

    /// The shape that every command has for what it did not do; none where that has been said.
    pub fn json(&self) -> Option<Json> {
        Some(match self {
            Failure::Refused(file, refused, words) => of_file(file).and(number(refused, words)),
            Failure::Both(file, both) => of_file(file).and(object([
                ("dedup", number(&both[0].0, &both[0].1)),
                ("implicit", number(&both[1].0, &both[1].1)),
            ])),
            Failure::Text(file, wrong) => {
                of_file(file).and(object([("wrong", list(wrong, Wrong::json))]))
            }
            Failure::Some { .. } | Failure::No => return None,
            Failure::Other(words) => object([("failed", words.as_str().into())]),
        })
    }
}

fn of_file(file: &str) -> Json {
    object([("file", file.into())])
}

/// A refusal.
pub fn number(refused: &Refused, words: &str) -> Json {
    object([
        ("refused", refused.number.into()),
        ("name", refused.name().into()),
        ("place", refused.place.into()),
        ("byte", refused.byte.into()),
        ("words", words.into()),
    ])
}

/// A line for each thing that is wrong.
impl fmt::Display for Failure {
    fn fmt(&self, f: &mut fmt::Formatter<'_>) -> fmt::Result {
        match self {
            Failure::Refused(file, _, why) => write!(f, "fenikezo: {file}: refused: {why}"),
            Failure::Both(file, both) => write!(
                f,
                "fenikezo: {file}: refused: dedup: {}; implicit: {}",
                both[0].1, both[1].1
            ),
            Failure::Text(file, wrong) => {
                let lines = Wrong::first(wrong).map(|line| format!("fenikezo: {file}: {line}"));
                f.write_str(&lines.collect::<Vec<_>>().join("\n"))
            }
            Failure::Some { .. } | Failure::No => Ok(()),
            Failure::Other(words) => write!(f, "fenikezo: {words}"),
        }
    }
}
