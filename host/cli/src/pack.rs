//! `fenikezo pack`.

use crate::arguments::Pack;
use crate::failure::Failure;
use crate::files;
use crate::input::Input;
use crate::json::object;
use crate::kind::{self, Kind};
use crate::text::{self, Parsed};
use std::path::Path;

pub fn run(arguments: &Pack) -> Result<(), Failure> {
    let bytes = files::read(&arguments.text)?;
    if kind::of(&bytes) == Kind::Job {
        let file = arguments.text.display();
        return Err(Failure::Other(format!(
            "{file} is no text, maybe a job already"
        )));
    }
    if bytes.is_empty() {
        return parsed(&arguments.text, &bytes).map(|_| ());
    }
    let input = Input::of(&arguments.text, bytes, None)?;
    input.warn();
    files::write(&[(&arguments.job, input.job.clone())])?;
    if !arguments.json {
        return Ok(());
    }
    let job = input.decode()?;
    let json = object([
        ("axes", job.axes.into()),
        ("regions", job.regions.len().into()),
        ("sets", job.sets.len().into()),
        ("bytes", input.job.len().into()),
    ]);
    files::print_beside(&[&arguments.job], &format!("{json}\n"))
}

/// The job of a text, or what is wrong with the file.
pub fn parsed(file: &Path, bytes: &[u8]) -> Result<Parsed, Failure> {
    text::parse(bytes).map_err(|wrong| Failure::Text(file.display().to_string(), wrong))
}
