//! Files whole or not at all; `-` for standard input and output.

use crate::failure::Failure;
use crate::places;
use std::fs::{self, File};
use std::io::{self, Read, Write};
use std::path::{Path, PathBuf};

/// All bytes of a file, which is then no place to write to.
pub fn read(path: &Path) -> Result<Vec<u8>, Failure> {
    let cannot = |error| Failure::Other(format!("cannot read {}: {error}", path.display()));
    let mut bytes = Vec::new();
    if is_standard(path) {
        let _ = places::standard_input().map(|file| places::remember(path, &file));
        io::stdin().lock().read_to_end(&mut bytes).map_err(cannot)?;
    } else {
        let mut file = File::open(path).map_err(cannot)?;
        let _ = file.metadata().map(|file| places::remember(path, &file));
        file.read_to_end(&mut bytes).map_err(cannot)?;
    }
    Ok(bytes)
}

pub fn is_standard(path: &Path) -> bool {
    path == Path::new("-")
}

/// Writes all of them: each is written beside its place first, and put there when all have
/// been. So no file is ever half written, and what cannot be written keeps back the others.
/// Nor is one written over that was read, or that may not be written.
pub fn write(outputs: &[(&Path, Vec<u8>)]) -> Result<(), Failure> {
    let paths: Vec<&Path> = outputs.iter().map(|(path, _)| *path).collect();
    places::apart(&paths).map_err(Failure::Other)?;
    let mut staged = Vec::new();
    for (path, bytes) in outputs {
        staged.push(Staged::new(path, bytes).map_err(|error| cannot_write(path, &error))?);
    }
    // What may still fail goes before what will not.
    let late = |staged: &Staged| matches!(staged, Staged::Beside { .. });
    for beside in [false, true] {
        let all = staged.iter().zip(outputs);
        for (output, (path, bytes)) in all.filter(|(staged, _)| late(staged) == beside) {
            output
                .put(bytes)
                .map_err(|error| cannot_write(path, &error))?;
        }
    }
    Ok(())
}

/// Writes text to standard output.
pub fn print(text: &str) -> Result<(), Failure> {
    print_bytes(text.as_bytes()).map_err(|error| cannot_write(Path::new("-"), &error))
}

fn print_bytes(bytes: &[u8]) -> io::Result<()> {
    let mut out = io::stdout().lock();
    out.write_all(bytes)?;
    out.flush()
}

/// Writes what is to be said beside outputs: to standard output, unless one of them is there.
pub fn print_beside(outputs: &[&Path], text: &str) -> Result<(), Failure> {
    if !outputs.iter().any(|path| is_standard(path)) {
        return print(text);
    }
    let written = io::stderr().lock().write_all(text.as_bytes());
    written.map_err(|error| Failure::Other(format!("cannot write standard error: {error}")))
}

/// Says a line on standard error. Where that cannot be, the status still tells.
pub fn complain(line: &str) {
    let _ = io::stderr()
        .lock()
        .write_all(format!("{line}\n").as_bytes());
}

pub fn cannot_write(path: &Path, error: &io::Error) -> Failure {
    let name = match path.to_str() {
        Some("-") => "standard output".to_string(),
        _ => path.display().to_string(),
    };
    Failure::Other(format!("cannot write {name}: {error}"))
}

/// One output before it is in its place.
enum Staged {
    /// Standard output.
    Standard,
    /// A device or a pipe, which must not be replaced by a file.
    Straight(File),
    /// Written beside the place.
    Beside { part: PathBuf, place: PathBuf },
}

impl Staged {
    fn new(path: &Path, bytes: &[u8]) -> io::Result<Staged> {
        if is_standard(path) {
            return Ok(Staged::Standard);
        }
        // The file that a link names is replaced, and not the link.
        let place = places::followed(path);
        let before = fs::metadata(&place).ok();
        if let Some(before) = &before {
            if before.permissions().readonly() {
                let error = "it may not be written";
                return Err(io::Error::new(io::ErrorKind::PermissionDenied, error));
            }
            let there = File::options().write(true).open(&place)?;
            if !before.is_file() {
                return Ok(Staged::Straight(there));
            }
        }
        let mut name = std::ffi::OsString::from(".");
        name.push(place.file_name().ok_or(io::ErrorKind::InvalidInput)?);
        name.push(format!(".{}.part", std::process::id()));
        let part = place.with_file_name(name);
        let mut file = File::options().write(true).create_new(true).open(&part)?;
        // From here on, dropping it takes the part away.
        let staged = Staged::Beside { part, place };
        if let Some(before) = before {
            file.set_permissions(before.permissions())?;
        }
        file.write_all(bytes)?;
        Ok(staged)
    }

    fn put(&self, bytes: &[u8]) -> io::Result<()> {
        match self {
            Staged::Standard => print_bytes(bytes),
            Staged::Straight(file) => (&*file).write_all(bytes),
            Staged::Beside { part, place } => fs::rename(part, place),
        }
    }
}

impl Drop for Staged {
    fn drop(&mut self) {
        if let Staged::Beside { part, .. } = self {
            // Once put there is no part any more, and nothing to take away.
            let _ = fs::remove_file(part);
        }
    }
}
