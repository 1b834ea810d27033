//! Which file a path is, by whatever name: so that no output is an input, or another output.

use std::fs::{self, File, Metadata};
use std::io;
use std::os::fd::AsFd;
use std::os::unix::fs::{FileTypeExt, MetadataExt};
use std::path::{Path, PathBuf};
use std::sync::{Mutex, PoisonError};

/// As many links as are followed, one behind the other.
const LINKS: usize = 40;

/// The device that takes everything, as often as one likes: number 3 of the devices of
/// memory, 1.
const NULL: u64 = 1 << 8 | 3;

/// A file, or where one would be.
#[derive(Clone, Debug, PartialEq, Eq)]
pub enum Place {
    /// A file by device and number.
    File(u64, u64),
    /// A name in a folder that has none such yet.
    New(u64, u64, PathBuf),
}

impl Place {
    fn of_file(metadata: &Metadata) -> Place {
        Place::File(metadata.dev(), metadata.ino())
    }
}

/// The files that were read, by the names they were given by.
static READ: Mutex<Vec<(Place, PathBuf)>> = Mutex::new(Vec::new());

/// Remembers a file that is read, if it is one: a device or a pipe is not lost by writing.
pub fn remember(path: &Path, file: &Metadata) {
    if file.is_file() {
        let mut read = READ.lock().unwrap_or_else(PoisonError::into_inner);
        read.push((Place::of_file(file), path.to_path_buf()));
    }
}

/// Whether all of these outputs can be written to without loss: none was read, and no two
/// are one. Standard output is among them, where a file is behind it.
pub fn apart(outputs: &[&Path]) -> Result<(), String> {
    let read = READ.lock().unwrap_or_else(PoisonError::into_inner);
    let mut seen: Vec<(Place, &Path)> = Vec::new();
    let standard = Path::new("-");
    let behind = standard_output().ok().filter(Metadata::is_file);
    let printed = behind.filter(|_| !outputs.contains(&standard));
    for &path in outputs.iter().chain(printed.map(|_| &standard)) {
        let Some(place) = place(path) else {
            continue;
        };
        if let Some((_, input)) = read.iter().find(|(other, _)| *other == place) {
            let (name, other) = (name(input), also(input, path));
            let comma = if other.is_empty() { "" } else { "," };
            return Err(format!(
                "{name}{other}{comma} would be written over: give another output"
            ));
        }
        if let Some((_, other)) = seen.iter().find(|(other, _)| *other == place) {
            let (name, other) = (name(other), also(other, path));
            return Err(format!("two outputs are to go to {name}{other}"));
        }
        seen.push((place, path));
    }
    Ok(())
}

fn name(path: &Path) -> String {
    match path.to_str() {
        Some("-") => "standard output".to_string(),
        _ => path.display().to_string(),
    }
}

/// The other name of a file, if it has been given by two.
fn also(path: &Path, other: &Path) -> String {
    if path == other {
        return String::new();
    }
    format!(", which is {} too", name(other))
}

/// Where an output goes; none where it may go twice, or nowhere.
fn place(path: &Path) -> Option<Place> {
    let metadata = if path == Path::new("-") {
        standard_output()
    } else {
        fs::metadata(path)
    };
    if let Ok(metadata) = metadata {
        let null = metadata.file_type().is_char_device() && metadata.rdev() == NULL;
        return (!null).then(|| Place::of_file(&metadata));
    }
    let path = followed(path);
    let folder = match path.parent() {
        Some(folder) if folder != Path::new("") => fs::metadata(folder),
        _ => fs::metadata("."),
    };
    let (folder, name) = (folder.ok()?, path.file_name()?);
    Some(Place::New(folder.dev(), folder.ino(), name.into()))
}

/// What is written to by this path: the file that a link names, also one that is not there.
pub fn followed(path: &Path) -> PathBuf {
    if let Ok(place) = fs::canonicalize(path) {
        return place;
    }
    let mut path = path.to_path_buf();
    // What is there and has no path is a pipe.
    if fs::metadata(&path).is_ok() {
        return path;
    }
    for _ in 0..LINKS {
        let Ok(link) = fs::read_link(&path) else {
            break;
        };
        path = path.parent().unwrap_or(Path::new("")).join(link);
    }
    path
}

/// The file behind standard input.
pub fn standard_input() -> io::Result<Metadata> {
    File::from(io::stdin().as_fd().try_clone_to_owned()?).metadata()
}

fn standard_output() -> io::Result<Metadata> {
    File::from(io::stdout().as_fd().try_clone_to_owned()?).metadata()
}
