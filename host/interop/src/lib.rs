//! Real variable fonts through the proved library. `interop.py` makes jobs of the fonts'
//! item variation stores and compares what is built of them; here it is built.

use std::ffi::OsStr;
use std::fs;
use std::path::{Path, PathBuf};
use std::process::Command;

/// Debian's Python, for which Debian's fontTools is.
const PYTHON: &str = "/usr/bin/python3";

/// What is needed, as a package and the end of a file's path in it: tools, then fonts.
const TOOLS: [(&str, &str); 2] = [
    ("python3-fonttools", "/fontTools/__init__.py"),
    ("libharfbuzz-bin", "/bin/hb-shape"),
];
const FONTS: [(&str, &str); 3] = [
    ("fonts-karla", "/Karla[wght].ttf"),
    ("fonts-karla", "/Karla-Italic[wght].ttf"),
    ("pango1.0-tests", "/Cantarell-VF.otf"),
];

/// The fonts, once everything that is needed is there.
pub fn fonts() -> Result<Vec<PathBuf>, String> {
    for (package, end) in TOOLS {
        find(package, end)?;
    }
    FONTS
        .iter()
        .map(|(package, end)| find(package, end))
        .collect()
}

/// The file of a Debian package whose path ends so.
pub fn find(package: &str, end: &str) -> Result<PathBuf, String> {
    let files = output(Command::new("dpkg-query").args(["--listfiles", package]))
        .map_err(|wrong| format!("{wrong}'make -C host peers' installs Debian's {package}"))?;
    let file = files.lines().find(|line| line.ends_with(end));
    file.map(PathBuf::from)
        .ok_or_else(|| format!("Debian's {package} has no file ..{end}"))
}

/// Runs a part of `interop.py` (jobs, rows or shape), and answers what it prints.
pub fn python(part: &str, folder: &Path, fonts: &[PathBuf]) -> Result<String, String> {
    program("interop.py", part, folder, fonts)
}

/// Runs a part of a program of this folder on a folder and files, and answers what it prints.
pub fn program<T: AsRef<OsStr>>(
    name: &str,
    part: &str,
    folder: &Path,
    files: &[T],
) -> Result<String, String> {
    let program = Path::new(env!("CARGO_MANIFEST_DIR")).join(name);
    output(
        Command::new(PYTHON)
            .arg(program)
            .arg(part)
            .arg(folder)
            .args(files),
    )
}

/// Builds every job of a folder in both modes.
pub fn build(folder: &Path) -> Result<(), String> {
    let jobs = fs::read_to_string(folder.join("jobs")).map_err(|wrong| wrong.to_string())?;
    for line in jobs.lines() {
        let (axes, name) = line.split_once(' ').ok_or("a line is AXES NAME")?;
        let axes = axes.parse().map_err(|_| "a line is AXES NAME")?;
        for mode in [0, 1] {
            build_one(folder, name, axes, mode)
                .map_err(|wrong| format!("{name}, mode {mode}: {wrong}"))?;
        }
    }
    Ok(())
}

fn build_one(folder: &Path, name: &str, axes: u32, mode: u32) -> std::io::Result<()> {
    let job = fs::read(folder.join(format!("{name}.job")))?;
    let write =
        |kind: &str, bytes: &[u8]| fs::write(folder.join(format!("{name}.{mode}.{kind}")), bytes);
    match ivs::pack(axes, mode, &job) {
        Ok(packed) => {
            write("store", &packed.store)?;
            write("ids", lines(&packed.ids).as_bytes())?;
            write("map", lines(&packed.map).as_bytes())?;
            write("answer", b"0 0")
        }
        Err(refused) => {
            let answer = format!("{} {}", refused.number, refused.place);
            write("answer", answer.as_bytes())
        }
    }
}

fn lines(words: &[u32]) -> String {
    words.iter().map(|word| format!("{word}\n")).collect()
}

/// What a command prints, or what it says is wrong.
fn output(command: &mut Command) -> Result<String, String> {
    let output = command
        .output()
        .map_err(|wrong| format!("cannot run {command:?}: {wrong}"))?;
    let text = |bytes: Vec<u8>| String::from_utf8_lossy(&bytes).into_owned();
    if output.status.success() {
        Ok(text(output.stdout))
    } else {
        Err(text(output.stderr))
    }
}
