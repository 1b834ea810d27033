//! The recorded answers, given again by the plain reading and by the proved build. Needs
//! no source.

use crate::check::same;
use crate::run::Run;
use crate::{maps, proved, Case};
use oracle::vectors::{self, word_bytes, Bytes};
use plain::{Done, Refused, Sizes};
use std::fs;
use std::path::{Path, PathBuf};

/// The repository's recorded answers.
pub fn folder() -> PathBuf {
    PathBuf::from(concat!(env!("CARGO_MANIFEST_DIR"), "/../../vectors"))
}

/// Replays every `.txt` of a folder, but for [`crate::built`]'s and [`crate::maps`]'.
pub fn all(folder: &Path) -> Result<Run, String> {
    let said = |e: std::io::Error| format!("{}: {e}", folder.display());
    let mut paths = Vec::new();
    for entry in fs::read_dir(folder).map_err(said)? {
        paths.push(entry.map_err(said)?.path());
    }
    paths.retain(|path| path.extension().is_some_and(|e| e == "txt") && !of_others(path));
    paths.sort();
    let mut run = Run::default();
    for path in paths {
        let told = |e: String| format!("{}: {e}", path.display());
        let text = fs::read_to_string(&path).map_err(|e| told(e.to_string()))?;
        for recorded in vectors::parse(&text).map_err(told)? {
            let told = |e: String| told(format!("{}: {e}", recorded.name));
            let case = Case {
                name: &recorded.name,
                axes: recorded.axes,
                mode: recorded.mode,
                job: &recorded.job,
            };
            let plain = plain::build(case.axes, case.mode, case.job, &Sizes::PLENTY);
            run.plain.count(again(&recorded, plain).map_err(told));
            let proved = again(&recorded, proved::packed(&case));
            run.with_source += u64::from(proved.is_ok());
            run.proved
                .count(proved.map_err(|e| told(format!("proved: {e}"))));
        }
    }
    Ok(run)
}

/// A file of the list of cases or of glyph maps, which have other forms.
fn of_others(path: &Path) -> bool {
    let name = path.file_name().and_then(|name| name.to_str());
    name.is_some_and(|name| name.starts_with("built-") || name == maps::FILE)
}

/// The answer is the recorded one.
fn again(case: &vectors::Case, answer: Result<Done, Refused>) -> Result<(), String> {
    let done = answer.map_err(|refused| format!("refused: {refused}"))?;
    let is = |what: &str, recorded: &Bytes, bytes: &[u8]| same(what, &recorded.is(bytes), &true);
    is("ids", &case.ids, &word_bytes(&done.ids))?;
    is("map", &case.map, &word_bytes(&done.map))?;
    is("store", &case.store, &done.store)?;
    is("log", &case.log, &word_bytes(&done.log))?;
    let c = &done.counts;
    if case.mode == 0 {
        same(
            "sizes",
            &case.sizes,
            &[c.shapes, c.size_before, c.size_after],
        )?;
    }
    Ok(())
}
