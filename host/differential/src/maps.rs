//! The recorded glyph maps, given again by the plain reading and by the proved writer. Needs
//! no source.

use crate::check::same;
use crate::run::Run;
use oracle::maps;
use std::fs;
use std::path::Path;

/// The file of them.
pub const FILE: &str = "glyphs.txt";

/// Replays the file of a folder.
pub fn all(folder: &Path) -> Result<Run, String> {
    let path = folder.join(FILE);
    let told = |e: String| format!("{}: {e}", path.display());
    let text = fs::read_to_string(&path).map_err(|e| told(e.to_string()))?;
    let mut run = Run::default();
    for recorded in maps::parse(&text).map_err(told)? {
        let told = |e: String| told(format!("{}: {e}", recorded.name));
        let again = |map: Result<Vec<u8>, u32>| {
            let map = map.map_err(|number| format!("refused: {number}"))?;
            same("map", &recorded.map.is(&map), &true)
        };
        let plain = again(plain::glyphs::write(&recorded.words, usize::MAX));
        run.plain.count(plain.map_err(told));
        let proved = ivs::write_glyphs(&recorded.words).map_err(|refused| refused.number);
        let proved = again(proved).map_err(|e| format!("proved: {e}"));
        run.with_source += u64::from(proved.is_ok());
        run.proved.count(proved.map_err(told));
    }
    Ok(run)
}
