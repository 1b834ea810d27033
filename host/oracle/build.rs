//! Finds the source. Its files are compiled where they stand, unchanged; no text
//! of theirs is in this repository. Where they are not there, the crate is built
//! without them and says so (`oracle::PRESENT`).

use std::env;
use std::fs;
use std::path::{Path, PathBuf};

/// Names the folder of the source.
const VARIABLE: &str = "FENIKEZO_SOURCE";

/// The folder of the source, from the repository's root.
const DEFAULT: &str = "../shared/docs/src";

/// Where its files stand within it.
const FILES: &str = "src/tables/variations";

/// The file of which only the items are taken that pack a glyph map, and their first lines.
const TABLES: &str = "src/tables/variations.rs";
const GLYPH_MAP: [&str; 2] = [
    "impl DeltaSetIndexMap {",
    "impl<I> FromIterator<I> for DeltaSetIndexMap",
];

fn main() {
    println!("cargo:rerun-if-env-changed={VARIABLE}");
    println!("cargo:rustc-check-cfg=cfg(source)");
    println!("cargo:rustc-check-cfg=cfg(glyph_map)");
    let here = PathBuf::from(env::var_os("CARGO_MANIFEST_DIR").expect("cargo sets it"));
    let out = PathBuf::from(env::var_os("OUT_DIR").expect("cargo sets it"));
    let folder = match env::var_os(VARIABLE) {
        Some(named) => PathBuf::from(named),
        None => here.join("../..").join(DEFAULT),
    };
    let mut text = String::new();
    let mut all = true;
    for name in ["common_builder", "ivs_builder"] {
        let path = folder.join(FILES).join(name).with_extension("rs");
        println!("cargo:rerun-if-changed={}", path.display());
        all &= path.is_file();
        text += &declaration(name, &path);
    }
    if all {
        println!("cargo:rustc-cfg=source");
    } else {
        text.clear();
        let folder = folder.display();
        println!("cargo:warning=no source in {folder} ({VARIABLE} names it): built without it");
    }
    fs::write(out.join("source.rs"), text).expect("OUT_DIR can be written");
    let tables = folder.join(TABLES);
    println!("cargo:rerun-if-changed={}", tables.display());
    let tables = fs::read_to_string(tables).unwrap_or_default();
    if let Some(items) = GLYPH_MAP
        .map(|first| item(&tables, first))
        .into_iter()
        .collect()
    {
        println!("cargo:rustc-cfg=glyph_map");
        let items: Vec<&str> = items;
        fs::write(out.join("glyph_map.rs"), items.concat()).expect("OUT_DIR can be written");
    }
}

/// The item with this first line, to the brace at the start of a line that ends it.
fn item<'a>(text: &'a str, first: &str) -> Option<&'a str> {
    let from = text.find(&format!("\n{first}"))? + 1;
    let length = text[from..].find("\n}\n")? + 3;
    Some(&text[from..from + length])
}

/// The lines that declare the module `name` at `path`. Its text is not ours to mend, so no
/// lint is of it.
fn declaration(name: &str, path: &Path) -> String {
    let path = path.canonicalize().unwrap_or_else(|_| path.to_path_buf());
    let upper = name.to_uppercase();
    format!(
        "/// The source's file of that name.\n\
         #[allow(warnings, clippy::all)]\n\
         #[path = {path:?}]\n\
         pub mod {name};\n\
         /// Its text, for its digest.\n\
         pub(crate) const {upper}: &[u8] = include_bytes!({path:?});\n"
    )
}
