//! Real fonts beside fontTools and HarfBuzz; and that the comparison can fail.

use interop::{build, find, fonts, python};
use std::path::{Path, PathBuf};
use std::{fs, slice};

/// The fonts' jobs, built in a folder of a test's own.
fn built(test: &str, fonts: &[PathBuf]) -> PathBuf {
    let folder = Path::new(env!("CARGO_TARGET_TMPDIR")).join(test);
    let _ = fs::remove_dir_all(&folder);
    fs::create_dir_all(&folder).unwrap();
    python("jobs", &folder, fonts).unwrap();
    build(&folder).unwrap();
    folder
}

/// Changes the last delta of a store by one bit; done twice, not at all.
fn damage(store: &Path) {
    let mut bytes = fs::read(store).unwrap();
    *bytes.last_mut().unwrap() ^= 1;
    fs::write(store, bytes).unwrap();
}

#[test]
fn every_row_and_every_advance_is_the_fonts_own() {
    let fonts = fonts().unwrap();
    let folder = built("every", &fonts);
    let table = python("rows", &folder, &fonts).unwrap();
    for name in [
        "Karla[wght] HVAR",
        "Karla-Italic[wght] GDEF",
        "Cantarell-VF HVAR",
        "Cantarell-VF MVAR",
        "Cantarell-VF GDEF",
        "Cantarell-VF CFF2",
    ] {
        assert!(table.contains(&format!("\n{name} ")), "{name}: {table}");
    }
    let said = python("shape", &folder, &fonts).unwrap();
    assert_eq!(said.matches("equal in both modes").count(), fonts.len());
    println!("{table}{said}");
}

#[test]
fn a_changed_delta_is_noticed() {
    let fonts = fonts().unwrap();
    let folder = built("changed", &fonts);
    for font in &fonts {
        let name = font.file_stem().unwrap().to_str().unwrap();
        let noticed = |part: &str, table: &str, mode: u32, message: &str| {
            let store = folder.join(format!("{name} {table}.{mode}.store"));
            damage(&store);
            let said = python(part, &folder, slice::from_ref(font)).unwrap_err();
            damage(&store);
            assert!(said.contains(message), "{name} {table}, {mode}: {said}");
        };
        for mode in [0, 1] {
            noticed("rows", "HVAR", mode, "fontTools reads");
            noticed("shape", "HVAR by glyph", mode, "advances differ");
        }
    }
}

#[test]
fn what_is_missing_is_said() {
    let said = find("no-such-package", "/file").unwrap_err();
    assert!(said.contains("installs Debian's no-such-package"), "{said}");
    assert!(find("libharfbuzz-bin", "/no-such-file").is_err());
}
