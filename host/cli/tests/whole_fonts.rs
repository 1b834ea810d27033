//! Whole stores of Debian's fonts: read back, built again and judged, and cut down with the font
//! beside fontTools and HarfBuzz (interop/whole.py).

mod common;

use common::{done, ended, folder};
use interop::{find, fonts, program};
use std::fs;
use std::path::{Path, PathBuf};

/// Karla, Cantarell, and Inter, which has two axes and many subtables.
fn families() -> Vec<PathBuf> {
    let inter = find("fonts-inter-variable", "/Inter.var.ttf").unwrap();
    fonts().unwrap().into_iter().chain([inter]).collect()
}

fn python<T: AsRef<std::ffi::OsStr>>(part: &str, folder: &Path, files: &[T]) -> String {
    program("whole.py", part, folder, files).unwrap_or_else(|wrong| panic!("{part}: {wrong}"))
}

#[test]
fn every_store_recovered_built_again_and_judged() {
    let folder = folder("whole_fonts");
    python("stores", &folder, &families());
    let names = fs::read_to_string(folder.join("stores")).unwrap();
    let names: Vec<&str> = names.lines().collect();
    assert!(
        names.len() >= 9 && names.contains(&"Inter.var-GDEF"),
        "{names:?}"
    );
    for name in &names {
        let said = done(
            &folder,
            &format!("recover {name}.store -o {name}.job --json"),
        );
        let axes = if name.starts_with("Inter") { 2 } else { 1 };
        assert!(said.starts_with(&format!("{{\"axes\": {axes}, ")), "{said}");
        let job = format!("{name}.job --axes {axes}");
        done(
            &folder,
            &format!("build {job} -o {name}.built --words {name}.words"),
        );
        // The font's own, ours, and what fontTools made of the same rows.
        for (store, rows) in [
            ("store", "rows"),
            ("built", "words"),
            ("opt.store", "opt.rows"),
        ] {
            let asked = format!("judge {name}.job {name}.{store} {name}.{rows} --axes {axes}");
            assert!(done(&folder, &asked).starts_with("yes: "), "{asked}");
        }
    }
    let said = python("rows", &folder, &names);
    assert!(said.starts_with("equal: "), "{said}");

    // A changed byte is noticed.
    let name = "Inter.var-HVAR";
    let mut store = fs::read(folder.join(format!("{name}.opt.store"))).unwrap();
    *store.last_mut().unwrap() ^= 1;
    fs::write(folder.join("changed"), store).unwrap();
    let asked = format!("judge {name}.job changed {name}.opt.rows --axes 2");
    let (said, _) = ended(&folder, &asked, 3);
    assert!(
        said.starts_with("no: set ") && said.contains(" reads "),
        "{said}"
    );
}

#[test]
fn a_font_cut_to_half_its_glyphs() {
    let (folder, fonts) = (folder("whole_cut"), families());
    python("cut", &folder, &fonts);
    for font in &fonts {
        let name = font.file_stem().unwrap().to_str().unwrap();
        let asked = format!("keep {name}.store {name}.used -o {name}.kept --places {name}.places");
        done(&folder, &asked);
    }
    let table = python("shape", &folder, &fonts);
    assert_eq!(table.lines().count(), fonts.len());
    println!("{table}");

    // A changed delta is noticed.
    let kept = folder.join("Inter.var.kept");
    let mut store = fs::read(&kept).unwrap();
    *store.last_mut().unwrap() ^= 0x40;
    fs::write(&kept, store).unwrap();
    let wrong = program("whole.py", "shape", &folder, &fonts[3..]).unwrap_err();
    assert!(wrong.contains("Inter.var, ours, "), "{wrong}");
}
