//! Has Rattle prove the crate `ivs_c` and compile it (tools/staticlib), and links what it
//! wrote. A crate that was proved before and has not changed is not proved again. Where
//! `IVS_LIB` names the folder of a library that was made before (`make dist`, `make install`),
//! that one is linked, and `rt` is not asked: so also on Arm, where Rattle does not run.

use std::env;
use std::fs;
use std::path::{Path, PathBuf};
use std::process::Command;

/// Set where nothing is linked, for lints: then nothing is proved or compiled here either.
const LINTS: &str = "FENIKEZO_LINTS";

/// Names the folder of a library that was made before.
const LIB: &str = "IVS_LIB";

fn main() {
    println!("cargo:rerun-if-env-changed={LINTS}");
    println!("cargo:rerun-if-env-changed={LIB}");
    if env::var_os(LINTS).is_some() {
        println!("cargo:rustc-env=IVS_ARCHIVE=");
        return;
    }
    let here = PathBuf::from(env::var_os("CARGO_MANIFEST_DIR").expect("cargo sets it"));
    let root = here.join("../..");
    let made = match env::var_os(LIB) {
        Some(folder) => made_before(&root, Path::new(&folder)),
        None => proved(&root),
    };
    let target = env::var("CARGO_CFG_TARGET_ARCH").expect("cargo sets it");
    assert!(
        machine(&made) == target,
        "{} is for another machine than {target}",
        made.display()
    );
    // A copy, since the next run of tools/staticlib writes another.
    let out = PathBuf::from(env::var_os("OUT_DIR").expect("cargo sets it"));
    let archive = out.join("libivs.a");
    fs::copy(&made, &archive)
        .unwrap_or_else(|error| panic!("cannot copy {}: {error}", made.display()));
    println!("cargo:rustc-env=IVS_ARCHIVE={}", archive.display());
    println!("cargo:rustc-link-search=native={}", out.display());
    println!("cargo:rustc-link-lib=static=ivs");
}

/// Which machine an archive is for, by the first ELF header in it.
fn machine(archive: &Path) -> &'static str {
    let bytes = fs::read(archive)
        .unwrap_or_else(|error| panic!("cannot read {}: {error}", archive.display()));
    let header = bytes.windows(20).find(|at| at.starts_with(b"\x7fELF"));
    match header.map(|header| [header[18], header[19]]) {
        Some([0x3E, 0]) => "x86_64",
        Some([0xB7, 0]) => "aarch64",
        _ => "none",
    }
}

/// The archive of a library that was made before. Its header must be ours, word for word: a
/// library of another header is called otherwise.
fn made_before(root: &Path, folder: &Path) -> PathBuf {
    assert!(
        folder.is_absolute(),
        "{LIB}: name the folder by its whole path, not {}",
        folder.display()
    );
    let (archive, header) = (folder.join("lib/libivs.a"), folder.join("include/ivs.h"));
    println!("cargo:rerun-if-changed={}", archive.display());
    println!("cargo:rerun-if-changed={}", header.display());
    let read = |path: &Path| {
        fs::read(path).unwrap_or_else(|error| panic!("{LIB}: {}: {error}", path.display()))
    };
    assert!(
        read(&header) == read(&root.join("include/ivs.h")),
        "{LIB}: {} is not the header that this crate was written for: take the library of the same version",
        header.display()
    );
    archive
}

/// The archive as Rattle proves and writes it now. Cargo keeps what a build script says until it
/// ends, so the terminal is told of a first run's progress itself, where there is one.
fn proved(root: &Path) -> PathBuf {
    watch(&root.join("crates"));
    let tool = root.join("tools/staticlib");
    for file in [&tool, &root.join("crates.txt")] {
        println!("cargo:rerun-if-changed={}", file.display());
    }
    let mut command = Command::new(tool);
    if let Ok(terminal) = fs::OpenOptions::new().write(true).open("/dev/tty") {
        command.stderr(terminal);
    }
    run(&mut command, "this crate links the proved library");
    root.join("target/staticlib/libivs.a")
}

/// Every crate's sources, statements and proofs, and none of what stands beside them.
fn watch(crates: &Path) {
    let folders = fs::read_dir(crates).expect("the proved crates stand in crates/");
    for folder in folders {
        for part in ["src", "specs", "proofs"] {
            let part = folder.as_ref().expect("a crate").path().join(part);
            if part.is_dir() {
                println!("cargo:rerun-if-changed={}", part.display());
            }
        }
    }
}

/// Runs a command, or says what is amiss.
fn run(command: &mut Command, without: &str) {
    match command.status() {
        Ok(status) if status.success() => {}
        Ok(status) => panic!("{command:?} ended with {status}; run it to see why"),
        Err(error) => panic!("cannot run {command:?} ({error}): {without}"),
    }
}
