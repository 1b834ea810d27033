//! Has Rattle prove the crate `merging_bench` and compile it, and links what it
//! wrote. A crate that was proved before and has not changed is not proved again.
//! Every `memset` of the program is brought to src/clearing.rs.

use std::env;
use std::fs;
use std::path::{Path, PathBuf};
use std::process::Command;

/// The crate, and those that it reaches.
const CRATES: [&str; 8] = [
    "laws",
    "shapes",
    "rule",
    "pairs",
    "slots",
    "waits",
    "merging",
    "merging_bench",
];

/// Set where nothing is linked, for lints: then nothing is proved or compiled here either.
const LINTS: &str = "FENIKEZO_LINTS";

fn main() {
    println!("cargo:rerun-if-env-changed={LINTS}");
    if env::var_os(LINTS).is_some() {
        return;
    }
    let here = PathBuf::from(env::var_os("CARGO_MANIFEST_DIR").expect("cargo sets it"));
    let root = here.join("../..");
    for name in CRATES {
        for part in ["src", "specs", "proofs"] {
            let folder = root.join("crates").join(name).join(part);
            if folder.is_dir() {
                println!("cargo:rerun-if-changed={}", folder.display());
            }
        }
    }
    let archive = "libmerging_bench.a";
    run(
        Command::new(root.join("tools/staticlib")).arg("merging_bench"),
        &root,
    );
    // A copy, since the next run of tools/staticlib writes another.
    let out = PathBuf::from(env::var_os("OUT_DIR").expect("cargo sets it"));
    let written = root.join("target/staticlib").join(archive);
    fs::copy(written, out.join(archive)).expect("the archive is written");
    println!("cargo:rustc-link-search=native={}", out.display());
    println!("cargo:rustc-link-lib=static=merging_bench");
    println!("cargo:rustc-link-arg=-Wl,--wrap=memset");
}

/// Runs a command in the repository's root, or says what is amiss.
fn run(command: &mut Command, root: &Path) {
    let done = command.current_dir(root).status();
    let done = done.unwrap_or_else(|error| panic!("cannot run {command:?}: {error}"));
    assert!(done.success(), "{command:?} refused");
}
