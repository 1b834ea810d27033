//! include/ivs.h beside what Rust says: the version, the refusals' numbers and names, and
//! that the library has no memory of its own, on which calls from many threads rest.

use std::fmt::Write;
use std::fs;
use std::path::{Path, PathBuf};
use std::process::Command;
use std::thread;

fn root() -> PathBuf {
    Path::new(env!("CARGO_MANIFEST_DIR")).join("../..")
}

/// A program of a text runs and ends well, as C and as C++.
fn runs(name: &str, source: &str) {
    for (compiler, standard, ending) in [("cc", "-std=c99", "c"), ("c++", "-std=c++11", "cc")] {
        let file = Path::new(env!("CARGO_TARGET_TMPDIR")).join(format!("{name}.{ending}"));
        fs::write(&file, source).unwrap();
        let program = file.with_extension(format!("{ending}.program"));
        let made = Command::new(compiler)
            .args([standard, "-Wall", "-Wextra", "-pedantic", "-Werror"])
            .args(["-Iinclude", "-o"])
            .args([&program, &file])
            .arg(env!("IVS_ARCHIVE"))
            .current_dir(root())
            .output();
        let Ok(made) = made else {
            assert_ne!(compiler, "cc", "cc can be run, as Rust links by it");
            continue;
        };
        let said = String::from_utf8_lossy(&made.stderr);
        assert!(made.status.success(), "{said}");
        let status = Command::new(program).status().unwrap();
        assert_eq!(status.code(), Some(0), "{compiler}");
    }
}

/// The enum has every refusal and `ivs_name` its name, and neither has any other: a number
/// that is added is added to IVS_REFUSALS, too.
#[test]
fn numbers_and_names() {
    let mut checks = String::new();
    for refusal in ivs::Refusal::ALL {
        let (number, name) = (refusal.number(), refusal.name());
        // Writing to a string cannot fail.
        let _ = writeln!(
            checks,
            "    if (IVS_{name} != {number} || strcmp(ivs_name({number}), \"{name}\")) return 1;"
        );
    }
    let source = format!(
        "#include <ivs.h>\n#include <string.h>\nint main(void) {{\n{checks}\
         \n    uint32_t known = 0;\
         \n    for (uint32_t number = 0; number < 1000; number++) known += strcmp(ivs_name(number), \"UNKNOWN\") != 0;\
         \n    if (known != {} + 1 || strcmp(ivs_name(IVS_DONE), \"DONE\")) return 2;\
         \n    if (IVS_DEDUPLICATING != {} || IVS_IMPLICIT != {}) return 3;\
         \n    return strcmp(IVS_VERSION, \"{}\") != 0;\n}}\n",
        ivs::Refusal::ALL.len(),
        ivs::Mode::Deduplicating.number(),
        ivs::Mode::Implicit.number(),
        env!("CARGO_PKG_VERSION")
    );
    runs("header_names", &source);
}

/// Nothing that can be written stands in the archive, and nothing is called of the C library
/// but what copies and clears.
#[test]
fn no_memory_of_its_own() {
    let output = Command::new("nm").arg(env!("IVS_ARCHIVE")).output();
    let said = String::from_utf8(output.expect("nm stands beside cc").stdout).unwrap();
    let (mut entries, mut called) = (0, Vec::new());
    for line in said.lines().filter(|line| line.len() > 18) {
        let (kind, name) = (&line[17..18], &line[19..]);
        match kind {
            "T" if name.starts_with("ivs_") => entries += 1,
            "t" | "r" => {}
            "U" => called.push(name),
            _ => panic!("{line}"),
        }
    }
    assert!(entries >= 9, "{said}");
    assert!(
        called
            .iter()
            .all(|name| ["memcpy", "memset"].contains(name)),
        "{called:?}"
    );
}

/// No path of the machine that it was made on stands in the archive.
#[test]
fn no_path_of_the_machine() {
    let archive = fs::read(env!("IVS_ARCHIVE")).unwrap();
    let kit = Command::new("rt").arg("doc").output();
    let kit = kit.map_or(String::new(), |said| {
        String::from_utf8(said.stdout).unwrap()
    });
    let home = std::env::var("HOME").unwrap_or_default();
    let folders = [
        root().canonicalize().unwrap(),
        std::env::temp_dir(),
        PathBuf::from(home),
        Path::new(kit.trim()).components().take(2).collect(),
    ];
    for folder in folders.iter().map(|path| path.to_string_lossy()) {
        let found = |at: &[u8]| at == folder.as_bytes();
        assert!(
            folder.len() < 4 || !archive.windows(folder.len()).any(found),
            "{folder}"
        );
    }
}

/// The same job from eight threads at once, each with memory of its own: one answer.
#[test]
fn from_many_threads() {
    let mut job = ivs::JobWriter::new(1);
    for peak in 1..=40 {
        let region = job.region(&[(0, peak, 0x4000)]).unwrap();
        for value in [1, 300, -70_000] {
            job.set(&[(region, value)]).unwrap();
        }
    }
    let job = job.job();
    let alone = job.pack(ivs::Mode::Deduplicating).unwrap();
    thread::scope(|scope| {
        let pack = || job.pack(ivs::Mode::Deduplicating).unwrap();
        let threads: Vec<_> = (0..8).map(|_| scope.spawn(pack)).collect();
        for thread in threads {
            assert_eq!(thread.join().unwrap(), alone);
        }
    });
}
