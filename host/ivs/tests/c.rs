//! The library from C: examples/pack.c, compiled against include/ivs.h and linked with the
//! archive, as README says.

use std::fs;
use std::path::{Path, PathBuf};
use std::process::{Command, Output};

fn root() -> PathBuf {
    Path::new(env!("CARGO_MANIFEST_DIR")).join("../..")
}

/// The program that C's compiler makes of examples/pack.c, under a name of the test's own.
fn program(name: &str) -> PathBuf {
    compiled(name, Path::new("examples/pack.c"))
}

/// The program that C's compiler makes of a file.
fn compiled(name: &str, source: &Path) -> PathBuf {
    let program = Path::new(env!("CARGO_TARGET_TMPDIR")).join(name);
    let made = Command::new("cc")
        .args(["-std=c99", "-Wall", "-Wextra", "-pedantic", "-Werror"])
        .arg("-Iinclude")
        .arg(source)
        .args([env!("IVS_ARCHIVE"), "-o"])
        .arg(&program)
        .current_dir(root())
        .output()
        .expect("cc can be run, as Rust links by it");
    let said = String::from_utf8_lossy(&made.stderr);
    assert!(made.status.success(), "{said}");
    program
}

/// The program's answer to a job.
fn packed(program: &Path, job: &[u8]) -> Output {
    let file = program.with_extension("job");
    fs::write(&file, job).unwrap();
    let run = Command::new(program).arg("1").arg(&file).output();
    run.expect("the program can be run")
}

#[test]
fn the_example_that_ships() {
    let job = fs::read(root().join("examples/two-sets.job")).unwrap();
    let output = packed(&program("c_example"), &job);
    assert_eq!(output.status.code(), Some(0));
    let store = ivs::pack(1, 0, &job).unwrap().store;
    let store: String = store.iter().map(|byte| format!("{byte:02x}")).collect();
    let said = "set 0: outer 0, inner 1: 1\nset 1: outer 0, inner 0: 0\n";
    assert_eq!(
        String::from_utf8(output.stdout).unwrap(),
        format!("store {store}\n{said}")
    );
}

#[test]
fn refusals_with_their_places() {
    let program = program("c_refusals");
    let job = fs::read(root().join("examples/two-sets.job")).unwrap();
    let mut unknown = job.clone();
    unknown[2 * 12 + 1] = 9;
    let mut not_zero = job.clone();
    not_zero[3 * 12 + 9] = 9;
    for (job, said) in [
        (&job[..5 * 12], "refused: 8 at 5, byte 0\n"),
        (&unknown[..], "refused: 6 at 2, byte 0\n"),
        (&not_zero[..], "refused: 31 at 3, byte 9\n"),
        (&vec![0; 12 * 1_048_577][..], "refused: 3 at 0, byte 0\n"),
    ] {
        let output = packed(&program, job);
        assert_eq!(output.status.code(), Some(2));
        assert_eq!(String::from_utf8(output.stderr).unwrap(), said);
    }
}

/// A store of more than a mebibyte: what is lent goes by the forecast.
#[test]
fn a_large_store() {
    let mut job = ivs::JobWriter::new(1);
    for peak in 0..256 {
        job.region(&[(0, peak, 0x4000)]).unwrap();
    }
    for set in 0..1_100 {
        let values: Vec<(u16, i32)> = (0..=255).map(|region| (region, 70_000 + set)).collect();
        job.set(&values).unwrap();
    }
    let job = job.finish();
    let output = packed(&program("c_large"), &job);
    assert_eq!(output.status.code(), Some(0));
    let bytes = ivs::forecast(1, 0, &job).unwrap().store_bytes as usize;
    assert!(bytes > 1 << 20);
    assert_eq!(output.stdout[..6], *b"store ");
    assert_eq!(output.stdout[6 + 2 * bytes], b'\n');
}

#[test]
fn no_records_at_all() {
    let output = packed(&program("c_none"), &[]);
    assert_eq!(output.status.code(), Some(0));
    let said = String::from_utf8(output.stdout).unwrap();
    assert_eq!(said, "store 000100000008000000010000\n");
}

/// A job of no records needs no work, and pair records as every other: one fewer is refused,
/// with all of them left as they were; else those that are lent are zeros, and no more.
const PAIRS: &str = r#"
#include "ivs.h"

typedef char a_pair_has_twelve_bytes[sizeof(ivs_pair) == 12 ? 1 : -1];

static ivs_pair pairs[IVS_PAIRS + 1];

static uint32_t build(size_t count) {
    static uint8_t job[1], out[12];
    static uint32_t work[1], ids[1], map[1], log[1], origins[1];
    uint64_t report[16];
    return ivs_build(1, 0, job, 0, work, 0, pairs, count, out, sizeof out, ids, 1, map, 1, log, 1, origins, 1, report);
}

static size_t sevens(void) {
    size_t held = 0;
    for (size_t i = 0; i <= IVS_PAIRS; i++) held += pairs[i].gain == 7 && pairs[i].first == 7 && pairs[i].second == 7;
    return held;
}

int main(void) {
    for (size_t i = 0; i <= IVS_PAIRS; i++) pairs[i].gain = pairs[i].first = pairs[i].second = 7;
    if (build(IVS_PAIRS - 1) != 4 || sevens() != IVS_PAIRS + 1) return 1;
    if (build(IVS_PAIRS) != 0 || sevens() != 1) return 2;
    for (size_t i = 0; i < IVS_PAIRS; i++)
        if (pairs[i].gain || pairs[i].first || pairs[i].second) return 3;
    return 0;
}
"#;

#[test]
fn pair_records() {
    let source = Path::new(env!("CARGO_TARGET_TMPDIR")).join("c_pairs.c");
    fs::write(&source, PAIRS).unwrap();
    let status = Command::new(compiled("c_pairs", &source)).status();
    assert_eq!(status.expect("the program can be run").code(), Some(0));
}
