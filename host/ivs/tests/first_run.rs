//! tools/staticlib, by which cargo and make have the library proved: what it says on a first
//! run and on a second. The `rt` here only talks as Rattle's does.

use std::fs;
use std::os::unix::fs::PermissionsExt;
use std::path::{Path, PathBuf};
use std::process::Command;

/// A repository of four crates, and another that the library does not know.
fn repository(name: &str) -> PathBuf {
    let folder = Path::new(env!("CARGO_TARGET_TMPDIR")).join(name);
    let _ = fs::remove_dir_all(&folder);
    fs::create_dir_all(folder.join("tools")).unwrap();
    let script = Path::new(env!("CARGO_MANIFEST_DIR")).join("../../tools/staticlib");
    fs::copy(script, folder.join("tools/staticlib")).unwrap();
    let crates = "# Ground\nlaws:\nlimits: laws # the numbers\nbeside: laws\n\nivs: limits\n\
                  ivs_c staticlib: ivs\n";
    fs::write(folder.join("crates.txt"), crates).unwrap();
    for name in ["laws", "limits", "beside", "ivs", "ivs_c"] {
        write(&folder, name, "one");
    }
    folder
}

/// A crate's source becomes this text.
fn write(folder: &Path, name: &str, text: &str) {
    let source = folder.join("crates").join(name).join("src");
    fs::create_dir_all(&source).unwrap();
    fs::write(source.join("lib.rt"), text).unwrap();
}

/// Whether it was done, and what was said, where `rt` is this script.
fn run(folder: &Path, rt: &str) -> (bool, String) {
    let file = folder.join("rt");
    fs::write(&file, format!("#!/bin/sh\n{rt}")).unwrap();
    fs::set_permissions(&file, fs::Permissions::from_mode(0o755)).unwrap();
    let path = format!("{}:{}", folder.display(), std::env::var("PATH").unwrap());
    let output = Command::new(folder.join("tools/staticlib"))
        .env("PATH", path)
        .output()
        .unwrap();
    assert!(output.stdout.is_empty());
    let said = String::from_utf8(output.stderr).unwrap();
    (output.status.success(), said)
}

/// Proves all crates, and leaves for each that its library stands there.
const FIRST: &str = r#"
case $1 in
version) echo a kit ;;
all)
    [ "$2 $3" = "check --jobs" ] && [ "$4" -gt 0 ] || exit 2
    for crate in laws limits ivs beside ivs_c; do
        echo "== $crate"
        echo "crate $crate: modules loaded=0 checked=40"
        echo "logic=proved functions=13"
        mkdir -p crates/$crate/out/rlib
        echo one >crates/$crate/out/rlib/stamp
    done
    echo "== summary" ;;
lib)
    echo "logic=proved functions=13"
    echo first >out/libivs_c.a ;;
esac
"#;

const SECOND: &str = r#"
case $1 in
version) echo a kit ;;
all)
    printf '== laws\n== limits\n'
    echo "logic=proved functions=14"
    printf '== ivs\nlogic=proved functions=13\n== beside\n== ivs_c\n== summary\n' ;;
lib) echo second >out/libivs_c.a ;;
esac
"#;

/// One test, since a program that one thread has just written cannot be run while another
/// thread starts one.
#[test]
fn what_is_said() {
    a_line_for_each_crate_and_then_none();
    what_is_not_proved();
}

fn a_line_for_each_crate_and_then_none() {
    let folder = repository("first_run");
    let said = "The library is proved before it is linked: once, 5 crates, some quarter of an \
                hour on four processors. The next run takes seconds.\n  1 of 5: laws proved\n  \
                2 of 5: limits proved\n  3 of 5: ivs proved\n  4 of 5: beside proved\n  \
                5 of 5: ivs_c proved\n";
    assert_eq!(run(&folder, FIRST), (true, said.to_string()));
    let archive = folder.join("target/staticlib/libivs.a");
    let made = || fs::read_to_string(&archive).unwrap();
    // Nothing has changed, or nothing that the library knows: the archive is not made again.
    assert_eq!(run(&folder, SECOND), (true, String::new()));
    write(&folder, "beside", "two");
    assert_eq!(run(&folder, SECOND), (true, String::new()));
    assert_eq!(made(), "first\n");
    write(&folder, "limits", "two");
    let said = "  2 of 5: limits proved\n  3 of 5: ivs proved\n";
    assert_eq!(run(&folder, SECOND), (true, said.to_string()));
    assert_eq!(made(), "second\n");
}

fn what_is_not_proved() {
    let folder = repository("first_run_fails");
    let rt =
        "case $1 in\nversion) exit ;;\nesac\necho '== laws'\necho 'logic=proved functions=13'\n\
              echo '== limits'\necho 'logic=not-proved functions=2'\nexit 1\n";
    let (done, said) = run(&folder, rt);
    assert!(!done);
    let end = "  1 of 5: laws proved\n== laws\nlogic=proved functions=13\n\
               == limits\nlogic=not-proved functions=2\n\
               staticlib: 'rt all check' failed in this repository; run it there to see more\n";
    assert!(said.ends_with(end), "{said}");
    // All is proved, and the archive cannot be made.
    let rt = "case $1 in\nversion) exit ;;\nlib) echo 'no room' && exit 1 ;;\nesac\n";
    let (done, said) = run(&folder, rt);
    assert!(!done && !folder.join("target/staticlib/libivs.a").exists());
    let end = "no room\n\
               staticlib: 'rt lib --cpu x86-64' failed in crates/ivs_c; run it there to see more\n";
    assert!(said.ends_with(end), "{said}");
}
