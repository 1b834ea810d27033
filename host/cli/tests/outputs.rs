//! No output is an input or another output, by whatever path, and none is replaced that may
//! not be written.

mod common;

use common::{command, done, failed, folder, names, TWO_SETS};
use std::fs::{self, File, Permissions};
use std::os::unix::fs::{symlink, PermissionsExt};
use std::path::Path;

/// A text, a job and a folder with links to both.
fn fill(folder: &Path) {
    fs::write(folder.join("text"), TWO_SETS).unwrap();
    done(folder, "pack text -o job");
    fs::create_dir(folder.join("sub")).unwrap();
    symlink("job", folder.join("link")).unwrap();
    symlink(".", folder.join("here")).unwrap();
    fs::hard_link(folder.join("job"), folder.join("twin")).unwrap();
}

#[test]
fn an_output_that_is_the_input() {
    let folder = folder("input");
    fill(&folder);
    let job = fs::read(folder.join("job")).unwrap();
    for path in ["job", "./job", "sub/../job", "link", "here/job", "twin"] {
        let said = failed(&folder, &format!("build job --axes 1 -o {path}"), 1);
        assert!(
            said.contains(" would be written over: give another output"),
            "{said}"
        );
        let ids = format!("build link --axes 1 -o store --ids {path}");
        failed(&folder, &ids, 1);
        failed(&folder, &format!("widths job --axes 1 -o {path}"), 1);
        assert_eq!(fs::read(folder.join("job")).unwrap(), job);
    }
    let said = failed(&folder, "pack text -o text", 1);
    assert_eq!(
        said,
        "fenikezo: text would be written over: give another output\n"
    );
    let said = failed(&folder, "pack text -o here/text", 1);
    let both = "fenikezo: text, which is here/text too, would be written over: ";
    assert!(said.starts_with(both), "{said}");
    assert_eq!(fs::read(folder.join("text")).unwrap(), TWO_SETS.as_bytes());
    assert!(!folder.join("store").exists());
}

/// The shell opens these, and not the program.
#[test]
fn an_output_that_is_a_stream() {
    let folder = folder("stream");
    fill(&folder);
    let job = fs::read(folder.join("job")).unwrap();
    let mut taken = command(&folder, "build - --axes 1 -o job");
    taken.stdin(File::open(folder.join("job")).unwrap());
    assert_eq!(taken.output().unwrap().status.code(), Some(1));
    assert_eq!(fs::read(folder.join("job")).unwrap(), job);
    // The numbers would go where the store does.
    let mut both = command(&folder, "build job --axes 1 -o numbers");
    both.stdout(File::create(folder.join("numbers")).unwrap());
    assert_eq!(both.status().unwrap().code(), Some(1));
    let said = failed(&folder, "build job --axes 1 -o - --ids -", 1);
    assert_eq!(said, "fenikezo: two outputs are to go to standard output\n");
    failed(&folder, "build job --axes 1 -o - --ids /dev/stdout", 1);
    // Nothing is lost there.
    done(&folder, "build job --axes 1 -o /dev/null --ids /dev/null");
}

#[test]
fn two_outputs_that_are_one() {
    let folder = folder("two_outputs");
    fill(&folder);
    symlink("later", folder.join("ahead")).unwrap();
    symlink("../ahead", folder.join("sub/ahead")).unwrap();
    let before = names(&folder);
    for path in ["./new", "sub/../new", "here/new"] {
        let said = failed(
            &folder,
            &format!("build job --axes 1 -o new --map {path}"),
            1,
        );
        assert!(said.contains("two outputs are to go to new"), "{said}");
    }
    // A link to what is not there yet.
    for path in ["later", "here/later", "sub/ahead"] {
        failed(
            &folder,
            &format!("build job --axes 1 --ids ahead --log {path}"),
            1,
        );
    }
    assert_eq!(names(&folder), before);
    done(&folder, "build job --axes 1 -o sub/ahead");
    assert_eq!(fs::read(folder.join("later")).unwrap().len(), 42);
    assert!(folder.join("ahead").is_symlink() && folder.join("sub/ahead").is_symlink());
    fs::hard_link(folder.join("later"), folder.join("same")).unwrap();
    failed(&folder, "build job --axes 1 --ids later --log same", 1);
}

#[test]
fn an_output_that_may_not_be_written() {
    let folder = folder("may_not");
    fill(&folder);
    fs::write(folder.join("kept"), "kept").unwrap();
    fs::set_permissions(folder.join("kept"), Permissions::from_mode(0o444)).unwrap();
    let said = failed(&folder, "build job --axes 1 --ids ids -o kept", 1);
    assert_eq!(said, "fenikezo: cannot write kept: it may not be written\n");
    assert_eq!(fs::read(folder.join("kept")).unwrap(), b"kept");
    assert!(!folder.join("ids").exists());
    fs::set_permissions(folder.join("kept"), Permissions::from_mode(0o640)).unwrap();
    done(&folder, "build job --axes 1 -o kept");
    let mode = fs::metadata(folder.join("kept"))
        .unwrap()
        .permissions()
        .mode();
    assert_eq!(mode & 0o777, 0o640);
}

/// What a device does not take keeps back the files.
#[test]
fn a_device_that_is_full() {
    let folder = folder("device");
    fill(&folder);
    failed(&folder, "build job --axes 1 -o store --ids /dev/full", 1);
    assert!(!folder.join("store").exists());
}
