//! `make install` and `make dist`: what they write is whole, may be moved, and C and Rust link
//! it without `rt`.

mod common;

use common::{folder, root};
use std::fs;
use std::path::{Path, PathBuf};
use std::process::{Command, Output};

/// What a command prints; it must end well.
fn said(command: &mut Command) -> String {
    let output: Output = command.output().expect("the command can be run");
    let words = String::from_utf8_lossy(&output.stderr).into_owned();
    assert!(output.status.success(), "{command:?}: {words}");
    String::from_utf8(output.stdout).expect("text")
}

/// A program compiled against an installed library, by what pkg-config says of it alone.
fn linked(prefix: &Path, source: &str) -> PathBuf {
    compiled(&mut Command::new("cc"), prefix, source)
}

fn compiled(compiler: &mut Command, prefix: &Path, source: &str) -> PathBuf {
    let asked = ["--cflags", "--libs", "ivs"];
    let flags = said(
        Command::new("pkg-config")
            .args(asked)
            .env("PKG_CONFIG_PATH", prefix.join("lib/pkgconfig")),
    );
    let program = prefix.join("program");
    said(
        compiler
            .args(["-std=c99", "-Wall", "-Wextra", "-pedantic", "-Werror", "-o"])
            .arg(&program)
            .arg(root().join("examples").join(source))
            .args(flags.split_whitespace()),
    );
    program
}

fn install(prefix: &Path, program: &str) {
    let mut command = Command::new(root().join("tools/install"));
    said(command.arg(prefix).args([ivs::ARCHIVE, program]));
}

#[test]
fn what_is_installed_is_whole_and_links() {
    let folder = folder("install");
    let (first, prefix) = (folder.join("first"), folder.join("moved here"));
    install(&first, env!("CARGO_BIN_EXE_fenikezo"));
    fs::rename(&first, &prefix).unwrap();
    for (file, begins) in [
        ("include/ivs.h", "/* Fenikezo"),
        ("lib/pkgconfig/ivs.pc", "prefix=${pcfiledir}/../..\n"),
        ("share/doc/ivs/NOTICE", "Fenikezo"),
        ("share/man/man1/fenikezo.1", ".TH FENIKEZO 1 "),
        ("share/bash-completion/completions/fenikezo", "_fenikezo()"),
        ("share/zsh/site-functions/_fenikezo", "#compdef fenikezo"),
        ("share/fish/vendor_completions.d/fenikezo.fish", ""),
    ] {
        let text = fs::read_to_string(prefix.join(file)).expect(file);
        assert!(text.starts_with(begins) && !text.is_empty(), "{file}");
        assert!(!text.contains(&*folder.to_string_lossy()), "{file}");
    }
    let version = said(Command::new(prefix.join("bin/fenikezo")).arg("--version"));
    assert_eq!(version, format!("fenikezo {}\n", env!("CARGO_PKG_VERSION")));
}

/// A prefix with a space would be two words of the compiler's line, so this one has none.
#[test]
fn examples_against_the_installed_files() {
    let prefix = folder("install_c");
    install(&prefix, env!("CARGO_BIN_EXE_fenikezo"));
    let value = said(&mut Command::new(linked(&prefix, "value.c")));
    assert_eq!(value, "set 1, light: -300\n");
    let job = root().join("examples/two-sets.job");
    let store = said(Command::new(linked(&prefix, "pack.c")).arg("1").arg(job));
    assert!(store.ends_with("set 0: outer 0, inner 1: 1\nset 1: outer 0, inner 0: 0\n"));
}

/// The tar, unpacked: a page with the kit, the commit and the crates; C links it, and so does
/// `host/ivs`, with an `rt` in PATH that fails whoever asks it.
#[test]
fn without_the_prover() {
    let folder = folder("dist");
    // A library that was made before comes without the kit that can be named.
    if Command::new("rt").arg("version").output().is_err() {
        return;
    }
    let machine = std::env::consts::ARCH;
    let (unpacked, page) = unpacked(&folder, Path::new(ivs::ARCHIVE), machine);
    let kit = said(Command::new("rt").arg("version"));
    assert!(page.contains(&format!("| kit (`rt version`) | {} |\n", kit.trim_end())));
    assert!(page.contains("\n    ivs: ") && page.contains("| commit | "));
    let compiled = match machine {
        "x86_64" => "by Rattle, for x86-64",
        _ => "by Rattle, for Arm (aarch64)",
    };
    assert!(page.contains(&format!("| lib/libivs.a is compiled | {compiled} |\n")));
    let proved = fs::read_to_string(root().join("docs/PROVED.md")).unwrap();
    assert!(proved
        .lines()
        .filter(|line| line.starts_with("| "))
        .all(|row| page.contains(row)));

    let value = said(&mut Command::new(linked(&unpacked, "value.c")));
    assert_eq!(value, "set 1, light: -300\n");

    let no_rt = folder.join("no-rt");
    fs::create_dir_all(&no_rt).unwrap();
    said(
        Command::new("ln")
            .args(["-s", "/bin/false"])
            .arg(no_rt.join("rt")),
    );
    let path = format!("{}:{}", no_rt.display(), std::env::var("PATH").unwrap());
    let mut example = example(&folder, &unpacked);
    let value = said(example.env("PATH", path));
    assert_eq!(value, "set 1, light: -300\n");
}

/// The tar of an archive, unpacked, and its page.
fn unpacked(folder: &Path, archive: &Path, machine: &str) -> (PathBuf, String) {
    let mut dist = Command::new(root().join("tools/dist"));
    let tar = said(dist.args([folder, archive]));
    said(
        Command::new("tar")
            .arg("-xzf")
            .arg(tar.trim_end())
            .current_dir(folder),
    );
    let version = env!("CARGO_PKG_VERSION");
    let unpacked = folder.join(format!("ivs-{version}-{machine}-linux"));
    let page = fs::read_to_string(unpacked.join("WHAT-IS-PROVED.md")).unwrap();
    (unpacked, page)
}

/// The command that builds `host/ivs` with a library that was made before, and runs an example.
fn example(folder: &Path, library: &Path) -> Command {
    let mut command = Command::new(env!("CARGO"));
    command
        .args(["run", "--quiet", "-p", "ivs", "--example", "value"])
        .current_dir(root().join("host"))
        .env("IVS_LIB", library)
        .env("CARGO_TARGET_DIR", folder.join("target"));
    command
}

/// The tar for Arm, which is made here: a program for Arm links what is in it, and answers under
/// Debian's emulator.
#[test]
fn emulated_where_there_is_no_other() {
    // With a library that was made before there is no archive but that one.
    if std::env::var_os("IVS_LIB").is_some() {
        return;
    }
    let archive = root().join("target/staticlib/aarch64/libivs.a");
    assert!(archive.is_file(), "`make -C host arm` makes {archive:?}");
    let (unpacked, page) = unpacked(&folder("emulated"), &archive, "aarch64");
    assert!(page.contains("| lib/libivs.a is compiled | by Rattle, for Arm (aarch64) |\n"));
    let compiler = &mut Command::new("aarch64-linux-gnu-gcc");
    let program = compiled(compiler.arg("-static"), &unpacked, "value.c");
    let value = said(Command::new("qemu-aarch64").arg(program));
    assert_eq!(value, "set 1, light: -300\n");
}
