//! `fenikezo font` on Debian's fonts: what it writes is read by fontTools, HarfBuzz,
//! fontconfig and the sanitizer that browsers use.

use interop::{find, fonts};
use std::fs;
use std::path::{Path, PathBuf};
use std::process::{Command, Output};

fn folder(test: &str) -> PathBuf {
    let folder = Path::new(env!("CARGO_TARGET_TMPDIR")).join(test);
    let _ = fs::remove_dir_all(&folder);
    fs::create_dir_all(&folder).unwrap();
    folder
}

fn said(command: &mut Command) -> (Option<i32>, String) {
    let Output {
        status,
        stdout,
        stderr,
    } = command.output().unwrap();
    let said = [stdout, stderr].concat();
    (status.code(), String::from_utf8_lossy(&said).into_owned())
}

fn fenikezo() -> Command {
    Command::new(env!("CARGO_BIN_EXE_fenikezo"))
}

/// The font packed anew.
fn repacked(font: &Path, folder: &Path) -> (PathBuf, String) {
    let new = folder.join(font.file_name().unwrap());
    let mut command = fenikezo();
    command
        .args(["font", "repack"])
        .arg(font)
        .arg("-o")
        .arg(&new);
    let (status, text) = said(&mut command);
    assert_eq!(status, Some(0), "{text}");
    (new, text)
}

/// Runs a part of interop/repacked.py.
fn python(part: &str, files: &[&Path]) -> (Option<i32>, String) {
    let program = Path::new(env!("CARGO_MANIFEST_DIR")).join("../interop/repacked.py");
    said(
        Command::new("/usr/bin/python3")
            .arg(program)
            .arg(part)
            .args(files),
    )
}

fn compared(old: &Path, new: &Path, folder: &Path) -> (Option<i32>, String) {
    python("compare", &[old, new, folder])
}

/// A font with the side bearings' maps in HVAR, and with a VVAR that has all but one.
#[test]
fn every_map_is_kept() {
    let folder = folder("maps");
    let made = folder.join("made.ttf");
    for font in fonts().unwrap() {
        let (status, text) = python("make", &[&font, &made]);
        assert_eq!(status, Some(0), "{text}");
        let anew = folder.join("anew");
        fs::create_dir_all(&anew).unwrap();
        let (new, text) = repacked(&made, &anew);
        assert!(text.contains("VVAR: "), "{text}");
        let (status, text) = compared(&made, &new, &folder);
        assert_eq!(status, Some(0), "{text}");
    }
}

#[test]
fn a_font_packed_anew_is_the_font() {
    let tools = [
        ("fontconfig", "/bin/fc-query"),
        ("opentype-sanitizer", "/bin/ots-sanitize"),
    ];
    let tools = tools.map(|(package, end)| find(package, end).unwrap());
    let folder = folder("anew");
    for font in fonts().unwrap() {
        let (new, text) = repacked(&font, &folder);
        assert!(
            text.contains("HVAR: ") && text.contains("GDEF: left as it is"),
            "{text}"
        );
        let (status, text) = compared(&font, &new, &folder);
        assert_eq!(status, Some(0), "{text}");
        assert!(text.contains("equal at 9 places"), "{text}");
        for tool in &tools {
            let (status, text) = said(Command::new(tool).arg(&new));
            assert_eq!(status, Some(0), "{}: {text}", tool.display());
        }
        // Packed once more it stays as it is.
        let again = folder.join("again");
        fs::create_dir_all(&again).unwrap();
        let (again, _) = repacked(&new, &again);
        assert_eq!(fs::read(again).unwrap(), fs::read(&new).unwrap());
    }
}

/// One bit of a table that was packed anew, of one that was not, and of a sum.
#[test]
fn a_changed_bit_is_noticed() {
    let folder = folder("noticed");
    let font = &fonts().unwrap()[0];
    let (new, _) = repacked(font, &folder);
    let good = fs::read(&new).unwrap();
    let table = |tag: &[u8; 4]| {
        let records = (0..u16::from_be_bytes([good[4], good[5]])).map(|n| 12 + 16 * usize::from(n));
        let at = records
            .into_iter()
            .find(|&at| good[at..at + 4] == *tag)
            .unwrap();
        let number = |at: usize| u32::from_be_bytes(good[at..at + 4].try_into().unwrap()) as usize;
        (at, number(at + 8), number(at + 12))
    };
    let (hvar, glyf, head) = (table(b"HVAR"), table(b"glyf"), table(b"head"));
    // The last entry of a map, an outline, a sum of the directory, and the sum of all.
    for (at, words) in [
        (hvar.1 + hvar.2 - 1, "HVAR has other rows"),
        (glyf.1 + 20, "glyf is another"),
        (hvar.0 + 5, "HVAR has a wrong sum"),
        (head.1 + 9, "has a wrong sum over the file"),
    ] {
        let mut bad = good.clone();
        bad[at] ^= 1;
        fs::write(&new, bad).unwrap();
        let (status, text) = compared(font, &new, &folder);
        assert!(status == Some(1) && text.contains(words), "{text}");
    }
}

#[test]
fn stores_are_shown() {
    let fonts = fonts().unwrap();
    let (status, text) = said(fenikezo().args(["font", "show"]).arg(&fonts[2]));
    assert_eq!(status, Some(0), "{text}");
    let names: Vec<&str> = text.lines().skip(2).map(|line| &line[..4]).collect();
    assert_eq!(names, ["HVAR", "MVAR", "GDEF", "CFF2"]);
    assert!(text.starts_with("font: 1322 glyphs, 1 axis\n"), "{text}");
}

#[test]
fn as_json() {
    let font = &fonts().unwrap()[2];
    let folder = folder("font_json");
    let json = |command: &mut Command| {
        let output = command.arg("--json").output().unwrap();
        assert_eq!(output.status.code(), Some(0), "{output:?}");
        let json = String::from_utf8(output.stdout).unwrap();
        let program = "import json, sys; json.loads(sys.argv[1])";
        let read = Command::new("/usr/bin/python3")
            .args(["-c", program, &json])
            .status();
        assert!(read.unwrap().success(), "{json}");
        json
    };
    let shown = json(fenikezo().args(["font", "show"]).arg(font));
    let first =
        "{\"glyphs\": 1322, \"axes\": 1, \"tables\": [{\"table\": \"HVAR\", \"bytes\": 3392, ";
    assert!(shown.starts_with(first), "{shown}");
    assert!(shown.contains("\"implicit\": {\"bytes\": "), "{shown}");
    assert!(shown.ends_with("\"stays\": true}]}\n"), "{shown}");
    let mut command = fenikezo();
    command
        .args(["font", "repack"])
        .arg(font)
        .arg("-o")
        .arg(folder.join("new"));
    let packed = json(&mut command);
    let first = "{\"tables\": [{\"table\": \"HVAR\", \"bytes\": 3384, \"before\": 3392}, ";
    assert!(packed.starts_with(first), "{packed}");
    assert!(
        packed.contains("{\"table\": \"GDEF\", \"stays\": \"its rows are named "),
        "{packed}"
    );
}

#[test]
fn what_is_no_font_is_said_and_nothing_is_written() {
    let folder = folder("no-font");
    let font = fs::read(&fonts().unwrap()[0]).unwrap();
    let collection = [b"ttcf\0\x01\0\0\0\0\0\x01\0\0\0\x10", &font[..]].concat();
    let inputs: [(&[u8], &str); 4] = [
        (b"", "no font"),
        (b"text", "no font"),
        (&font[..font.len() / 2], "no font"),
        (&collection, "a collection of fonts"),
    ];
    for (bytes, words) in inputs {
        fs::write(folder.join("in"), bytes).unwrap();
        let mut command = fenikezo();
        command
            .args(["font", "repack", "in", "-o", "out"])
            .current_dir(&folder);
        let (status, text) = said(&mut command);
        assert!(status == Some(1) && text.contains(words), "{text}");
        assert!(!folder.join("out").exists());
    }
}
