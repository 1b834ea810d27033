//! What the program says to who gives it the wrong thing: in its own words.

mod common;

use common::{done, ended, failed, folder, run, TWO_SETS};
use std::fs;
use std::path::Path;

fn put(folder: &Path, name: &str, bytes: impl AsRef<[u8]>) {
    fs::write(folder.join(name), bytes).unwrap();
}

#[test]
fn modes_go_by_their_names() {
    let folder = folder("modes");
    put(&folder, "job", jobs::edges::shapes(1_025).to_bytes());
    let said = failed(&folder, "build job --axes 1", 2);
    assert_eq!(
        said,
        "fenikezo: job: refused: 10 SHAPES_FULL: the sets have more than 1,024 shapes, too many \
         for --mode dedup; --mode implicit takes them\n"
    );
    put(&folder, "job", jobs::edges::one_shape(65_536).to_bytes());
    let said = failed(&folder, "build job --axes 1 --mode implicit", 2);
    assert!(
        said.ends_with(
            ": --mode implicit takes 65,535 sets, and this ends one more; --mode dedup takes them\n"
        ),
        "{said}"
    );
}

/// More than 1,024 shapes, and more than 65,535 sets.
#[test]
fn neither_mode_sends_to_the_other() {
    let folder = folder("neither");
    let mut text = done_text(1_025);
    text += &"set\n".repeat(65_536);
    put(&folder, "text", text);
    let said = failed(&folder, "build text", 2);
    assert!(
        said.ends_with(
            "; --mode implicit does not take them either (9 SETS_FULL), so split the job\n"
        ),
        "{said}"
    );
    let said = failed(&folder, "build text --mode 1", 2);
    assert!(said.contains("refused: 9 SETS_FULL at line "), "{said}");
    let end = "; --mode dedup does not take them either (10 SHAPES_FULL), so split the job\n";
    assert!(said.ends_with(end), "{said}");
}

/// A text whose sets have so many shapes.
fn done_text(shapes: usize) -> String {
    let mut text = "axes 1\n".to_string();
    for region in 0..11 {
        text += &format!("region r{region} 0 0.{:02} 1\n", region + 1);
    }
    for shape in 1..=shapes {
        let named = (0..11).filter(|bit| shape >> bit & 1 == 1);
        let values: Vec<String> = named.map(|bit| format!("r{bit}=1")).collect();
        text += &format!("set {}\n", values.join(" "));
    }
    text
}

#[test]
fn modes_by_number() {
    let folder = folder("by_number");
    put(&folder, "text", TWO_SETS);
    for (number, name) in [("0", "dedup"), ("1", "implicit")] {
        let by_number = done(&folder, &format!("build text --mode {number}"));
        assert_eq!(
            by_number,
            done(&folder, &format!("build text --mode {name}"))
        );
    }
    failed(&folder, "build text --mode 2", 1);
}

#[test]
fn a_file_of_another_kind() {
    let folder = folder("another_kind");
    put(&folder, "text", TWO_SETS);
    done(&folder, "pack text -o job");
    done(&folder, "build text -o store");
    let mut font = vec![0, 1, 0, 0, 0, 1, 0, 0, 0, 0, 0, 0];
    font.extend(*b"head\0\0\0\0\0\0\0\x1C\0\0\0\0");
    put(&folder, "font", font);
    let font = "fenikezo: font is a font: look at it by 'fenikezo font show font'\n";
    for arguments in [
        "build font",
        "build font --axes 1",
        "show font",
        "pack font -o new",
        "read font 0 0 0",
    ] {
        assert_eq!(failed(&folder, arguments, 1), font, "{arguments}");
    }
    let store = "fenikezo: store is a store, and no job: look at it by 'fenikezo show store'\n";
    for arguments in ["build store", "part store 0 1 --axes 1", "check store"] {
        assert_eq!(failed(&folder, arguments, 1), store, "{arguments}");
    }
    let said = failed(&folder, "pack job -o new", 1);
    assert_eq!(said, "fenikezo: job is no text, maybe a job already\n");
    for (file, what) in [
        (
            "text",
            "this is the text of a job: 'fenikezo build' makes its store",
        ),
        (
            "job",
            "this looks like a job: 'fenikezo build' makes its store",
        ),
    ] {
        let said = failed(&folder, &format!("read {file} 0 0 0"), 2);
        assert_eq!(
            said,
            format!("fenikezo: {file}: refused: 20 BAD_STORE: {what}\n")
        );
    }
    let said = failed(&folder, "font show text", 1);
    assert_eq!(said, "fenikezo: text: no font but a text\n");
    let said = failed(&folder, "font show store", 1);
    assert_eq!(
        said,
        "fenikezo: store: no font but a store: look at it by 'fenikezo show'\n"
    );
    let said = failed(&folder, "build job", 1);
    assert_eq!(
        said,
        "fenikezo: job is a job: say --axes N (it looks like 1)\n"
    );
    let said = failed(&folder, "build text --axes 2", 1);
    assert_eq!(
        said,
        "fenikezo: text is a text for 'axes 1', and --axes says 2\n"
    );
    put(&folder, "empty", "");
    let said = failed(&folder, "pack empty -o new", 1);
    assert_eq!(
        said,
        "fenikezo: empty: line 1: the text is empty; begin with 'axes N'\n"
    );
    let said = failed(&folder, "build empty", 1);
    assert!(
        said.starts_with("fenikezo: empty is empty: a text begins with 'axes N'"),
        "{said}"
    );
    done(&folder, "build empty --axes 1");
}

#[test]
fn all_that_is_wrong_up_to_twenty() {
    let folder = folder("twenty");
    put(
        &folder,
        "text",
        format!("axes 1\n{}", "set a=1\n".repeat(22)),
    );
    let said = failed(&folder, "pack text -o job", 1);
    let lines: Vec<&str> = said.lines().collect();
    assert_eq!(lines.len(), 21);
    assert_eq!(
        lines[0],
        "fenikezo: text: line 2: no region 'a' before this line"
    );
    assert_eq!(
        lines[19],
        "fenikezo: text: line 21: no region 'a' before this line"
    );
    assert_eq!(lines[20], "fenikezo: text: and 2 more");
    put(&folder, "text", b"\xEF\xBB\xBFaxes\nset b=1 # \xE9\n");
    assert_eq!(
        failed(&folder, "forecast text", 1),
        "fenikezo: text: line 1, column 1: a byte order mark (BOM) begins the text; save it \
         without one\n\
         fenikezo: text: line 1: 'axes' has no number; write 'axes N', 1 to 64\n\
         fenikezo: text: line 2, column 11: byte 0xE9 is no UTF-8; save the text as UTF-8\n"
    );
}

#[test]
fn coordinates_out_of_order() {
    let folder = folder("out_of_order");
    put(
        &folder,
        "text",
        "axes 2\nregion a 0 1 1 0 0 0\nregion b 0 0 0 1 0.5 +1\nset b=1\n",
    );
    let (out, said) = ended(&folder, "build text -o store", 0);
    assert!(out.starts_with("bytes "), "{out}");
    let words = "start, peak and end of 'b' on axis 1 are not in order (1 0.5 1): a reader passes \
                 over that axis, and the panel's profile refuses the region\n";
    assert_eq!(said, format!("fenikezo: text: warning: line 3: {words}"));
    ended(&folder, "pack text -o job", 0);
    let (_, said) = ended(&folder, "show job --axes 2", 0);
    let words = words.replace("'b'", "'r1'");
    assert_eq!(said, format!("fenikezo: job: warning: {words}"));
}

/// r0 of the job is not the first region of the store, since that goes by first use.
#[test]
fn a_region_has_one_name() {
    let folder = folder("one_name");
    let text = "axes 1\nregion unused 0 0.5 1\nregion light -1 -1 0\nregion bold 0 1 1\n\
                set bold=1\nset bold=2 light=300\n";
    put(&folder, "text", text);
    done(&folder, "pack text -o job");
    done(&folder, "build text -o store");
    let columns = |arguments: &str| {
        let shown = done(&folder, arguments);
        let row = shown.lines().find(|line| line.starts_with("row"));
        row.unwrap()
            .split_whitespace()
            .skip(1)
            .collect::<Vec<_>>()
            .join(" ")
    };
    assert_eq!(columns("show store"), "#1:2 #0:1");
    assert_eq!(columns("show store --names text"), "light:2 bold:1");
    assert_eq!(columns("show store --names job"), "r1:2 r2:1");
    let shown = done(&folder, "show store --names text");
    assert!(
        shown.contains("\nbold       0         0         1         1\n"),
        "{shown}"
    );
    let shown = done(&folder, "show text");
    assert!(
        shown.contains("\nbold       0         0         1         1\n"),
        "{shown}"
    );
    assert!(
        shown.ends_with("\n0       bold=1\n1       bold=2 light=300\n"),
        "{shown}"
    );
    let shown = done(&folder, "show job --axes 1");
    assert!(
        shown.ends_with("\n0       r2=1\n1       r2=2 r1=300\n"),
        "{shown}"
    );
    assert_eq!(done(&folder, "show --text text"), text);
    let said = failed(&folder, "show text --names job", 1);
    assert_eq!(said, "fenikezo: text is no store: leave out --names\n");
    let parted = "set 0 and set 1 part at bold (0 1 1): 1 and 2\n";
    assert_eq!(done(&folder, "part text 0 1"), parted);
    let parted = "set 0 and set 1 part at r2 (0 1 1): 1 and 2\n";
    assert_eq!(done(&folder, "part job 0 1 --axes 1"), parted);
}

/// A text is as good as its job, also on standard input.
#[test]
fn a_text_or_its_job() {
    let folder = folder("alike");
    put(&folder, "text", TWO_SETS);
    done(&folder, "pack text -o job");
    for command in ["build", "forecast", "part 0 1", "widths -o hvar"] {
        let (name, rest) = command.split_once(' ').unwrap_or((command, ""));
        let by_text = done(&folder, &format!("{name} text {rest}"));
        let by_job = done(&folder, &format!("{name} job {rest} --axes 1"));
        assert_eq!(by_text.replace("bold", "r0"), by_job, "{command}");
        let piped = run(&folder, &format!("{name} - {rest}"), TWO_SETS.as_bytes());
        assert_eq!(
            String::from_utf8(piped.stdout).unwrap(),
            by_text,
            "{command}"
        );
    }
}
