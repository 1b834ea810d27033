//! `--json`: one shape a command (docs/JSON.md), refusals too.

mod common;

use common::{done, ended, folder, TWO_SETS};
use std::fs;

const REFUSED: &str = "{\"file\": \"bad\", \"refused\": 30, \"name\": \"UNKNOWN_KIND\", \"place\": 0, \
                       \"byte\": 0, \"words\": \"30 UNKNOWN_KIND at record 0 (byte 0): byte 0, the \
                       kind, is 0x04 and must be 1 (axis), 2 (value) or 3 (end); look whether bytes \
                       were lost or added before it\"}\n";

#[test]
fn what_each_command_says() {
    let folder = folder("json_each");
    fs::write(folder.join("text"), TWO_SETS).unwrap();
    let said = |arguments: &str| done(&folder, &format!("{arguments} --json"));
    assert_eq!(
        said("pack text -o job"),
        "{\"axes\": 1, \"regions\": 2, \"sets\": 2, \"bytes\": 72}\n"
    );
    let numbers = "{\"bytes\": 42, \"subtables\": 1, \"regions\": 2, \"ids\": 2, \"shapes\": 2, \
                   \"merges\": 1, \"pairs\": 1, \"size_before\": 26, \"size_after\": 18, \
                   \"forecast\": 42}";
    let counts = numbers.trim_end_matches('}');
    assert_eq!(
        said("build text -o store"),
        format!("{counts}, \"origins\": [[0, 0], [1, 0]]}}\n")
    );
    let forecast = said("forecast text");
    assert!(forecast.starts_with(&format!("{{\"dedup\": {numbers}, \"implicit\": {{")));
    assert!(forecast.ends_with(", \"smaller\": null}\n"), "{forecast}");
    assert_eq!(
        said("read store 0 1 0"),
        "{\"value\": 1, \"column\": true}\n"
    );
    let bold = "{\"name\": \"bold\", \"coordinates\": [[0, 1, 1]]}";
    let light = "{\"name\": \"light\", \"coordinates\": [[-1, -1, 0]]}";
    assert_eq!(
        said("show text"),
        format!(
            "{{\"kind\": \"job\", \"axes\": 1, \"regions\": [{bold}, {light}], \
             \"sets\": [{{\"bold\": 1}}, {{\"light\": 1}}]}}\n"
        )
    );
    assert_eq!(
        said("show store --names text"),
        format!(
            "{{\"kind\": \"store\", \"bytes\": 42, \"axes\": 1, \"regions\": [{bold}, {light}], \
             \"subtables\": [{{\"columns\": [{{\"region\": \"bold\", \"bytes\": 1}}, \
             {{\"region\": \"light\", \"bytes\": 1}}], \"rows\": [[0, 1], [1, 0]]}}]}}\n"
        )
    );
    assert_eq!(
        said("part text 0 1"),
        format!("{{\"first_is\": \"larger\", \"region\": {bold}, \"first\": 1, \"second\": 0}}\n")
    );
    assert_eq!(
        said("part text 1 1"),
        "{\"first_is\": \"equal\", \"region\": null, \"first\": null, \"second\": null}\n"
    );
    assert_eq!(
        said("widths text -o hvar"),
        "{\"dedup\": {\"bytes\": 68}, \"implicit\": {\"bytes\": 62}, \"written\": \"implicit\"}\n"
    );
    assert_eq!(
        said("check text"),
        format!(
            "{{\"file\": \"text\", \"kind\": \"text\", \"fine\": true, \"axes\": 1, \"regions\": 2, \
             \"sets\": 2, \"wrong\": [], \"refused\": [], \"warnings\": [], {}",
            &forecast[1..]
        )
    );
}

#[test]
fn what_is_not_done() {
    let folder = folder("json_refused");
    fs::write(folder.join("bad"), [4; 12]).unwrap();
    fs::write(folder.join("wrong"), "axes 1\nset a=1\n\u{FEFF}\n").unwrap();
    for command in [
        "build bad",
        "forecast bad",
        "show bad",
        "part bad 0 1",
        "why bad 0 1",
        "widths bad -o hvar",
    ] {
        let (out, said) = ended(&folder, &format!("{command} --axes 1 --json"), 2);
        assert_eq!(out, REFUSED, "{command}");
        assert!(
            said.starts_with("fenikezo: bad: refused: 30 UNKNOWN_KIND "),
            "{said}"
        );
    }
    let (out, _) = ended(&folder, "read bad 0 0 0 --json", 2);
    assert!(
        out.starts_with("{\"file\": \"bad\", \"refused\": 20, "),
        "{out}"
    );
    for command in [
        "build wrong",
        "pack wrong -o job",
        "show wrong",
        "part wrong 0 1",
        "why wrong 0 1",
    ] {
        let (out, _) = ended(&folder, &format!("{command} --json"), 1);
        assert_eq!(
            out,
            "{\"file\": \"wrong\", \"wrong\": [{\"line\": 2, \"column\": null, \"words\": \"no \
             region 'a' before this line\"}, {\"line\": 3, \"column\": null, \"words\": \
             \"'\u{FEFF}' begins no line; write 'axes N', 'region NAME START PEAK END ..' or 'set \
             NAME=VALUE ..'\"}]}\n",
            "{command}"
        );
    }
    let (out, _) = ended(&folder, "build nothing --json", 1);
    assert!(
        out.starts_with("{\"failed\": \"cannot read nothing: "),
        "{out}"
    );
}

/// Both modes refuse, each for its own reason.
#[test]
fn what_neither_mode_does() {
    let folder = folder("json_neither");
    let mut text = "axes 1\n".to_string();
    let regions = 0..11;
    text.extend(regions.map(|region| format!("region r{region} 0 0.{:02} 1\n", region + 1)));
    for shape in 1..=1_025 {
        let named = (0..11).filter(|bit| shape >> bit & 1 == 1);
        let values: String = named.map(|bit| format!(" r{bit}=1")).collect();
        text += &format!("set{values}\n");
    }
    text += &"set\n".repeat(65_536);
    fs::write(folder.join("text"), text).unwrap();
    let (out, _) = ended(&folder, "forecast text --json", 2);
    let both = "{\"file\": \"text\", \"dedup\": {\"refused\": 10, ";
    assert!(out.starts_with(both), "{out}");
    assert!(out.contains(", \"implicit\": {\"refused\": 9, "), "{out}");
    let (out, _) = ended(&folder, "check text --json", 2);
    assert!(out.contains("\"fine\": false"), "{out}");
    assert!(out.contains("\"refused\": [{\"refused\": 10, "), "{out}");
}
