//! `fenikezo why`, from outside.

mod common;

use common::{done, ended, failed, folder};
use std::fmt::Write;
use std::fs;
use std::path::Path;

/// Twenty sets of bold and as many of light, which are not worth joining, and one set again.
fn two_groups(folder: &Path) {
    let mut text = "axes 1\nregion bold 0 1 1\nregion light -1 -1 0\n".to_string();
    for region in ["bold", "light"] {
        for value in 1..=20 {
            // Writing to a string cannot fail.
            let _ = writeln!(text, "set {region}={value}");
        }
    }
    fs::write(folder.join("text"), text + "set bold=7\n").unwrap();
    done(folder, "pack text -o job");
}

#[test]
fn in_a_sentence() {
    let folder = folder("why");
    two_groups(&folder);
    for file in ["text", "job --axes 1"] {
        let said = |sets: &str| done(&folder, &format!("why {file} {sets}"));
        assert_eq!(
            said("3 25"),
            "set 3 and set 25 are in different subtables because joining their groups would cost \
             30 bytes more (32 + 32 apart, 94 together)\n"
        );
        assert_eq!(
            said("3 5"),
            "set 3 and set 5 are in the same subtable, rows 3 and 5 of subtable 0, because they \
             are in one group\n"
        );
        assert_eq!(
            said("40 6"),
            "set 40 and set 6 share row 6 of subtable 0 because they are equal\n"
        );
        assert_eq!(
            said("6 6 --ids"),
            "id 6 and id 6 share row 6 of subtable 0 because they are one id\n"
        );
        let said = said("39 0 --ids");
        let why = "id 39 and id 0 are in different subtables because joining ";
        assert!(said.starts_with(why), "{said}");
        let said = failed(&folder, &format!("why {file} 0 41"), 2);
        assert!(said.contains("64 NO_SET: the job has 41 sets, "), "{said}");
        let said = failed(&folder, &format!("why {file} 0 40 --ids"), 2);
        assert!(said.contains("62 NO_ID: "), "{said}");
    }
    let said = failed(&folder, "why job 0 1", 1);
    assert!(said.contains("is a job: say --axes N"), "{said}");
}

#[test]
fn as_json() {
    let folder = folder("why_json");
    two_groups(&folder);
    assert_eq!(
        done(&folder, "why text 3 25 --json"),
        "{\"why\": \"never_joined\", \"ids\": [3, 25], \"rows\": [{\"outer\": 0, \"inner\": 3}, \
         {\"outer\": 1, \"inner\": 5}], \"costs\": [32, 32], \"joined\": 94, \"gain\": -30}\n"
    );
    assert_eq!(
        done(&folder, "why text 3 5 --json"),
        "{\"why\": \"same_subtable\", \"ids\": [3, 5], \"rows\": [{\"outer\": 0, \"inner\": 3}, \
         {\"outer\": 0, \"inner\": 5}], \"costs\": null, \"joined\": null, \"gain\": null}\n"
    );
    let equal = done(&folder, "why text 40 6 --json");
    assert!(equal.starts_with("{\"why\": \"equal\", \"ids\": [6, 6], "));
    let (out, _) = ended(&folder, "why text 0 40 --ids --json", 2);
    let refused = "{\"file\": \"text\", \"refused\": 62, \"name\": \"NO_ID\", ";
    assert!(out.starts_with(refused), "{out}");
}

/// Of 65,536 sets of one shape the last row is cut off.
#[test]
fn a_group_that_is_cut() {
    let folder = folder("why_cut");
    fs::write(
        folder.join("job"),
        jobs::edges::one_shape(65_536).to_bytes(),
    )
    .unwrap();
    assert_eq!(
        done(&folder, "why job 0 65535 --axes 1"),
        "set 0 and set 65535 are in different subtables, 0 and 1, because their one group has \
         more than 65,535 rows and was cut\n"
    );
    let said = done(&folder, "why job 0 65535 --axes 1 --json");
    assert!(said.starts_with("{\"why\": \"cut_apart\", "), "{said}");
    let said = done(&folder, "why job 0 65534 --axes 1");
    assert!(said.contains("are in the same subtable, rows 0 and 65534"));
}
