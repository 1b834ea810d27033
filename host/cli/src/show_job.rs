//! A job as tables.

use crate::f2dot14;
use crate::job::Job;
use crate::json::{list, object, Json};
use crate::names;
use crate::text::values;
use ivs::Tent;
use std::fmt::Write;

pub fn table(job: &Job) -> String {
    let mut text = format!(
        "job: {}, {}, {}\n",
        count(job.axes, "axis", "axes"),
        count(job.regions.len(), "region", "regions"),
        count(job.sets.len(), "set", "sets")
    );
    text += &regions(&job.names, &job.regions);
    text += "\nset     values\n";
    for (number, set) in job.sets.iter().enumerate() {
        // Writing to a string cannot fail.
        let _ = match set.as_slice() {
            [] => writeln!(text, "{number:<7} (empty)"),
            set => writeln!(text, "{number:<7}{}", values(&job.names, set)),
        };
    }
    text
}

pub fn count(number: usize, one: &str, many: &str) -> String {
    format!("{number} {}", if number == 1 { one } else { many })
}

/// The table of regions, a line for each axis; of stores too.
pub fn regions(names: &[String], regions: &[Vec<Tent>]) -> String {
    let longest = names.iter().map(|name| name.chars().count()).max();
    let long = longest.unwrap_or_default().max(7);
    let mut text = format!("\n{:<long$} axis     start      peak       end\n", "region");
    for (name, region) in names.iter().zip(regions) {
        for (axis, &(start, peak, end)) in region.iter().enumerate() {
            let [start, peak, end] = [start, peak, end].map(f2dot14::text);
            let _ = writeln!(
                text,
                "{name:<long$} {axis:>4} {start:>9} {peak:>9} {end:>9}"
            );
        }
    }
    text
}

/// The job as JSON: its regions by name, its sets by their names.
pub fn json(job: &Job) -> Json {
    let regions = job.names.iter().zip(&job.regions);
    object([
        ("kind", "job".into()),
        ("axes", job.axes.into()),
        (
            "regions",
            list(regions, |(name, tents)| names::json(name, tents)),
        ),
        ("sets", list(&job.sets, |set| set_json(&job.names, set))),
    ])
}

/// A set as an object of its values.
pub fn set_json(names: &[String], set: &[(u16, i32)]) -> Json {
    let value = |&(region, value): &(u16, i32)| (names[usize::from(region)].clone(), value.into());
    Json::Object(set.iter().map(value).collect())
}
