//! What regions are called: by a text's names, by their numbers in a job (`r0`), or by their
//! numbers in a store's list (`#0`), which are others.

use crate::f2dot14;
use crate::job::Job;
use crate::json::{list, object, Json};
use ivs::Tent;
use std::collections::HashMap;

/// The names of a job's regions without a text.
pub fn of_job(regions: usize) -> Vec<String> {
    (0..regions).map(|number| format!("r{number}")).collect()
}

/// The names of a store's regions: by the job's regions of the same coordinates, as far as
/// one is given and has them.
pub fn of_store(regions: &[Vec<Tent>], job: Option<&Job>) -> Vec<String> {
    let mut known: HashMap<&[Tent], &str> = HashMap::new();
    if let Some(job) = job {
        for (name, region) in job.names.iter().zip(&job.regions) {
            known.entry(region).or_insert(name);
        }
    }
    let name = |(number, region): (usize, &Vec<Tent>)| match known.get(&region[..]) {
        Some(name) => name.to_string(),
        None => format!("#{number}"),
    };
    regions.iter().enumerate().map(name).collect()
}

/// A region as JSON: its name, and start, peak and end of each axis.
pub fn json(name: &str, tents: &[Tent]) -> Json {
    let number = |raw: i16| Json::Decimal(f2dot14::text(raw));
    let axis = |&(start, peak, end): &Tent| list([start, peak, end], number);
    object([("name", name.into()), ("coordinates", list(tents, axis))])
}
