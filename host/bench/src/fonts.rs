//! The jobs of fonts' stores, in the text form that `fenikezo pack` reads (../fonts).

use jobs::{Job, Region};

/// What is measured of fonts: name, text.
pub const FONTS: [(&str, &str); 7] = [
    (
        "Karla HVAR, a set a glyph",
        include_str!("../fonts/karla-hvar.job.txt"),
    ),
    (
        "Karla GDEF, a set a row",
        include_str!("../fonts/karla-gdef.job.txt"),
    ),
    (
        "Karla Italic HVAR, a set a glyph",
        include_str!("../fonts/karla-italic-hvar.job.txt"),
    ),
    (
        "Karla Italic GDEF, a set a row",
        include_str!("../fonts/karla-italic-gdef.job.txt"),
    ),
    (
        "Cantarell HVAR, a set a glyph",
        include_str!("../fonts/cantarell-hvar.job.txt"),
    ),
    (
        "Cantarell GDEF, a set a row",
        include_str!("../fonts/cantarell-gdef.job.txt"),
    ),
    (
        "Cantarell MVAR, a set a row",
        include_str!("../fonts/cantarell-mvar.job.txt"),
    ),
];

/// The job of a text as `../fonts/from_fonts.py` writes it: region n is named `rn`.
///
/// # Panics
/// Where the text is another.
pub fn job(text: &str) -> Job {
    let mut job = Job::default();
    for line in text.lines().filter(|line| !line.starts_with('#')) {
        let mut words = line.split(' ');
        match words.next() {
            Some("axes") => job.axes = words.map(number::<usize>).sum(),
            Some("region") => job.regions.push(region(words.skip(1))),
            Some("set") => job.sets.push(words.map(value).collect()),
            _ => panic!("no line of a job: {line}"),
        }
    }
    job
}

fn region<'a>(coordinates: impl Iterator<Item = &'a str>) -> Region {
    let raw: Vec<i16> = coordinates
        .map(|word| (number::<f64>(word) * 16_384.0).round() as i16)
        .collect();
    raw.chunks_exact(3).map(|c| [c[0], c[1], c[2]]).collect()
}

fn value(word: &str) -> (u16, i32) {
    let (name, value) = word.split_once('=').expect("a value is NAME=VALUE");
    (number(name.trim_start_matches('r')), number(value))
}

fn number<T: std::str::FromStr>(word: &str) -> T {
    word.parse()
        .unwrap_or_else(|_| panic!("no number in a job: {word}"))
}
