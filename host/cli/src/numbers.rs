//! The numbers of a build or a forecast, for tables and as JSON.

use crate::json::Json;
use std::fmt::Write;

/// Words for a table, name for JSON, number.
pub type Number = (&'static str, &'static str, u64);

/// All that a build says of itself.
pub fn of(done: &ivs::Done) -> [Number; 10] {
    [
        ("bytes", "bytes", done.store_bytes),
        ("subtables", "subtables", done.subtables),
        ("regions", "regions", done.regions_kept),
        ("ids", "ids", done.distinct_ids),
        ("shapes", "shapes", done.shapes),
        ("merges", "merges", done.merges),
        ("pairs weighed", "pairs", done.pairs),
        ("size before", "size_before", done.size_before),
        ("size after", "size_after", done.size_after),
        ("forecast", "forecast", done.forecast),
    ]
}

/// The numbers as a JSON object.
pub fn json(numbers: &[Number]) -> Json {
    let field = |&(_, name, number): &Number| (name.to_string(), number.into());
    Json::Object(numbers.iter().map(field).collect())
}

/// The numbers as a table.
pub fn table(numbers: &[Number]) -> String {
    let mut text = String::new();
    for (words, _, number) in numbers {
        // Writing to a string cannot fail.
        let _ = writeln!(text, "{words:<13} {number:>10}");
    }
    text
}
