//! Lists of rows as text: a row a line, as the map has it (outer x 65536 + inner) or as its outer
//! and inner number. `#` starts a comment.

use crate::failure::Failure;
use crate::files;
use crate::wrong::Wrong;
use std::path::Path;

/// The rows of a file.
pub fn read(file: &Path) -> Result<Vec<u32>, Failure> {
    let bytes = files::read(file)?;
    let wrong = |wrong| Failure::Text(file.display().to_string(), wrong);
    let Ok(text) = String::from_utf8(bytes) else {
        let what = Wrong::line(1, "this is no list of rows: it is no text".to_string());
        return Err(wrong(vec![what]));
    };
    parse(&text).map_err(wrong)
}

/// The rows of a text, or what is wrong with it, by lines.
fn parse(text: &str) -> Result<Vec<u32>, Vec<Wrong>> {
    let (mut rows, mut wrongs) = (Vec::new(), Vec::new());
    for (number, line) in text.lines().enumerate() {
        let words: Vec<&str> = match line.split_once('#') {
            Some((words, _)) => words.split_whitespace().collect(),
            None => line.split_whitespace().collect(),
        };
        let row = match words[..] {
            [] => continue,
            [word] => word.parse().ok(),
            [outer, inner] => place(outer, inner),
            _ => None,
        };
        match row {
            Some(row) => rows.push(row),
            None => wrongs.push(Wrong::line(
                number + 1,
                format!(
                    "'{}' is no row: give outer x 65536 + inner, or both numbers, each up to 65535",
                    words.join(" ")
                ),
            )),
        }
    }
    if wrongs.is_empty() {
        Ok(rows)
    } else {
        Err(wrongs)
    }
}

fn place(outer: &str, inner: &str) -> Option<u32> {
    let (outer, inner): (u16, u16) = (outer.parse().ok()?, inner.parse().ok()?);
    Some(u32::from(outer) << 16 | u32::from(inner))
}

/// Rows as text, as the map has them.
pub fn text(rows: &[u32]) -> Vec<u8> {
    let line = |row: &u32| format!("{row}\n");
    rows.iter().map(line).collect::<String>().into_bytes()
}

#[cfg(test)]
mod tests {
    use super::*;

    #[test]
    fn in_both_forms() {
        let text = "3\n1 2 # the second\n\n# none\n4294967295\n";
        assert_eq!(parse(text).ok(), Some(vec![3, 65_538, u32::MAX]));
        assert_eq!(parse("").ok(), Some(vec![]));
        for wrong in ["x", "-1", "4294967296", "1 65536", "1 2 3", "1,2"] {
            assert_eq!(
                parse(wrong).err().map(|wrong| wrong.len()),
                Some(1),
                "{wrong}"
            );
        }
        assert_eq!(super::text(&[3, 65_538]), b"3\n65538\n");
    }
}
