//! A name that was most likely meant.

/// The most letters that may differ.
const SLIPS: usize = 2;

/// Of these names the one that is nearest to a name, if it is near: a letter more, less, or
/// another, twice at most.
pub fn nearest<'a>(name: &str, names: impl Iterator<Item = &'a str>) -> Option<&'a str> {
    let near = names.map(|other| (slips(name, other), other));
    let (slips, other) = near.min()?;
    // Of a short name nothing would be left.
    (slips <= SLIPS && slips < name.chars().count()).then_some(other)
}

/// How many letters are to be changed, added or left out.
fn slips(name: &str, other: &str) -> usize {
    let other: Vec<char> = other.chars().collect();
    let mut row: Vec<usize> = (0..=other.len()).collect();
    for (at, letter) in name.chars().enumerate() {
        let mut before = row[0];
        row[0] = at + 1;
        for (column, &due) in other.iter().enumerate() {
            let changed = before + usize::from(letter != due);
            before = row[column + 1];
            row[column + 1] = changed.min(before + 1).min(row[column] + 1);
        }
    }
    row[other.len()]
}

#[cfg(test)]
mod tests {
    use super::*;

    #[test]
    fn what_was_meant() {
        let names = ["bold", "light", "lights", "w"];
        let meant = |name| nearest(name, names.into_iter());
        assert_eq!(meant("lihgt"), Some("light"));
        assert_eq!(meant("Bold"), Some("bold"));
        assert_eq!(meant("blod"), Some("bold"));
        assert_eq!(meant("lightsx"), Some("lights"));
        assert_eq!(meant("width"), None);
        assert_eq!(meant("x"), None);
        assert_eq!(nearest("a", [].into_iter()), None);
    }
}
