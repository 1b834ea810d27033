//! F2Dot14 numbers as decimals, as people write coordinates.

const ONE: f64 = 16_384.0;

/// The nearest F2Dot14 number, if there is one: from -2 to just below 2.
pub fn parse(text: &str) -> Option<i16> {
    // Rust also takes `inf` and `1e4`, which nobody means by a coordinate.
    if !text.bytes().all(|byte| b"+-.0123456789".contains(&byte)) {
        return None;
    }
    let number = text.parse::<f64>().ok()? * ONE;
    let raw = number.round();
    (f64::from(i16::MIN)..=f64::from(i16::MAX))
        .contains(&raw)
        .then_some(raw as i16)
}

/// The shortest decimal that is read back as this number.
pub fn text(raw: i16) -> String {
    let exact = f64::from(raw) / ONE;
    (0..5)
        .map(|digits| format!("{exact:.digits$}"))
        .find(|text| parse(text) == Some(raw))
        // Five digits are always enough: they miss by less than half of 1/16384.
        .unwrap_or_else(|| format!("{exact:.5}"))
}

#[cfg(test)]
mod tests {
    use super::*;

    #[test]
    fn every_number_comes_back() {
        for raw in i16::MIN..=i16::MAX {
            assert_eq!(parse(&text(raw)), Some(raw));
        }
    }

    #[test]
    fn short_where_it_can_be() {
        assert_eq!(text(0), "0");
        assert_eq!(text(0x4000), "1");
        assert_eq!(text(-0x4000), "-1");
        assert_eq!(text(0x2000), "0.5");
        assert_eq!(text(i16::MAX), "1.99994");
    }

    #[test]
    fn a_plus_is_taken() {
        assert_eq!(parse("+1"), Some(0x4000));
        assert_eq!(parse("+.5"), Some(0x2000));
    }

    #[test]
    fn what_is_no_coordinate() {
        for text in ["", "-", "+", "+-1", "inf", "1e1", "2", "-2.1", "0x1", "1,5"] {
            assert_eq!(parse(text), None, "{text}");
        }
    }
}
