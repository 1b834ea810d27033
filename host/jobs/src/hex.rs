//! Bytes and words as text.

/// Bytes as lower-case hex digits; `-` for none, so that no field is empty.
pub fn of(bytes: &[u8]) -> String {
    if bytes.is_empty() {
        return "-".into();
    }
    bytes.iter().map(|b| format!("{b:02x}")).collect()
}

/// The bytes that [`of`] wrote; none for anything else. Spaces are passed over.
pub fn to_bytes(text: &str) -> Option<Vec<u8>> {
    if text == "-" {
        return Some(Vec::new());
    }
    let digits: Option<Vec<u8>> = text
        .chars()
        .filter(|c| *c != ' ')
        .map(|c| c.to_digit(16).map(|d| d as u8))
        .collect();
    let digits = digits?;
    let pairs = digits.chunks_exact(2);
    let whole = pairs.remainder().is_empty();
    whole.then(|| pairs.map(|p| 16 * p[0] + p[1]).collect())
}

/// FNV-1a of 64 bits: tells large answers apart where they are not written out.
pub fn digest(bytes: &[u8]) -> u64 {
    bytes.iter().fold(0xCBF2_9CE4_8422_2325, |hash, &byte| {
        (hash ^ u64::from(byte)).wrapping_mul(0x0000_0100_0000_01B3)
    })
}

#[cfg(test)]
mod tests {
    use super::*;

    #[test]
    fn there_and_back() {
        assert_eq!(of(&[0, 0xAB]), "00ab");
        assert_eq!(to_bytes("00ab"), Some(vec![0, 0xAB]));
        assert_eq!(to_bytes("0001 0A"), Some(vec![0, 1, 10]));
        assert_eq!(to_bytes(&of(&[])), Some(vec![]));
        assert_eq!(to_bytes("0"), None);
        assert_eq!(to_bytes("0x"), None);
        assert_eq!(digest(b"a"), 0xAF63_DC4C_8601_EC8C);
    }
}
