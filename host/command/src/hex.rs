//! Bytes as hexadecimal text.

/// The bytes that the text stands for, two digits each, with space anywhere.
pub fn bytes(text: &str) -> Option<Vec<u8>> {
    let digits: Vec<u32> =
        text.chars().filter(|c| !c.is_whitespace()).map(|c| c.to_digit(16)).collect::<Option<_>>()?;
    let (pairs, rest) = digits.as_chunks();
    rest.is_empty().then(|| pairs.iter().map(|[high, low]| (16 * high + low) as u8).collect())
}

/// The text of these bytes.
pub fn text(bytes: &[u8]) -> String {
    bytes.iter().map(|byte| format!("{byte:02X}")).collect()
}

#[cfg(test)]
mod tests {
    use super::*;

    #[test]
    fn text_and_bytes_belong_together() {
        assert_eq!(bytes(" 02 001c\tFf "), Some(vec![2, 0, 28, 255]));
        assert_eq!(bytes(""), Some(vec![]));
        assert_eq!(["0", "0g", "001", "é0"].map(bytes), [None, None, None, None]);
        let all: Vec<u8> = (0..=255).collect();
        assert_eq!(bytes(&text(&all)), Some(all));
    }
}
