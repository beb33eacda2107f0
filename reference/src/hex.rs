//! Octets as hex digits and back.

use std::fmt::Write;

/// Two upper-case digits an octet.
pub fn text(octets: &[u8]) -> String {
    let mut text = String::with_capacity(2 * octets.len());
    for octet in octets {
        write!(text, "{octet:02X}").expect("a string takes everything");
    }
    text
}

/// Reads digits of either case; spaces may stand between them.
pub fn octets(text: &str) -> Result<Vec<u8>, String> {
    let mut digits = Vec::with_capacity(text.len());
    for letter in text.chars().filter(|letter| *letter != ' ') {
        let digit = letter
            .to_digit(16)
            .ok_or_else(|| format!("expected hex digits, found '{letter}'"))?;
        digits.push(digit as u8);
    }
    if !digits.len().is_multiple_of(2) {
        return Err(format!(
            "expected two hex digits an octet, found {} digits",
            digits.len()
        ));
    }
    Ok(digits
        .chunks_exact(2)
        .map(|pair| pair[0] << 4 | pair[1])
        .collect())
}

#[cfg(test)]
mod tests {
    use super::*;

    #[test]
    fn there_and_back() {
        assert_eq!(text(&[0, 0x1a, 0xff]), "001AFF");
        assert_eq!(octets("00 1a FF").unwrap(), [0, 0x1a, 0xff]);
        assert!(octets("0").unwrap_err().contains("1 digits"));
        assert!(octets("0g").unwrap_err().contains("'g'"));
    }
}
