//! The forms that texts may have, wherever they stand: on the wire, in the book, in the table.

/// The length of a time without its NUL.
pub const STAMP: usize = 16;

/// Names, passwords, service types and ranges: ASCII, the empty text included.
pub fn is_ascii(text: &[u8]) -> bool {
    text.is_ascii()
}

/// Empty, or leading spaces and then at least one decimal digit.
pub fn is_address(text: &[u8]) -> bool {
    text.is_empty() || is_digits(without_leading_spaces(text))
}

/// At least one decimal digit, and nothing else.
pub fn is_digits(text: &[u8]) -> bool {
    !text.is_empty() && text.iter().all(u8::is_ascii_digit)
}

/// Leading spaces and then 1 to 8 hex digits, read as a number. The caller deals with an
/// empty text, which is no id at all.
pub fn message_id(text: &[u8]) -> Option<u32> {
    let digits = without_leading_spaces(text);
    if digits.is_empty() || digits.len() > 8 {
        return None;
    }
    digits.iter().try_fold(0u32, |number, &digit| {
        let value = char::from(digit).to_digit(16)?;
        Some(number << 4 | value)
    })
}

/// YYMMDDhhmmsstnnp.
pub fn is_time(text: &[u8]) -> bool {
    let Ok(time) = <&[u8; STAMP]>::try_from(text) else {
        return false;
    };
    let pair = |at: usize| 10 * (time[at] - b'0') + (time[at + 1] - b'0');
    is_digits(&time[..15])
        && (1..=12).contains(&pair(2))
        && (1..=31).contains(&pair(4))
        && pair(6) <= 23
        && pair(8) <= 59
        && pair(10) <= 59
        && pair(13) <= 48
        && matches!(time[15], b'+' | b'-')
}

/// A text kept in a field of fixed size: the octets up to the first zero. None where
/// something stands behind that zero, since unused octets are zero.
pub fn stored(field: &[u8]) -> Option<&[u8]> {
    let text = up_to_zero(field);
    is_zero(&field[text.len()..]).then_some(text)
}

/// The octets before the first zero.
pub fn up_to_zero(field: &[u8]) -> &[u8] {
    let end = field.iter().position(|&octet| octet == 0);
    &field[..end.unwrap_or(field.len())]
}

pub fn is_zero(octets: &[u8]) -> bool {
    octets.iter().all(|&octet| octet == 0)
}

pub fn without_leading_spaces(text: &[u8]) -> &[u8] {
    let spaces = text.iter().take_while(|&&octet| octet == b' ').count();
    &text[spaces..]
}

#[cfg(test)]
mod tests {
    use super::*;

    /// Names the text for which it doesn't hold.
    fn assert_each(holds: impl Fn(&[u8]) -> bool, texts: &[&[u8]]) {
        for text in texts {
            assert!(holds(text), "{}", text.escape_ascii());
        }
    }

    #[test]
    fn addresses() {
        assert_each(is_address, &[b"", b"1", b"  1", b"0123456789", b" 0"]);
        assert_each(
            |text| !is_address(text),
            &[
                b" ", b"    ", b"1 ", b"1 2", b"+44", b"a", b"\t1", b"1\x801",
            ],
        );
    }

    #[test]
    fn p10_and_other_ids() {
        assert_eq!(message_id(b"  1a"), Some(26));
        assert_eq!(message_id(b"0"), Some(0));
        assert_eq!(message_id(b"FfFfFfFf"), Some(u32::MAX));
        assert_eq!(message_id(b"00000001"), Some(1));
        assert_each(
            |text| message_id(text).is_none(),
            &[
                b"",
                b"  ",
                b"1 ",
                b"g",
                b"0x1",
                b"-1",
                b"000000001",
                b"1\xff",
            ],
        );
    }

    #[test]
    fn times_at_their_limits() {
        assert_each(
            is_time,
            &[
                b"960701120000000+",
                b"000101000000000-",
                b"991231235959948+",
                b"960231000000048-",
            ],
        );
        assert_each(
            |text| !is_time(text),
            &[
                b"",
                b"96070112000000+",
                b"9607011200000000+",
                b"960001120000000+",
                b"961301120000000+",
                b"960700120000000+",
                b"960732120000000+",
                b"960701240000000+",
                b"960701126000000+",
                b"960701120060000+",
                b"960701120000049+",
                b"960701120000000 ",
                b"9607011200000000",
                b"96070112000000a+",
                b"9607011200000\x000+",
            ],
        );
    }

    #[test]
    fn stored_texts_have_nothing_behind_their_first_zero() {
        assert_eq!(stored(b"ab\0\0"), Some(&b"ab"[..]));
        assert_eq!(stored(b"abcd"), Some(&b"abcd"[..]));
        assert_eq!(stored(b"\0\0"), Some(&b""[..]));
        assert_eq!(stored(b"a\0b\0"), None);
        assert_eq!(stored(b"\0b"), None);
    }
}
