//! Octets in pieces, and rows of numbers; `times` repeats the one before it.

use crate::hex;
use crate::script::words::{Word, Words};

/// Hex digits and texts in quotation marks, up to the end of the line.
pub fn octets(words: Words) -> Result<Vec<u8>, String> {
    Ok(repeated(words, piece)?.concat())
}

fn piece(word: &Word) -> Result<Vec<u8>, String> {
    if word.quoted {
        return Ok(word.octets.clone());
    }
    hex::octets(&word.text())
}

/// What each word gives, as often as it is asked for.
pub fn repeated<T: Clone>(
    mut words: Words,
    read: impl Fn(&Word) -> Result<T, String>,
) -> Result<Vec<T>, String> {
    let mut all = Vec::new();
    while let Some(word) = words.any() {
        let one = read(&word)?;
        let times = match words.next_if("times") {
            true => words.number("how many times")?,
            false => 1,
        };
        all.extend((0..times).map(|_| one.clone()));
    }
    Ok(all)
}

/// An octet of a record to begin at, and octets that fit there.
pub fn stretch(mut words: Words, size: usize) -> Result<(usize, Vec<u8>), String> {
    words.keyword("at")?;
    let at = usize::from(words.octet("an octet of the record")?);
    let octets = octets(words)?;
    if at + octets.len() > size {
        return Err(format!(
            "expected octets within a record of {size}, found {} from octet {at} on",
            octets.len()
        ));
    }
    Ok((at, octets))
}
