//! Lines into an account book.
//!
//! `account 0 paging secret VMA callback 1/1/447700900000`

use super::words::Words;
use super::ScriptError;
use crate::centre::{BookRecord, ACCOUNTS, BOOK, BOOK_RECORD};

/// Reads a description of a book and gives its octets. Unlike a script, a book is wanted
/// well formed, so it is refused here if it isn't.
pub fn book(description: &str) -> Result<Vec<u8>, ScriptError> {
    let mut book = vec![0; BOOK];
    for (line, text) in (1..).zip(description.lines()) {
        read_line(&mut book, text).map_err(|message| ScriptError { line, message })?;
    }
    Ok(book)
}

fn read_line(book: &mut [u8], line: &str) -> Result<(), String> {
    let mut words = Words::of(line)?;
    match words.any() {
        None => return Ok(()),
        Some(word) if word.octets == b"account" => {}
        Some(word) => return Err(super::words::unexpected("account", &word)),
    }
    let number = account(&mut words)?;
    let record = read_record(words)?;
    book[BOOK_RECORD * number..][..BOOK_RECORD].copy_from_slice(&record);
    Ok(())
}

/// The number of an account that there is.
pub fn account(words: &mut Words) -> Result<usize, String> {
    match usize::from(words.octet("an account number")?) {
        number if number < ACCOUNTS => Ok(number),
        number => Err(format!(
            "expected an account number from 0 to 7, found {number}"
        )),
    }
}

fn read_record(words: Words) -> Result<[u8; BOOK_RECORD], String> {
    let record = record(words, 1)?;
    if !BookRecord(&record).is_well_formed() {
        return Err("expected ASCII names and a callback address of 1 to 20 digits".to_string());
    }
    Ok(record)
}

/// Lays out a record, and leaves so many octets free at the end of each text.
pub fn record(mut words: Words, free: usize) -> Result<[u8; BOOK_RECORD], String> {
    let mut record = [0; BOOK_RECORD];
    for (at, size, what) in [
        (0, 16, "a system_id"),
        (16, 9, "a password"),
        (25, 13, "a system_type"),
    ] {
        put(&mut record, at, size - free, what, &words.octets(what)?)?;
    }
    words.keyword("callback")?;
    let what = "a callback address";
    let callback = words.address(what)?;
    words.end()?;
    record[38] = callback.ton;
    record[39] = callback.npi;
    put(&mut record, 40, 21 - free, what, &callback.text)?;
    Ok(record)
}

fn put(
    record: &mut [u8],
    at: usize,
    longest: usize,
    what: &str,
    text: &[u8],
) -> Result<(), String> {
    if text.len() > longest {
        return Err(format!(
            "expected {what} of at most {longest} octets, found {}",
            text.len()
        ));
    }
    record[at..at + text.len()].copy_from_slice(text);
    Ok(())
}
