//! Account books.

use super::{texts, Manner};
use crate::centre::{ACCOUNTS, BOOK, BOOK_RECORD};
use crate::random::Random;

/// Names of which some differ only in a space behind them, in a tab or in case.
const NAMES: [&[u8]; 8] = [
    b"paging",
    b"paging ",
    b"Paging",
    b"voicemail",
    b"\tpaging",
    b"fifteen letters",
    b"x",
    b"",
];

const TYPES: [&[u8]; 4] = [b"VMA", b"", b"VMA ", b"twelve chars"];

const PASSWORDS: [&[u8]; 6] = [b"secret", b"", b"12345678", b"Secret", b" secret", b" "];

const CALLBACKS: [&[u8]; 4] = [b"447700900000", b"1", b"01234567890123456789", b"5"];

/// A book of eight accounts. Unless callers are well behaved, some share a name, some have one of
/// spaces only, some are unused and some are ill formed.
pub fn book(random: &mut Random, manner: Manner) -> Vec<u8> {
    let mut book = vec![0; BOOK];
    let shift = random.below(NAMES.len());
    for account in 0..ACCOUNTS {
        let record = &mut book[BOOK_RECORD * account..][..BOOK_RECORD];
        let name = NAMES[(account + shift) % NAMES.len()];
        fill(random, record, name);
        if manner == Manner::WellBehaved {
            continue;
        }
        match random.below(24) {
            0 => record.fill(0),
            1 => hurt(random, record),
            2..4 => fill(random, record, NAMES[shift]),
            4 => fill(random, record, b" "),
            _ => {}
        }
    }
    book
}

/// Writes a well-formed record.
fn fill(random: &mut Random, record: &mut [u8], name: &[u8]) {
    let system_id = texts::respaced_if_any(random, name, texts::SYSTEM_ID);
    let system_type = random.choose(&TYPES);
    let system_type = texts::respaced(random, system_type, texts::SYSTEM_TYPE);
    record.fill(0);
    put(record, 0, &system_id);
    put(record, 16, random.choose(&PASSWORDS));
    put(record, 25, &system_type);
    record[38] = random.below(4) as u8;
    record[39] = random.below(3) as u8;
    put(record, 40, random.choose(&CALLBACKS));
}

fn put(record: &mut [u8], at: usize, text: &[u8]) {
    record[at..at + text.len()].copy_from_slice(text);
}

/// Breaks one rule of a book record.
pub fn hurt(random: &mut Random, record: &mut [u8]) {
    match random.below(12) {
        0 => record[random.below(16)] |= 0x80,
        1 => record[16 + random.below(9)] |= 0x80,
        2 => record[25 + random.below(13)] |= 0x80,
        3 => record[random.choose(&[15, 24, 37, 60])] = b'1',
        4 => record[0..16].fill(b'x'),
        5 => record[40..61].fill(b'1'),
        6 => record[40..61].fill(0),
        7 => record[40] = random.choose(b"a/:\xB1"),
        8 => {
            record[40..61].fill(0);
            put(record, 40, b" 5");
        }
        9 => record[61 + random.below(3)] = 1 + random.octet() % 255,
        10 => record.fill(0),
        _ => record[random.below(BOOK_RECORD)] = random.octet(),
    }
}
