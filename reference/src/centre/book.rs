//! One record of the account book.

use super::party::Party;
use super::same::Same;
use super::text::{is_ascii, is_digits, is_zero, stored, up_to_zero};
use std::ops::Range;

/// The size of a record of the book.
pub const BOOK_RECORD: usize = 64;

const SYSTEM_ID: Range<usize> = 0..16;
const PASSWORD: Range<usize> = 16..25;
const SYSTEM_TYPE: Range<usize> = 25..38;
const CALLBACK_TON: usize = 38;
const CALLBACK_NPI: usize = 39;
const CALLBACK: Range<usize> = 40..61;
const SPARE: Range<usize> = 61..64;

#[derive(Clone, Copy)]
pub struct BookRecord<'a>(pub &'a [u8; BOOK_RECORD]);

impl<'a> BookRecord<'a> {
    pub fn system_id(self) -> &'a [u8] {
        up_to_zero(&self.0[SYSTEM_ID])
    }

    pub fn password(self) -> &'a [u8] {
        up_to_zero(&self.0[PASSWORD])
    }

    pub fn system_type(self) -> &'a [u8] {
        up_to_zero(&self.0[SYSTEM_TYPE])
    }

    /// Who the source is when a request names none.
    pub fn callback(self) -> Party<'a> {
        Party {
            ton: self.0[CALLBACK_TON],
            npi: self.0[CALLBACK_NPI],
            address: up_to_zero(&self.0[CALLBACK]),
        }
    }

    pub fn is_used(self) -> bool {
        !is_zero(self.0)
    }

    pub fn is_well_formed(self) -> bool {
        let names = [SYSTEM_ID, PASSWORD, SYSTEM_TYPE];
        names
            .into_iter()
            .all(|name| ended_text(&self.0[name]).is_some_and(is_ascii))
            && ended_text(&self.0[CALLBACK]).is_some_and(is_digits)
            && is_zero(&self.0[SPARE])
    }

    /// A record that a session can be bound to.
    pub fn is_usable(self) -> bool {
        self.is_used() && self.is_well_formed()
    }

    /// Whether a bind with these names is looking for this record.
    pub fn is_named(self, same: Same, system_id: &[u8], system_type: &[u8]) -> bool {
        self.is_usable()
            && same.system_id(system_id, self.system_id())
            && same.system_type(system_type, self.system_type())
    }
}

/// A text of the book, which ends with at least one zero octet.
fn ended_text(field: &[u8]) -> Option<&[u8]> {
    stored(field).filter(|text| text.len() < field.len())
}

#[cfg(test)]
mod tests {
    use super::*;

    fn record() -> [u8; BOOK_RECORD] {
        let mut record = [0; BOOK_RECORD];
        record[..6].copy_from_slice(b"paging");
        record[16..22].copy_from_slice(b"secret");
        record[25..28].copy_from_slice(b"VMA");
        record[38] = 1;
        record[39] = 2;
        record[40..44].copy_from_slice(b"4477");
        record
    }

    fn changed(at: usize, octet: u8) -> bool {
        let mut record = record();
        record[at] = octet;
        BookRecord(&record).is_well_formed()
    }

    #[test]
    fn fields_are_where_the_outline_puts_them() {
        let octets = record();
        let record = BookRecord(&octets);
        assert!(record.is_usable());
        assert_eq!(record.system_id(), b"paging");
        assert_eq!(record.password(), b"secret");
        assert_eq!(record.system_type(), b"VMA");
        let callback = record.callback();
        assert_eq!((callback.ton, callback.npi), (1, 2));
        assert_eq!(callback.address, b"4477");
    }

    #[test]
    fn an_all_zero_record_is_unused() {
        assert!(!BookRecord(&[0; BOOK_RECORD]).is_used());
        assert!(!BookRecord(&[0; BOOK_RECORD]).is_usable());
    }

    #[test]
    fn ill_formed_records() {
        assert!(!changed(0, 0x80), "system_id is ASCII");
        assert!(!changed(15, b'x'), "nothing behind the zero");
        assert!(!changed(23, b'x'), "nothing behind the password's zero");
        assert!(!changed(37, b'x'), "nothing behind the type's zero");
        assert!(!changed(40, b'a'), "the callback has digits");
        assert!(!changed(40, b' '), "the callback has no spaces");
        assert!(!changed(40, 0), "the callback isn't empty");
        assert!(!changed(60, b'1'), "the callback ends with a zero");
        for spare in 61..64 {
            assert!(!changed(spare, 1), "the last three octets are zero");
        }
        assert!(changed(38, 255) && changed(39, 255), "ton and npi are free");
    }

    #[test]
    fn texts_that_fill_their_field_have_no_end() {
        for (field, room) in [(0, 16), (16, 9), (25, 13), (40, 21)] {
            let mut full = record();
            full[field..field + room].fill(b'1');
            assert!(!BookRecord(&full).is_well_formed(), "{field}");
            full[field + room - 1] = 0;
            assert!(BookRecord(&full).is_well_formed(), "{field}");
        }
    }

    #[test]
    fn an_empty_system_id_is_well_formed() {
        let mut octets = record();
        octets[..38].fill(0);
        assert!(BookRecord(&octets).is_usable());
    }

    #[test]
    fn only_a_usable_record_has_names() {
        let named = |octets: &[u8; BOOK_RECORD], system_id, system_type| {
            BookRecord(octets).is_named(Same::sound(), system_id, system_type)
        };
        let mut octets = record();
        assert!(named(&octets, b" paging", b"VMA") && named(&octets, b"paging", b"  VMA"));
        assert!(!named(&octets, b"VMA", b"VMA") && !named(&octets, b"paging", b"paging"));
        octets[63] = 1;
        assert!(!named(&octets, b"paging", b"VMA"), "ill formed");
        assert!(!named(&[0; BOOK_RECORD], b"", b""), "unused");
    }

    #[test]
    fn a_system_id_of_spaces_only_is_well_formed() {
        let mut octets = record();
        octets[..6].fill(b' ');
        assert!(BookRecord(&octets).is_usable());
    }
}
