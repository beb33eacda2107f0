//! When addresses and names are the same: "leading spaces don't count when addresses, system_id
//! and system_type are compared, in requests, book and stored records alike".

use super::fault::Fault;
use super::party::Party;
use super::text::without_leading_spaces;

/// The comparisons, sound unless a fault is planted in them: of what a request has with what is
/// kept in the book or the table.
#[derive(Clone, Copy)]
pub struct Same {
    fault: Option<Fault>,
}

impl Same {
    pub const fn sound() -> Self {
        Same { fault: None }
    }

    pub fn with(fault: Option<Fault>) -> Self {
        Same { fault }
    }

    /// Sources and destinations compare in all three parts.
    pub fn party(self, sent: Party<'_>, kept: Party<'_>) -> bool {
        (sent.ton == kept.ton || self.errs(Fault::TonIgnored))
            && sent.npi == kept.npi
            && self.text(sent.address, kept.address)
    }

    /// "A system_id of spaces only, sent or in the book, matches nothing."
    pub fn system_id(self, sent: &[u8], kept: &[u8]) -> bool {
        !self.is_spaces_only(sent) && !self.is_spaces_only(kept) && self.text(sent, kept)
    }

    /// One of spaces only is as an empty one.
    pub fn system_type(self, sent: &[u8], kept: &[u8]) -> bool {
        self.text(sent, kept)
    }

    /// A password is no name: every octet of it counts.
    pub fn password(self, sent: &[u8], kept: &[u8]) -> bool {
        if self.errs(Fault::PasswordUnspaced) {
            return self.text(sent, kept);
        }
        sent == kept
    }

    fn text(self, sent: &[u8], kept: &[u8]) -> bool {
        match self.fault {
            Some(Fault::SpacesCount) => sent == kept,
            Some(Fault::KeptSpacesCount) => without_leading_spaces(sent) == kept,
            Some(Fault::Trimmed) => sent.trim_ascii() == kept.trim_ascii(),
            _ => without_leading_spaces(sent) == without_leading_spaces(kept),
        }
    }

    /// An empty text has no spaces.
    fn is_spaces_only(self, text: &[u8]) -> bool {
        let blank = without_leading_spaces(text).is_empty();
        match self.fault {
            Some(Fault::SpacesMatch) => false,
            Some(Fault::EmptyMatchesNothing) => blank,
            _ => blank && !text.is_empty(),
        }
    }

    fn errs(self, fault: Fault) -> bool {
        self.fault == Some(fault)
    }
}

#[cfg(test)]
mod tests {
    use super::*;

    const SAME: Same = Same::sound();

    fn party(ton: u8, npi: u8, address: &[u8]) -> Party<'_> {
        Party { ton, npi, address }
    }

    fn addresses(one: &[u8], other: &[u8]) -> bool {
        let there = SAME.party(party(1, 2, one), party(1, 2, other));
        let back = SAME.party(party(1, 2, other), party(1, 2, one));
        assert_eq!(there, back, "whichever is sent");
        there
    }

    #[test]
    fn leading_spaces_of_an_address_do_not_count() {
        assert!(addresses(b"100", b"100") && addresses(b"", b""));
        assert!(addresses(b"  100", b"100") && addresses(b"  100", b" 100"));
        assert!(addresses(b"                   1", b"1"));
        for other in [&b""[..], b"1000", b"10", b"0100", b"101", b"  1000"] {
            assert!(!addresses(b"100", other), "{}", other.escape_ascii());
        }
    }

    #[test]
    fn ton_and_npi_count() {
        let sent = party(1, 2, b"100");
        assert!(SAME.party(sent, party(1, 2, b" 100")));
        assert!(!SAME.party(sent, party(2, 2, b" 100")));
        assert!(!SAME.party(sent, party(1, 1, b" 100")));
    }

    #[test]
    fn names_differ_in_every_octet_but_leading_spaces() {
        for same in [Same::system_id, Same::system_type] {
            assert!(same(SAME, b" paging", b"paging") && same(SAME, b"paging", b"  paging"));
            for other in [
                &b"paging "[..],
                b"pag ing",
                b"Paging",
                b"\tpaging",
                b"pagin",
            ] {
                assert!(!same(SAME, b"paging", other), "{}", other.escape_ascii());
            }
        }
    }

    #[test]
    fn a_system_id_of_spaces_only_matches_nothing() {
        for other in [&b""[..], b" ", b"  ", b"paging"] {
            assert!(!SAME.system_id(b" ", other) && !SAME.system_id(other, b" "));
        }
        assert!(SAME.system_id(b"", b""));
    }

    #[test]
    fn a_system_type_of_spaces_only_is_as_an_empty_one() {
        assert!(SAME.system_type(b"", b"  ") && SAME.system_type(b" ", b""));
        assert!(SAME.system_type(b" ", b"  ") && !SAME.system_type(b" ", b"VMA"));
    }

    #[test]
    fn every_octet_of_a_password_counts() {
        assert!(SAME.password(b" secret", b" secret"));
        assert!(!SAME.password(b"secret", b" secret") && !SAME.password(b" ", b""));
    }
}
