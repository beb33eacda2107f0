//! PDUs as they are written: a header, and a body behind it.

use super::party::Party;

const HEADER: usize = 16;

/// The three words behind a PDU's length.
pub struct Header {
    pub command: u32,
    pub status: u32,
    pub sequence: u32,
}

/// Writes a PDU at the front of the space and tells its length.
pub fn write_pdu(space: &mut [u8], header: Header, body: impl FnOnce(&mut Out<'_>)) -> usize {
    let (front, behind) = space.split_at_mut(HEADER);
    let mut out = Out {
        space: behind,
        written: 0,
    };
    body(&mut out);
    let length = HEADER + out.written;
    let words = [
        length as u32,
        header.command,
        header.status,
        header.sequence,
    ];
    for (field, word) in front.chunks_exact_mut(4).zip(words) {
        field.copy_from_slice(&word.to_be_bytes());
    }
    length
}

/// A body that grows field by field.
pub struct Out<'a> {
    space: &'a mut [u8],
    written: usize,
}

impl Out<'_> {
    pub fn octets(&mut self, octets: &[u8]) {
        let end = self.written + octets.len();
        self.space[self.written..end].copy_from_slice(octets);
        self.written = end;
    }

    pub fn text(&mut self, text: &[u8]) {
        self.octets(text);
        self.octets(&[0]);
    }

    /// Ton, npi and address.
    pub fn party(&mut self, party: Party<'_>) {
        self.octets(&[party.ton, party.npi]);
        self.text(party.address);
    }
}

/// Eight upper-case hex digits.
pub fn hex(id: u32) -> [u8; 8] {
    std::array::from_fn(|nth| {
        let digit = id >> (28 - 4 * nth) & 15;
        b"0123456789ABCDEF"[digit as usize]
    })
}

#[cfg(test)]
mod tests {
    use super::*;

    #[test]
    fn ids_are_eight_upper_case_digits() {
        assert_eq!(&hex(1), b"00000001");
        assert_eq!(&hex(0xFEDC_BA98), b"FEDCBA98");
    }

    #[test]
    fn the_space_behind_a_pdu_is_left() {
        let mut space = [0xEE; 24];
        let header = Header {
            command: 1,
            status: 2,
            sequence: 3,
        };
        let length = write_pdu(&mut space, header, |out| {
            out.text(b"ab");
            out.octets(&[9]);
        });
        assert_eq!(length, 20);
        let pdu = b"\0\0\0\x14\0\0\0\x01\0\0\0\x02\0\0\0\x03ab\0\x09";
        assert_eq!(&space[..20], pdu);
        assert_eq!(space[20..], [0xEE; 4]);
    }
}
