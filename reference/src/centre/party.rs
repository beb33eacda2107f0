//! A source or a destination.

/// Two of them are compared by `Same`, not octet for octet.
#[derive(Clone, Copy, Debug)]
pub struct Party<'a> {
    pub ton: u8,
    pub npi: u8,
    pub address: &'a [u8],
}

impl Party<'_> {
    /// Nobody is named when the address is empty, whatever ton and npi say.
    pub fn is_empty(&self) -> bool {
        self.address.is_empty()
    }
}
