//! What the centre remembers besides the table: 16 session entries, 8 last-issued ids, and which
//! receipts were written and not answered yet.

pub const SESSIONS: usize = 16;
pub const ACCOUNTS: usize = 8;

#[derive(Clone, Copy, Debug, Default, PartialEq, Eq)]
pub enum Entry {
    #[default]
    Closed,
    Open,
    Transmitter(u8),
    Receiver(u8),
    Ended,
}

impl Entry {
    /// Live sessions are the ones that octets can be taken on.
    pub fn is_live(self) -> bool {
        !matches!(self, Entry::Closed | Entry::Ended)
    }

    /// The account that the entry names. The caller keeps the state, so it may be above 7.
    pub fn account(self) -> Option<u8> {
        match self {
            Entry::Transmitter(account) | Entry::Receiver(account) => Some(account),
            Entry::Closed | Entry::Open | Entry::Ended => None,
        }
    }
}

/// A receipt that a receiver was sent and hasn't answered yet.
#[derive(Clone, Copy, Debug, PartialEq, Eq)]
pub struct Receipt {
    /// Of the message; never 0.
    pub id: u32,
    /// Of the deliver_sm, and so of the answer to it.
    pub sequence: u32,
}

#[derive(Clone, Copy, Debug, Default, PartialEq, Eq)]
pub struct State {
    pub entries: [Entry; SESSIONS],
    pub lasts: [u32; ACCOUNTS],
    /// Outstanding receipts, of receivers only.
    pub receipts: [Option<Receipt>; SESSIONS],
}

impl State {
    /// Gives a session another entry. Whatever it becomes, it has been sent no receipt yet.
    pub fn enter(&mut self, session: usize, entry: Entry) {
        self.entries[session] = entry;
        self.receipts[session] = None;
    }

    /// Whether a receiver of this account has that message's receipt outstanding.
    pub fn is_outstanding(&self, account: u8, id: u32) -> bool {
        let sessions = self.entries.iter().zip(&self.receipts);
        sessions
            .filter(|(entry, _)| **entry == Entry::Receiver(account))
            .any(|(_, receipt)| receipt.is_some_and(|receipt| receipt.id == id))
    }
}

/// The state as plain numbers, which is how it crosses the C interface. All zero is the
/// fresh state. Kinds: 0 closed, 1 open, 2 transmitter, 3 receiver, 4 and above ended.
#[derive(Clone, Copy, Debug, Default, PartialEq, Eq)]
#[repr(C)]
pub struct PlainState {
    pub kinds: [u8; SESSIONS],
    pub accounts: [u8; SESSIONS],
    pub lasts: [u32; ACCOUNTS],
    /// The id of the receipt that is outstanding on a receiver, 0 for none.
    pub receipts: [u32; SESSIONS],
    /// The sequence number that it was sent with.
    pub sequences: [u32; SESSIONS],
}

impl PlainState {
    pub fn entry(&self, session: usize) -> Entry {
        let account = self.accounts[session];
        match self.kinds[session] {
            0 => Entry::Closed,
            1 => Entry::Open,
            2 => Entry::Transmitter(account),
            3 => Entry::Receiver(account),
            _ => Entry::Ended,
        }
    }

    pub fn set_entry(&mut self, session: usize, entry: Entry) {
        self.kinds[session] = match entry {
            Entry::Closed => 0,
            Entry::Open => 1,
            Entry::Transmitter(_) => 2,
            Entry::Receiver(_) => 3,
            Entry::Ended => 4,
        };
        self.accounts[session] = entry.account().unwrap_or(0);
    }

    /// What is outstanding on a session: nothing, whatever the numbers, where it is no receiver
    /// or where the id is 0.
    pub fn receipt(&self, session: usize) -> Option<Receipt> {
        let (id, sequence) = (self.receipts[session], self.sequences[session]);
        let receiver = matches!(self.entry(session), Entry::Receiver(_));
        (receiver && id != 0).then_some(Receipt { id, sequence })
    }

    pub fn set_receipt(&mut self, session: usize, receipt: Option<Receipt>) {
        self.receipts[session] = receipt.map_or(0, |receipt| receipt.id);
        self.sequences[session] = receipt.map_or(0, |receipt| receipt.sequence);
    }
}

impl From<&PlainState> for State {
    fn from(plain: &PlainState) -> State {
        State {
            entries: std::array::from_fn(|session| plain.entry(session)),
            lasts: plain.lasts,
            receipts: std::array::from_fn(|session| plain.receipt(session)),
        }
    }
}

impl From<&State> for PlainState {
    fn from(state: &State) -> PlainState {
        let mut plain = PlainState {
            lasts: state.lasts,
            ..PlainState::default()
        };
        for session in 0..SESSIONS {
            plain.set_entry(session, state.entries[session]);
            plain.set_receipt(session, state.receipts[session]);
        }
        plain
    }
}

#[cfg(test)]
mod tests {
    use super::*;

    #[test]
    fn all_zero_is_the_fresh_state() {
        assert_eq!(State::from(&PlainState::default()), State::default());
        assert_eq!(PlainState::from(&State::default()), PlainState::default());
    }

    #[test]
    fn any_other_kind_counts_as_ended() {
        let mut plain = PlainState::default();
        for kind in 4..=255 {
            plain.kinds[3] = kind;
            plain.accounts[3] = 5;
            assert_eq!(plain.entry(3), Entry::Ended);
        }
    }

    #[test]
    fn every_entry_survives_the_way_there_and_back() {
        let entries = [
            Entry::Closed,
            Entry::Open,
            Entry::Transmitter(7),
            Entry::Receiver(200),
            Entry::Ended,
        ];
        for entry in entries {
            let mut state = State::default();
            state.entries[9] = entry;
            state.lasts[2] = 77;
            assert_eq!(State::from(&PlainState::from(&state)), state);
        }
    }

    #[test]
    fn the_plain_form_is_what_the_header_says() {
        use std::mem::{align_of, offset_of, size_of};
        assert_eq!(size_of::<PlainState>(), 192);
        assert_eq!(align_of::<PlainState>(), 4);
        assert_eq!(offset_of!(PlainState, accounts), 16);
        assert_eq!(offset_of!(PlainState, lasts), 32);
        assert_eq!(offset_of!(PlainState, receipts), 64);
        assert_eq!(offset_of!(PlainState, sequences), 128);
    }

    #[test]
    fn only_a_receiver_has_a_receipt_and_its_id_is_not_0() {
        let receipt = Receipt { id: 7, sequence: 9 };
        let noisy = |kind, id| {
            let mut plain = PlainState::default();
            plain.kinds[3] = kind;
            plain.receipts[3] = id;
            plain.sequences[3] = 9;
            plain
        };
        assert_eq!(noisy(3, 7).receipt(3), Some(receipt));
        for plain in [
            noisy(0, 7),
            noisy(1, 7),
            noisy(2, 7),
            noisy(4, 7),
            noisy(3, 0),
        ] {
            assert_eq!(plain.receipt(3), None);
            let back = PlainState::from(&State::from(&plain));
            assert_eq!((back.receipts, back.sequences), ([0; 16], [0; 16]));
        }
        let there_and_back = PlainState::from(&State::from(&noisy(3, 7)));
        assert_eq!(there_and_back, noisy(3, 7));
    }

    #[test]
    fn an_id_is_outstanding_for_its_own_account() {
        let mut state = State::default();
        state.enter(9, Entry::Receiver(2));
        state.receipts[9] = Some(Receipt { id: 7, sequence: 1 });
        assert!(state.is_outstanding(2, 7));
        assert!(!state.is_outstanding(2, 8) && !state.is_outstanding(3, 7));
        state.enter(9, Entry::Receiver(2));
        assert!(!state.is_outstanding(2, 7));
    }
}
