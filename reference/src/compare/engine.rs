//! What can be played: the operations over lent octets and a plain state.

use crate::centre::{
    Lent, PlainState, Reference, Refusal, Report, State, View, DONE, PLACE, TABLE,
};

/// The answer of opening and closing, laid out as the C interface has it.
#[derive(Clone, Copy, Debug, PartialEq, Eq)]
#[repr(C)]
pub struct Moved {
    pub number: u8,
    pub state: PlainState,
}

/// The answer of taking octets, laid out as the C interface has it.
#[derive(Clone, Copy, Debug, PartialEq, Eq)]
#[repr(C)]
pub struct Taken {
    pub number: u8,
    pub consumed: usize,
    pub written: usize,
    pub state: PlainState,
}

/// The answer of writing a receipt, laid out as the C interface has it.
#[derive(Clone, Copy, Debug, PartialEq, Eq)]
#[repr(C)]
pub struct Delivered {
    pub number: u8,
    pub written: usize,
    pub state: PlainState,
}

/// What a session sent, and the time to take it at.
#[derive(Clone, Copy, Debug)]
pub struct Sent<'a> {
    pub session: usize,
    pub octets: &'a [u8],
    pub stamp: &'a [u8],
}

pub trait Engine {
    fn name(&self) -> &'static str;

    fn open(&self, state: &PlainState, session: usize) -> Moved;

    fn close(&self, state: &PlainState, session: usize) -> Moved;

    fn take(&self, lent: Lent<'_>, state: &PlainState, sent: Sent<'_>, space: &mut [u8]) -> Taken;

    fn outcome(&self, lent: Lent<'_>, state: &PlainState, stamp: &[u8], report: Report) -> u8;

    /// Writes a receipt for a session's peer, with this sequence number.
    fn deliver(
        &self,
        view: View<'_>,
        state: &PlainState,
        session: usize,
        sequence: u32,
        space: &mut [u8],
    ) -> Delivered;

    fn pick_number(&self, book: &[u8], table: &[u8], state: &PlainState, account: usize) -> u8;

    /// The octet at which the picked record starts, or the table's size where there is none.
    fn pick_at(&self, book: &[u8], table: &[u8], state: &PlainState, account: usize) -> usize;

    /// Copies the picked record to the front of the space, and tells how many octets that
    /// were: none where there is no record, or no room for it.
    fn pick_record(
        &self,
        book: &[u8],
        table: &[u8],
        state: &PlainState,
        account: usize,
        space: &mut [u8],
    ) -> usize;
}

impl Engine for Reference {
    fn name(&self) -> &'static str {
        self.fault().map_or("reference", |fault| fault.name())
    }

    fn open(&self, state: &PlainState, session: usize) -> Moved {
        moved(state, |after| Reference::open(self, after, session))
    }

    fn close(&self, state: &PlainState, session: usize) -> Moved {
        moved(state, |after| Reference::close(self, after, session))
    }

    fn take(&self, lent: Lent<'_>, state: &PlainState, sent: Sent<'_>, space: &mut [u8]) -> Taken {
        let mut after = State::from(state);
        let result = Reference::take(
            self,
            lent,
            &mut after,
            sent.session,
            sent.octets,
            sent.stamp,
            space,
        );
        let (consumed, written) = result.map_or((0, 0), |taken| (taken.consumed, taken.written));
        Taken {
            number: number(result),
            consumed,
            written,
            state: PlainState::from(&after),
        }
    }

    fn outcome(&self, lent: Lent<'_>, state: &PlainState, stamp: &[u8], report: Report) -> u8 {
        number(Reference::outcome(
            self,
            lent,
            &State::from(state),
            stamp,
            report,
        ))
    }

    fn deliver(
        &self,
        view: View<'_>,
        state: &PlainState,
        session: usize,
        sequence: u32,
        space: &mut [u8],
    ) -> Delivered {
        let mut after = State::from(state);
        let result = Reference::deliver(self, view, &mut after, session, sequence, space);
        Delivered {
            number: number(result),
            written: result.unwrap_or(0),
            state: PlainState::from(&after),
        }
    }

    fn pick_number(&self, book: &[u8], table: &[u8], state: &PlainState, account: usize) -> u8 {
        number(self.pick(book, table, &State::from(state), account))
    }

    fn pick_at(&self, book: &[u8], table: &[u8], state: &PlainState, account: usize) -> usize {
        self.pick(book, table, &State::from(state), account)
            .unwrap_or(TABLE)
    }

    fn pick_record(
        &self,
        book: &[u8],
        table: &[u8],
        state: &PlainState,
        account: usize,
        space: &mut [u8],
    ) -> usize {
        let picked = self.pick(book, table, &State::from(state), account);
        let Ok(at) = picked else { return 0 };
        let Some(room) = space.get_mut(..PLACE) else {
            return 0;
        };
        room.copy_from_slice(&table[at..at + PLACE]);
        PLACE
    }
}

/// Opens or closes. The reference works on its own form of the state, engines have the plain
/// one in common.
fn moved(state: &PlainState, play: impl FnOnce(&mut State) -> Result<(), Refusal>) -> Moved {
    let mut after = State::from(state);
    let result = play(&mut after);
    Moved {
        number: number(result),
        state: PlainState::from(&after),
    }
}

fn number<T>(result: Result<T, Refusal>) -> u8 {
    result.err().map_or(DONE, Refusal::number)
}

#[cfg(test)]
mod tests {
    use super::*;
    use std::mem::{offset_of, size_of};

    #[test]
    fn answers_are_laid_out_as_the_header_says() {
        assert_eq!(size_of::<Moved>(), 196);
        assert_eq!(offset_of!(Moved, state), 4);
        assert_eq!(size_of::<Taken>(), 216);
        assert_eq!(offset_of!(Taken, consumed), 8);
        assert_eq!(offset_of!(Taken, written), 16);
        assert_eq!(offset_of!(Taken, state), 24);
        assert_eq!(size_of::<Delivered>(), 208);
        assert_eq!(offset_of!(Delivered, written), 8);
        assert_eq!(offset_of!(Delivered, state), 16);
    }
}
