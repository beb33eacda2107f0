//! The proved library behind its C interface, as an engine.
//!
//! This is the only place that calls foreign code. Slices give what the C side asks of its
//! caller: pointers that are valid for their lengths, and none that overlaps one that is
//! written to.

use crate::centre::{Lent, PlainState, Report, View};
use crate::compare::{Delivered, Engine, Moved, Sent, Taken};

extern "C" {
    fn inverook_open(state: PlainState, session: usize) -> Moved;

    fn inverook_close(state: PlainState, session: usize) -> Moved;

    fn inverook_take(
        book: *const u8,
        book_length: usize,
        table: *mut u8,
        table_length: usize,
        state: PlainState,
        session: usize,
        octets: *const u8,
        octets_length: usize,
        stamp: *const u8,
        stamp_length: usize,
        space: *mut u8,
        space_length: usize,
    ) -> Taken;

    fn inverook_outcome(
        book: *const u8,
        book_length: usize,
        table: *mut u8,
        table_length: usize,
        state: PlainState,
        stamp: *const u8,
        stamp_length: usize,
        account: usize,
        id: u32,
        outcome: u8,
        error: u8,
    ) -> u8;

    fn inverook_deliver(
        book: *const u8,
        book_length: usize,
        table: *const u8,
        table_length: usize,
        state: PlainState,
        session: usize,
        sequence: u32,
        space: *mut u8,
        space_length: usize,
    ) -> Delivered;

    fn inverook_pick_record(
        book: *const u8,
        book_length: usize,
        table: *const u8,
        table_length: usize,
        state: PlainState,
        account: usize,
        space: *mut u8,
        space_length: usize,
    ) -> usize;
}

/// Declares one of the library's two questions about the message to send next, and asks it.
/// They differ in their names and answers only, so that what makes a call safe is said once.
macro_rules! ask_about_next {
    ($asked:ident, $foreign:ident, $answer:ty) => {
        fn $asked(&self, book: &[u8], table: &[u8], state: &PlainState, account: usize) -> $answer {
            extern "C" {
                fn $foreign(
                    book: *const u8,
                    book_length: usize,
                    table: *const u8,
                    table_length: usize,
                    state: PlainState,
                    account: usize,
                ) -> $answer;
            }
            // SAFETY: each pointer comes with its slice's length; both are only read.
            unsafe {
                $foreign(
                    book.as_ptr(),
                    book.len(),
                    table.as_ptr(),
                    table.len(),
                    *state,
                    account,
                )
            }
        }
    };
}

/// libinverook.a.
#[derive(Clone, Copy, Debug, Default)]
pub struct Proved;

impl Engine for Proved {
    fn name(&self) -> &'static str {
        "proved"
    }

    fn open(&self, state: &PlainState, session: usize) -> Moved {
        // SAFETY: the call takes and gives values only.
        unsafe { inverook_open(*state, session) }
    }

    fn close(&self, state: &PlainState, session: usize) -> Moved {
        // SAFETY: the call takes and gives values only.
        unsafe { inverook_close(*state, session) }
    }

    fn take(&self, lent: Lent<'_>, state: &PlainState, sent: Sent<'_>, space: &mut [u8]) -> Taken {
        // SAFETY: each pointer comes with its slice's length, and the two that are written
        // to are exclusive borrows. The library keeps none of them.
        unsafe {
            inverook_take(
                lent.book.as_ptr(),
                lent.book.len(),
                lent.table.as_mut_ptr(),
                lent.table.len(),
                *state,
                sent.session,
                sent.octets.as_ptr(),
                sent.octets.len(),
                sent.stamp.as_ptr(),
                sent.stamp.len(),
                space.as_mut_ptr(),
                space.len(),
            )
        }
    }

    fn outcome(&self, lent: Lent<'_>, state: &PlainState, stamp: &[u8], report: Report) -> u8 {
        // SAFETY: as in `take`.
        unsafe {
            inverook_outcome(
                lent.book.as_ptr(),
                lent.book.len(),
                lent.table.as_mut_ptr(),
                lent.table.len(),
                *state,
                stamp.as_ptr(),
                stamp.len(),
                report.account,
                report.id,
                report.outcome,
                report.error,
            )
        }
    }

    fn deliver(
        &self,
        view: View<'_>,
        state: &PlainState,
        session: usize,
        sequence: u32,
        space: &mut [u8],
    ) -> Delivered {
        // SAFETY: as in `take`; only the space is written to.
        unsafe {
            inverook_deliver(
                view.book.as_ptr(),
                view.book.len(),
                view.table.as_ptr(),
                view.table.len(),
                *state,
                session,
                sequence,
                space.as_mut_ptr(),
                space.len(),
            )
        }
    }

    fn pick_record(
        &self,
        book: &[u8],
        table: &[u8],
        state: &PlainState,
        account: usize,
        space: &mut [u8],
    ) -> usize {
        // SAFETY: as in `take`; only the space is written to.
        unsafe {
            inverook_pick_record(
                book.as_ptr(),
                book.len(),
                table.as_ptr(),
                table.len(),
                *state,
                account,
                space.as_mut_ptr(),
                space.len(),
            )
        }
    }

    ask_about_next!(pick_number, inverook_pick_number, u8);
    ask_about_next!(pick_at, inverook_pick_at, usize);
}
