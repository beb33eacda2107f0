//! The numbers that a caller gets, and the order in which they are tested.

use crate::bureau::{plain_submit, Bureau};
use reference::centre::{Entry, Receipt, Refusal, LONGEST_RECEIPT, LONGEST_REPLY};
use reference::compose::Request;

fn enquire() -> Vec<u8> {
    Request::EnquireLink.octets(1)
}

#[test]
fn opening() {
    let mut bureau = Bureau::new();
    assert_eq!(bureau.open(15), Ok(()));
    assert_eq!(bureau.state.entries[15], Entry::Open);
    assert_eq!(bureau.open(15), Err(Refusal::WrongEntry));
    assert_eq!(bureau.open(16), Err(Refusal::NoSuchSession));
    assert_eq!(bureau.open(usize::MAX), Err(Refusal::NoSuchSession));
    for entry in [Entry::Transmitter(9), Entry::Receiver(0), Entry::Ended] {
        bureau.state.entries[3] = entry;
        assert_eq!(bureau.open(3), Err(Refusal::WrongEntry));
        assert_eq!(bureau.state.entries[3], entry);
    }
}

#[test]
fn closing() {
    for entry in [
        Entry::Closed,
        Entry::Open,
        Entry::Transmitter(200),
        Entry::Receiver(1),
        Entry::Ended,
    ] {
        let mut bureau = Bureau::new();
        bureau.state.entries[2] = entry;
        assert_eq!(bureau.close(2), Ok(()));
        assert_eq!(bureau.state.entries[2], Entry::Closed);
    }
    assert_eq!(Bureau::new().close(16), Err(Refusal::NoSuchSession));
}

/// Everything is wrong at first; each round mends what was found.
#[test]
fn octets_test_2_3_4_5_6_9_1() {
    let mut bureau = Bureau::new();
    bureau.book.push(0);
    bureau.stamp.clear();
    let mut space = [0xEE; LONGEST_REPLY];
    let mut small = [0xEE; LONGEST_REPLY - 1];
    assert_eq!(
        bureau.take_into(16, &[], &mut small),
        Err(Refusal::NoSuchSession)
    );
    assert_eq!(
        bureau.take_into(0, &[], &mut small),
        Err(Refusal::WrongSize)
    );
    bureau.book.pop();
    bureau.table.pop();
    assert_eq!(
        bureau.take_into(0, &[], &mut small),
        Err(Refusal::WrongSize)
    );
    bureau.table.push(0);
    assert_eq!(
        bureau.take_into(0, &[], &mut small),
        Err(Refusal::SpaceTooSmall)
    );
    assert_eq!(
        bureau.take_into(0, &[], &mut space),
        Err(Refusal::StampIllFormed)
    );
    bureau.stamp = b"960701120000000+".to_vec();
    for entry in [Entry::Closed, Entry::Ended] {
        bureau.state.entries[0] = entry;
        assert_eq!(
            bureau.take_into(0, &[], &mut space),
            Err(Refusal::WrongEntry)
        );
    }
    bureau.state.entries[0] = Entry::Receiver(8);
    assert_eq!(
        bureau.take_into(0, &[], &mut space),
        Err(Refusal::AccountIllFormed)
    );
    bureau.state.entries[0] = Entry::Receiver(0);
    assert_eq!(
        bureau.take_into(0, &[], &mut space),
        Err(Refusal::MoreNeeded)
    );
    assert_eq!((small, space), ([0xEE; 43], [0xEE; 44]));
    assert!(bureau.take_into(0, &enquire(), &mut space).is_ok());
}

/// Everything is wrong at first; each round mends what was found.
#[test]
fn a_receipt_tests_2_3_4_6_9_12_13() {
    let mut bureau = Bureau::new();
    bureau.book.push(0);
    bureau.place_mut(0, 0)[0] = 6;
    let mut space = [0xEE; LONGEST_RECEIPT];
    let mut small = [0xEE; LONGEST_RECEIPT - 1];
    let short = |bureau: &mut Bureau, session, space: &mut [u8]| {
        bureau.deliver_into(session, 1, space).unwrap_err()
    };
    assert_eq!(short(&mut bureau, 16, &mut small), Refusal::NoSuchSession);
    assert_eq!(
        short(&mut bureau, usize::MAX, &mut small),
        Refusal::NoSuchSession
    );
    assert_eq!(short(&mut bureau, 0, &mut small), Refusal::WrongSize);
    bureau.book.pop();
    bureau.table.pop();
    assert_eq!(short(&mut bureau, 0, &mut small), Refusal::WrongSize);
    bureau.table.push(0);
    assert_eq!(short(&mut bureau, 0, &mut small), Refusal::SpaceTooSmall);
    for entry in [Entry::Closed, Entry::Ended] {
        bureau.state.entries[0] = entry;
        assert_eq!(short(&mut bureau, 0, &mut space), Refusal::WrongEntry);
    }
    for entry in [
        Entry::Receiver(8),
        Entry::Transmitter(255),
        Entry::Transmitter(0),
        Entry::Receiver(0),
    ] {
        bureau.state.entries[0] = entry;
        assert_eq!(short(&mut bureau, 0, &mut space), Refusal::AccountIllFormed);
    }
    bureau.state.entries[0] = Entry::Open;
    assert_eq!(short(&mut bureau, 0, &mut space), Refusal::NoReceiver);
    bureau.place_mut(0, 0)[0] = 0;
    bureau.state.entries[0] = Entry::Transmitter(0);
    assert_eq!(short(&mut bureau, 0, &mut space), Refusal::NoReceiver);
    bureau.state.entries[0] = Entry::Receiver(0);
    bureau.state.receipts[0] = Some(Receipt { id: 1, sequence: 1 });
    assert_eq!(short(&mut bureau, 0, &mut space), Refusal::NoReceiver);
    bureau.state.receipts[0] = None;
    assert_eq!(short(&mut bureau, 0, &mut space), Refusal::NothingOwed);
    assert_eq!(
        (small, space),
        ([0xEE; LONGEST_RECEIPT - 1], [0xEE; LONGEST_RECEIPT])
    );
}

#[test]
fn a_refused_call_changes_nothing() {
    let mut bureau = Bureau::bound();
    bureau.submit(plain_submit());
    bureau.place_mut(0, 1)[255] = 1;
    let (table, state) = (bureau.table.clone(), bureau.state);
    let submit = Request::Submit(plain_submit()).octets(1);
    assert_eq!(bureau.take(0, &submit), Err(Refusal::AccountIllFormed));
    assert_eq!(bureau.outcome(0, 1, 2), Err(Refusal::AccountIllFormed));
    assert_eq!(bureau.pick(0), Err(Refusal::AccountIllFormed));
    assert_eq!(bureau.table, table);
    assert_eq!(bureau.state, state);
}

#[test]
fn nine_concerns_the_bound_account_only() {
    let mut bureau = Bureau::bound();
    bureau.place_mut(1, 0)[0] = 6;
    bureau.book[64 + 63] = 1;
    assert!(bureau.take(0, &enquire()).is_ok());
    assert_eq!(bureau.submit(plain_submit()), 1);
    assert_eq!(bureau.outcome(0, 1, 2), Ok(()));
    bureau.state.entries[0] = Entry::Transmitter(1);
    assert_eq!(bureau.take(0, &enquire()), Err(Refusal::AccountIllFormed));
    bureau.state.entries[0] = Entry::Open;
    assert!(
        bureau.take(0, &enquire()).is_ok(),
        "an unbound one has none"
    );
}

#[test]
fn nine_comes_before_framing() {
    let mut bureau = Bureau::bound();
    bureau.place_mut(0, 0)[0] = 6;
    let nothing_right = [0, 0, 0, 0];
    assert_eq!(
        bureau.take(0, &nothing_right),
        Err(Refusal::AccountIllFormed)
    );
    assert_eq!(bureau.state.entries[0], Entry::Transmitter(0));
    let mut response = enquire();
    response[4] = 0x80;
    assert_eq!(bureau.take(0, &response), Err(Refusal::AccountIllFormed));
}

#[test]
fn an_unused_account_is_ill_formed() {
    let mut bureau = Bureau::new();
    bureau.state.entries[0] = Entry::Transmitter(3);
    assert_eq!(bureau.take(0, &enquire()), Err(Refusal::AccountIllFormed));
    assert_eq!(bureau.pick(3), Err(Refusal::AccountIllFormed));
}

#[test]
fn outcomes_test_3_5_7_8_9_10() {
    let mut bureau = Bureau::new();
    bureau.book.pop();
    bureau.stamp.push(0);
    bureau.state.lasts[3] = 1;
    assert_eq!(bureau.outcome(8, 1, 1), Err(Refusal::WrongSize));
    bureau.book.push(0);
    assert_eq!(bureau.outcome(8, 1, 1), Err(Refusal::StampIllFormed));
    bureau.stamp.pop();
    assert_eq!(bureau.outcome(8, 1, 1), Err(Refusal::NoSuchAccount));
    for outcome in [0, 1, 4, 6, 255] {
        assert_eq!(bureau.outcome(3, 1, outcome), Err(Refusal::NoSuchOutcome));
    }
    assert_eq!(bureau.outcome(3, 1, 2), Err(Refusal::AccountIllFormed));
    assert_eq!(bureau.outcome(0, 1, 2), Err(Refusal::NoSuchMessage));
    assert_eq!(bureau.outcome(0, 0, 2), Err(Refusal::NoSuchMessage));
}

#[test]
fn a_finished_message_has_no_further_outcome() {
    let mut bureau = Bureau::bound();
    bureau.submit(plain_submit());
    for outcome in [2, 3, 5] {
        let id = bureau.submit(plain_submit());
        assert_eq!(bureau.outcome(0, id, outcome), Ok(()));
        assert_eq!(bureau.outcome(0, id, 2), Err(Refusal::NoSuchMessage));
    }
}

#[test]
fn picking_tests_3_7_9_11() {
    let mut bureau = Bureau::new();
    bureau.table.push(0);
    assert_eq!(bureau.pick(8), Err(Refusal::WrongSize));
    bureau.table.pop();
    assert_eq!(bureau.pick(8), Err(Refusal::NoSuchAccount));
    assert_eq!(bureau.pick(usize::MAX), Err(Refusal::NoSuchAccount));
    assert_eq!(bureau.pick(3), Err(Refusal::AccountIllFormed));
    assert_eq!(bureau.pick(0), Err(Refusal::NothingWaiting));
}

#[test]
fn lengths_at_their_limits() {
    for (length, present, expected) in [
        (15u32, 16, Ok(4)),
        (16, 15, Err(Refusal::MoreNeeded)),
        (16, 16, Ok(16)),
        (512, 511, Err(Refusal::MoreNeeded)),
        (512, 512, Ok(512)),
        (512, 600, Ok(512)),
        (513, 600, Ok(4)),
        (u32::MAX, 4, Ok(4)),
    ] {
        let mut bureau = Bureau::bound();
        let mut octets = vec![0; present];
        octets[..4].copy_from_slice(&length.to_be_bytes());
        if let Some(command) = octets.get_mut(7) {
            *command = 0x15;
        }
        let taken = bureau.take(0, &octets).map(|(consumed, _)| consumed);
        assert_eq!(taken, expected, "{length}");
        let ended = expected == Ok(4);
        assert_eq!(bureau.state.entries[0] == Entry::Ended, ended);
    }
}
