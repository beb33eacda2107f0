//! Receipts: what is written, what its answer does, and that none is lost.

use crate::bureau::{bind, plain_submit, registered_submit, to, Bureau};
use reference::centre::{
    Entry, Message, PlainState, Receipt, Reference, Refusal, ACCOUNTS, PLACES, SESSIONS,
};
use reference::compare::{Step, World};
use reference::compose::{Address, Cancel, Request, Role, Submit};
use reference::explain::Header;
use reference::generate::{history, Manner};

/// Session 0 is a transmitter of account 0, sessions 1 and 2 are receivers of it.
fn bureau() -> Bureau {
    let mut bureau = Bureau::bound();
    bureau.state.entries[1] = Entry::Receiver(0);
    bureau.state.entries[2] = Entry::Receiver(0);
    bureau
}

/// So many messages that receipts are owed for.
fn owing(count: u32) -> Bureau {
    let mut bureau = bureau();
    for id in 1..=count {
        assert_eq!(bureau.submit(registered_submit()), id);
        bureau.outcome(0, id, 2).unwrap();
    }
    bureau
}

fn marks(bureau: &Bureau) -> Vec<u8> {
    (0..PLACES).map(|at| bureau.place(0, at)[250]).collect()
}

#[test]
fn a_receipt_octet_for_octet() {
    let mut bureau = bureau();
    bureau.submit(Submit {
        service_type: b"VMA".to_vec(),
        source: Address::new(3, 4, b" 1"),
        destination: Address::new(5, 6, b"01234567890123456789"),
        esm_class: 7,
        protocol_id: 8,
        priority: 1,
        data_coding: 9,
        ..registered_submit()
    });
    bureau.outcome(0, 1, 5).unwrap();
    let before = bureau.table.clone();
    let (_, receipt) = bureau.deliver(1, 0x0102_0304).unwrap();
    let mut expected = b"\0\0\0\x49\0\0\0\x05\0\0\0\0\x01\x02\x03\x04\0".to_vec();
    expected.extend_from_slice(b"\x05\x0601234567890123456789\0\x03\x04 1\0\x04\0\0\0\0");
    expected.extend_from_slice(b"\0\0\0\0\x12id:00000001 stat:5");
    assert_eq!(receipt, expected);
    assert_eq!(bureau.table, before);
    let outstanding = Receipt {
        id: 1,
        sequence: 0x0102_0304,
    };
    assert_eq!(bureau.state.receipts[1], Some(outstanding));
}

#[test]
fn a_receipt_is_owed_for_what_is_registered_and_finished() {
    let mut bureau = bureau();
    for id in 1..=4 {
        bureau.submit(registered_submit());
        bureau.submit(plain_submit());
        let cancel = |id: u32| {
            Request::Cancel(Cancel {
                id: format!("{id:X}").into_bytes(),
                ..Cancel::default()
            })
        };
        match id {
            1 => {
                assert_eq!(bureau.status(&cancel(1)), 0);
                assert_eq!(bureau.status(&cancel(2)), 0);
            }
            _ => {
                let outcome = [2, 3, 5][id as usize - 2];
                bureau.outcome(0, 2 * id - 1, outcome).unwrap();
                bureau.outcome(0, 2 * id, outcome).unwrap();
            }
        }
    }
    assert_eq!(marks(&bureau)[..9], [1, 0, 1, 0, 1, 0, 1, 0, 0]);
    for (id, state) in [(1, b'4'), (3, b'2'), (5, b'3'), (7, b'5')] {
        let (told, receipt) = bureau.deliver(1, 9).unwrap();
        assert_eq!((told, receipt.last()), (id, Some(&state)));
        bureau.answer(1, 0, 9);
    }
    assert_eq!(bureau.deliver(1, 9), Err(Refusal::NothingOwed));
}

#[test]
fn answers() {
    let mut bureau = owing(1);
    bureau.deliver(1, 7).unwrap();
    bureau.answer(1, 0, 8);
    bureau.answer(0, 0, 7);
    bureau.answer(2, 0, 7);
    assert_eq!(bureau.deliver(1, 8), Err(Refusal::NoReceiver));
    assert_eq!(marks(&bureau)[0], 1);
    bureau.answer(1, 1, 7);
    assert_eq!(marks(&bureau)[0], 1);
    assert_eq!(bureau.state.receipts, [None; SESSIONS]);
    assert_eq!(bureau.deliver(1, 9).unwrap().0, 1);
    bureau.answer(1, 0, 9);
    assert_eq!(marks(&bureau)[0], 0);
    assert_eq!(bureau.deliver(1, 10), Err(Refusal::NothingOwed));
}

#[test]
fn an_id_is_outstanding_once() {
    let mut bureau = owing(3);
    assert_eq!(bureau.deliver(1, 7).unwrap().0, 1);
    assert_eq!(bureau.deliver(2, 7).unwrap().0, 2);
    bureau.answer(1, 8, 7);
    assert_eq!(bureau.deliver(1, 7).unwrap().0, 1);
    bureau.answer(2, 0, 7);
    assert_eq!(bureau.deliver(2, 7).unwrap().0, 3);
    bureau.state.entries[3] = Entry::Receiver(0);
    assert_eq!(bureau.deliver(3, 7), Err(Refusal::NothingOwed));
    bureau.state.entries[3] = Entry::Receiver(1);
    assert_eq!(bureau.deliver(3, 7), Err(Refusal::NothingOwed));
}

#[test]
fn whatever_becomes_of_the_session_the_receipt_is_owed_again() {
    let unbind = Request::Unbind.octets(77);
    let endings: [fn(&mut Bureau, &[u8]); 3] = [
        |bureau, _| bureau.close(1).unwrap(),
        |bureau, unbind| assert_eq!(bureau.take(1, unbind).unwrap().0, 16),
        |bureau, _| assert_eq!(bureau.take(1, &[0; 4]).unwrap().0, 4),
    ];
    for end in endings {
        let mut bureau = owing(1);
        bureau.deliver(1, 7).unwrap();
        end(&mut bureau, &unbind);
        assert_eq!(bureau.state.receipts, [None; SESSIONS]);
        assert_eq!(bureau.deliver(2, 7).unwrap().0, 1);
    }
    let mut bureau = owing(1);
    bureau.deliver(1, 7).unwrap();
    bureau.close(1).unwrap();
    bureau.open(1).unwrap();
    let request = bind(Role::Receiver, b"paging", b"secret", b"VMA").octets(1);
    bureau.take(1, &request).unwrap();
    bureau.answer(1, 0, 7);
    assert_eq!(bureau.deliver(1, 8).unwrap().0, 1);
}

#[test]
fn a_marked_record_is_not_written_over() {
    let mut bureau = owing(16);
    assert_eq!(bureau.status(&Request::Submit(plain_submit())), 20);
    bureau.deliver(1, 7).unwrap();
    bureau.deliver(2, 8).unwrap();
    assert_eq!(bureau.status(&Request::Submit(plain_submit())), 20);
    bureau.answer(2, 0, 8);
    assert_eq!(bureau.submit(plain_submit()), 17);
    assert_eq!(Message(bureau.place(0, 1)).id(), 17);
    assert_eq!(bureau.status(&Request::Submit(plain_submit())), 20);
    bureau.answer(1, 0, 7);
    bureau.outcome(0, 17, 2).unwrap();
    assert_eq!(bureau.submit(plain_submit()), 18);
    assert_eq!(Message(bureau.place(0, 0)).id(), 18);
    assert_eq!(bureau.submit(plain_submit()), 19);
    assert_eq!(Message(bureau.place(0, 1)).id(), 19);
}

#[test]
fn the_longest_receipt_fits_exactly() {
    let mut bureau = bureau();
    bureau.submit(Submit {
        source: to(b"01234567890123456789"),
        destination: to(b"98765432109876543210"),
        ..registered_submit()
    });
    bureau.outcome(0, 1, 2).unwrap();
    assert_eq!(bureau.deliver(1, 1).unwrap().1.len(), 91);
}

/// Where a message is kept, and what it says.
type Marked = (usize, u32);

fn marked(world: &World) -> Vec<Marked> {
    let places = world.table().as_chunks().0.iter().enumerate();
    let marked = places.filter(|(_, place)| Message(place).is_marked());
    marked
        .map(|(nth, place)| (nth / PLACES, Message(place).id()))
        .collect()
}

/// Only the step that acknowledges a receipt takes its mark away.
fn assert_none_lost(step: &Step, state: &PlainState, before: &[Marked], after: &[Marked]) {
    for gone in before.iter().filter(|mark| !after.contains(mark)) {
        let Step::Take(take) = step else {
            panic!("{gone:?} is lost: {step}");
        };
        let answer = Header::of(&take.octets).unwrap();
        let receipt = state.receipt(take.session).unwrap();
        assert_eq!((answer.command, answer.status), (0x8000_0005, 0), "{step}");
        assert_eq!(answer.sequence, receipt.sequence, "{step}");
        let account = state.entry(take.session).account().unwrap();
        assert_eq!(*gone, (account.into(), receipt.id), "{step}");
    }
}

/// What is outstanding is owed, and nobody else is being told of it.
fn assert_sound(state: &PlainState, marked: &[Marked]) {
    let mut told = Vec::new();
    for session in 0..SESSIONS {
        let Some(receipt) = state.receipt(session) else {
            continue;
        };
        let account = usize::from(state.entry(session).account().unwrap());
        assert!(account < ACCOUNTS);
        let mark = (account, receipt.id);
        assert!(marked.contains(&mark), "{mark:?} is outstanding");
        assert!(!told.contains(&mark), "{mark:?} is outstanding twice");
        told.push(mark);
    }
}

#[test]
fn no_receipt_is_lost() {
    for seed in 0..20 {
        let history = history(seed, 2_000, Manner::WellBehaved);
        let mut world = World::new(&history);
        let mut before = marked(&world);
        for step in &history.steps {
            let state = world.state;
            world.play(&Reference::sound(), step);
            let after = marked(&world);
            assert_none_lost(step, &state, &before, &after);
            assert_sound(&world.state, &after);
            before = after;
        }
    }
}
