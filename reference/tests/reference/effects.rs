//! What each request does, one effect at a time.

use crate::bureau::{bind, book_record, plain_submit, to, Bureau, CALLBACK, STAMP};
use reference::centre::{layout, Entry, Message, Refusal};
use reference::compose::{Address, Cancel, Query, Replace, Request, Role, Submit};

fn id_text(id: u32) -> Vec<u8> {
    format!("{id:X}").into_bytes()
}

fn cancel(id: &[u8], source: Address, destination: Address) -> Request {
    Request::Cancel(Cancel {
        id: id.to_vec(),
        source,
        destination,
        ..Cancel::default()
    })
}

fn query(id: u32, source: Address) -> Request {
    Request::Query(Query {
        id: id_text(id),
        source,
    })
}

fn submit_to(destination: &[u8]) -> Submit {
    Submit {
        destination: to(destination),
        ..plain_submit()
    }
}

fn fill(bureau: &mut Bureau) {
    for nth in 1..=16 {
        assert_eq!(bureau.submit(plain_submit()), nth);
    }
}

#[test]
fn a_bind_takes_the_lowest_well_formed_record() {
    let mut bureau = Bureau::new();
    bureau.book[128..192].copy_from_slice(&book_record(b"voice", b"other", b"VMA"));
    for (session, role, entry) in [
        (0, Role::Transmitter, Entry::Transmitter(1)),
        (0, Role::Receiver, Entry::Receiver(1)),
    ] {
        bureau.state.entries[session] = Entry::Open;
        assert_eq!(bureau.status(&bind(role, b"voice", b"mail", b"VMA")), 0);
        assert_eq!(bureau.state.entries[session], entry);
    }
    // The second record of that name is found only when the first is ill formed.
    let other = bind(Role::Receiver, b"voice", b"other", b"VMA");
    bureau.state.entries[0] = Entry::Open;
    assert_eq!(bureau.status(&other), 13);
    bureau.book[64 + 63] = 1;
    assert_eq!(bureau.status(&other), 0);
    assert_eq!(bureau.state.entries[0], Entry::Receiver(2));
}

#[test]
fn leading_spaces_of_names_do_not_count() {
    let mut bureau = Bureau::new();
    bureau.book[64..128].copy_from_slice(&book_record(b"  voice", b"mail", b" "));
    for (system_id, password, system_type, account) in [
        (&b" paging"[..], &b"secret"[..], &b"  VMA"[..], 0),
        (b"voice", b"mail", b"", 1),
        (b" voice", b"mail", b"   ", 1),
        (b"last", b"", b" ", 7),
    ] {
        for (role, entry) in [
            (Role::Transmitter, Entry::Transmitter(account)),
            (Role::Receiver, Entry::Receiver(account)),
        ] {
            bureau.state.entries[0] = Entry::Open;
            let request = bind(role, system_id, password, system_type);
            assert_eq!(bureau.status(&request), 0);
            assert_eq!(bureau.state.entries[0], entry);
        }
    }
}

#[test]
fn a_system_id_of_spaces_only_matches_nothing() {
    for (kept, sent, status) in [
        (&b"  "[..], &b"  "[..], 13),
        (b"  ", b" ", 13),
        (b"  ", b"", 13),
        (b"", b" ", 13),
        (b"", b"", 0),
    ] {
        let mut bureau = Bureau::new();
        bureau.book[64..128].copy_from_slice(&book_record(kept, b"mail", b"VMA"));
        bureau.state.entries[0] = Entry::Open;
        let request = bind(Role::Transmitter, sent, b"mail", b"VMA");
        assert_eq!(bureau.status(&request), status);
        assert_eq!(bureau.pick(1), Err(Refusal::NothingWaiting), "well formed");
    }
}

#[test]
fn all_else_of_names_and_passwords_counts() {
    for (system_id, password, system_type) in [
        (&b"paging "[..], &b"secret"[..], &b"VMA"[..]),
        (b"PAGING", b"secret", b"VMA"),
        (b"paging", b"secret", b"VM"),
        (b"paging", b"secret", b""),
        (b"paging", b" secret", b"VMA"),
        (b"paging", b"secre", b"VMA"),
        (b"paging", b"", b"VMA"),
        (b"", b"", b""),
    ] {
        let mut bureau = Bureau::new();
        bureau.state.entries[0] = Entry::Open;
        let request = bind(Role::Transmitter, system_id, password, system_type);
        assert_eq!(bureau.status(&request), 13);
        assert_eq!(bureau.state.entries[0], Entry::Open);
    }
}

#[test]
fn a_bind_looks_at_the_book_alone() {
    let mut bureau = Bureau::new();
    bureau.place_mut(0, 3)[0] = 9;
    bureau.state.entries[0] = Entry::Open;
    let request = bind(Role::Transmitter, b"paging", b"secret", b"VMA");
    assert_eq!(bureau.status(&request), 0);
    assert!(bureau.take(0, &Request::EnquireLink.octets(1)).is_err());
}

#[test]
fn bound_sessions_cannot_bind_again() {
    for entry in [Entry::Transmitter(0), Entry::Receiver(0)] {
        let mut bureau = Bureau::new();
        bureau.state.entries[0] = entry;
        let request = bind(Role::Transmitter, b"paging", b"secret", b"VMA");
        assert_eq!(bureau.send(&request), (5, b"SMSC33\0".to_vec()));
        assert_eq!(bureau.state.entries[0], entry);
    }
}

#[test]
fn unbinding_ends_a_bound_session() {
    for (entry, status, after) in [
        (Entry::Open, 4, Entry::Open),
        (Entry::Transmitter(0), 0, Entry::Ended),
        (Entry::Receiver(0), 0, Entry::Ended),
    ] {
        let mut bureau = Bureau::new();
        bureau.state.entries[0] = entry;
        assert_eq!(bureau.send(&Request::Unbind), (status, vec![]));
        assert_eq!(bureau.state.entries[0], after);
    }
}

#[test]
fn messages_need_a_transmitter() {
    for entry in [Entry::Open, Entry::Receiver(0)] {
        for (request, body) in [
            (Request::Submit(plain_submit()), vec![0]),
            (Request::Query(Query::default()), vec![0; 4]),
            (Request::Cancel(Cancel::default()), vec![]),
            (Request::Replace(Replace::default()), vec![]),
        ] {
            let mut bureau = Bureau::new();
            bureau.state.entries[0] = entry;
            assert_eq!(bureau.send(&request), (4, body));
        }
    }
}

#[test]
fn a_submission_is_stored_octet_for_octet() {
    let mut bureau = Bureau::bound();
    let submit = Submit {
        service_type: b"VMA".to_vec(),
        source: Address::new(3, 4, b" 1"),
        destination: Address::new(5, 6, b"01234567890123456789"),
        esm_class: 7,
        protocol_id: 8,
        priority: 1,
        schedule: b"960701120000000+".to_vec(),
        validity: b"960801120000000-".to_vec(),
        registered: 1,
        replace_if_present: 1,
        data_coding: 9,
        ..plain_submit()
    };
    assert_eq!(bureau.submit(submit), 1);
    let mut expected = vec![1, 0, 0, 0, 1, 3, 4];
    expected.extend_from_slice(b" 1\0\0\0\0\0\0\0\0\0\0\0\0\0\0\0\0\0\0");
    expected.extend_from_slice(b"\x05\x0601234567890123456789VMA\0\0\x07\x08\x01");
    expected.extend_from_slice(b"960701120000000+960801120000000-\x01\x09\x00\x05hello");
    expected.resize(256, 0);
    assert_eq!(bureau.place(0, 0)[..], expected[..]);
    assert_eq!(bureau.state.lasts, [1, 0, 0, 0, 0, 0, 0, 0]);
    assert!(bureau.table[256..].iter().all(|&octet| octet == 0));
}

#[test]
fn an_empty_source_is_the_callback() {
    let mut bureau = Bureau::bound();
    let mut submit = plain_submit();
    submit.source = Address::new(77, 78, b"");
    bureau.submit(submit);
    let source = Message(bureau.place(0, 0)).source();
    assert_eq!((source.ton, source.npi), (1, 2));
    assert_eq!(source.address, CALLBACK);
}

#[test]
fn accounts_count_their_own_ids() {
    let mut bureau = Bureau::bound();
    bureau.submit(plain_submit());
    bureau.submit(plain_submit());
    bureau.state.entries[0] = Entry::Transmitter(7);
    assert_eq!(bureau.submit(plain_submit()), 1);
    assert_eq!(bureau.state.lasts, [2, 0, 0, 0, 0, 0, 0, 1]);
    assert_eq!(bureau.place(7, 0)[0], 1);
}

#[test]
fn finished_places_are_reused_lowest_id_first() {
    let mut bureau = Bureau::bound();
    fill(&mut bureau);
    assert_eq!(bureau.status(&Request::Submit(plain_submit())), 20);
    assert_eq!(bureau.state.lasts[0], 16);
    bureau.outcome(0, 9, 2).unwrap();
    bureau.outcome(0, 5, 5).unwrap();
    let mut short = plain_submit();
    short.text.octets = b"hi".to_vec();
    assert_eq!(bureau.submit(short.clone()), 17);
    let reused = bureau.place(0, 4);
    assert_eq!(Message(reused).id(), 17);
    assert_eq!(&reused[layout::TEXT][..5], b"hi\0\0\0");
    assert_eq!(
        reused[233..],
        [0; 23],
        "no final date and no error are left"
    );
    assert_eq!(bureau.submit(short.clone()), 18);
    assert_eq!(Message(bureau.place(0, 8)).id(), 18);
    assert_eq!(bureau.status(&Request::Submit(short)), 20);
}

#[test]
fn an_empty_place_comes_before_a_finished_one() {
    let mut bureau = Bureau::bound();
    bureau.submit(plain_submit());
    bureau.outcome(0, 1, 2).unwrap();
    bureau.submit(plain_submit());
    assert_eq!(Message(bureau.place(0, 1)).id(), 2);
    assert_eq!(Message(bureau.place(0, 0)).id(), 1);
}

#[test]
fn the_last_id_of_all() {
    let mut bureau = Bureau::bound();
    bureau.state.lasts[0] = u32::MAX - 1;
    assert_eq!(bureau.submit(plain_submit()), u32::MAX);
    let refused = bureau.send(&Request::Submit(plain_submit()));
    assert_eq!(refused, (8, vec![0]));
    assert_eq!(bureau.state.lasts[0], u32::MAX);
    // Replacing issues no id.
    let mut submit = plain_submit();
    submit.replace_if_present = 1;
    assert_eq!(bureau.submit(submit), u32::MAX);
}

#[test]
fn ids_that_ran_out_come_before_a_full_table() {
    let mut bureau = Bureau::bound();
    fill(&mut bureau);
    bureau.state.lasts[0] = u32::MAX;
    assert_eq!(bureau.status(&Request::Submit(plain_submit())), 8);
}

#[test]
fn an_empty_destination_comes_before_the_other_effects() {
    let mut bureau = Bureau::bound();
    bureau.state.lasts[0] = u32::MAX;
    assert_eq!(bureau.status(&Request::Submit(submit_to(b""))), 11);
}

#[test]
fn replace_if_present_takes_the_lowest_waiting_id() {
    let mut bureau = Bureau::bound();
    bureau.submit(submit_to(b"1"));
    bureau.submit(submit_to(b"2"));
    bureau.submit(submit_to(b"2"));
    let mut again = submit_to(b"2");
    again.replace_if_present = 1;
    again.priority = 1;
    again.data_coding = 5;
    again.registered = 1;
    again.text.octets.clear();
    again.text.default_id = 6;
    let before = *bureau.place(0, 1);
    assert_eq!(bureau.submit(again.clone()), 2);
    let mut expected = before;
    expected[91] = 6;
    expected[92] = 0;
    expected[93..233].fill(0);
    assert_eq!(bureau.place(0, 1), &expected, "text, length and default id");
    assert_eq!(bureau.state.lasts[0], 3);
    bureau.outcome(0, 2, 3).unwrap();
    assert_eq!(bureau.submit(again.clone()), 3, "finished ones don't count");
    bureau.outcome(0, 3, 3).unwrap();
    assert_eq!(
        bureau.submit(again.clone()),
        4,
        "none is left, so a new one"
    );
    assert_eq!(bureau.place(0, 3)[layout::DEFAULT_ID], 6);
    again.destination.ton = 9;
    assert_eq!(bureau.submit(again.clone()), 5, "another ton");
    again.source = Address::new(1, 2, CALLBACK);
    assert_eq!(bureau.submit(again), 5, "the callback by its own address");
}

#[test]
fn queries() {
    let mut bureau = Bureau::bound();
    let id = bureau.submit(plain_submit());
    let callback = Address::new(1, 2, CALLBACK);
    let waiting = (0, b"00000001\0\0\x00\x00".to_vec());
    assert_eq!(bureau.send(&query(id, Address::default())), waiting);
    assert_eq!(bureau.send(&query(id, callback)), waiting);
    let refused = (12, vec![0; 4]);
    for source in [
        to(b"1"),
        Address::new(2, 2, CALLBACK),
        Address::new(1, 1, CALLBACK),
    ] {
        assert_eq!(bureau.send(&query(id, source)), refused);
    }
    for (outcome, wire) in [(2, 1), (3, 2), (5, 4)] {
        let id = bureau.submit(plain_submit());
        bureau.outcome(0, id, outcome).unwrap();
        let mut body = format!("{id:08X}\x00960701120000000+\0").into_bytes();
        body.extend_from_slice(&[wire, 9]);
        assert_eq!(bureau.send(&query(id, Address::default())), (0, body));
    }
    assert_eq!(bureau.send(&query(0, Address::default())), refused);
}

#[test]
fn an_empty_source_matches_the_callback_only() {
    let mut bureau = Bureau::bound();
    let mut submit = plain_submit();
    submit.source = to(b"5");
    let id = bureau.submit(submit);
    let none = Address::default;
    assert_eq!(bureau.status(&query(id, none())), 12);
    assert_eq!(bureau.status(&cancel(&id_text(id), none(), none())), 17);
    let all = cancel(b"", none(), to(b"447700900123"));
    assert_eq!(bureau.status(&all), 17);
    assert_eq!(bureau.status(&query(id, to(b"5"))), 0);
}

/// A message with spaces in both addresses is found by every request without them, and keeps them.
#[test]
fn leading_spaces_of_addresses_do_not_count_and_are_kept() {
    let (source, destination) = (to(b"  100"), to(b" 447700900123"));
    let spaced = Submit {
        source: source.clone(),
        destination: destination.clone(),
        ..plain_submit()
    };
    let plain = |replace_if_present| Submit {
        source: to(b"100"),
        replace_if_present,
        ..plain_submit()
    };
    let mut bureau = Bureau::bound();
    assert_eq!(bureau.submit(spaced.clone()), 1);
    assert_eq!(bureau.submit(plain(1)), 1);
    assert_eq!(bureau.status(&query(1, to(b"100"))), 0);
    let replace = Replace {
        id: id_text(1),
        source: to(b" 100"),
        ..Replace::default()
    };
    assert_eq!(bureau.status(&Request::Replace(replace)), 0);
    let stored = Message(bureau.place(0, 0));
    assert_eq!(stored.source().address, source.text);
    assert_eq!(stored.destination().address, destination.text);
    let one = cancel(&id_text(1), to(b"100"), to(b"447700900123"));
    assert_eq!(bureau.status(&one), 0);
    assert_eq!(bureau.submit(plain(0)), 2);
    assert_eq!(bureau.submit(spaced), 3);
    let all = cancel(b"", source, destination);
    assert_eq!(bureau.status(&all), 0);
    let states: Vec<u8> = (0..3).map(|at| bureau.place(0, at)[0]).collect();
    assert_eq!(states, [4, 4, 4]);
}

#[test]
fn cancelling_by_id() {
    let mut bureau = Bureau::bound();
    let id = id_text(bureau.submit(plain_submit()));
    let none = Address::default;
    let before = bureau.table.clone();
    assert_eq!(bureau.status(&cancel(b"2", none(), none())), 12);
    assert_eq!(bureau.status(&cancel(b"0", none(), none())), 12);
    assert_eq!(bureau.status(&cancel(&id, to(b"1"), none())), 17);
    assert_eq!(bureau.status(&cancel(&id, none(), to(b"1"))), 17);
    assert_eq!(bureau.table, before);
    let elsewhere = Address::new(9, 9, b"");
    assert_eq!(bureau.status(&cancel(&id, none(), elsewhere)), 0);
    let deleted = bureau.place(0, 0);
    assert_eq!(deleted[0], 4);
    assert_eq!(&deleted[233..249], STAMP);
    assert_eq!(deleted[249], 0);
    assert_eq!(
        bureau.status(&cancel(&id, none(), none())),
        17,
        "not waiting"
    );
    let body = b"00000001\x00960701120000000+\0\x03\x00".to_vec();
    assert_eq!(bureau.send(&query(1, none())), (0, body));
}

#[test]
fn cancelling_all_between_two() {
    let mut bureau = Bureau::bound();
    for destination in [b"1", b"2", b"1", b"1"] {
        bureau.submit(submit_to(destination));
    }
    bureau.outcome(0, 3, 2).unwrap();
    let none = Address::default;
    assert_eq!(bureau.status(&cancel(b"", none(), none())), 11);
    assert_eq!(bureau.status(&cancel(b"", none(), to(b"3"))), 17);
    assert_eq!(bureau.status(&cancel(b"", none(), to(b"1"))), 0);
    let states: Vec<u8> = (0..4).map(|at| bureau.place(0, at)[0]).collect();
    assert_eq!(states, [4, 1, 2, 4]);
    assert_eq!(bureau.status(&cancel(b"", none(), to(b"1"))), 17);
}

#[test]
fn replacing() {
    let mut bureau = Bureau::bound();
    let mut submit = plain_submit();
    submit.schedule = b"960701120000000+".to_vec();
    submit.validity = b"960801120000000+".to_vec();
    submit.registered = 1;
    let id = bureau.submit(submit);
    let before = *bureau.place(0, 0);
    let mut replace = Replace {
        id: id_text(id),
        validity: b"970801120000000+".to_vec(),
        ..Replace::default()
    };
    replace.text.octets = b"hi".to_vec();
    assert_eq!(bureau.send(&Request::Replace(replace.clone())), (0, vec![]));
    let mut expected = before;
    expected[73..89].copy_from_slice(b"970801120000000+");
    expected[89] = 0;
    expected[92] = 2;
    expected[93..98].copy_from_slice(b"hi\0\0\0");
    assert_eq!(bureau.place(0, 0), &expected);
    replace.source = to(b"1");
    assert_eq!(bureau.status(&Request::Replace(replace.clone())), 19);
    replace.source = Address::default();
    bureau.outcome(0, id, 2).unwrap();
    assert_eq!(bureau.status(&Request::Replace(replace.clone())), 19);
    replace.id.clear();
    assert_eq!(bureau.status(&Request::Replace(replace.clone())), 12);
    replace.id = b"2".to_vec();
    assert_eq!(bureau.status(&Request::Replace(replace)), 12);
}

#[test]
fn outcomes_store_state_error_and_date() {
    let mut bureau = Bureau::bound();
    let id = bureau.submit(plain_submit());
    let mut expected = *bureau.place(0, 0);
    bureau.stamp = b"970101000000048-".to_vec();
    bureau.outcome(0, id, 5).unwrap();
    expected[0] = 5;
    expected[233..249].copy_from_slice(b"970101000000048-");
    expected[249] = 9;
    assert_eq!(bureau.place(0, 0), &expected);
}

#[test]
fn picking_prefers_priority_then_the_lowest_id() {
    let mut bureau = Bureau::bound();
    bureau.submit(plain_submit());
    bureau.submit(plain_submit());
    assert_eq!(bureau.pick(0), Ok(0));
    let urgent = Submit {
        priority: 1,
        ..plain_submit()
    };
    bureau.submit(urgent.clone());
    bureau.submit(urgent);
    assert_eq!(bureau.pick(0), Ok(512));
    bureau.outcome(0, 3, 2).unwrap();
    assert_eq!(bureau.pick(0), Ok(768));
    bureau.outcome(0, 4, 2).unwrap();
    bureau.outcome(0, 1, 2).unwrap();
    assert_eq!(bureau.pick(0), Ok(256));
}

#[test]
fn a_response_changes_nothing() {
    let mut bureau = Bureau::bound();
    for id in [
        0x8000_0000u32,
        0x8000_0004,
        0x8000_0015,
        0x8000_0006,
        u32::MAX,
    ] {
        let mut octets = Request::Unbind.octets(1);
        octets[4..8].copy_from_slice(&id.to_be_bytes());
        assert_eq!(bureau.take(0, &octets), Ok((16, vec![])));
        assert_eq!(bureau.state.entries[0], Entry::Transmitter(0));
    }
}

#[test]
fn only_one_pdu_is_taken() {
    let mut bureau = Bureau::bound();
    let one = Request::EnquireLink.octets(1);
    let two = [one.clone(), one.clone()].concat();
    let (consumed, reply) = bureau.take(0, &two).unwrap();
    assert_eq!(consumed, 16);
    assert_eq!(reply.len(), 16);
}

#[test]
fn a_requests_own_status_is_ignored() {
    let mut bureau = Bureau::bound();
    let mut octets = Request::EnquireLink.octets(77);
    octets[8..12].fill(0xFF);
    assert_eq!(bureau.send_octets(&octets), (0, vec![]));
}
