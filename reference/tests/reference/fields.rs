//! The status of every field rule.

use crate::bureau::{bind, plain_submit, to, Bureau};
use reference::centre::{command, Entry};
use reference::compose::{
    mend_length, pdu, Address, Cancel, Query, Replace, Request, Role, Submit,
};

fn submit_status(change: impl Fn(&mut Submit)) -> u32 {
    let mut submit = plain_submit();
    change(&mut submit);
    Bureau::bound().status(&Request::Submit(submit))
}

fn query_status(id: &[u8], source: Address) -> u32 {
    let query = Query {
        id: id.to_vec(),
        source,
    };
    Bureau::bound().status(&Request::Query(query))
}

fn cancel_status(change: impl Fn(&mut Cancel)) -> u32 {
    let mut cancel = Cancel {
        id: b"1".to_vec(),
        ..Cancel::default()
    };
    change(&mut cancel);
    Bureau::bound().status(&Request::Cancel(cancel))
}

/// The status for a message that exists.
fn replace_status(change: impl Fn(&mut Replace)) -> u32 {
    let mut bureau = Bureau::bound();
    bureau.submit(plain_submit());
    let mut replace = Replace {
        id: b"1".to_vec(),
        ..Replace::default()
    };
    change(&mut replace);
    bureau.status(&Request::Replace(replace))
}

/// The status of a body on a session that suits the command.
fn body_status(command: u32, body: &[u8]) -> u32 {
    let mut bureau = Bureau::bound();
    if command == command::BIND_RECEIVER || command == command::BIND_TRANSMITTER {
        bureau.state.entries[0] = Entry::Open;
    }
    bureau.send_octets(&pdu(command, 77, body)).0
}

#[test]
fn addresses_of_a_submission() {
    for (text, status) in [
        (&b""[..], 0),
        (b"1", 0),
        (b"  1", 0),
        (b"01234567890123456789", 0),
        (b"                   1", 0),
        (b" ", 10),
        (b"                    ", 10),
        (b"12a", 10),
        (b"1 ", 10),
        (b"\xB1", 10),
        (b"012345678901234567890", 10),
    ] {
        assert_eq!(submit_status(|s| s.source = to(text)), status, "{text:?}");
        let destination = match (text, status) {
            (b"", _) | (_, 10) => 11,
            _ => 0,
        };
        assert_eq!(
            submit_status(|s| s.destination = to(text)),
            destination,
            "{text:?}"
        );
    }
}

#[test]
fn service_types_are_ascii_and_short() {
    assert_eq!(submit_status(|s| s.service_type = b"ABCDE".to_vec()), 0);
    assert_eq!(submit_status(|s| s.service_type = b"  ".to_vec()), 0);
    assert_eq!(submit_status(|s| s.service_type = b"\x7F\x01".to_vec()), 0);
    assert_eq!(submit_status(|s| s.service_type = b"ABCDEF".to_vec()), 9);
    assert_eq!(submit_status(|s| s.service_type = b"\x80".to_vec()), 9);
    assert_eq!(cancel_status(|c| c.service_type = b"\x80".to_vec()), 9);
    assert_eq!(cancel_status(|c| c.service_type = b"ABCDEF".to_vec()), 9);
}

#[test]
fn times() {
    for (time, status) in [
        (&b""[..], 0),
        (b"960701120000000+", 0),
        (b"960713120000000-", 0),
        (b"961301120000000+", 9),
        (b"960701120000049+", 9),
        (b"960701120000000*", 9),
        (b"9607011200000000+", 9),
        (b"9607011200000+\0+", 9),
    ] {
        assert_eq!(submit_status(|s| s.schedule = time.to_vec()), status);
        assert_eq!(submit_status(|s| s.validity = time.to_vec()), status);
        assert_eq!(replace_status(|r| r.schedule = time.to_vec()), status);
        assert_eq!(replace_status(|r| r.validity = time.to_vec()), status);
    }
}

#[test]
fn a_short_time_takes_the_octets_behind_it() {
    // There are 17 octets left, the time's NUL stands too early: bad form.
    assert_eq!(submit_status(|s| s.validity = b"96".to_vec()), 2);
    assert_eq!(
        submit_status(|s| {
            s.validity = b"96".to_vec();
            s.text.octets = vec![b'x'; 40];
        }),
        9
    );
}

#[test]
fn a_time_cut_by_the_end_is_2() {
    let mut bureau = Bureau::bound();
    bureau.submit(plain_submit());
    let front = b"1\0\0\0\0\0";
    for count in 1..=17 {
        let time = b"961301120000000+\0";
        let body = [&front[..], &time[..count]].concat();
        let expected = if count < 17 { 2 } else { 9 };
        // The first time is one NUL, the second has a month 13.
        assert_eq!(body_status(command::REPLACE_SM, &body), expected, "{count}");
    }
    // A NUL among too few octets doesn't help.
    let body = [&front[..], b"96\0"].concat();
    assert_eq!(body_status(command::REPLACE_SM, &body), 2);
}

#[test]
fn one_octet_fields() {
    assert_eq!(submit_status(|s| s.priority = 1), 0);
    assert_eq!(submit_status(|s| s.priority = 2), 6);
    assert_eq!(submit_status(|s| s.registered = 1), 0);
    assert_eq!(submit_status(|s| s.registered = 2), 7);
    assert_eq!(submit_status(|s| s.replace_if_present = 1), 0);
    assert_eq!(submit_status(|s| s.replace_if_present = 2), 9);
    assert_eq!(submit_status(|s| s.esm_class = 255), 0);
    assert_eq!(submit_status(|s| s.protocol_id = 255), 0);
    assert_eq!(submit_status(|s| s.data_coding = 255), 0);
    assert_eq!(submit_status(|s| s.destination.ton = 255), 0);
    assert_eq!(submit_status(|s| s.destination.npi = 255), 0);
    assert_eq!(replace_status(|r| r.registered = 1), 0);
    assert_eq!(replace_status(|r| r.registered = 2), 7);
}

#[test]
fn default_ids_and_lengths() {
    let no_text = |default_id| {
        submit_status(|s| {
            s.text.octets.clear();
            s.text.default_id = default_id;
        })
    };
    assert_eq!(no_text(0), 0);
    assert_eq!(no_text(100), 0);
    assert_eq!(no_text(101), 9);
    assert_eq!(submit_status(|s| s.text.default_id = 1), 9);
    assert_eq!(submit_status(|s| s.text.octets = vec![0; 140]), 0);
    assert_eq!(submit_status(|s| s.text.octets = vec![0; 141]), 1);
    let both = |length| {
        submit_status(|s| {
            s.text.default_id = 1;
            s.text.octets = vec![0; length];
        })
    };
    assert_eq!(both(141), 1, "too long comes before both");
    assert_eq!(both(140), 9);
    assert_eq!(submit_status(|s| s.text.forced_length = Some(6)), 2);
    assert_eq!(submit_status(|s| s.text.forced_length = Some(4)), 2);
    assert_eq!(
        submit_status(|s| {
            s.text.default_id = 1;
            s.text.forced_length = Some(6);
        }),
        9,
        "both comes before a text beyond the body"
    );
    assert_eq!(replace_status(|r| r.text.default_id = 101), 9);
    assert_eq!(replace_status(|r| r.text.octets = vec![0; 141]), 1);
}

#[test]
fn message_ids() {
    for (id, status) in [
        (&b""[..], 12),
        (b"0", 12),
        (b"  ", 12),
        (b"xyz", 12),
        (b"1 ", 12),
        (b"000000001", 12),
    ] {
        assert_eq!(query_status(id, Address::default()), status, "{id:?}");
    }
    assert_eq!(query_status(b"x", to(b"x")), 12, "left before right");
    assert_eq!(query_status(b"1", to(b"x")), 10);
    assert_eq!(cancel_status(|c| c.id = b"x".to_vec()), 12);
    assert_eq!(cancel_status(|c| c.source = to(b"x")), 10);
    assert_eq!(cancel_status(|c| c.destination = to(b"x")), 11);
    assert_eq!(replace_status(|r| r.id = b"x".to_vec()), 12);
    assert_eq!(replace_status(|r| r.source = to(b"x")), 10);
    assert_eq!(replace_status(|r| r.source = to(b"1")), 19);
}

#[test]
fn binds() {
    for role in [Role::Receiver, Role::Transmitter] {
        let status = |change: fn(&mut reference::compose::Bind)| {
            let Request::Bind(mut request) = bind(role, b"paging", b"secret", b"VMA") else {
                unreachable!()
            };
            change(&mut request);
            let mut bureau = Bureau::new();
            bureau.open(0).unwrap();
            let (status, body) = bureau.send(&Request::Bind(request));
            assert_eq!(body, b"SMSC33\0");
            assert_eq!(status == 0, bureau.state.entries[0] != Entry::Open);
            status
        };
        assert_eq!(status(|_| {}), 0);
        assert_eq!(status(|b| b.interface_version = 0xFF), 0);
        assert_eq!(status(|b| b.range = Address::new(9, 9, b"^44.*$")), 0);
        assert_eq!(status(|b| b.range.text = vec![b'x'; 40]), 0);
        assert_eq!(status(|b| b.range.text = vec![b'x'; 41]), 9);
        assert_eq!(status(|b| b.range.text = vec![0x80]), 9);
        assert_eq!(status(|b| b.system_id = vec![b'x'; 15]), 13);
        assert_eq!(status(|b| b.system_id = vec![b'x'; 16]), 9);
        assert_eq!(status(|b| b.system_id = vec![0x80]), 9);
        assert_eq!(status(|b| b.password = vec![b'x'; 8]), 13);
        assert_eq!(status(|b| b.password = vec![b'x'; 9]), 9);
        assert_eq!(status(|b| b.password = vec![0xFF]), 9);
        assert_eq!(status(|b| b.system_type = vec![b'x'; 12]), 13);
        assert_eq!(status(|b| b.system_type = vec![b'x'; 13]), 9);
        assert_eq!(status(|b| b.system_type = vec![0x80]), 9);
    }
}

#[test]
fn a_text_without_nul() {
    // With fewer octets than the maximum left, the end of the body comes first, whatever
    // the characters are.
    assert_eq!(body_status(command::QUERY_SM, b""), 2);
    assert_eq!(body_status(command::QUERY_SM, b"xxxxxxxx"), 2);
    assert_eq!(body_status(command::QUERY_SM, b"xxxxxxxxx"), 12);
    assert_eq!(body_status(command::QUERY_SM, b"111111111"), 12);
    assert_eq!(body_status(command::QUERY_SM, b"1\0\x01\x01xxxxx"), 2);
    let twenty = [&b"1\0\x01\x01"[..], &[b'1'; 20]].concat();
    assert_eq!(body_status(command::QUERY_SM, &twenty), 2);
    let twenty_one = [&twenty[..], b"1"].concat();
    assert_eq!(body_status(command::QUERY_SM, &twenty_one), 10);
    assert_eq!(body_status(command::BIND_RECEIVER, &[0x80; 15]), 2);
    assert_eq!(body_status(command::BIND_RECEIVER, &[b'x'; 16]), 9);
}

#[test]
fn octets_left_over() {
    for request in [
        Request::Submit(plain_submit()),
        Request::Query(Query::default()),
        Request::Cancel(Cancel::default()),
        Request::Replace(Replace::default()),
        Request::Unbind,
        Request::EnquireLink,
    ] {
        let mut octets = request.octets(77);
        octets.push(0);
        mend_length(&mut octets);
        let mut bureau = Bureau::bound();
        let table = bureau.table.clone();
        assert_eq!(bureau.send_octets(&octets).0, 2, "{request:?}");
        assert_eq!(bureau.state.entries[0], Entry::Transmitter(0));
        assert_eq!(bureau.state.lasts, [0; 8]);
        assert_eq!(bureau.table, table);
    }
}

#[test]
fn every_cut_of_a_body_is_2() {
    let mut submit = plain_submit();
    submit.schedule = b"960701120000000+".to_vec();
    let whole = Request::Submit(submit).octets(77);
    for length in 16..whole.len() {
        let mut cut = whole[..length].to_vec();
        mend_length(&mut cut);
        assert_eq!(Bureau::bound().send_octets(&cut).0, 2, "{length}");
    }
}

#[test]
fn the_first_bad_field_decides() {
    let all_bad = |good: usize| {
        submit_status(|s| {
            let bad = |nth| nth >= good;
            s.service_type = if bad(0) { vec![0x80] } else { vec![] };
            s.source = to(if bad(1) { b"x" } else { b"" });
            s.destination = to(if bad(2) { b"x" } else { b"5" });
            s.priority = if bad(3) { 2 } else { 0 };
            s.schedule = if bad(4) { vec![b'x'; 16] } else { vec![] };
            s.registered = if bad(5) { 2 } else { 0 };
            s.replace_if_present = if bad(6) { 2 } else { 0 };
            s.text.forced_length = bad(7).then_some(141);
            s.text.octets = vec![b'x'; if bad(8) { 200 } else { 0 }];
        })
    };
    let statuses: Vec<u32> = (0..=9).map(all_bad).collect();
    assert_eq!(statuses, [9, 10, 11, 6, 9, 7, 9, 1, 1, 0]);
}
