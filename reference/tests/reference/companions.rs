//! The companions for people: scripts, books and explanations.

use crate::bureau::STAMP;
use reference::compare::{Deliver, Step, Take};
use reference::compose::{deliver_sm_resp, Address, Query, Request};
use reference::explain;
use reference::generate::{history, Manner};
use reference::printing::{run, Order};
use reference::recorded;
use reference::script::{book, orders, steps};

const BOOK: &str = "account 0 paging secret VMA callback 1/1/447700900000\n\
                    account 7 last \"\" \"\" callback 5\n";

const SCRIPT: &str = r#"
# a message and what becomes of it
open 0
bind 0 transmitter paging secret VMA
submit 0 from "" to 447700900123 "hello"
query 0 00000001 from ""
replace 0 00000001 from "" "bye" registered 1
outcome 0 00000001 undeliverable error 9
query 0 00000001 from 1/1/447700900000
cancel 0 00000001 from "" to 447700900123
cancel 0 "" from "" to 447700900123
stamp 961301120000000+
enquire 0
stamp 960701120000000+
sequence 7
enquire 0
octets 0 00000010 80000015 00000000 00000007
unbind 0
close 0
"#;

fn printed(script: &str) -> String {
    let orders = orders(script).unwrap();
    let records: Vec<u8> = orders.iter().flat_map(|o| o.order.record()).collect();
    let mut output = Vec::new();
    run(&book(BOOK).unwrap(), &records[..], &mut output).unwrap();
    String::from_utf8(output).unwrap()
}

#[test]
fn a_script_from_words_to_words() {
    let explained: Vec<String> = printed(SCRIPT)
        .lines()
        .map(|line| explain::line(line).unwrap())
        .collect();
    let expected = [
        "done (0); no reply",
        "done (0); 38 octets taken; reply: bind_transmitter_resp, sequence 1, status 0 \
         (ESME_ROK, accepted), from \"SMSC33\"",
        "done (0); 50 octets taken; reply: submit_sm_resp, sequence 2, status 0 \
         (ESME_ROK, accepted), id 00000001",
        "done (0); 28 octets taken; reply: query_sm_resp, sequence 3, status 0 \
         (ESME_ROK, accepted), id 00000001, state EN_ROUTE (0), no final date, error code 0",
        "done (0); 36 octets taken; reply: replace_sm_resp, sequence 4, status 0 \
         (ESME_ROK, accepted)",
        "done (0); no reply",
        "done (0); 40 octets taken; reply: query_sm_resp, sequence 5, status 0 \
         (ESME_ROK, accepted), id 00000001, state UNDELIVERABLE (4), final date \
         96-07-01 12:00:00.0 UTC+00:00, error code 9",
        "done (0); 44 octets taken; reply: cancel_sm_resp, sequence 6, status 17 \
         (ESME_RCNTCANMSG, cannot cancel a message)",
        "done (0); 36 octets taken; reply: cancel_sm_resp, sequence 7, status 17 \
         (ESME_RCNTCANMSG, cannot cancel a message)",
        "refused: time stamp ill formed (5); no reply",
        "done (0); 16 octets taken; reply: enquire_link_resp, sequence 7, status 0 \
         (ESME_ROK, accepted)",
        "done (0); 16 octets taken; no reply",
        "done (0); 16 octets taken; reply: unbind_resp, sequence 8, status 0 \
         (ESME_ROK, accepted)",
        "done (0); no reply",
    ];
    assert_eq!(explained, expected);
}

#[test]
fn the_outlines_three_records_as_a_script() {
    let script = "open 0\nsequence 7\nenquire 0\nclose 0\n";
    assert_eq!(
        printed(script),
        "0 0 -\n0 16 00000010800000150000000000000007\n0 0 -\n"
    );
}

#[test]
fn the_examples_can_be_read() {
    let book = book(include_str!("../../examples/accounts.book")).unwrap();
    let orders = orders(include_str!("../../examples/day.script")).unwrap();
    let records: Vec<u8> = orders.iter().flat_map(|o| o.order.record()).collect();
    let mut output = Vec::new();
    run(&book, &records[..], &mut output).unwrap();
    let printed = String::from_utf8(output).unwrap();
    assert_eq!(printed.lines().count(), orders.len());
    assert!(printed.lines().all(|line| explain::line(line).is_ok()));
}

#[test]
fn a_receipt_and_its_answer_are_steps_that_no_record_says() {
    let text = "deliver 1 700\nanswer 1 700\nanswer 2 701 status 8\n";
    let read = steps(text).unwrap();
    let answer = |session, status, sequence| {
        Step::Take(Take::plain(
            session,
            deliver_sm_resp(status, sequence, &[0]),
        ))
    };
    let expected = [
        Step::Deliver(Deliver::plain(1, 700)),
        answer(1, 0, 700),
        answer(2, 8, 701),
    ];
    assert!(read.iter().map(|scripted| &scripted.step).eq(&expected));
    assert_eq!(
        orders(text).unwrap_err().to_string(),
        "line 1: expected a step that a record can say, found \"deliver 1 700\""
    );
    assert!(orders("answer 1 700").is_ok());
    let steps = steps(include_str!("../../examples/receipts.script")).unwrap();
    let receipts = steps.iter().filter(|s| matches!(s.step, Step::Deliver(_)));
    assert!(receipts.count() > 5);
}

#[test]
fn receipts_and_their_answers_in_words() {
    let receipt = "0000004B 00000005 00000000 000002BC 00 0101 343437373030393030313233 00 \
                   0101 343437373030393030303030 00 040000 0000 00000000 12 \
                   69643A 3030303030303031 20737461743A 32";
    assert_eq!(
        explain::line(&format!("0 0 {}", receipt.replace(' ', ""))).unwrap(),
        "done (0); to send: deliver_sm, sequence 700, service_type \"\", \
         source 1/1/\"447700900123\", destination 1/1/\"447700900000\", esm_class 4, \
         protocol_id 0, priority 0, schedule none, validity none, registered 0, \
         replace_if_present 0, data_coding 0, default_id 0, text \"id:00000001 stat:2\": \
         message 00000001 is delivered"
    );
    assert_eq!(
        explain::request(&deliver_sm_resp(8, 700, b"junk")).unwrap(),
        "deliver_sm_resp, sequence 700, status 8 (ESME_RSYSERR, system error)"
    );
    assert_eq!(
        explain::line("13 0 -").unwrap(),
        "refused: nothing owed (13); no reply"
    );
}

#[test]
fn lines_are_remembered() {
    let read = orders("\n# nothing\nopen 3\n\nclose 3").unwrap();
    let lines: Vec<usize> = read.iter().map(|order| order.line).collect();
    assert_eq!(lines, [3, 5]);
    assert_eq!(read[0].order, Order::Open { session: 3 });
}

#[test]
fn addresses_have_ton_and_npi() {
    let read = orders("query 2 \" 1a\" from 5/6/\" 7\"").unwrap();
    let query = Query {
        id: b" 1a".to_vec(),
        source: Address::new(5, 6, b" 7"),
    };
    let expected = Order::Octets {
        session: 2,
        stamp: *STAMP,
        octets: Request::Query(query).octets(1),
    };
    assert_eq!(read[0].order, expected);
}

#[test]
fn complaints_name_the_line_and_what_was_expected() {
    for (script, complaint) in [
        (
            "open",
            "line 1: expected a session number, found the end of the line",
        ),
        (
            "open 256",
            "line 1: expected a session number from 0 to 255, found \"256\"",
        ),
        (
            "open 0 1",
            "line 1: expected the end of the line, found \"1\"",
        ),
        ("\nopne 0", "line 2: expected stamp, sequence, open, bind,"),
        (
            "deliver 1",
            "line 1: expected a sequence number, found the end of the line",
        ),
        (
            "answer 1 7 8",
            "line 1: expected status or the end of the line, found \"8\"",
        ),
        (
            "bind 0 sender",
            "line 1: expected transmitter or receiver, found \"sender\"",
        ),
        (
            "bind 0 receiver a b",
            "line 1: expected a system_type, found the end",
        ),
        ("submit 0 to 5", "line 1: expected \"from\", found \"to\""),
        (
            "submit 0 from 1/5 to 5",
            "line 1: expected a source as digits or as ton/npi",
        ),
        (
            "submit 0 from \"\" to 5 hello",
            "line 1: expected a text in quotation marks,",
        ),
        (
            "submit 0 from \"\" to 5 priority x",
            "line 1: expected a priority from 0 to 255",
        ),
        (
            "submit 0 from \"\" to 5 \"x",
            "line 1: expected a closing quotation mark",
        ),
        (
            "query 0 1",
            "line 1: expected \"from\", found the end of the line",
        ),
        (
            "cancel 0 1 from 5 unto 6",
            "line 1: expected to, service or the end of the line",
        ),
        (
            "replace 0 1 from 5 urgent",
            "line 1: expected a text in quotation marks, schedule",
        ),
        (
            "outcome 0 x delivered",
            "line 1: expected an id of 1 to 8 hex digits, found \"x\"",
        ),
        (
            "outcome 0 1 lost",
            "line 1: expected delivered, expired, undeliverable or a number",
        ),
        (
            "outcome 0 1 expired 3",
            "line 1: expected \"error\" or the end of the line",
        ),
        ("octets 0 0g", "line 1: expected hex digits, found 'g'"),
        (
            "octets 0 000",
            "line 1: expected two hex digits an octet, found 3 digits",
        ),
        (
            "stamp 9607",
            "line 1: expected a stamp of 16 characters, found \"9607\"",
        ),
        (
            "sequence x",
            "line 1: expected a sequence number, found \"x\"",
        ),
    ] {
        let error = orders(script).unwrap_err().to_string();
        assert!(error.starts_with(complaint), "{script}: {error}");
    }
    let long = format!("octets 0 {}", "00".repeat(513));
    let error = orders(&long).unwrap_err().to_string();
    assert_eq!(error, "line 1: expected at most 512 octets, found 513");
}

#[test]
fn books() {
    let octets = book(BOOK).unwrap();
    assert_eq!(octets.len(), 512);
    assert_eq!(&octets[..7], b"paging\0");
    assert_eq!(&octets[38..53], b"\x01\x01447700900000\0");
    assert_eq!(&octets[448..453], b"last\0");
    for (line, complaint) in [
        (
            "account 8 a b c callback 5",
            "line 1: expected an account number from 0 to 7",
        ),
        ("acount 0", "line 1: expected account, found \"acount\""),
        ("account 0 a b c", "line 1: expected \"callback\""),
        (
            "account 0 a 123456789 c callback 5",
            "line 1: expected a password of at most 8",
        ),
        (
            "account 0 a b c callback x",
            "line 1: expected ASCII names and a callback",
        ),
        (
            "account 0 a b c callback \"\"",
            "line 1: expected ASCII names and a callback",
        ),
        (
            "account 0 a b c callback 5 6",
            "line 1: expected the end of the line",
        ),
    ] {
        let error = book(line).unwrap_err().to_string();
        assert!(error.starts_with(complaint), "{line}: {error}");
    }
}

#[test]
fn lines_that_were_never_printed_are_not_explained() {
    for (line, complaint) in [
        ("", "expected an answer, a count and a reply"),
        ("0 0", "expected an answer, a count and a reply"),
        (
            "14 0 -",
            "expected the number that a call answers, found \"14\"",
        ),
        ("0 x -", "expected a count of octets, found \"x\""),
        ("0 16 xyz", "expected a reply in hex"),
        ("0 16 00", "expected a reply of at least 16 octets, found 1"),
        (
            "0 16 00000011800000150000000000000007",
            "expected a reply of 17 octets",
        ),
        (
            "0 16 00000010000000990000000000000007",
            "expected a reply's command id",
        ),
    ] {
        let error = explain::line(line).unwrap_err();
        assert!(error.starts_with(complaint), "{line}: {error}");
    }
    assert!(explain::line("bad record").unwrap().contains("stopped"));
}

#[test]
fn generated_histories_can_be_recorded() {
    for seed in 0..5 {
        let history = history(seed, 2000, Manner::Records);
        let orders = recorded::orders(&history).unwrap();
        assert_eq!(orders.len(), history.steps.len());
        let records: Vec<u8> = orders.iter().flat_map(Order::record).collect();
        let mut output = Vec::new();
        run(&history.book, &records[..], &mut output).unwrap();
        let printed = String::from_utf8(output).unwrap();
        assert_eq!(printed.lines().count(), orders.len());
        assert!(!printed.contains("bad record"));
        for line in printed.lines() {
            assert!(explain::line(line).is_ok(), "{line}");
        }
    }
}
