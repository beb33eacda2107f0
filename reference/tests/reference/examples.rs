//! The outline's twelve examples. P10 stands with the forms of texts.

use crate::bureau::Bureau;
use reference::centre::{message_id, Entry, Refusal};
use reference::hex;

/// What octets bring about on a session 0 with this entry.
fn reply(entry: Entry, octets: &str) -> (Result<(usize, String), Refusal>, Entry) {
    let mut bureau = Bureau::new();
    bureau.state.entries[0] = entry;
    let octets = hex::octets(octets).unwrap();
    let taken = bureau.take(0, &octets);
    (
        taken.map(|(consumed, reply)| (consumed, hex::text(&reply))),
        bureau.state.entries[0],
    )
}

fn done(consumed: usize, reply: &str) -> Result<(usize, String), Refusal> {
    Ok((consumed, reply.replace(' ', "")))
}

const NAK_OF_LENGTH: &str = "00000010 80000000 00000002 00000000";

#[test]
fn p1_three_octets() {
    let (taken, after) = reply(Entry::Open, "000000");
    assert_eq!(taken, Err(Refusal::MoreNeeded));
    assert_eq!(after, Entry::Open);
}

#[test]
fn p2_length_15() {
    let (taken, after) = reply(Entry::Open, "0000000F");
    assert_eq!(taken, done(4, NAK_OF_LENGTH));
    assert_eq!(after, Entry::Ended);
}

#[test]
fn p3_length_512_with_16_octets() {
    let (taken, after) = reply(Entry::Open, "00000200 00000015 00000000 00000001");
    assert_eq!(taken, Err(Refusal::MoreNeeded));
    assert_eq!(after, Entry::Open);
}

#[test]
fn p4_length_513() {
    let (taken, after) = reply(Entry::Open, "00000201 00000015 00000000 00000001");
    assert_eq!(taken, done(4, NAK_OF_LENGTH));
    assert_eq!(after, Entry::Ended);
}

#[test]
fn p5_enquire_link() {
    let (taken, after) = reply(Entry::Open, "00000010 00000015 00000000 00000007");
    assert_eq!(taken, done(16, "00000010 80000015 00000000 00000007"));
    assert_eq!(after, Entry::Open);
}

#[test]
fn p6_unknown_command() {
    let (taken, after) = reply(Entry::Open, "00000010 00000009 00000000 00000005");
    assert_eq!(taken, done(16, "00000010 80000000 00000003 00000005"));
    assert_eq!(after, Entry::Open);
}

#[test]
fn p7_submit_when_unbound() {
    let (taken, after) = reply(Entry::Open, "00000010 00000004 00000000 00000002");
    assert_eq!(taken, done(16, "00000011 80000004 00000004 00000002 00"));
    assert_eq!(after, Entry::Open);
}

#[test]
fn p8_first_accepted_submit() {
    let submit = "00000024 00000004 00000000 00000003 \
                  00 000000 010135 00 000000 00 00 00 00 00 00 02 4869";
    let (taken, after) = reply(Entry::Transmitter(0), submit);
    assert_eq!(
        taken,
        done(
            36,
            "00000019 80000004 00000000 00000003 3030303030303031 00"
        )
    );
    assert_eq!(after, Entry::Transmitter(0));
}

#[test]
fn p9_query_of_an_unknown_id() {
    let query = "00000015 00000003 00000000 00000004 3100 000000";
    let (taken, _) = reply(Entry::Transmitter(0), query);
    assert_eq!(
        taken,
        done(21, "00000014 80000003 0000000C 00000004 00000000")
    );
}

#[test]
fn p10_id_with_leading_spaces() {
    assert_eq!(message_id(b"  1a"), Some(26));
}

#[test]
fn p11_bind_with_a_wrong_password() {
    let bind = "00000026 00000002 00000000 00000001 \
                706167696E6700 7075626C696300 564D4100 33 0000 00";
    let (taken, after) = reply(Entry::Open, bind);
    assert_eq!(
        taken,
        done(38, "00000017 80000002 0000000D 00000001 534D5343333300")
    );
    assert_eq!(after, Entry::Open);
}

#[test]
fn p12_a_response() {
    let (taken, after) = reply(Entry::Open, "00000010 80000015 00000000 00000001");
    assert_eq!(taken, done(16, ""));
    assert_eq!(after, Entry::Open);
}
