//! The printing program.

use crate::bureau::{bind, plain_submit, Bureau, STAMP};
use reference::compose::{Request, Role};
use reference::printing::{read_book, run, Order, RecordedReport, RECORD};

fn printed(book: &[u8], input: &[u8]) -> String {
    let mut output = Vec::new();
    run(book, input, &mut output).unwrap();
    String::from_utf8(output).unwrap()
}

fn records(orders: &[Order]) -> Vec<u8> {
    orders.iter().flat_map(Order::record).collect()
}

fn octets(request: &Request) -> Order {
    Order::Octets {
        session: 0,
        stamp: *STAMP,
        octets: request.octets(7),
    }
}

/// The first message of account 0 was delivered.
fn first_delivered(error: u8) -> Order {
    Order::Outcome {
        stamp: *STAMP,
        report: RecordedReport {
            account: 0,
            id: 1,
            outcome: 2,
            error,
        },
    }
}

const OPEN: Order = Order::Open { session: 0 };
const CLOSE: Order = Order::Close { session: 0 };

#[test]
fn the_outlines_three_lines() {
    let input = records(&[OPEN, octets(&Request::EnquireLink), CLOSE]);
    assert_eq!(
        printed(&[0; 512], &input),
        "0 0 -\n0 16 00000010800000150000000000000007\n0 0 -\n"
    );
}

#[test]
fn nothing_in_nothing_out() {
    assert_eq!(printed(&[0; 512], &[]), "");
}

#[test]
fn bad_records_stop_the_program() {
    let good = OPEN.record();
    let mut unknown = good;
    unknown[0] = 4;
    let mut long = octets(&Request::EnquireLink).record();
    long[2..4].copy_from_slice(&513u16.to_be_bytes());
    let mut short = first_delivered(0).record();
    short[3] = 6;
    for bad in [&unknown, &long, &short] {
        let input = [&good[..], bad, &good].concat();
        assert_eq!(printed(&[0; 512], &input), "0 0 -\nbad record\n");
    }
    for cut in [1, RECORD - 1] {
        let input = [&good[..], &good[..cut]].concat();
        assert_eq!(printed(&[0; 512], &input), "0 0 -\nbad record\n");
    }
}

#[test]
fn fields_without_use_are_not_examined() {
    let mut noisy = [0xFF; RECORD];
    noisy[..2].fill(0);
    assert_eq!(printed(&[0; 512], &noisy), "0 0 -\n");
    noisy[0] = 2;
    assert_eq!(printed(&[0; 512], &noisy), "0 0 -\n");
    let mut long = octets(&Request::EnquireLink).record();
    long[36..].fill(0xFF);
    let input = [&OPEN.record()[..], &long].concat();
    assert_eq!(
        printed(&[0; 512], &input),
        "0 0 -\n0 16 00000010800000150000000000000007\n"
    );
}

#[test]
fn the_longest_octets_are_taken() {
    let mut order = octets(&Request::EnquireLink).record();
    order[2..4].copy_from_slice(&512u16.to_be_bytes());
    let input = [&OPEN.record()[..], &order].concat();
    assert!(printed(&[0; 512], &input).ends_with("\n0 16 00000010800000150000000000000007\n"));
}

#[test]
fn books_of_a_wrong_size() {
    let input = records(&[OPEN, octets(&Request::EnquireLink)]);
    for size in [0, 511, 513] {
        assert_eq!(printed(&vec![0; size], &input), "0 0 -\n3 0 -\n");
    }
    assert_eq!(read_book(&[0; 600][..]).unwrap().len(), 513);
    assert_eq!(read_book(&[0; 512][..]).unwrap().len(), 512);
    assert_eq!(read_book(&[0; 3][..]).unwrap().len(), 3);
}

#[test]
fn a_short_history() {
    let input = records(&[
        OPEN,
        OPEN,
        octets(&bind(Role::Transmitter, b"paging", b"secret", b"VMA")),
        octets(&Request::Submit(plain_submit())),
        first_delivered(3),
        first_delivered(3),
        Order::Open { session: 16 },
        octets(&Request::Unbind),
        octets(&Request::Unbind),
    ]);
    let book = Bureau::new().book;
    assert_eq!(
        printed(&book, &input),
        "0 0 -\n\
         6 0 -\n\
         0 38 00000017800000020000000000000007534D5343333300\n\
         0 50 00000019800000040000000000000007303030303030303100\n\
         0 0 -\n\
         10 0 -\n\
         2 0 -\n\
         0 16 00000010800000060000000000000007\n\
         6 0 -\n"
    );
}

#[test]
fn records_are_read_as_they_are_written() {
    let orders = [
        OPEN,
        CLOSE,
        octets(&Request::Unbind),
        Order::Outcome {
            stamp: *STAMP,
            report: RecordedReport {
                account: 7,
                id: 0x0102_0304,
                outcome: 5,
                error: 255,
            },
        },
    ];
    for order in orders {
        assert_eq!(Order::read(&order.record()), Some(order));
    }
}
