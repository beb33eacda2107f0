//! A paging bureau's day on the proved library: bind, submit, send, ask what became of it, and get
//! the receipt.
//!
//! `INVEROOK_LIB=<folder of libinverook.a> cargo run --features proved --example bureau`

use reference::compose::{deliver_sm_resp, Address, Bind, Query, Request, Role, Submit, Text};
use reference::explain;
use reference::proved::Proved;
use reference::wrapper::{Centre, Outcome};
use std::error::Error;

const STAMP: &[u8] = b"960701120000000+";

fn main() -> Result<(), Box<dyn Error>> {
    let mut centre = Centre::new(&book())?;
    centre.open(0)?;
    centre.open(1)?;
    send(&mut centre, 0, &bind(Role::Transmitter), 1)?;
    send(&mut centre, 1, &bind(Role::Receiver), 1)?;
    send(&mut centre, 0, &submit("Your taxi is here"), 2)?;

    let message = centre.pick(0)?.ok_or("the message is waiting")?;
    let id = u32::from_be_bytes([message[1], message[2], message[3], message[4]]);
    println!("sending message {id:08X}, and it arrives");
    centre.outcome(STAMP, 0, id, Outcome::Delivered, 0)?;

    send(&mut centre, 0, &query(id), 3)?;
    tell(&mut centre, 1)?;
    send(&mut centre, 0, &Request::Unbind, 4)?;
    centre.close(0)?;
    centre.close(1)?;
    Ok(())
}

/// Sends a receiver all receipts that are owed, and takes its answers.
fn tell(centre: &mut Centre<Proved>, session: usize) -> Result<(), Box<dyn Error>> {
    for sequence in 1.. {
        let Some(receipt) = centre.deliver(session, sequence)? else {
            break;
        };
        println!("{}", explain::reply(&receipt)?);
        let answer = deliver_sm_resp(0, sequence, &[0]);
        centre.take(session, &answer, STAMP)?.ok_or("it is whole")?;
    }
    println!("no receipt is owed any more");
    Ok(())
}

/// One account; the outline gives the layout.
fn book() -> [u8; 512] {
    let mut book = [0; 512];
    book[..6].copy_from_slice(b"paging");
    book[16..22].copy_from_slice(b"secret");
    book[25..28].copy_from_slice(b"VMA");
    book[38..40].copy_from_slice(&[1, 1]);
    book[40..52].copy_from_slice(b"447700900000");
    book
}

fn bind(role: Role) -> Request {
    Request::Bind(Bind {
        role,
        system_id: b"paging".to_vec(),
        password: b"secret".to_vec(),
        system_type: b"VMA".to_vec(),
        interface_version: 0x33,
        range: Address::default(),
    })
}

fn submit(text: &str) -> Request {
    Request::Submit(Submit {
        destination: Address::new(1, 1, b"447700900123"),
        registered: 1,
        text: Text {
            octets: text.as_bytes().to_vec(),
            ..Text::default()
        },
        ..Submit::default()
    })
}

fn query(id: u32) -> Request {
    Request::Query(Query {
        id: format!("{id:08X}").into_bytes(),
        source: Address::default(),
    })
}

/// Sends a request as octets and says what came back.
fn send(
    centre: &mut Centre<Proved>,
    session: usize,
    request: &Request,
    sequence: u32,
) -> Result<(), Box<dyn Error>> {
    let octets = request.octets(sequence);
    let taken = centre
        .take(session, &octets, STAMP)?
        .ok_or("the request is whole")?;
    println!("{}", explain::reply(&taken.reply)?);
    Ok(())
}
