//! Stored records that no request wrote: well formed, or broken in one rule.

use super::texts;
use super::Generator;
use crate::centre::{layout, BookRecord, Place, BOOK_RECORD, PART, PLACE, PLACES};
use crate::compare::Step;
use crate::random::Random;

impl Generator {
    /// Gives an account a table with a past, with ids in no order.
    pub(super) fn settle(&mut self, account: usize) {
        let last = match self.world.state.lasts[account] {
            0 => 40,
            last => last,
        };
        self.push(Step::SetLast { account, last });
        let book: &[[u8; BOOK_RECORD]] = self.world.book().as_chunks().0;
        let mut callback = BookRecord(&book[account]).callback().address.to_vec();
        // An ill-formed book may have one that is too long for the table.
        callback.truncate(20);
        let step = self.random.choose(&[1u32, 2]);
        let stride = self.random.choose(&[1, 3, 5, 7, 11]);
        let mut octets = vec![0; PART];
        let full = self.random.percent(20);
        for place in 0..PLACES {
            if !full && self.random.percent(20) {
                continue;
            }
            // An odd stride visits all sixteen numbers, so no id comes twice.
            let id = last - step * (place * stride % PLACES) as u32;
            let state = if full { 1 } else { self.random.choose(&STATES) };
            let record = well_formed(&mut self.random, state, id, &callback);
            octets[PLACE * place..][..PLACE].copy_from_slice(&record);
        }
        let at = PART * account;
        self.push(Step::SetTable { at, octets });
    }
}

/// States of messages, waiting ones more often.
const STATES: [u8; 7] = [1, 1, 1, 2, 3, 4, 5];

/// A record with whatever the rules allow in that state.
fn well_formed(random: &mut Random, state: u8, id: u32, callback: &[u8]) -> Place {
    let mut place = [0; PLACE];
    place[layout::STATE] = state;
    place[layout::ID].copy_from_slice(&id.to_be_bytes());
    put_parties(random, &mut place, callback);
    let service = random.choose(&[&b""[..], b"VMA", b"ABCDE"]);
    place[layout::SERVICE_TYPE][..service.len()].copy_from_slice(service);
    for free in [layout::ESM_CLASS, layout::PROTOCOL_ID, layout::DATA_CODING] {
        place[free] = random.octet();
    }
    place[layout::PRIORITY] = random.below(2) as u8;
    place[layout::REGISTERED] = random.below(2) as u8;
    put_times_and_text(random, &mut place);
    if state != 1 {
        place[layout::FINAL_DATE].copy_from_slice(&texts::time(random));
    }
    if matches!(state, 2 | 3 | 5) {
        place[layout::ERROR] = random.octet();
    }
    // Some receipts are acknowledged already.
    if state != 1 && !id.is_multiple_of(3) {
        place[layout::MARK] = place[layout::REGISTERED];
    }
    place
}

fn put_parties(random: &mut Random, place: &mut Place, callback: &[u8]) {
    for (field, own) in [(layout::SOURCE, callback), (layout::DESTINATION, b"5")] {
        let address: &[u8] = match random.below(4) {
            0 if !own.is_empty() => own,
            1 => b"   447700900001",
            2 => b"01234567890123456789",
            _ => b"447700900123",
        };
        let address = texts::respaced(random, address, texts::ADDRESS);
        let field = &mut place[field];
        field[0] = random.below(3) as u8;
        field[1] = random.below(3) as u8;
        field[2..2 + address.len()].copy_from_slice(&address);
    }
}

fn put_times_and_text(random: &mut Random, place: &mut Place) {
    for field in [layout::SCHEDULE, layout::VALIDITY] {
        if random.percent(30) {
            place[field].copy_from_slice(&texts::time(random));
        }
    }
    let text = texts::message(random);
    if text.is_empty() {
        place[layout::DEFAULT_ID] = random.choose(&[0, 1, 100]);
    }
    place[layout::LENGTH] = text.len() as u8;
    place[layout::TEXT][..text.len()].copy_from_slice(&text);
}

/// Changes a record so that it breaks a rule, most of the time.
pub fn hurt(random: &mut Random, place: &mut Place, last: u32) {
    match random.below(4) {
        0 => hurt_head(random, place, last),
        1 => hurt_options(random, place),
        2 => hurt_end(random, place),
        _ => place[random.below(PLACE)] = random.octet(),
    }
}

fn hurt_head(random: &mut Random, place: &mut Place, last: u32) {
    let field = if random.percent(50) {
        layout::SOURCE
    } else {
        layout::DESTINATION
    };
    let address = &mut place[field][2..];
    match random.below(8) {
        0 => address.fill(0),
        1 => address.fill(b' '),
        2 => address[0] = random.choose(b"a/:\x80\0"),
        3 => address[19] = random.choose(b"1 \x01"),
        4 => place[layout::STATE] = random.choose(&[0, 6, 7, 128, 255]),
        5 => place[layout::STATE] = 1 + random.below(5) as u8,
        6 => place[layout::ID].fill(0),
        _ => place[layout::ID].copy_from_slice(&last.wrapping_add(1).to_be_bytes()),
    }
}

fn hurt_options(random: &mut Random, place: &mut Place) {
    let time = if random.percent(50) {
        layout::SCHEDULE
    } else {
        layout::VALIDITY
    };
    match random.below(9) {
        0 => place[layout::SERVICE_TYPE][random.below(5)] = 0x80,
        1 => place[layout::SERVICE_TYPE].copy_from_slice(b"A\0B\0\0"),
        2 => place[layout::PRIORITY] = random.choose(&[2, 255]),
        3 => place[time].copy_from_slice(&texts::bad_time(random)),
        4 => place[time][15] = b'+',
        5 => place[layout::REGISTERED] = random.choose(&[2, 255]),
        6 => place[layout::DEFAULT_ID] = random.choose(&[101, 255]),
        7 => place[layout::DEFAULT_ID] = 1,
        _ => place[time][..15].fill(b'1'),
    }
}

fn hurt_end(random: &mut Random, place: &mut Place) {
    match random.below(9) {
        0 => place[layout::LENGTH] = random.choose(&[141, 255]),
        1 => place[layout::LENGTH] = place[layout::LENGTH].saturating_sub(1),
        2 => place[232] = 1,
        3 => place[layout::FINAL_DATE].fill(0),
        4 => place[layout::FINAL_DATE].copy_from_slice(&texts::time(random)),
        5 => place[layout::FINAL_DATE].copy_from_slice(&texts::bad_time(random)),
        6 => place[layout::ERROR] = 1 + random.octet() % 255,
        7 => place[layout::MARK + random.below(6)] = 1,
        _ => place[layout::LENGTH] = place[layout::LENGTH].saturating_add(1),
    }
}
