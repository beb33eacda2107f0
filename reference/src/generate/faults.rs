//! Requests with fields that must be refused.

use super::texts;
use crate::compose::{Address, Bind, Cancel, Query, Replace, Request, Submit, Text};
use crate::random::Random;

/// Spoils one field of a request. Two spoilt fields show which of them is looked at first.
pub fn spoil(random: &mut Random, request: &mut Request) {
    match request {
        Request::Bind(bind) => spoil_bind(random, bind),
        Request::Submit(submit) => spoil_submit(random, submit),
        Request::Query(query) => spoil_query(random, query),
        Request::Cancel(cancel) => spoil_cancel(random, cancel),
        Request::Replace(replace) => spoil_replace(random, replace),
        Request::Unbind | Request::EnquireLink => {}
    }
}

fn spoil_bind(random: &mut Random, bind: &mut Bind) {
    match random.below(4) {
        0 => bind.system_id = texts::bad_name(random, 16),
        1 => bind.password = texts::bad_name(random, 9),
        2 => bind.system_type = texts::bad_name(random, 13),
        _ => bind.range.text = texts::bad_name(random, 41),
    }
}

fn spoil_submit(random: &mut Random, submit: &mut Submit) {
    match random.below(11) {
        0 => submit.service_type = texts::bad_name(random, 6),
        1 => spoil_address(random, &mut submit.source),
        2 => spoil_address(random, &mut submit.destination),
        3 => submit.destination.text.clear(),
        4 => submit.priority = above(random, 1),
        5 => submit.schedule = texts::bad_time_field(random),
        6 => submit.validity = texts::bad_time_field(random),
        7 => submit.registered = above(random, 1),
        8 => submit.replace_if_present = above(random, 1),
        _ => spoil_text(random, &mut submit.text),
    }
}

fn spoil_query(random: &mut Random, query: &mut Query) {
    match random.below(2) {
        0 => query.id = texts::bad_id(random),
        _ => spoil_address(random, &mut query.source),
    }
}

fn spoil_cancel(random: &mut Random, cancel: &mut Cancel) {
    match random.below(4) {
        0 => cancel.service_type = texts::bad_name(random, 6),
        1 => cancel.id = texts::bad_id(random),
        2 => spoil_address(random, &mut cancel.source),
        _ => spoil_address(random, &mut cancel.destination),
    }
}

fn spoil_replace(random: &mut Random, replace: &mut Replace) {
    match random.below(7) {
        0 => replace.id = texts::bad_id(random),
        1 => spoil_address(random, &mut replace.source),
        2 => replace.schedule = texts::bad_time_field(random),
        3 => replace.validity = texts::bad_time_field(random),
        4 => replace.registered = above(random, 1),
        _ => spoil_text(random, &mut replace.text),
    }
}

fn spoil_address(random: &mut Random, address: &mut Address) {
    address.text = texts::bad_address(random);
}

/// Default ids and lengths above their limits, both at once, a length beyond the body or
/// short of it.
fn spoil_text(random: &mut Random, text: &mut Text) {
    let length = text.octets.len() as u8;
    match random.below(7) {
        0 => text.default_id = above(random, 100),
        1 => text.octets = random.octets(141),
        2 => text.forced_length = Some(above(random, 140)),
        3 => {
            text.default_id = 1 + random.below(100) as u8;
            text.octets.push(b'x');
        }
        4 => text.forced_length = Some(length.saturating_add(1)),
        5 => text.forced_length = Some(length.saturating_sub(1)),
        _ => {
            text.default_id = random.choose(&[0, 1, 101]);
            text.forced_length = Some(random.choose(&[0, 1, 140, 141, 255]));
        }
    }
}

fn above(random: &mut Random, limit: u8) -> u8 {
    match random.below(3) {
        0 => limit + 1,
        1 => 255,
        _ => random.between(usize::from(limit) + 1, 255) as u8,
    }
}
