//! Texts that pass their field's rule, and texts that don't.

use crate::centre::without_leading_spaces;
use crate::random::Random;

/// What an address, a system_id and a system_type have room for.
pub const ADDRESS: usize = 20;
pub const SYSTEM_ID: usize = 15;
pub const SYSTEM_TYPE: usize = 12;

/// A text that compares as this one does: half of the time it has another number of leading
/// spaces, as far as there is room for any.
pub fn respaced(random: &mut Random, text: &[u8], room: usize) -> Vec<u8> {
    let bare = without_leading_spaces(text);
    let most = room.saturating_sub(bare.len());
    let mut counts = vec![0, 1, 2, most];
    counts.retain(|&count| count <= most && count != text.len() - bare.len());
    if counts.is_empty() || random.percent(50) {
        return text.to_vec();
    }
    let spaces = vec![b' '; random.choose(&counts)];
    [&spaces, bare].concat()
}

/// The same of an address or a system_id: an empty one is another than one of spaces only, and
/// stays empty. A system_id of spaces only may become empty, and then names another account.
pub fn respaced_if_any(random: &mut Random, text: &[u8], room: usize) -> Vec<u8> {
    match text {
        [] => Vec::new(),
        _ => respaced(random, text, room),
    }
}

/// A time somewhere in its limits, at a limit more often than chance would have it.
pub fn time(random: &mut Random) -> Vec<u8> {
    let year = random.below(100);
    let month = within(random, 1, 12);
    let day = within(random, 1, 31);
    let hour = within(random, 0, 23);
    let minute = within(random, 0, 59);
    let second = within(random, 0, 59);
    let tenth = within(random, 0, 9);
    let quarters = within(random, 0, 48);
    let sign = random.choose(&['+', '-']);
    format!("{year:02}{month:02}{day:02}{hour:02}{minute:02}{second:02}{tenth}{quarters:02}{sign}")
        .into_bytes()
}

fn within(random: &mut Random, lowest: usize, highest: usize) -> usize {
    match random.below(8) {
        0 => lowest,
        1 => highest,
        _ => random.between(lowest, highest),
    }
}

/// Sixteen octets that are no time, by one thing only.
pub fn bad_time(random: &mut Random) -> Vec<u8> {
    let mut time = time(random);
    let pairs: [(usize, &[u8; 2]); 8] = [
        (2, b"00"),
        (2, b"13"),
        (4, b"00"),
        (4, b"32"),
        (6, b"24"),
        (8, b"60"),
        (10, b"60"),
        (13, b"49"),
    ];
    match random.below(12) {
        0..8 => {
            let (at, pair) = random.choose(&pairs);
            time[at..at + 2].copy_from_slice(pair);
        }
        8 => time[15] = random.choose(b" *,.0\0"),
        _ => {
            let at = random.below(15);
            time[at] = random.choose(b"/: a\0\xB0");
        }
    }
    time
}

/// A time field that is refused: a wrong form or a wrong length.
pub fn bad_time_field(random: &mut Random) -> Vec<u8> {
    let mut time = match random.below(3) {
        0 => time(random),
        _ => return bad_time(random),
    };
    match random.below(3) {
        0 => time.truncate(random.below(15) + 1),
        1 => time.push(b'+'),
        _ => time.splice(0..0, [b' ']).for_each(drop),
    }
    time
}

/// The digits of an id in one of the ways that it may be written.
pub fn id(random: &mut Random, id: u32) -> Vec<u8> {
    match random.below(6) {
        0 => format!("{id:X}"),
        1 => format!("{id:x}"),
        2 => format!("{id:08x}"),
        3 => format!("{id:>8X}"),
        _ => format!("{id:08X}"),
    }
    .into_bytes()
}

pub fn bad_id(random: &mut Random) -> Vec<u8> {
    let texts: [&[u8]; 16] = [
        b" ",
        b"        ",
        b"g",
        b"G",
        b"@",
        b"`",
        b"/",
        b":",
        b"1 ",
        b"1 1",
        b"0x1",
        b"-1",
        b"\xB1",
        b"000000001",
        b" 00000001",
        b"0000000000000000000001",
    ];
    random.choose(&texts).to_vec()
}

pub fn bad_address(random: &mut Random) -> Vec<u8> {
    let texts: [&[u8]; 14] = [
        b" ",
        b"                    ",
        b"1 ",
        b"1 2",
        b"12a",
        b"a",
        b"/",
        b":",
        b"+44",
        b"\xB1",
        b"\t1",
        b"012345678901234567890",
        b"                    1",
        b"0123456789012345678901234567890123456789",
    ];
    random.choose(&texts).to_vec()
}

/// A name that has no NUL within its room, or that isn't ASCII.
pub fn bad_name(random: &mut Random, room: usize) -> Vec<u8> {
    match random.below(4) {
        0 => vec![b'x'; room],
        1 => vec![b'x'; room + 1 + random.below(30)],
        2 => vec![b'a', 0x80],
        _ => vec![random.octet() | 0x80],
    }
}

/// A text of a short message.
pub fn message(random: &mut Random) -> Vec<u8> {
    let length = match random.below(6) {
        0 => 0,
        1 => 1,
        2 => 139,
        3 => 140,
        _ => random.below(40),
    };
    random.octets(length)
}

#[cfg(test)]
mod tests {
    use super::*;
    use crate::centre::is_time;

    #[test]
    fn half_of_the_texts_have_other_leading_spaces_as_far_as_there_is_room() {
        let mut random = Random::new(5);
        for text in [&b""[..], b" ", b"5", b"  5", b" 2345678", b"12345678"] {
            let bare = without_leading_spaces(text);
            let texts: Vec<Vec<u8>> = (0..2000).map(|_| respaced(&mut random, text, 8)).collect();
            for other in &texts {
                assert!(other.len() <= 8 && without_leading_spaces(other) == bare);
            }
            let others = texts.iter().filter(|other| other[..] != *text).count();
            let expected = if bare.len() < 8 { 900..1100 } else { 0..1 };
            assert!(expected.contains(&others), "{others}");
        }
        assert!(respaced_if_any(&mut random, b"", 8).is_empty());
    }

    #[test]
    fn good_times_are_times_and_bad_ones_are_not() {
        let mut random = Random::new(5);
        for _ in 0..2000 {
            assert!(is_time(&time(&mut random)));
            assert!(!is_time(&bad_time(&mut random)));
            assert!(!is_time(&bad_time_field(&mut random)));
        }
    }
}
