//! Damage to the bytes of a text, whatever they say.

use crate::random::Random;

/// A carriage return before one line feed or before all.
pub(super) fn carriage_return(random: &mut Random, text: &mut Vec<u8>) {
    let feeds: Vec<usize> = (0..text.len()).filter(|place| text[*place] == b'\n').collect();
    let all = random.chance(30);
    let chosen = feeds.get(random.index(feeds.len())).copied();
    for feed in feeds.into_iter().rev().filter(|feed| all || Some(*feed) == chosen) {
        text.insert(feed, b'\r');
    }
}

pub(super) fn no_last_line_feed(_: &mut Random, text: &mut Vec<u8>) {
    text.pop();
}

pub(super) fn nul(random: &mut Random, text: &mut Vec<u8>) {
    let place = random.index(text.len() + 1);
    text.insert(place, 0);
}

/// A byte from 128 on, a byte order mark, or a longer minus or space.
pub(super) fn beyond_ascii(random: &mut Random, text: &mut Vec<u8>) {
    let place = random.index(text.len() + 1);
    match random.below(4) {
        0 => drop(text.splice(0..0, *b"\xEF\xBB\xBF")),
        1 => drop(text.splice(place..place, random.pick(&["\u{2212}", "\u{a0}", "\u{ff11}"]).bytes())),
        2 if place < text.len() => text[place] |= 0x80,
        _ => text.insert(place, random.between(128, 255) as u8),
    }
}

/// One byte changed, taken out, put in or doubled.
pub(super) fn any_byte(random: &mut Random, text: &mut Vec<u8>) {
    let place = random.index(text.len());
    let byte = random.draw() as u8;
    match random.below(5) {
        0 => text.insert(place, byte),
        _ if text.is_empty() => {}
        1 => text[place] = byte,
        2 => text[place] ^= 1 << random.below(8),
        3 => drop(text.remove(place)),
        _ => text.insert(place, text[place]),
    }
}

/// Another digit for one: the text mostly stays well formed.
pub(super) fn any_digit(random: &mut Random, text: &mut [u8]) {
    let digits: Vec<usize> = (0..text.len()).filter(|place| text[*place].is_ascii_digit()).collect();
    if let Some(place) = digits.get(random.index(digits.len())) {
        text[*place] = b'0' + random.below(10) as u8;
    }
}

/// A byte that means something in a text, where it may not stand.
pub(super) fn any_sign(random: &mut Random, text: &mut Vec<u8>) {
    let place = random.index(text.len() + 1);
    let sign = random.pick(b",-.+ \n0");
    if random.chance(50) || place == text.len() {
        text.insert(place, sign);
    } else {
        text[place] = sign;
    }
}

pub(super) fn cut(random: &mut Random, text: &mut Vec<u8>) {
    text.truncate(random.index(text.len() + 1));
}

pub(super) fn cut_in_front(random: &mut Random, text: &mut Vec<u8>) {
    text.drain(..random.index(text.len() + 1));
}

pub(super) fn empty(_: &mut Random, text: &mut Vec<u8>) {
    text.clear();
}
