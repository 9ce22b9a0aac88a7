//! Damage to the form of a numeral, and numerals too big for their field.

use super::parts::{Item, Kind, Parts};
use crate::random::Random;

const ALL: [Kind; 5] = [Kind::Marks, Kind::Third, Kind::Time, Kind::Price, Kind::Lots];
const UNSIGNED: [Kind; 4] = [Kind::Marks, Kind::Third, Kind::Time, Kind::Lots];

/// Changes a numeral of one of these kinds.
fn change(random: &mut Random, parts: &mut Parts, kinds: &[Kind], by: fn(&mut Random, Kind, &mut Item)) {
    if let Some((line, item, kind)) = parts.any_numeral(random, kinds) {
        by(random, kind, &mut parts.lines[line][item]);
    }
}

/// One of the words, in place of the item.
fn word(random: &mut Random, item: &mut Item, words: &[&str]) {
    *item = random.pick(words).as_bytes().to_vec();
}

/// The place behind the minus sign, if there is one.
fn first_digit(item: &Item) -> usize {
    usize::from(item.first() == Some(&b'-'))
}

/// The place of the point, or the length.
fn point(item: &Item) -> usize {
    item.iter().position(|byte| *byte == b'.').unwrap_or(item.len())
}

pub(super) fn leading_zero(random: &mut Random, parts: &mut Parts) {
    change(random, parts, &ALL, |random, _, item| {
        let place = first_digit(item);
        for _ in 0..random.pick(&[1, 1, 2, 30]) {
            item.insert(place, b'0');
        }
    });
}

pub(super) fn plus_sign(random: &mut Random, parts: &mut Parts) {
    change(random, parts, &ALL, |random, _, item| {
        let place = random.pick(&[0, 0, first_digit(item)]);
        item.insert(place, b'+');
    });
}

/// A minus on a numeral that never has one.
pub(super) fn minus_sign(random: &mut Random, parts: &mut Parts) {
    change(random, parts, &UNSIGNED, |_, _, item| item.insert(0, b'-'));
}

pub(super) fn negative_zero(random: &mut Random, parts: &mut Parts) {
    change(random, parts, &[Kind::Price], |random, _, item| {
        word(random, item, &["-0.00", "-0.00", "-0.00", "-0", "-00.00", "-0.0"]);
    });
}

/// A price that lost its minus or got one: often out of its range.
pub(super) fn turned_sign(random: &mut Random, parts: &mut Parts) {
    change(random, parts, &[Kind::Price], |_, _, item| match first_digit(item) {
        0 => item.insert(0, b'-'),
        _ => drop(item.remove(0)),
    });
}

/// One decimal, three, none with the point or without, or two too many points.
pub(super) fn decimals(random: &mut Random, parts: &mut Parts) {
    change(random, parts, &[Kind::Price], |random, _, item| {
        let point = point(item);
        match random.below(5) {
            0 => item.truncate(point + 2),
            1 => item.push(random.pick(b"05")),
            2 => item.truncate(point),
            3 => item.truncate(point + 1),
            _ => item.insert(random.index(item.len() + 1), b'.'),
        }
    });
}

/// A number without decimals that gets some.
pub(super) fn needless_decimals(random: &mut Random, parts: &mut Parts) {
    change(random, parts, &UNSIGNED, |random, _, item| {
        item.extend(random.pick(&[".00", ".0", ".", ".50"]).as_bytes());
    });
}

/// `.50` and `-.50`.
pub(super) fn no_whole_part(random: &mut Random, parts: &mut Parts) {
    change(random, parts, &[Kind::Price], |_, _, item| {
        let (from, point) = (first_digit(item), point(item));
        item.drain(from..point.max(from));
    });
}

pub(super) fn empty_item(random: &mut Random, parts: &mut Parts) {
    change(random, parts, &ALL, |_, _, item| item.clear());
}

/// A letter or a sign for one of the bytes, or a numeral of another form.
pub(super) fn no_digit(random: &mut Random, parts: &mut Parts) {
    change(random, parts, &ALL, |random, _, item| {
        if random.chance(40) || item.is_empty() {
            return word(
                random,
                item,
                &["1e3", "0x10", "NaN", "1_000", "abc", "1 000.00", "--1.00", "1-.00"],
            );
        }
        let place = random.index(item.len());
        item[place] = random.pick(b"aOlI/:-+'_ ");
    });
}

/// A minus alone where no side is, or twice.
pub(super) fn sign_alone(random: &mut Random, parts: &mut Parts) {
    if let Some((line, item, _)) = parts.any_numeral(random, &ALL) {
        let words = ["-", "-", "-", "--", "+", "."];
        word(random, &mut parts.lines[line][item], &words);
    }
}

/// Thirty digits or a hundred, of a price with two decimals behind them.
pub(super) fn many_digits(random: &mut Random, parts: &mut Parts) {
    change(random, parts, &ALL, |random, kind, item| {
        item.clear();
        if kind == Kind::Price && random.chance(40) {
            item.push(b'-');
        }
        item.push(random.between(b'1'.into(), b'9'.into()) as u8);
        for _ in 1..random.pick(&[30, 100]) {
            item.push(random.between(b'0'.into(), b'9'.into()) as u8);
        }
        if kind == Kind::Price {
            item.extend(b".50");
        }
    });
}

/// Numbers around 2^8, 2^16, 2^32 and 2^64, and prices around 2^31, 2^32 and
/// 2^64 cents: cut to fewer bits most of them would be in range.
pub(super) fn past_its_width(random: &mut Random, parts: &mut Parts) {
    change(random, parts, &ALL, |random, kind, item| match kind {
        Kind::Price => word(random, item, &WIDE_PRICES),
        Kind::Third => word(random, item, &WIDE_BYTES),
        Kind::Time => word(random, item, &WIDE_NUMBERS[4..]),
        Kind::Marks | Kind::Lots => word(random, item, &WIDE_NUMBERS),
    });
}

const WIDE_BYTES: [&str; 10] = [
    "255",
    "256",
    "257",
    "258",
    "65536",
    "65537",
    "4294967296",
    "4294967298",
    "18446744073709551616",
    "18446744073709551617",
];

const WIDE_NUMBERS: [&str; 13] = [
    "65535",
    "65536",
    "65537",
    "65546",
    "4294967295",
    "4294967296",
    "4294967297",
    "4294967306",
    "4353167296",
    "9223372036854775808",
    "18446744073709551615",
    "18446744073709551616",
    "18446744073709551626",
];

const WIDE_PRICES: [&str; 16] = [
    "21474836.47",
    "21474836.48",
    "-21474836.48",
    "-21474836.49",
    "42949672.95",
    "42949672.96",
    "42949672.97",
    "-42949672.95",
    "-42949672.96",
    "42950672.96",
    "92233720368547758.08",
    "184467440737095516.15",
    "184467440737095516.16",
    "184467440737095516.17",
    "-184467440737095516.15",
    "18446744073709551617.00",
];
