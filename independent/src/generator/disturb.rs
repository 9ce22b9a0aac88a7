//! Sheets with several faults at once, in one field or in several, so that the
//! order of the refusals matters; damaged bytes; and bytes that are no sheet.

use crate::draft::end;
use crate::field::{encode, length_of_tag, HEAD};
use crate::generator::accepted_fields;
use crate::generator::values::any_header;
use crate::random::Random;

/// A field's bytes, whole or damaged.
type Piece = Vec<u8>;

/// An accepted sheet with two or three faults: half the time all in one field.
pub fn several_faults(random: &mut Random) -> Vec<u8> {
    let mut pieces: Vec<Piece> = accepted_fields(random).iter().map(encode).collect();
    let faults = random.between(2, 3);
    let same = random.chance(50).then(|| random.index(pieces.len()));
    for _ in 0..faults {
        if pieces.is_empty() {
            break;
        }
        match same {
            Some(index) => disturb_piece(random, &mut pieces[index]),
            None => disturb_any(random, &mut pieces),
        }
    }
    let mut sheet = pieces.concat();
    if random.chance(10) {
        sheet.push(random.draw() as u8);
    }
    if random.chance(10) {
        sheet.truncate(random.index(sheet.len() + 1));
    }
    sheet
}

/// One fault anywhere: in a field or in the order of the fields.
fn disturb_any(random: &mut Random, pieces: &mut Vec<Piece>) {
    let index = random.index(pieces.len());
    let other = random.index(pieces.len());
    match random.below(10) {
        0 => pieces.swap(index, other),
        1 => pieces.insert(other, pieces[index].clone()),
        2 => drop(pieces.remove(index)),
        3 => {
            let count = random.pick(&[index as u32, pieces.len() as u32]);
            pieces.insert(index, encode(&end(count)));
        }
        4 => pieces.insert(index, encode(&any_header(random))),
        _ => disturb_piece(random, &mut pieces[index]),
    }
}

/// One fault in a field: its head, its length in bytes, or one of its values.
fn disturb_piece(random: &mut Random, piece: &mut Piece) {
    match random.below(12) {
        0 => overwrite(random, piece, 0, &[&[0], &[7], &[8], &[9], &[255]]),
        1 => overwrite(random, piece, 0, &[&[1], &[2], &[3], &[4], &[5], &[6]]),
        2 => overwrite(random, piece, 1, &[&[1], &[255], &[0, 0], &[0, 3], &[0, 4], &[0, 12]]),
        3 => piece.truncate(random.index(piece.len() + 1)),
        4 => piece.push(random.draw() as u8),
        _ => disturb_value(random, piece),
    }
}

/// Puts one of the choices over the bytes from a place on, as far as they reach.
fn overwrite(random: &mut Random, piece: &mut Piece, from: usize, choices: &[&[u8]]) {
    let chosen = random.pick(choices);
    for (old, new) in piece.iter_mut().skip(from).zip(chosen) {
        *old = *new;
    }
}

/// The ends of the range, and the instruments that a long header may bar.
const INSTRUMENTS: [&[u8]; 12] =
    [&[0], &[1], &[2], &[4], &[5], &[6], &[9], &[10], &[11], &[12], &[200], &[255]];

/// Times 0, 1, 86,399,999, 86,400,000, the greatest, and Copper's anchor start.
const TIMES: [&[u8]; 6] = [
    &[0, 0, 0, 0],
    &[0, 0, 0, 1],
    &[0x05, 0x26, 0x5B, 0xFF],
    &[0x05, 0x26, 0x5C, 0x00],
    &[255, 255, 255, 255],
    &[0x03, 0x98, 0x1A, 0xE0],
];

/// Prices 0, 1, -1, the ends of both ranges and the numbers behind them.
const PRICES: [&[u8]; 11] = [
    &[0, 0, 0, 0],
    &[0, 0, 0, 1],
    &[255, 255, 255, 255],
    &[0x05, 0xF5, 0xE0, 0xFF],
    &[0x05, 0xF5, 0xE1, 0x00],
    &[0x00, 0x98, 0x96, 0x7F],
    &[0x00, 0x98, 0x96, 0x80],
    &[0xFF, 0x67, 0x69, 0x81],
    &[0xFF, 0x67, 0x69, 0x80],
    &[0x80, 0, 0, 0],
    &[0x7F, 255, 255, 255],
];

const LOTS: [&[u8]; 5] = [&[0, 0], &[0, 1], &[0x27, 0x10], &[0x27, 0x11], &[255, 255]];

const SIDES: [&[u8]; 7] = [&[0], &[1], &[2], &[3], &[4], &[7], &[255]];

const THIRDS: [&[u8]; 6] = [&[0], &[1], &[2], &[3], &[4], &[255]];

const COUNTS: [&[u8]; 4] = [&[0, 0, 0, 0], &[0, 0, 0, 1], &[0, 0, 0, 9], &[1, 0, 0, 0]];

/// One of the field's values becomes one at or behind the end of its range.
fn disturb_value(random: &mut Random, piece: &mut Piece) {
    let value = random.below(5);
    match (piece.first(), value) {
        (Some(6), 0..=1) => overwrite(random, piece, 6, &THIRDS),
        (Some(1 | 6), 0..=2) => overwrite(random, piece, 3, &[&[0], &[1], &[5], &[6], &[255]]),
        (Some(1 | 6), _) => overwrite(random, piece, 4, &[&[7, 255], &[8, 0], &[255, 255]]),
        (Some(2), 0..=1) => overwrite(random, piece, 3, &INSTRUMENTS),
        (Some(2), _) => overwrite(random, piece, 4, &PRICES),
        (Some(3 | 4), 0) => overwrite(random, piece, 3, &TIMES),
        (Some(3 | 4), 1) => overwrite(random, piece, 7, &INSTRUMENTS),
        (Some(3), 2) => overwrite(random, piece, 12, &LOTS),
        (Some(3), _) => overwrite(random, piece, 8, &PRICES),
        (Some(4), 2) => overwrite(random, piece, 8, &SIDES),
        (Some(4), 3) => overwrite(random, piece, 9, &PRICES),
        (Some(4), _) => overwrite(random, piece, 13, &PRICES),
        _ => overwrite(random, piece, 3, &COUNTS),
    }
}

/// Bits flipped, bytes put in, taken out or overwritten, or a cut.
pub fn damage_bytes(random: &mut Random, mut sheet: Vec<u8>) -> Vec<u8> {
    for _ in 0..random.between(1, 3) {
        let place = random.index(sheet.len());
        let byte = random.draw() as u8;
        match random.below(6) {
            0 => sheet.insert(place, byte),
            _ if sheet.is_empty() => {}
            1 => drop(sheet.remove(place)),
            2 => sheet[place] = byte,
            3 => sheet.truncate(place),
            _ => sheet[place] ^= 1 << random.below(8),
        }
    }
    sheet
}

/// Random bytes, or random bodies behind good heads.
pub fn garbage(random: &mut Random) -> Vec<u8> {
    let mut sheet = Vec::new();
    if random.chance(50) {
        for _ in 0..random.below(200) {
            sheet.push(random.draw() as u8);
        }
        return sheet;
    }
    for _ in 0..random.between(1, 6) {
        let tag = random.between(1, 6) as u8;
        let length = length_of_tag(tag).unwrap_or(0);
        sheet.extend([tag, 0, length as u8]);
        let small = random.chance(50);
        for place in HEAD..HEAD + length {
            let byte = random.draw() as u8;
            sheet.push(if small && place % 2 == 0 { 0 } else { byte });
        }
    }
    sheet
}

#[cfg(test)]
mod tests {
    use super::{LOTS, PRICES, TIMES};

    fn number(bytes: &[u8]) -> i64 {
        bytes.iter().fold(0, |sum, byte| sum * 256 + i64::from(*byte))
    }

    #[test]
    fn the_ends_of_ranges_are_the_ones_meant() {
        assert_eq!(number(TIMES[2]), 86_399_999);
        assert_eq!(number(TIMES[3]), 86_400_000);
        assert_eq!(number(TIMES[5]), 60_300_000);
        assert_eq!(number(PRICES[3]), 99_999_999);
        assert_eq!(number(PRICES[4]), 100_000_000);
        assert_eq!(number(PRICES[5]), 9_999_999);
        assert_eq!(number(PRICES[6]), 10_000_000);
        assert_eq!(number(PRICES[7]) - (1 << 32), -9_999_999);
        assert_eq!(number(PRICES[8]) - (1 << 32), -10_000_000);
        assert_eq!(number(LOTS[2]), 10_000);
    }
}
