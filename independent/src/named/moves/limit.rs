//! Sheets of 1,048,576 bytes, the most that a sheet may have, and a byte less or
//! more. The old header has 6 bytes, the new one 7, a close 8, a trade 14, a quote 17
//! and an end 7.

use super::{behind, case, wanted, NamedMove};
use crate::draft::{close, header, long_header, quote, sheet_of, trade};
use crate::field::{Field, Refusal};

/// Closes at 0 of these spreads, which no third value bars, trades of M2-M3 and
/// quotes with neither side.
fn fields(closed: &[u8], trades: usize, quotes: usize) -> Vec<Field> {
    let mut fields: Vec<Field> = closed.iter().map(|spread| close(*spread, 0)).collect();
    fields.extend(vec![trade(7, 3, -100, 5); trades]);
    fields.extend(vec![quote(8, 3, 0, 0, 0); quotes]);
    fields
}

/// With the new header 1,048,576 bytes: 14 and 4 x 8 and 74,895 x 14. With the old
/// one a byte less.
fn just_movable() -> Vec<Field> {
    fields(&[3, 7, 8, 11], 74_895, 0)
}

/// With the old header 1,048,576 bytes: 13 and 2 x 8 and 74,895 x 14 and 17. With the
/// new one a byte more.
fn too_long_by_a_byte() -> Vec<Field> {
    fields(&[3, 11], 74_895, 1)
}

fn old(fields: &[Field]) -> Vec<u8> {
    behind(header(4, 0), fields)
}

fn new(third: u8, fields: &[Field]) -> Vec<u8> {
    behind(long_header(4, 0, third), fields)
}

pub(super) fn cases() -> Vec<NamedMove> {
    let mut cases = moved();
    cases.extend(longer());
    cases.extend(already());
    cases.extend(own());
    cases
}

/// A sheet that fills the limit once it has the new header, and back.
fn moved() -> Vec<NamedMove> {
    let (short, long) = (old(&just_movable()), new(0, &just_movable()));
    let there = |room: usize, told: Result<&[u8], Refusal>| {
        case(&format!("J2 1,048,575 bytes to the new header, room {room}"), &short, true, room, told)
    };
    let back = |room: usize, told: Result<&[u8], Refusal>| {
        case(&format!("J3 1,048,576 bytes to the old header, room {room}"), &long, false, room, told)
    };
    vec![
        there(1_048_576, Ok(&long)),
        there(1_048_577, Ok(&long)),
        there(1_048_575, Err((16, 0))),
        there(0, Err((16, 0))),
        back(1_048_575, Ok(&short)),
        back(1_048_576, Ok(&short)),
        back(1_048_574, Err((16, 0))),
        back(0, Err((16, 0))),
    ]
}

/// 1 for the sheet that would have a byte too many, before 16.
fn longer() -> Vec<NamedMove> {
    let sheet = old(&too_long_by_a_byte());
    let told = |room: usize| {
        let name = format!("J2 1,048,576 bytes to the new header, room {room}");
        case(&name, &sheet, true, room, Err((1, 0)))
    };
    [0, 1_048_575, 1_048_576, 1_048_577, usize::MAX].map(told).into()
}

/// 19 comes before 1, and before 16.
fn already() -> Vec<NamedMove> {
    let told = |name: &str, sheet: &[u8], to_new: bool, room: usize| {
        let name = format!("J1 1,048,576 bytes, {name} {}, room {room}", wanted(to_new));
        case(&name, sheet, to_new, room, Err((19, 0)))
    };
    let in_new_form = |third: u8| new(third, &just_movable());
    let in_old_form = old(&too_long_by_a_byte());
    vec![
        told("byte 0", &in_new_form(0), true, usize::MAX),
        told("byte 0", &in_new_form(0), true, 0),
        told("byte 1", &in_new_form(1), true, 1_048_577),
        told("byte 2", &in_new_form(2), true, 0),
        told("byte 1", &in_new_form(1), false, 0),
        told("byte 2", &in_new_form(2), false, 1_048_576),
        told("the old header", &in_old_form, false, 1_048_576),
        told("the old header", &in_old_form, false, 0),
    ]
}

/// The sheet's own refusal before 1 for the longer one: its end's count is wrong, and
/// stands in the last byte. A byte more is 1 as the sheet's own, though the sheet
/// with the old header would not be too long.
fn own() -> Vec<NamedMove> {
    let mut miscounted = old(&too_long_by_a_byte());
    miscounted[1_048_575] ^= 1;
    let mut barred = new(2, &just_movable());
    barred[1_048_562] = 5;
    let over_old = [sheet_of(&[header(4, 0)]), vec![0; 1_048_571]].concat();
    let over_new = new(0, &too_long_by_a_byte());
    let no_sheet = vec![0xFF; 1_048_577];
    let told = |name: &str, sheet: &[u8], to_new: bool, refusal: Refusal| {
        let name = format!("J4 {name} {}", wanted(to_new));
        case(&name, sheet, to_new, 0, Err(refusal))
    };
    let mut cases = Vec::new();
    for to_new in [true, false] {
        cases.push(told("1,048,576 bytes and a wrong count", &miscounted, to_new, (12, 1_048_569)));
        cases.push(told("1,048,576 bytes, the last trade barred", &barred, to_new, (18, 1_048_555)));
        cases.push(told("1,048,577 bytes and the new header", &over_new, to_new, (1, 0)));
        cases.push(told("1,048,577 bytes and the old header", &over_old, to_new, (1, 0)));
        cases.push(told("1,048,577 bytes that are no sheet", &no_sheet, to_new, (1, 0)));
    }
    cases
}
