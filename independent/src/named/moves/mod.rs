//! Hand-made sheets to be moved to the other header (W-204), each with the moved
//! sheet or the refusal, written by hand. The old header is the short one (6 bytes),
//! the new one the long one (7 bytes). A name begins with its label of docs/CASES.md.

mod limit;
mod refused;

use super::{copper_sheet, nickel_sheet, third_wednesday_sheet, with_byte};
use crate::draft::{close, ended_sheet, header, long_header, quote, trade};
use crate::field::{Field, Refusal};

/// A sheet to be moved to the new header, or else to the old one, and what must come
/// of it. `room` is what the lent buffer holds.
#[derive(Clone, Debug)]
pub struct NamedMove {
    pub name: String,
    pub sheet: Vec<u8>,
    pub to_new: bool,
    pub room: usize,
    pub told: Result<Vec<u8>, Refusal>,
}

/// Room for every sheet of these cases but the longest.
const ROOM: usize = 4_096;

fn case(name: &str, sheet: &[u8], to_new: bool, room: usize, told: Result<&[u8], Refusal>) -> NamedMove {
    let told = told.map(<[u8]>::to_vec);
    NamedMove { name: name.to_string(), sheet: sheet.to_vec(), to_new, room, told }
}

/// Where a sheet is moved to, in words.
fn wanted(to_new: bool) -> &'static str {
    if to_new {
        "to the new header"
    } else {
        "to the old header"
    }
}

/// A sheet moved both ways: from its old form to its new one, and back.
fn both_ways(name: &str, old: &[u8], new: &[u8]) -> [NamedMove; 2] {
    let told = |to_new: bool| format!("J3 {name} {}", wanted(to_new));
    [case(&told(true), old, true, ROOM, Ok(new)), case(&told(false), new, false, ROOM, Ok(old))]
}

/// The sheet of these fields behind this header, with its right end.
fn behind(header: Field, fields: &[Field]) -> Vec<u8> {
    let mut all = vec![header];
    all.extend(fields);
    ended_sheet(&all)
}

/// The same fields behind the old header and behind the new one, moved both ways.
fn fields_both_ways(name: &str, metal: u8, marks: u16, fields: &[Field]) -> [NamedMove; 2] {
    let old = behind(header(metal, marks), fields);
    let new = behind(long_header(metal, marks, 0), fields);
    both_ways(name, &old, &new)
}

/// All named cases, the longest sheets last.
pub fn named_moves() -> Vec<NamedMove> {
    let mut cases = written_out();
    cases.extend(worked_sheets());
    cases.extend(headers());
    cases.extend(fields());
    cases.extend(barred_by_others());
    cases.extend(already());
    cases.extend(naming_a_contract());
    cases.extend(rooms());
    cases.extend(no_room());
    cases.extend(refused::cases());
    cases.extend(limit::cases());
    cases
}

/// A Copper header and its end, in both forms.
const SMALLEST: [u8; 13] = [1, 0, 3, 4, 0, 0, 5, 0, 4, 0, 0, 0, 1];
const SMALLEST_NEW: [u8; 14] = [6, 0, 4, 4, 0, 0, 0, 5, 0, 4, 0, 0, 0, 1];

/// The Nickel sheet with the new header.
const NICKEL_NEW: [u8; 131] = [
    6, 0, 4, 1, 0, 0, 0, //
    2, 0, 5, 7, 0xFF, 0xFF, 0xFF, 0x88, //
    2, 0, 5, 11, 0xFF, 0xFF, 0xFF, 0x06, //
    3, 0, 11, 0x03, 0x78, 0x0F, 0xC0, 1, 0xFF, 0xFF, 0xFE, 0x0C, 0, 4, //
    3, 0, 11, 0x03, 0x78, 0xFA, 0x20, 1, 0xFF, 0xFF, 0xFE, 0x0F, 0, 2, //
    3, 0, 11, 0x03, 0x79, 0xE4, 0x80, 3, 0xFF, 0xFF, 0xFE, 0xD4, 0, 5, //
    3, 0, 11, 0x03, 0x7A, 0x59, 0xB0, 5, 0xFF, 0xFF, 0xFE, 0x66, 0, 5, //
    4, 0, 14, 0x03, 0x7A, 0xCE, 0xE0, 7, 1, 0xFF, 0xFF, 0xFF, 0x92, 0, 0, 0, 0, //
    3, 0, 11, 0x03, 0x7C, 0xA3, 0xA0, 0, 0x00, 0x1B, 0x77, 0x68, 0, 3, //
    3, 0, 11, 0x03, 0x7D, 0x8E, 0x00, 0, 0x00, 0x1B, 0x77, 0xA4, 0, 3, //
    5, 0, 4, 0, 0, 0, 10,
];

/// Sheets of which every byte is written out.
fn written_out() -> Vec<NamedMove> {
    let marked = [1, 0, 3, 5, 0x04, 0x01, 2, 0, 5, 6, 0xFF, 0x67, 0x69, 0x81, 5, 0, 4, 0, 0, 0, 2];
    let marked_new = [6, 0, 4, 5, 0x04, 0x01, 0, 2, 0, 5, 6, 0xFF, 0x67, 0x69, 0x81, 5, 0, 4, 0, 0, 0, 2];
    let mut cases = both_ways("the smallest sheet", &SMALLEST, &SMALLEST_NEW).to_vec();
    cases.extend(both_ways("the Nickel sheet", &nickel_sheet(), &NICKEL_NEW));
    cases.extend(both_ways("a marked sheet with 3M-M4 at its least", &marked, &marked_new));
    cases
}

/// The exchange's Copper example, and the Nickel sheet's fields with other metals.
fn worked_sheets() -> Vec<NamedMove> {
    let copper = copper_sheet();
    let copper_new = [&[6, 0, 4, 4, 0, 0, 0], &copper[6..]].concat();
    let mut cases = both_ways("the exchange's Copper example", &copper, &copper_new).to_vec();
    for (metal, name) in [(2, "Aluminium"), (3, "Zinc"), (4, "Copper"), (5, "Lead")] {
        let old = [&[1, 0, 3, metal, 0, 0], &NICKEL_NEW[7..]].concat();
        let new = [&[6, 0, 4, metal, 0, 0, 0], &NICKEL_NEW[7..]].concat();
        cases.extend(both_ways(&format!("the Nickel sheet's fields for {name}"), &old, &new));
    }
    cases
}

/// Every metal and every mark is kept.
fn headers() -> Vec<NamedMove> {
    let mut cases = Vec::new();
    for metal in 1..=5 {
        cases.extend(fields_both_ways(&format!("a header of metal {metal}"), metal, 0, &[]));
    }
    for bit in 0..11 {
        cases.extend(fields_both_ways(&format!("mark bit {bit}"), 4, 1 << bit, &[]));
    }
    cases.extend(fields_both_ways("all eleven marks", 5, 0x07FF, &[]));
    cases.extend(fields_both_ways("all marks and a close", 1, 0x07FF, &[close(11, -250)]));
    cases
}

/// Closes, trades and quotes at the ends of their ranges, in every order that a
/// sheet may have.
fn fields() -> Vec<NamedMove> {
    let closes: Vec<Field> = (0..12).map(|instrument| close(instrument, 9_999_999)).collect();
    let low: Vec<Field> = (1..12).map(|spread| close(spread, -9_999_999)).collect();
    let trades: Vec<Field> = (0..12).map(|instrument| trade(0, instrument, 1, 10_000)).collect();
    let quotes = [
        quote(0, 0, 3, 1, 99_999_999),
        quote(0, 11, 3, -9_999_999, -9_999_999),
        quote(59_999_999, 6, 1, -1, 0),
        quote(60_000_000, 6, 2, 0, -1),
        quote(86_399_999, 6, 0, 0, 0),
    ];
    let mixed = [
        close(0, 1),
        close(7, 0),
        quote(43_200_000, 7, 3, -110, -90),
        trade(60_000_000, 7, -100, 1),
        trade(60_000_000, 7, -101, 1),
        quote(60_000_000, 7, 1, 0, 0),
        trade(60_300_000, 0, 99_999_999, 5),
        trade(86_399_999, 11, -9_999_999, 10_000),
    ];
    let same = [trade(5, 3, 7, 5), trade(5, 3, 7, 5), trade(5, 3, 7, 5)];
    let mut cases = fields_both_ways("a close of every instrument", 4, 0, &closes).to_vec();
    cases.extend(fields_both_ways("every spread closed at its least", 4, 0, &low));
    cases.extend(fields_both_ways("a trade of every instrument", 3, 0, &trades));
    cases.extend(fields_both_ways("quotes with every side", 2, 0, &quotes));
    cases.extend(fields_both_ways("closes, trades and quotes", 4, 0x0040, &mixed));
    cases.extend(fields_both_ways("one trade three times", 5, 0x0004, &same));
    cases
}

/// Fields on the instruments that a third value of 1 or 2 would bar.
fn barred_by_others() -> Vec<NamedMove> {
    let mut cases = Vec::new();
    for spread in [1, 2, 4, 5, 6, 9, 10] {
        let fields = [close(spread, -1), trade(5, spread, 0, 1), quote(5, spread, 3, -2, 2)];
        cases.extend(fields_both_ways(&format!("fields on spread {spread}"), 4, 0, &fields));
    }
    cases
}

/// A sheet that is refused with 19.
fn refused_19(name: &str, sheet: &[u8], to_new: bool, room: usize) -> NamedMove {
    case(&format!("J1 {name} {}", wanted(to_new)), sheet, to_new, room, Err((19, 0)))
}

/// A Copper sheet of a few fields that no third value bars.
fn some_fields(header: Field) -> Vec<u8> {
    behind(header, &[close(3, -4), trade(5, 8, -760, 4), quote(6, 11, 2, 0, -3)])
}

/// Already in the wanted form: with the new header whatever its third value, with
/// the old header, and what a move has made.
fn already() -> Vec<NamedMove> {
    let mut cases = vec![
        refused_19("the smallest sheet", &SMALLEST, false, ROOM),
        refused_19("the Nickel sheet", &nickel_sheet(), false, ROOM),
        refused_19("fields behind the old header", &some_fields(header(4, 0x07FF)), false, ROOM),
        refused_19("the smallest sheet of byte 0", &SMALLEST_NEW, true, ROOM),
        refused_19("the Nickel sheet of byte 0", &NICKEL_NEW, true, ROOM),
    ];
    for third in 0..=2 {
        let short = behind(long_header(4, 0, third), &[]);
        let long = some_fields(long_header(4, 0x07FF, third));
        cases.push(refused_19(&format!("a header of byte {third}"), &short, true, ROOM));
        cases.push(refused_19(&format!("fields behind byte {third}"), &long, true, ROOM));
    }
    cases.push(refused_19("the day on which 3M is M3", &third_wednesday_sheet(), true, ROOM));
    cases
}

/// Going back with a third value that names M3 or M4, in every metal.
fn naming_a_contract() -> Vec<NamedMove> {
    let mut cases = Vec::new();
    for third in 1..=2 {
        for metal in 1..=5 {
            let sheet = behind(long_header(metal, 0, third), &[]);
            cases.push(refused_19(&format!("metal {metal} of byte {third}"), &sheet, false, ROOM));
        }
        let long = some_fields(long_header(4, 0x07FF, third));
        cases.push(refused_19(&format!("fields behind byte {third}"), &long, false, ROOM));
    }
    let nickel = behind(long_header(1, 0, 2), &[close(7, -120), close(11, -250)]);
    cases.push(refused_19("the Nickel closes behind byte 2", &nickel, false, ROOM));
    cases.push(refused_19("the day on which 3M is M3", &third_wednesday_sheet(), false, ROOM));
    cases
}

/// As much room as the moved sheet needs, a byte less and more. The new form needs a
/// byte more than the sheet that is moved, the old form a byte less.
fn rooms() -> Vec<NamedMove> {
    let nickel = nickel_sheet();
    let forms: [(&str, &[u8], &[u8]); 2] =
        [("the smallest sheet", &SMALLEST, &SMALLEST_NEW), ("the Nickel sheet", &nickel, &NICKEL_NEW)];
    let mut cases = Vec::new();
    for (name, old, new) in forms {
        for (to_new, sheet, moved) in [(true, old, new), (false, new, old)] {
            let needed = moved.len();
            let in_room = |room: usize, told: Result<&[u8], Refusal>| {
                case(&format!("J5 {name} {}, room {room}", wanted(to_new)), sheet, to_new, room, told)
            };
            cases.extend([needed, needed + 1, usize::MAX].map(|room| in_room(room, Ok(moved))));
            cases.extend([0, 1, 6, 7, needed - 1].map(|room| in_room(room, Err((16, 0)))));
        }
    }
    cases
}

/// 19 comes before 16, for each of its causes.
fn no_room() -> Vec<NamedMove> {
    let named = |third: u8| with_byte(&SMALLEST, third);
    vec![
        refused_19("no room: the smallest sheet", &SMALLEST, false, 0),
        refused_19("room for all but a byte: the smallest sheet", &SMALLEST, false, 12),
        refused_19("no room: byte 0", &SMALLEST_NEW, true, 0),
        refused_19("no room: byte 1", &named(1), true, 0),
        refused_19("no room: byte 2", &named(2), true, 0),
        refused_19("no room: byte 1", &named(1), false, 0),
        refused_19("no room: byte 2", &named(2), false, 0),
        refused_19("room for all but a byte: byte 2", &named(2), false, 12),
        refused_19("no room: the day on which 3M is M3", &third_wednesday_sheet(), false, 0),
    ]
}
