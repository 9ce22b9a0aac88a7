//! C11: each spread's sign and other leg, unmarked and marked. Without records
//! the sheet gives 3M 900,000, M3 100 above it, M2 1,000 above M3, M4 10 below
//! M3, M1 10,000 above M2 and Cash 100,000 above M1.

use super::{case, copper, NamedCase, ANCHOR, COPPER, SPREAD};
use crate::draft::{close, ended_sheet, header, quote, trade};
use crate::field::Field;

pub(super) fn cases() -> Vec<NamedCase> {
    let mut cases = traded(false, &UNMARKED);
    cases.extend(traded(true, &MARKED));
    cases.extend(by_twap());
    cases.extend(quoted_reversed());
    cases
}

fn stairs(marks: u16, records: &[Field]) -> Vec<u8> {
    let mut fields = vec![
        header(COPPER, marks),
        close(0, 900_000),
        close(1, 100),
        close(3, 1_000),
        close(5, 10),
        close(7, 10_000),
        close(11, 100_000),
    ];
    fields.extend(records);
    ended_sheet(&fields)
}

/// Five lots at 7 on one spread, unmarked: the contract it prices (its place
/// in the list) and M3, M2, M4, M1, Cash.
const UNMARKED: [(u8, usize, [u32; 5]); 11] = [
    (1, 1, [900_007, 901_007, 899_997, 911_007, 1_011_007]),
    (2, 2, [900_100, 900_007, 900_090, 910_007, 1_010_007]),
    (3, 2, [900_100, 900_107, 900_090, 910_107, 1_010_107]),
    (4, 3, [900_100, 901_100, 901_093, 911_100, 1_011_100]),
    (5, 3, [900_100, 901_100, 900_093, 911_100, 1_011_100]),
    (6, 3, [900_100, 901_100, 899_993, 911_100, 1_011_100]),
    (7, 4, [900_100, 901_100, 900_090, 901_107, 1_001_107]),
    (8, 4, [900_100, 901_100, 900_090, 900_107, 1_000_107]),
    (9, 4, [900_100, 901_100, 900_090, 900_007, 1_000_007]),
    (10, 4, [900_100, 901_100, 900_090, 900_097, 1_000_097]),
    (11, 5, [900_100, 901_100, 900_090, 911_100, 911_107]),
];

/// The same with the spread's mark set.
const MARKED: [(u8, usize, [u32; 5]); 11] = [
    (1, 1, [899_993, 900_993, 899_983, 910_993, 1_010_993]),
    (2, 2, [900_100, 899_993, 900_090, 909_993, 1_009_993]),
    (3, 2, [900_100, 900_093, 900_090, 910_093, 1_010_093]),
    (4, 3, [900_100, 901_100, 901_107, 911_100, 1_011_100]),
    (5, 3, [900_100, 901_100, 900_107, 911_100, 1_011_100]),
    (6, 3, [900_100, 901_100, 900_007, 911_100, 1_011_100]),
    (7, 4, [900_100, 901_100, 900_090, 901_093, 1_001_093]),
    (8, 4, [900_100, 901_100, 900_090, 900_093, 1_000_093]),
    (9, 4, [900_100, 901_100, 900_090, 899_993, 999_993]),
    (10, 4, [900_100, 901_100, 900_090, 900_083, 1_000_083]),
    (11, 5, [900_100, 901_100, 900_090, 911_100, 911_093]),
];

fn list(by_vwap: usize, closes: [u32; 5]) -> String {
    let mut answers = vec!["TWAP 900000 0".to_string()];
    for (place, price) in (1..).zip(closes) {
        answers.push(if place == by_vwap { format!("VWAP {price} 5") } else { format!("TWAP {price} 0") });
    }
    let shown: Vec<&str> = answers.iter().map(String::as_str).collect();
    copper([shown[0], shown[1], shown[2], shown[3], shown[4], shown[5]])
}

fn traded(marked: bool, rows: &[(u8, usize, [u32; 5])]) -> Vec<NamedCase> {
    let made = |row: &(u8, usize, [u32; 5])| {
        let (spread, by_vwap, closes) = *row;
        let marks = if marked { 1 << (spread - 1) } else { 0 };
        let sheet = stairs(marks, &[trade(SPREAD, spread, 7, 5)]);
        let how = if marked { "marked" } else { "unmarked" };
        case(&format!("C11 spread {spread} {how}"), sheet, &list(by_vwap, closes))
    };
    rows.iter().map(made).collect()
}

/// The previous closes alone, none or one of the TWAP spreads marked. (Place 9
/// is no contract: none is by VWAP.)
fn by_twap() -> Vec<NamedCase> {
    let none = 9;
    let plain = [900_100, 901_100, 900_090, 911_100, 1_011_100];
    let rows = [
        (0x0000, plain),
        (0x0001, [899_900, 900_900, 899_890, 910_900, 1_010_900]),
        (0x0004, [900_100, 899_100, 900_090, 909_100, 1_009_100]),
        (0x0010, [900_100, 901_100, 900_110, 911_100, 1_011_100]),
        (0x0040, [900_100, 901_100, 900_090, 891_100, 991_100]),
        (0x0400, [900_100, 901_100, 900_090, 911_100, 811_100]),
        (0x03AA, plain),
    ];
    let made = |(marks, closes): (u16, [u32; 5])| {
        case(&format!("C11 closes with marks {marks}"), stairs(marks, &[]), &list(none, closes))
    };
    rows.into_iter().map(made).collect()
}

/// Marked M3-3M quoted at 0, a bid of 10 through the window: the spread is -10.
/// And C12: no mark reaches instrument 0.
fn quoted_reversed() -> Vec<NamedCase> {
    let closes = [close(0, 900_000), close(1, 0), close(3, 0), close(5, 0)];
    let sheet = |marks: u16, record: Field| {
        let mut fields = vec![header(COPPER, marks)];
        fields.extend(closes);
        fields.extend([close(7, 0), close(11, 0), record]);
        ended_sheet(&fields)
    };
    let bid = quote(SPREAD, 1, 1, 10, 0);
    let offer = quote(SPREAD, 1, 2, 0, -10);
    let below = "TWAP 899990 0";
    let above = "TWAP 900010 0";
    let six = |rest: &str| copper(["TWAP 900000 0", rest, rest, rest, rest, rest]);
    let outright = trade(ANCHOR, 0, 900_050, 5);
    let later = "TWAP 900050 0";
    let all_marks = copper(["VWAP 900050 5", later, later, later, later, later]);
    vec![
        case("C11 a bid on a marked spread", sheet(1, bid), &six(below)),
        case("C11 an offer on a marked spread", sheet(1, offer), &six(above)),
        case("C11 a bid on an unmarked spread", sheet(0, bid), &six(above)),
        case("C11 an offer on an unmarked spread", sheet(0, offer), &six(below)),
        case("C12 all marks and a 3M trade", sheet(0x07FF, outright), &all_marks),
    ]
}
