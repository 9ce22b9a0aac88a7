//! Sheets to be turned into texts, and the Nickel sheet both ways.

use super::{case, NamedTape, COPPER, NICKEL_TAPE, ROOM};
use crate::draft::{close, end, ended_sheet, header, quote, sheet_of, trade};
use crate::field::{Field, Refusal};
use crate::named::nickel_sheet;

/// The Nickel text in as much room as its sheet needs, in less and in more.
pub(super) fn nickel_tapes() -> Vec<NamedTape> {
    let text = NICKEL_TAPE.as_bytes();
    let in_room =
        |name: &str, room: usize, expected: Result<Vec<u8>, Refusal>| case(name, text, room, expected);
    vec![
        in_room("the Nickel text", ROOM, Ok(nickel_sheet())),
        in_room("H8 the Nickel text in 130 bytes", 130, Ok(nickel_sheet())),
        in_room("H8 the Nickel text in 129 bytes", 129, Err((16, 0))),
        in_room("H8 the Nickel text in no room", 0, Err((16, 0))),
        in_room("H8 the Nickel text in the greatest room", usize::MAX, Ok(nickel_sheet())),
    ]
}

pub(super) fn cases() -> Vec<NamedTape> {
    let mut cases = nickel_sheets();
    cases.extend(refused_sheets());
    cases.extend(refused_without_room());
    cases.extend(whole_sheets());
    cases.extend(numbers());
    cases
}

/// The Nickel text has 254 bytes.
fn nickel_sheets() -> Vec<NamedTape> {
    let text = || Ok(NICKEL_TAPE.as_bytes().to_vec());
    let sheet = nickel_sheet();
    let in_room =
        |name: &str, room: usize, expected: Result<Vec<u8>, Refusal>| case(name, &sheet, room, expected);
    vec![
        in_room("the Nickel sheet", ROOM, text()),
        in_room("H12 the Nickel sheet in as much room as it needs", 254, text()),
        in_room("H12 the Nickel sheet in a byte less", 253, Err((16, 0))),
        in_room("H12 the Nickel sheet in no room", 0, Err((16, 0))),
        in_room("H12 the Nickel sheet in the greatest room", usize::MAX, text()),
    ]
}

/// A sheet that is refused with this number at this byte.
fn refused(name: &str, sheet: &[u8], number: u8, byte: usize) -> NamedTape {
    case(name, sheet, ROOM, Err((number, byte)))
}

fn copper_sheet(fields: &[Field]) -> Vec<u8> {
    let mut all = vec![header(4, 0)];
    all.extend(fields);
    ended_sheet(&all)
}

fn refused_sheets() -> Vec<NamedTape> {
    let of = |name: &str, field: Field, number: u8| refused(name, &copper_sheet(&[field]), number, 6);
    let mut trailing = copper_sheet(&[]);
    trailing.push(b'\n');
    vec![
        refused("H12 the empty sheet", &[], 2, 0),
        refused("H12 the Nickel sheet without its last byte", &nickel_sheet()[..129], 2, 123),
        refused("H12 the Nickel sheet without its end", &nickel_sheet()[..123], 2, 123),
        refused("H12 a tag 7", &[7, 0, 4, 1, 0, 0, 0, 5, 0, 4, 0, 0, 0, 1], 3, 0),
        refused("H12 a wrong length", &[1, 0, 4, 1, 0, 0, 0], 4, 0),
        refused("H12 a trade and no header", &ended_sheet(&[trade(0, 1, 0, 1)]), 5, 0),
        refused("H12 a line feed behind the end", &trailing, 5, 13),
        refused("H12 metal 6", &ended_sheet(&[header(6, 0)]), 6, 0),
        refused("H12 marks 2048", &ended_sheet(&[header(1, 2_048)]), 6, 0),
        of("H12 instrument 12", close(12, 1), 7),
        of("H12 a time above the last", trade(86_400_000, 1, 0, 1), 8),
        of("H12 3M at 0", close(0, 0), 9),
        of("H12 no lots", trade(0, 1, 0, 0), 10),
        of("H12 a price in an absent side", quote(0, 1, 1, 0, 1), 11),
        of("H12 a bid above its offer", quote(0, 1, 3, 1, 0), 11),
        refused("H12 a wrong count", &sheet_of(&[header(4, 0), end(2)]), 12, 6),
        refused("H12 a text", COPPER.as_bytes(), 3, 0),
    ]
}

/// The sheet's own refusal comes before 16.
fn refused_without_room() -> Vec<NamedTape> {
    let cut = &nickel_sheet()[..129];
    let late = copper_sheet(&[trade(5, 1, 0, 1), trade(4, 1, 0, 1)]);
    vec![
        case("H12 the empty sheet and no room", &[], 0, Err((2, 0))),
        case("H12 a cut sheet and no room", cut, 0, Err((2, 123))),
        case("H12 a falling time and no room", &late, 0, Err((8, 20))),
        case("H12 a falling time and room for one line", &late, COPPER.len(), Err((8, 20))),
    ]
}

fn accepted(name: &str, fields: &[Field], text: &str) -> NamedTape {
    case(name, &ended_sheet(fields), ROOM, Ok(text.as_bytes().to_vec()))
}

fn whole_sheets() -> Vec<NamedTape> {
    let smallest = ended_sheet(&[header(4, 0)]);
    let marked = [header(3, 2_047), close(1, -50), close(6, 0), quote(0, 6, 2, 0, -1)];
    let text = "METAL,Zinc,2047\nPREV,M3-3M,-0.50\nPREV,3M-M4,0.00\n0,3M-M4,QUOTE,-,-0.01\n";
    let names = ["Nickel", "Aluminium", "Zinc", "Copper", "Lead"];
    let mut cases = vec![
        accepted("H7 a header and its end", &[header(4, 0)], COPPER),
        case("H7 a header and its end in 15 bytes", &smallest, 15, Ok(COPPER.into())),
        case("H12 a header and its end in 14 bytes", &smallest, 14, Err((16, 0))),
        accepted("H9 every spread marked, their names as they are", &marked, text),
    ];
    for (name, number) in names.into_iter().zip(1..) {
        let text = format!("METAL,{name},{number}\n");
        cases.push(accepted(&format!("H4 the text of {name}"), &[header(number, number.into())], &text));
    }
    cases
}

/// Every digit that a number may lose or gain.
fn numbers() -> Vec<NamedTape> {
    let fields = [
        header(2, 1_000),
        close(0, 99_999_999),
        close(2, -9_999_999),
        close(9, -100),
        trade(0, 0, 1, 1),
        trade(9, 3, 9, 9),
        trade(10, 4, 10, 10),
        trade(100, 5, -99, 100),
        quote(1_000, 8, 0, 0, 0),
        quote(10_000, 8, 1, 0, 0),
        quote(10_000, 10, 2, 0, 0),
        quote(100_000, 11, 3, -1, 100),
        quote(86_399_999, 0, 3, 10_000_000, 10_000_001),
        trade(86_399_999, 7, -9_999_999, 10_000),
    ];
    let text = "METAL,Aluminium,1000\n\
                PREV,3M,999999.99\n\
                PREV,M2-3M,-99999.99\n\
                PREV,M1-3M,-1.00\n\
                0,3M,TRADE,0.01,1\n\
                9,M2-M3,TRADE,0.09,9\n\
                10,M2-M4,TRADE,0.10,10\n\
                100,M3-M4,TRADE,-0.99,100\n\
                1000,M1-M3,QUOTE,-,-\n\
                10000,M1-M3,QUOTE,0.00,-\n\
                10000,M1-M4,QUOTE,-,0.00\n\
                100000,Cash-M1,QUOTE,-0.01,1.00\n\
                86399999,3M,QUOTE,100000.00,100000.01\n\
                86399999,M1-M2,TRADE,-99999.99,10000\n";
    vec![accepted("H6 numbers of every length", &fields, text)]
}
