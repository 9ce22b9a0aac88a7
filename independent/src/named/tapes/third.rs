//! METAL lines with a third value, which is a long header's byte; lines on
//! instruments that it bars; and the texts of sheets with such a header.

use super::{case, good, refused, NamedTape, COPPER, ROOM, THIRD_WEDNESDAY_TAPE};
use crate::draft::{close, end, ended_sheet, header, long_header, quote, sheet_of, trade};
use crate::field::Field;
use crate::named::third_wednesday_sheet;

pub(super) fn cases() -> Vec<NamedTape> {
    let mut cases = third_values();
    cases.extend(malformed());
    cases.extend(too_big());
    cases.extend(too_long());
    cases.extend(fourth_values());
    cases.extend(with_bad_marks());
    cases.extend(second_lines());
    cases.extend(barred());
    cases.extend(not_barred());
    cases.extend(before_18());
    cases.extend(behind_18());
    cases.extend(first_bad_line());
    cases.extend(rooms());
    cases
}

/// The sheet of this line has that long header.
fn third_values() -> Vec<NamedTape> {
    let mut cases = Vec::new();
    let names = ["Nickel", "Aluminium", "Zinc", "Copper", "Lead"];
    for (name, number) in names.into_iter().zip(1..) {
        for third in 0..=2 {
            let text = format!("METAL,{name},0,{third}\n");
            cases.push(good(
                &format!("H11 {name} with a third value {third}"),
                &text,
                &[long_header(number, 0, third)],
            ));
        }
    }
    let marked = |third: u8| {
        let text = format!("METAL,Lead,2047,{third}\n");
        good(&format!("H11 all marks and a third value {third}"), &text, &[long_header(5, 2_047, third)])
    };
    cases.extend([0, 1, 2].map(marked));
    cases.push(good("H11 no third value", "METAL,Lead,2047\n", &[header(5, 2_047)]));
    cases
}

/// A third value is a number like any other.
fn malformed() -> Vec<NamedTape> {
    let third = |third: &str| {
        refused(&format!("H6 a third value {third:?}"), format!("METAL,Copper,0,{third}\n"), 17, 1)
    };
    [
        "01", "00", "02", "003", "+1", "+0", "-1", "-0", "1.0", "1.00", "0.00", "1.", ".1", "", "-", "1 ",
        " 1", "1e0", "0x1", "1a", "a", "M3", "true", "1\r", "1\0",
    ]
    .map(third)
    .into()
}

/// A well-formed third value that is above 2 is 6; cut to a byte many of these
/// would be good.
fn too_big() -> Vec<NamedTape> {
    let third =
        |third: u64| refused(&format!("H5 a third value {third}"), format!("METAL,Copper,0,{third}\n"), 6, 1);
    let mut cases: Vec<NamedTape> = [3, 4, 9, 10, 12, 100, 254, 255, 256, 257, 258, 512].map(third).into();
    cases.extend([1 << 16, (1 << 16) + 1, 1 << 32, (1 << 32) + 1, (1 << 32) + 2, u64::MAX].map(third));
    cases
}

/// A number has any length: here 2^64 and two more, and a hundred digits.
fn too_long() -> Vec<NamedTape> {
    let ones = "1".repeat(100);
    let zeros = "0".repeat(100);
    let third = |name: &str, third: &str, number: u8| {
        refused(&format!("H5 a third value of {name}"), format!("METAL,Copper,0,{third}\n"), number, 1)
    };
    vec![
        third("2^64", "18446744073709551616", 6),
        third("2^64 + 1", "18446744073709551617", 6),
        third("2^64 + 2", "18446744073709551618", 6),
        third("a hundred digits", &ones, 6),
        third("a one and a hundred zeros", &format!("1{zeros}"), 6),
        third("a hundred zeros", &zeros, 17),
        third("a hundred digits and a letter", &format!("{ones}a"), 17),
        third("a minus and a hundred digits", &format!("-{ones}"), 17),
    ]
}

fn fourth_values() -> Vec<NamedTape> {
    let first = |name: &str, line: &str| refused(name, format!("{line}\n"), 17, 1);
    vec![
        first("H11 a fourth value 0", "METAL,Copper,0,0,0"),
        first("H11 a fourth value 1", "METAL,Copper,0,1,1"),
        first("H11 a comma behind the third value", "METAL,Copper,0,1,"),
        first("H11 a fourth value behind a third of 3", "METAL,Copper,0,3,0"),
        first("H11 five values", "METAL,Copper,0,0,0,0"),
        first("H11 two commas before the third value", "METAL,Copper,0,,1"),
        first("H11 the third value before the marks", "METAL,Copper,,1"),
        first("H11 a third value behind a semicolon", "METAL,Copper,0;1"),
        refused("H1 a third value without its line feed", "METAL,Copper,0,1", 17, 1),
        refused("H1 a third value behind a line feed", "METAL,Copper,0\n1\n", 17, 2),
    ]
}

/// Marks and third value are 6 alike, and 17 comes before both.
fn with_bad_marks() -> Vec<NamedTape> {
    let first = |name: &str, line: &str, number: u8| refused(name, format!("{line}\n"), number, 1);
    vec![
        first("6 marks out of range and a third value 2", "METAL,Nickel,2048,2", 6),
        first("6 marks out of range and a third value 3", "METAL,Nickel,2048,3", 6),
        first("6 all marks and a third value 3", "METAL,Nickel,2047,3", 6),
        first("H3 marks out of range, the third value malformed", "METAL,Nickel,2048,01", 17),
        first("H3 a third value 3, the marks malformed", "METAL,Nickel,00,3", 17),
        first("H3 a third value 3 and an unknown name", "METAL,Tin,0,3", 17),
        first("H4 a third value 0 and an unknown name", "METAL,Tin,0,0", 17),
        refused("H3 a third value 3 before a malformed line", "METAL,Nickel,0,3\nmalformed\n", 6, 1),
    ]
}

/// A second METAL line is 5 whichever form each of the two has.
fn second_lines() -> Vec<NamedTape> {
    let two = |name: &str, first: &str, second: &str, number: u8| {
        refused(name, format!("METAL,Copper,{first}\nMETAL,Copper,{second}\n"), number, 2)
    };
    let behind =
        |name: &str, line: &str| refused(name, format!("METAL,Copper,0,1\n{line}\nMETAL,Lead,0\n"), 5, 3);
    vec![
        two("I5 a third value in a second METAL line", "0", "0,0", 5),
        two("I5 two values behind three", "0,0", "0", 5),
        two("I5 the same three values twice", "0,1", "0,1", 5),
        two("I5 three values, and others", "0,1", "0,2", 5),
        two("H3 a second METAL line, its third value 3", "0", "0,3", 5),
        two("H3 a second METAL line, its third value 256", "0,2", "0,256", 5),
        two("H3 a second METAL line, its third value malformed", "0,2", "0,01", 17),
        two("H3 a second METAL line of four values", "0", "0,0,0", 17),
        behind("I5 a METAL line behind a close", "PREV,M2-M3,0.00"),
        behind("I5 a METAL line behind a trade", "5,M2-M3,TRADE,0.00,1"),
    ]
}

/// The instruments that a third value bars, by name.
const BARRED: [(u8, [&str; 4]); 2] =
    [(1, ["M3-3M", "M2-3M", "3M-M4", "M1-3M"]), (2, ["M2-M4", "M3-M4", "3M-M4", "M1-M4"])];

/// A close, a trade and a quote of an instrument.
fn kinds(name: &str) -> [(&'static str, String); 3] {
    [
        ("close", format!("PREV,{name},0.00")),
        ("trade", format!("5,{name},TRADE,0.00,1")),
        ("quote", format!("5,{name},QUOTE,-,-")),
    ]
}

/// One line behind a Copper line with this third value, refused.
fn second(name: &str, third: u8, line: &str, number: u8) -> NamedTape {
    refused(name, format!("METAL,Copper,0,{third}\n{line}\n"), number, 2)
}

fn barred() -> Vec<NamedTape> {
    let mut cases = Vec::new();
    for (third, names) in BARRED {
        for name in names {
            for (kind, line) in kinds(name) {
                cases.push(second(&format!("H10 third value {third}: a {kind} of {name}"), third, &line, 18));
            }
        }
    }
    cases
}

/// The same lines with a third value 0, with none, and those that are left.
fn not_barred() -> Vec<NamedTape> {
    let names = ["M3-3M", "M2-3M", "M2-M4", "M3-M4", "3M-M4", "M1-3M", "M1-M4"];
    let all = names.into_iter().zip([1, 2, 4, 5, 6, 9, 10]);
    let mut cases = Vec::new();
    for (name, number) in all {
        let fields = [close(number, 0), trade(5, number, 0, 1), quote(5, number, 0, 0, 0)];
        let lines = kinds(name).map(|(_, line)| line + "\n").concat();
        let made = |how: &str, values: &str, header: Field| {
            let text = format!("METAL,Copper,{values}\n{lines}");
            good(&format!("H10 {how}: lines of {name}"), &text, &[header, fields[0], fields[1], fields[2]])
        };
        cases.push(made("third value 0", "0,0", long_header(4, 0, 0)));
        cases.push(made("no third value", "0", header(4, 0)));
        if [4, 5, 10].contains(&number) {
            cases.push(made("third value 1", "0,1", long_header(4, 0, 1)));
        }
        if [1, 2, 9].contains(&number) {
            cases.push(made("third value 2", "0,2", long_header(4, 0, 2)));
        }
    }
    cases
}

/// 17 and 5 come before 18.
fn before_18() -> Vec<NamedTape> {
    let behind_trade = |line: &str| format!("METAL,Copper,0,1\n5,M2-M3,TRADE,0.00,1\n{line}\n");
    let behind_close = |line: &str| format!("METAL,Copper,0,1\nPREV,M2-M3,0.00\n{line}\n");
    vec![
        second("H10 17 before 18: a price of one decimal", 1, "PREV,M3-3M,0.0", 17),
        second("H10 17 before 18: lots of 01", 1, "5,M2-3M,TRADE,0.00,01", 17),
        second("H10 17 before 18: a quote without its offer", 2, "5,M1-M4,QUOTE,-", 17),
        second("H10 17 before 18: the name turned round", 2, "PREV,M4-M2,0.00", 17),
        refused("H10 17 before 18: no line feed", "METAL,Copper,0,1\n5,M3-3M,QUOTE,-,-", 17, 2),
        refused("H10 5 before 18: a close behind a trade", behind_trade("PREV,M3-3M,0.00"), 5, 3),
        refused("H10 5 before 18: a close behind a higher", behind_close("PREV,M2-3M,0.00"), 5, 3),
        refused("H10 5 before 18: a barred trade first", "5,M3-3M,TRADE,0.00,1\nMETAL,Copper,0,1\n", 5, 1),
        refused("H10 6 before 18: a third value 3", "METAL,Copper,0,3\nPREV,M3-3M,0.00\n", 6, 1),
        refused(
            "H10 a barred close behind a lower",
            "METAL,Copper,0,1\nPREV,3M,1.00\nPREV,M3-3M,0.00\n",
            18,
            3,
        ),
        refused("H10 a barred close behind M2-M3", behind_close("PREV,M1-3M,0.00"), 18, 3),
        refused("H10 a barred quote behind a trade", behind_trade("5,3M-M4,QUOTE,-,-"), 18, 3),
    ]
}

/// 18 comes before 8, 9, 10 and 11.
fn behind_18() -> Vec<NamedTape> {
    let falling = "METAL,Copper,0,2\n5,M2-M3,TRADE,0.00,1\n4,M3-M4,TRADE,0.00,1\n";
    let digits = "1".repeat(100);
    vec![
        second("H10 18 before 8: a time of 86400000", 1, "86400000,M3-3M,TRADE,0.00,1", 18),
        second("H10 18 before 8: a time of a hundred digits", 1, &format!("{digits},M2-3M,QUOTE,-,-"), 18),
        refused("H10 18 before 8: a falling time", falling, 18, 3),
        second("H10 18 before 9: a close of 100000.00", 1, "PREV,M1-3M,100000.00", 18),
        second("H10 18 before 9: a price of a hundred digits", 2, &format!("PREV,M2-M4,-{digits}.00"), 18),
        second("H10 18 before 9: a bid of 100000.00", 2, "5,M3-M4,QUOTE,100000.00,-", 18),
        second("H10 18 before 10: no lots", 1, "5,3M-M4,TRADE,0.00,0", 18),
        second("H10 18 before 10: 65536 lots", 2, "5,3M-M4,TRADE,0.00,65536", 18),
        second("H10 18 before 11: the bid above the offer", 1, "5,M3-3M,QUOTE,0.01,0.00", 18),
        second("H10 18 before all", 2, "86400000,M1-M4,TRADE,100000.00,0", 18),
        second("H10 8 where nothing is barred", 1, "86400000,M3-M4,TRADE,0.00,1", 8),
        second("H10 9 where nothing is barred", 2, "PREV,M3-3M,100000.00", 9),
    ]
}

fn first_bad_line() -> Vec<NamedTape> {
    let three = |second: &str, third: &str| format!("METAL,Copper,0,1\n{second}\n{third}\n");
    let barred = "PREV,M3-3M,0.00";
    vec![
        refused("H3 18 before a malformed line", three(barred, "malformed"), 18, 2),
        refused("H3 18 before a second METAL line", three(barred, "METAL,Copper,0"), 18, 2),
        refused("H3 a malformed line before 18", three("malformed", barred), 17, 2),
        refused("H3 9 before 18", three("PREV,3M,0.00", barred), 9, 2),
        refused("H3 18 before a missing line feed", format!("METAL,Copper,0,1\n{barred}\nPREV"), 18, 2),
    ]
}

/// A long header has 7 bytes and its end 7.
fn rooms() -> Vec<NamedTape> {
    let text = b"METAL,Copper,0,2\n";
    let barred = b"METAL,Copper,0,2\n5,M3-M4,QUOTE,-,-\n";
    let day = THIRD_WEDNESDAY_TAPE.as_bytes();
    vec![
        case("H8 three values in 14 bytes", text, 14, Ok(ended_sheet(&[long_header(4, 0, 2)]))),
        case("H8 three values in 13 bytes", text, 13, Err((16, 0))),
        case("H8 a barred line and no room", barred, 0, Err((18, 2))),
        case("H8 a third value 3 and no room", b"METAL,Copper,0,3\n", 0, Err((6, 1))),
        case("H11 a Copper day on which 3M is M3", day, 179, Ok(third_wednesday_sheet())),
        case("H8 that day in 178 bytes", day, 178, Err((16, 0))),
    ]
}

/// Sheets with a long header, to be turned into texts.
pub(super) fn sheets() -> Vec<NamedTape> {
    let mut cases = texts();
    cases.extend(refused_sheets());
    cases
}

fn texts() -> Vec<NamedTape> {
    let text = |name: &str, fields: &[Field], text: &str| {
        case(name, &ended_sheet(fields), ROOM, Ok(text.as_bytes().to_vec()))
    };
    let smallest = ended_sheet(&[long_header(1, 0, 1)]);
    let day = THIRD_WEDNESDAY_TAPE.as_bytes();
    let two = [long_header(2, 2_047, 2), close(1, -50), quote(0, 9, 2, 0, -1)];
    let two_text = "METAL,Aluminium,2047,2\nPREV,M3-3M,-0.50\n0,M1-3M,QUOTE,-,-0.01\n";
    vec![
        text("H11 the text of byte 0", &[long_header(1, 0, 0)], "METAL,Nickel,0,0\n"),
        text("H11 the text of byte 1", &[long_header(1, 0, 1)], "METAL,Nickel,0,1\n"),
        text("H11 the text of byte 2", &[long_header(5, 1_024, 2)], "METAL,Lead,1024,2\n"),
        text("H11 the text of a short header", &[header(5, 1_024)], "METAL,Lead,1024\n"),
        text("H9 every spread marked, barred ones too", &two, two_text),
        case("H12 three values in 17 bytes", &smallest, 17, Ok(b"METAL,Nickel,0,1\n".to_vec())),
        case("H12 three values in 16 bytes", &smallest, 16, Err((16, 0))),
        case(
            "H11 the sheet of a Copper day on which 3M is M3",
            &third_wednesday_sheet(),
            day.len(),
            Ok(day.to_vec()),
        ),
        case("H12 that day in a byte less", &third_wednesday_sheet(), day.len() - 1, Err((16, 0))),
    ]
}

fn refused_sheets() -> Vec<NamedTape> {
    let of = |name: &str, fields: &[Field], number: u8, byte: usize| {
        case(name, &sheet_of(fields), ROOM, Err((number, byte)))
    };
    let barred = [long_header(4, 0, 1), trade(0, 1, 0, 1), end(2)];
    let no_room = sheet_of(&barred);
    vec![
        of("H12 a trade on a barred instrument", &barred, 18, 7),
        of("H12 a close on a barred instrument", &[long_header(4, 0, 2), close(4, 0), end(2)], 18, 7),
        of(
            "H12 a quote on a barred instrument",
            &[long_header(4, 0, 2), quote(0, 10, 0, 0, 0), end(2)],
            18,
            7,
        ),
        of("H12 a byte of 3", &[long_header(4, 0, 3), end(1)], 6, 0),
        of("H12 a long header behind a short one", &[header(4, 0), long_header(4, 0, 0), end(2)], 5, 6),
        case("H12 a barred instrument and no room", &no_room, 0, Err((18, 7))),
        case("H12 a barred instrument and room for one line", &no_room, COPPER.len(), Err((18, 7))),
    ]
}
