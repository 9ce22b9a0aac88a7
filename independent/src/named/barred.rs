//! Long headers (tag 6, 7 bytes), and the fields on instruments that they bar:
//! which number, and at which byte. A short header has 6 bytes, a close 8, a
//! trade 14, a quote 17 and an end 7; the bytes below follow from that.

use super::{behind_header, case, nickel_sheet, nothing, refused, refused_fields, with_byte};
use super::{NamedCase, COPPER};
use crate::draft::{close, end, ended_sheet, header, long_header, quote, sheet_of, trade};
use crate::field::Field;

pub(super) fn cases() -> Vec<NamedCase> {
    let mut cases = lengths();
    cases.extend(ends());
    cases.extend(bytes());
    cases.extend(two_headers());
    cases.extend(cut_second_headers());
    cases.extend(barred_fields());
    cases.extend(fields_not_barred());
    cases.extend(fields_of_the_other_byte());
    cases.extend(before_18());
    cases.extend(behind_18());
    cases.extend(out_of_place());
    cases.extend(several_fields());
    cases.extend(worked_sheets());
    cases
}

/// A Copper header with this byte.
fn long(third: u8) -> Field {
    long_header(COPPER, 0, third)
}

/// A Copper sheet with this byte and these fields, refused.
fn opened(name: &str, third: u8, fields: &[Field], number: u8, byte: usize) -> NamedCase {
    let mut all = vec![long(third)];
    all.extend(fields);
    refused_fields(name, &all, number, byte)
}

fn lengths() -> Vec<NamedCase> {
    let six_of_three = vec![6, 0, 3, 4, 0, 0, 5, 0, 4, 0, 0, 0, 1];
    let one_of_four = vec![1, 0, 4, 4, 0, 0, 0, 5, 0, 4, 0, 0, 0, 1];
    let six_of_five = vec![6, 0, 5, 4, 0, 0, 0, 0, 5, 0, 4, 0, 0, 0, 1];
    vec![
        refused("A2 tag 6 as long as tag 1", six_of_three, 4, 0),
        refused("A2 tag 1 as long as tag 6", one_of_four, 4, 0),
        refused("A2 tag 6, length 5", six_of_five, 4, 0),
        refused("A2 tag 6, wrong length and cut", vec![6, 0, 3, 4], 4, 0),
        refused("A2 tag 6, length bytes exchanged", vec![6, 4, 0, 4, 0, 0, 0], 4, 0),
        refused("A2 the head of a long header alone", vec![6, 0, 4], 2, 0),
        refused("A2 a long header a byte short", vec![6, 0, 4, 9, 255, 255], 2, 0),
        refused("A1 one byte, tag 6", vec![6], 2, 0),
    ]
}

fn ends() -> Vec<NamedCase> {
    let mut cut = ended_sheet(&[long(0)]);
    cut.pop();
    let mut trailing = ended_sheet(&[long(1)]);
    trailing.push(0);
    vec![
        refused_fields("B2 a long header and no end", &[long(0)], 2, 7),
        refused("B2 a long header, its end cut by one byte", cut, 2, 7),
        opened("B13 a long header, count 0", 0, &[end(0)], 12, 7),
        opened("B13 a long header, count 2", 2, &[end(2)], 12, 7),
        refused("B15 a long header, one byte behind the end", trailing, 5, 14),
        refused_fields("B4 a trade before a long header", &[trade(0, 3, 0, 1), long(0), end(2)], 5, 0),
    ]
}

/// I6: metal, marks and byte of a long header.
fn bytes() -> Vec<NamedCase> {
    let wrong = |name: &str, field: Field| refused_fields(name, &[field, end(1)], 6, 0);
    let good = |name: &str, field: Field| case(name, ended_sheet(&[field]), &nothing());
    let mut no_tag = sheet_of(&[long(3)]);
    no_tag.extend([9, 9, 9]);
    vec![
        good("I6 byte 0 and no field", long(0)),
        good("I6 byte 1 and no field", long(1)),
        good("I6 byte 2 and no field", long(2)),
        good("I3 byte 1, all eleven marks and no field", long_header(COPPER, 0x07FF, 1)),
        good("I3 byte 2, all eleven marks and no field", long_header(COPPER, 0x07FF, 2)),
        wrong("I6 byte 3", long(3)),
        wrong("I6 byte 4", long(4)),
        wrong("I6 byte 128", long(128)),
        wrong("I6 byte 255", long(255)),
        wrong("I6 metal 0 and byte 3", long_header(0, 0, 3)),
        wrong("I6 metal 6 and byte 0", long_header(6, 0, 0)),
        wrong("I6 metal 255 and byte 2", long_header(255, 0, 2)),
        wrong("I6 mark bit 11 and byte 0", long_header(COPPER, 0x0800, 0)),
        wrong("I6 mark bit 15 and byte 1", long_header(COPPER, 0x8000, 1)),
        wrong("I6 metal, marks and byte wrong", long_header(0, 0xFFFF, 255)),
        refused_fields("I6 byte 3 and no end", &[long(3)], 6, 0),
        refused("I6 byte 3, then no tag", no_tag, 6, 0),
    ]
}

/// I5: one header of either form, the first field.
fn two_headers() -> Vec<NamedCase> {
    let short = header(COPPER, 0);
    let behind_short = |name: &str, fields: &[Field], byte: usize| {
        let mut all = vec![short];
        all.extend(fields);
        refused_fields(name, &all, 5, byte)
    };
    let one = trade(0, 3, 0, 1);
    vec![
        behind_short("I5 a long header behind a short one", &[long(0), end(2)], 6),
        behind_short("I5 a long header of byte 1 behind a short one", &[long(1), end(2)], 6),
        behind_short("I5 a long header with bad values behind it", &[long_header(9, 0xFFFF, 255), end(2)], 6),
        behind_short("I5 a long header behind a close", &[close(3, 0), long(0), end(3)], 14),
        behind_short("I5 a long header behind a trade", &[one, long(3), end(3)], 20),
        opened("I5 a short header behind a long one", 0, &[short, end(2)], 5, 7),
        opened("I5 a short header with bad values behind it", 2, &[header(9, 0xFFFF), end(2)], 5, 7),
        opened("I5 a short header behind a trade", 1, &[one, short, end(3)], 5, 21),
        opened("I5 the same long header twice", 1, &[long(1), end(2)], 5, 7),
        opened("I5 two long headers with other bytes", 1, &[long(2), end(2)], 5, 7),
    ]
}

fn cut_second_headers() -> Vec<NamedCase> {
    let behind_long = |bytes: &[u8]| [&sheet_of(&[long(0)])[..], bytes].concat();
    vec![
        refused("I5 a second header, long and cut", behind_header(&[6, 0, 4, 9, 0, 0]), 2, 6),
        refused("I5 a second header, long, wrong length", behind_header(&[6, 0, 3, 9, 0, 0]), 4, 6),
        refused("I5 a short header cut behind a long one", behind_long(&[1, 0, 3, 9]), 2, 7),
        refused("I5 a short header behind it, wrong length", behind_long(&[1, 0, 4, 9, 0, 0, 0]), 4, 7),
        refused("A13 tag 7 behind a long header", behind_long(&[7, 0, 4]), 3, 7),
    ]
}

/// A close, a trade and a quote on a spread.
fn kinds(spread: u8) -> [(&'static str, Field); 3] {
    [("close", close(spread, 0)), ("trade", trade(0, spread, 0, 1)), ("quote", quote(0, spread, 0, 0, 0))]
}

/// I4: every barred instrument in every kind of field.
fn barred_fields() -> Vec<NamedCase> {
    let mut cases = Vec::new();
    for (third, barred) in [(1, [1, 2, 6, 9]), (2, [4, 5, 6, 10])] {
        for spread in barred {
            for (kind, field) in kinds(spread) {
                let name = format!("I4 byte {third}: a {kind} on {spread}");
                cases.push(opened(&name, third, &[field, end(2)], 18, 7));
            }
        }
    }
    cases
}

/// I4: the same fields with byte 0, and behind a short header.
fn fields_not_barred() -> Vec<NamedCase> {
    let mut cases = Vec::new();
    for spread in [1, 2, 4, 5, 6, 9, 10] {
        for (kind, field) in kinds(spread) {
            let good = |how: &str, header: Field| {
                let name = format!("I4 {how}: a {kind} on {spread}");
                case(&name, ended_sheet(&[header, field]), &nothing())
            };
            cases.push(good("byte 0", long(0)));
            cases.push(good("tag 1", header(COPPER, 0)));
        }
    }
    cases
}

/// I4: the spreads that a byte leaves, in every kind of field.
fn fields_of_the_other_byte() -> Vec<NamedCase> {
    let mut cases = Vec::new();
    for (third, left) in [(1, [3, 4, 5, 7, 8, 10, 11]), (2, [1, 2, 3, 7, 8, 9, 11])] {
        for spread in left {
            let fields = kinds(spread).map(|(_, field)| field);
            let sheet = ended_sheet(&[long(third), fields[0], fields[1], fields[2]]);
            cases.push(case(&format!("I4 byte {third}: fields on {spread}"), sheet, &nothing()));
        }
    }
    cases
}

/// I4: 7 stands before 18, and a field on no barred instrument keeps its number.
fn before_18() -> Vec<NamedCase> {
    let of =
        |name: &str, third: u8, field: Field, number: u8| opened(name, third, &[field, end(2)], number, 7);
    vec![
        of("I4 7 before 18: a close on 12", 1, close(12, 0), 7),
        of("I4 7 before 18: a close on 255, its price wrong", 2, close(255, i32::MIN), 7),
        of("I4 7 before 18: a trade on 16 + 1", 1, trade(0, 17, 0, 1), 7),
        of("I4 7 before 18: a trade on 128 + 6, all wrong", 2, trade(u32::MAX, 134, 0, 0), 7),
        of("I4 7 before 18: a quote on 12, all wrong", 1, quote(86_400_000, 12, 4, 0, 0), 7),
        of("I4 8 on a spread that byte 1 leaves", 1, trade(86_400_000, 4, 0, 1), 8),
        of("I4 9 on a spread that byte 1 leaves", 1, close(10, 10_000_000), 9),
        of("I4 10 on a spread that byte 2 leaves", 2, trade(0, 9, 0, 0), 10),
        of("I4 11 on a spread that byte 2 leaves", 2, quote(0, 1, 3, 1, 0), 11),
        of("I4 9 on 3M", 1, close(0, 0), 9),
    ]
}

/// I4: 18 stands before 8, 9, 10 and 11.
fn behind_18() -> Vec<NamedCase> {
    let of = |name: &str, third: u8, field: Field| opened(name, third, &[field, end(2)], 18, 7);
    vec![
        of("I4 18 before 8: a trade at 86,400,000", 1, trade(86_400_000, 1, 0, 1)),
        of("I4 18 before 8: a quote at the greatest time", 2, quote(u32::MAX, 5, 0, 0, 0)),
        of("I4 18 before 9: a close at 10,000,000", 1, close(2, 10_000_000)),
        of("I4 18 before 9: a close at the least number", 2, close(10, i32::MIN)),
        of("I4 18 before 9: a trade at -10,000,000", 1, trade(0, 6, -10_000_000, 1)),
        of("I4 18 before 9: a bid of 10,000,000", 2, quote(0, 4, 1, 10_000_000, 0)),
        of("I4 18 before 10: no lots", 1, trade(0, 9, 0, 0)),
        of("I4 18 before 10: 10,001 lots", 2, trade(0, 6, 0, 10_001)),
        of("I4 18 before 11: sides 4", 1, quote(0, 1, 4, 0, 0)),
        of("I4 18 before 11: an absent side of 1", 2, quote(0, 5, 1, 0, 1)),
        of("I4 18 before 11: the bid above the offer", 1, quote(0, 9, 3, 1, 0)),
        of("I4 18 before all: a trade", 2, trade(u32::MAX, 4, i32::MIN, 0)),
        of("I4 18 before all: a quote", 1, quote(u32::MAX, 2, 255, i32::MAX, i32::MIN)),
    ]
}

/// I4: 2 and 4 for a field on a barred instrument, then 5, stand before 18.
fn out_of_place() -> Vec<NamedCase> {
    let cut = |third: u8, bytes: &[u8]| [&sheet_of(&[long(third)])[..], bytes].concat();
    let one = trade(5, 3, 0, 1);
    let first = [trade(0, 1, 0, 1), long(1), end(2)];
    vec![
        refused("I4 2 before 18: a close a byte short", cut(1, &[2, 0, 5, 1, 0, 0, 0]), 2, 7),
        refused("I4 4 before 18: a close of length 4", cut(2, &[2, 0, 4, 4, 0, 0, 0]), 4, 7),
        refused_fields("I4 5 before 18: a barred trade first", &first, 5, 0),
        opened("I4 5 before 18: a barred close behind a trade", 1, &[one, close(6, 0), end(3)], 5, 21),
        opened(
            "I4 5 before 18: a barred close behind a higher",
            1,
            &[close(3, 0), close(2, 0), end(3)],
            5,
            15,
        ),
        opened(
            "I4 5 before 18: one of byte 2 behind a higher",
            2,
            &[close(11, 0), close(10, 0), end(3)],
            5,
            15,
        ),
        opened("I4 a barred close behind a lower", 1, &[close(0, 1), close(1, 0), end(3)], 18, 15),
        opened("I4 the same barred close twice", 2, &[close(4, 0), close(4, 0), end(3)], 18, 7),
        opened("I4 a barred trade, its time falling", 1, &[one, trade(4, 2, 0, 1), end(3)], 18, 21),
        opened("I4 a barred quote behind a quote", 2, &[quote(5, 7, 0, 0, 0), quote(5, 10, 0, 0, 0)], 18, 24),
    ]
}

/// I4: the first faulty field decides, 18 among them; behind the end nothing is
/// read.
fn several_fields() -> Vec<NamedCase> {
    let barred = trade(0, 1, 0, 1);
    let six = [long_header(0, 0, 1), barred, end(2)];
    vec![
        opened("I4 6, then a barred field", 3, &[barred, end(2)], 6, 0),
        refused_fields("I4 6 for the metal, then a barred field", &six, 6, 0),
        opened("I4 10, then 18", 1, &[trade(0, 3, 0, 0), barred, end(3)], 10, 7),
        opened("I4 18, then 10", 1, &[barred, trade(0, 3, 0, 0), end(3)], 18, 7),
        opened("I4 18, then a header", 1, &[barred, long(1), end(3)], 18, 7),
        opened("I4 18, then a wrong count", 2, &[close(4, 0), end(9)], 18, 7),
        opened("I4 18, then no end", 1, &[quote(0, 9, 0, 0, 0)], 18, 7),
        opened("I4 a barred field behind the end", 1, &[end(1), barred, end(3)], 5, 14),
        opened("I4 a wrong count, then a barred field", 1, &[end(3), barred, end(3)], 12, 7),
    ]
}

/// I4: the Nickel sheet has M3-3M from its fourth field on, at byte 22, and M3-M4
/// in its seventh, at 64; the header is a byte longer.
fn worked_sheets() -> Vec<NamedCase> {
    let nickel = |third: u8| with_byte(&nickel_sheet(), third);
    vec![
        refused("I4 the Nickel sheet with byte 1", nickel(1), 18, 23),
        refused("I4 the Nickel sheet with byte 2", nickel(2), 18, 65),
        refused("I6 the Nickel sheet with byte 3", nickel(3), 6, 0),
    ]
}
