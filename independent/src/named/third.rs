//! Prices behind a long header. Most sheets are the stairs of C11 without the
//! closes that the byte bars: 3M 900,000, M3-3M 100, M2-M3 1,000, M3-M4 10,
//! M1-M2 10,000 and Cash-M1 100,000.
//!
//! With byte 1 the sheet gives M3 900,000, M2 901,000, M4 899,990, M1 911,000 and
//! Cash 1,011,000; with byte 2 M3 900,100, M2 901,100, M4 900,000, M1 911,100 and
//! Cash 1,011,100.

use super::{case, copper, copper_until, lines, nickel_sheet, nothing, with_byte};
use super::{copper_sheet, Metal, NamedCase, COPPER_LIST, NICKEL_LIST};
use super::{ANCHOR, COPPER, METALS, SPREAD};
use crate::draft::{close, ended_sheet, header, long_header, quote, trade};
use crate::field::Field;

pub(super) fn cases() -> Vec<NamedCase> {
    let mut cases = byte_0();
    cases.extend(byte_0_on_every_spread());
    cases.extend(takes_vwap());
    cases.extend(takes_twap());
    cases.extend(takes_the_step());
    cases.extend(every_metal());
    cases.extend(no_reference());
    cases.extend(no_reference_of_others());
    cases.extend(nothing_of_its_own());
    cases.extend(spreads_behind_it());
    cases.extend(twap_behind_it());
    cases.extend(refused_3m());
    cases.extend(refused_before_it());
    cases.extend(refused_behind_it());
    cases.extend(ends_of_the_range());
    cases.extend(marks());
    cases
}

/// The closes of the stairs.
const CLOSES: [(u8, i32); 6] = [(0, 900_000), (1, 100), (3, 1_000), (5, 10), (7, 10_000), (11, 100_000)];

/// The TWAP spread of the contract that 3M is, which the byte bars.
fn lacking(third: u8) -> Option<u8> {
    [None, Some(1), Some(5)][usize::from(third)]
}

/// The place of the contract that 3M is, M3 or M4.
fn named(third: u8) -> usize {
    if third == 1 {
        1
    } else {
        3
    }
}

/// The stairs behind this header, without the closes on these two.
fn stairs_without(header: Field, lacking: [Option<u8>; 2], records: &[Field]) -> Vec<u8> {
    let mut fields = vec![header];
    let kept = CLOSES.into_iter().filter(|(instrument, _)| !lacking.contains(&Some(*instrument)));
    fields.extend(kept.map(|(instrument, price)| close(instrument, price)));
    fields.extend(records);
    ended_sheet(&fields)
}

/// The Copper stairs with this byte and these marks.
fn stairs(third: u8, marks: u16, records: &[Field]) -> Vec<u8> {
    stairs_without(long_header(COPPER, marks, third), [lacking(third), None], records)
}

/// The list of these closes, all by TWAP with 0 lots but one.
fn list(by_vwap: Option<usize>, closes: [u32; 6]) -> String {
    let mut answers = closes.map(|price| format!("TWAP {price} 0"));
    if let Some(place) = by_vwap {
        answers[place] = format!("VWAP {} 5", closes[place]);
    }
    copper(answers.each_ref().map(String::as_str))
}

/// The lists of the stairs, by their byte.
const PLAIN: [[u32; 6]; 3] = [
    [900_000, 900_100, 901_100, 900_090, 911_100, 1_011_100],
    [900_000, 900_000, 901_000, 899_990, 911_000, 1_011_000],
    [900_000, 900_100, 901_100, 900_000, 911_100, 1_011_100],
];

/// I8: with byte 0 all is as behind a short header.
fn byte_0() -> Vec<NamedCase> {
    let short = stairs_without(header(COPPER, 0), [None, None], &[]);
    vec![
        case("I8 the Nickel sheet with byte 0", with_byte(&nickel_sheet(), 0), NICKEL_LIST),
        case("I8 the Copper example with byte 0", with_byte(&copper_sheet(), 0), COPPER_LIST),
        case("I8 the stairs behind a short header", short, &list(None, PLAIN[0])),
        case("I8 the stairs with byte 0", stairs(0, 0, &[]), &list(None, PLAIN[0])),
        case("I9 the stairs with byte 1", stairs(1, 0, &[]), &list(None, PLAIN[1])),
        case("I9 the stairs with byte 2", stairs(2, 0, &[]), &list(None, PLAIN[2])),
    ]
}

/// I8: 5 lots at 7 on each spread that a byte of 1 or 2 would bar, unmarked: the
/// contract by VWAP, and the six closes.
fn byte_0_on_every_spread() -> Vec<NamedCase> {
    let rows = [
        (1, 1, [900_000, 900_007, 901_007, 899_997, 911_007, 1_011_007]),
        (2, 2, [900_000, 900_100, 900_007, 900_090, 910_007, 1_010_007]),
        (4, 3, [900_000, 900_100, 901_100, 901_093, 911_100, 1_011_100]),
        (5, 3, [900_000, 900_100, 901_100, 900_093, 911_100, 1_011_100]),
        (6, 3, [900_000, 900_100, 901_100, 899_993, 911_100, 1_011_100]),
        (9, 4, [900_000, 900_100, 901_100, 900_090, 900_007, 1_000_007]),
        (10, 4, [900_000, 900_100, 901_100, 900_090, 900_097, 1_000_097]),
    ];
    let made = |(spread, by_vwap, closes): (u8, usize, [u32; 6])| {
        let sheet = stairs(0, 0, &[trade(SPREAD, spread, 7, 5)]);
        case(&format!("I8 byte 0: spread {spread} traded"), sheet, &list(Some(by_vwap), closes))
    };
    rows.into_iter().map(made).collect()
}

/// The list of the stairs with byte 1 or 2, this answer of 3M and of the contract
/// that it is, and the others as far above that close as on the stairs.
fn with_3m(third: u8, answer: &str, close: u32) -> String {
    let plain = PLAIN[usize::from(third)];
    let mut answers = plain.map(|price| format!("TWAP {} 0", price + close - 900_000));
    answers[0] = answer.to_string();
    answers[named(third)] = answer.to_string();
    copper(answers.each_ref().map(String::as_str))
}

/// I9: 3M has a VWAP, and the contract that it is has the same.
fn takes_vwap() -> Vec<NamedCase> {
    let five = [trade(ANCHOR, 0, 900_100, 5)];
    let many = [trade(ANCHOR, 0, 900_100, 10_000), trade(ANCHOR + 299_999, 0, 900_100, 10_000)];
    let late = [trade(SPREAD, 0, 500_000, 900), trade(ANCHOR, 0, 900_100, 5)];
    let mut cases = Vec::new();
    for third in [1, 2] {
        let made = |name: &str, records: &[Field], answer: &str| {
            let title = format!("I9 byte {third}: {name}");
            case(&title, stairs(third, 0, records), &with_3m(third, answer, 900_100))
        };
        cases.push(made("five lots of 3M", &five, "VWAP 900100 5"));
        cases.push(made("20,000 lots of 3M", &many, "VWAP 900100 20000"));
        cases.push(made("lots of 3M in the spread window", &late, "VWAP 900100 5"));
    }
    cases
}

/// I9: 3M has a TWAP with 1 to 4 lots: a trade at the anchor's start at 900,110,
/// which rounds to 900,100.
fn takes_twap() -> Vec<NamedCase> {
    let mut cases = Vec::new();
    for third in [1, 2] {
        for lots in 1..=4 {
            let sheet = stairs(third, 0, &[trade(ANCHOR, 0, 900_110, lots)]);
            let answer = format!("TWAP 900100 {lots}");
            let name = format!("I9 byte {third}: 3M by TWAP with {lots} lots");
            cases.push(case(&name, sheet, &with_3m(third, &answer, 900_100)));
        }
        let bid = stairs(third, 0, &[quote(SPREAD, 0, 1, 900_200, 0)]);
        let answer = "TWAP 900200 0";
        let name = format!("I9 byte {third}: 3M bid in the spread window");
        cases.push(case(&name, bid, &with_3m(third, answer, 900_200)));
    }
    cases
}

/// I9: what is taken is the close on 3M's step, and the cent is not its own.
fn takes_the_step() -> Vec<NamedCase> {
    let at = |third: u8, price: i32| stairs(third, 0, &[trade(ANCHOR, 0, price, 5)]);
    let half = [quote(ANCHOR + 150_000, 0, 1, 900_050, 0)];
    let below = [quote(ANCHOR + 150_001, 0, 1, 900_050, 0)];
    let vwap = |third: u8, close: u32| with_3m(third, &format!("VWAP {close} 5"), close);
    let twap = |third: u8, close: u32| with_3m(third, &format!("TWAP {close} 0"), close);
    vec![
        case("I9 byte 1: 920,125 on the half of 50", at(1, 920_125), &vwap(1, 920_150)),
        case("I9 byte 1: 920,124 below it", at(1, 920_124), &vwap(1, 920_100)),
        case("I9 byte 2: 920,125 on the half of 50", at(2, 920_125), &vwap(2, 920_150)),
        case("I9 byte 2: 920,124 below it", at(2, 920_124), &vwap(2, 920_100)),
        case("I9 byte 1: a TWAP on the half of 50", stairs(1, 0, &half), &twap(1, 900_050)),
        case("I9 byte 1: a TWAP just below it", stairs(1, 0, &below), &twap(1, 900_000)),
        case("I9 byte 2: a TWAP on the half of 50", stairs(2, 0, &half), &twap(2, 900_050)),
    ]
}

/// I9: 900,050 by each metal's own step and window, all spreads at 0.
fn every_metal() -> Vec<NamedCase> {
    let mut cases = Vec::new();
    for metal in METALS {
        cases.extend([1, 2].map(|third| flat_metal(metal, third)));
    }
    cases
}

fn flat_metal((metal, name, _, anchor, outright): Metal, third: u8) -> NamedCase {
    let mut fields = vec![long_header(metal, 0, third)];
    let spreads = [1, 3, 5, 7, 11].into_iter().filter(|spread| Some(*spread) != lacking(third));
    fields.extend(spreads.map(|spread| close(spread, 0)));
    fields.push(trade(anchor + 299_999, 0, 900_050, 5));
    let answer = format!("VWAP {outright} 5");
    let rest = format!("TWAP {outright} 0");
    let mut answers = [rest.as_str(); 6];
    answers[0] = &answer;
    answers[named(third)] = &answer;
    case(&format!("I9 byte {third} in {name}"), ended_sheet(&fields), &lines(name, answers))
}

/// I9: 13 is not tested for the contract that 3M is: 3M alone has a price, from
/// its trades or its close.
fn no_reference() -> Vec<NamedCase> {
    let alone = |header: Field, field: Field| ended_sheet(&[header, field]);
    let traded = trade(ANCHOR, 0, 900_000, 7);
    let vwap = "VWAP 900000 7";
    let twap = "TWAP 900000 0";
    let long = |third: u8| long_header(COPPER, 0, third);
    let m3_named = |answer: &str| copper_until(&[answer, answer, "refused 13 0"]);
    let m3_refused = |answer: &str| copper_until(&[answer, "refused 13 0"]);
    vec![
        case("I9 byte 1: 3M traded and nothing else", alone(long(1), traded), &m3_named(vwap)),
        case("I9 byte 1: 3M's close and nothing else", alone(long(1), close(0, 900_000)), &m3_named(twap)),
        case("I9 byte 0: 3M traded and nothing else", alone(long(0), traded), &m3_refused(vwap)),
        case("I9 byte 2: 3M traded and nothing else", alone(long(2), traded), &m3_refused(vwap)),
    ]
}

/// I9: the same for M4, behind M3 and M2; and 13 is tested for every other one.
fn no_reference_of_others() -> Vec<NamedCase> {
    let without = |third: u8, instrument: u8, records: &[Field]| {
        stairs_without(long_header(COPPER, 0, third), [lacking(third), Some(instrument)], records)
    };
    let m3 = "TWAP 900100 0";
    let m2 = "TWAP 901100 0";
    let flat = "TWAP 900000 0";
    let none = "refused 13 0";
    let byte_0 = stairs_without(long_header(COPPER, 0, 0), [Some(5), None], &[]);
    let on_8 = [trade(SPREAD, 8, 0, 4)];
    vec![
        case("I9 byte 0: M4 without a close", byte_0, &copper_until(&[flat, m3, m2, none])),
        case("I9 byte 2: M1 without a close", without(2, 7, &[]), &copper_until(&[flat, m3, m2, flat, none])),
        case(
            "I9 byte 2: M1 without a close, four lots of M1-M3",
            without(2, 7, &on_8),
            &copper_until(&[flat, m3, m2, flat, "refused 13 4"]),
        ),
        case("I9 byte 1: M2 without a close", without(1, 3, &[]), &copper_until(&[flat, flat, none])),
        case(
            "I9 byte 1: M4 without a close",
            without(1, 5, &[]),
            &copper_until(&[flat, flat, "TWAP 901000 0", none]),
        ),
    ]
}

/// I9: no trade or quote of a spread moves the contract that 3M is.
fn nothing_of_its_own() -> Vec<NamedCase> {
    let quoted = [quote(0, 3, 3, -9_999_999, -9_999_999), trade(SPREAD, 3, 7, 5)];
    let m3 = list(Some(2), [900_000, 900_000, 900_007, 899_990, 910_007, 1_010_007]);
    let both = [trade(SPREAD, 1, 7, 5), trade(SPREAD, 3, 7, 5)];
    let vwap = |price: u32| format!("VWAP {price} 5");
    let twap = |price: u32| format!("TWAP {price} 0");
    let m4 = copper([
        "TWAP 900000 0",
        &vwap(900_007),
        &vwap(900_014),
        "TWAP 900000 0",
        &twap(910_014),
        &twap(1_010_014),
    ]);
    vec![
        case("I9 byte 1: M2-M3 quoted and traded", stairs(1, 0, &quoted), &m3),
        case("I9 byte 2: M3 and M2 traded", stairs(2, 0, &both), &m4),
    ]
}

/// Five lots at 7 on one spread that the byte leaves: its mark, the contract that
/// it prices (its place in the list) and the six closes.
type Row = (u8, bool, usize, [u32; 6]);

const BEHIND_M3: [Row; 14] = [
    (3, false, 2, [900_000, 900_000, 900_007, 899_990, 910_007, 1_010_007]),
    (4, false, 3, [900_000, 900_000, 901_000, 900_993, 911_000, 1_011_000]),
    (5, false, 3, [900_000, 900_000, 901_000, 899_993, 911_000, 1_011_000]),
    (7, false, 4, [900_000, 900_000, 901_000, 899_990, 901_007, 1_001_007]),
    (8, false, 4, [900_000, 900_000, 901_000, 899_990, 900_007, 1_000_007]),
    (10, false, 4, [900_000, 900_000, 901_000, 899_990, 899_997, 999_997]),
    (11, false, 5, [900_000, 900_000, 901_000, 899_990, 911_000, 911_007]),
    (3, true, 2, [900_000, 900_000, 899_993, 899_990, 909_993, 1_009_993]),
    (4, true, 3, [900_000, 900_000, 901_000, 901_007, 911_000, 1_011_000]),
    (5, true, 3, [900_000, 900_000, 901_000, 900_007, 911_000, 1_011_000]),
    (7, true, 4, [900_000, 900_000, 901_000, 899_990, 900_993, 1_000_993]),
    (8, true, 4, [900_000, 900_000, 901_000, 899_990, 899_993, 999_993]),
    (10, true, 4, [900_000, 900_000, 901_000, 899_990, 899_983, 999_983]),
    (11, true, 5, [900_000, 900_000, 901_000, 899_990, 911_000, 910_993]),
];

const BESIDE_M4: [Row; 14] = [
    (1, false, 1, [900_000, 900_007, 901_007, 900_000, 911_007, 1_011_007]),
    (2, false, 2, [900_000, 900_100, 900_007, 900_000, 910_007, 1_010_007]),
    (3, false, 2, [900_000, 900_100, 900_107, 900_000, 910_107, 1_010_107]),
    (7, false, 4, [900_000, 900_100, 901_100, 900_000, 901_107, 1_001_107]),
    (8, false, 4, [900_000, 900_100, 901_100, 900_000, 900_107, 1_000_107]),
    (9, false, 4, [900_000, 900_100, 901_100, 900_000, 900_007, 1_000_007]),
    (11, false, 5, [900_000, 900_100, 901_100, 900_000, 911_100, 911_107]),
    (1, true, 1, [900_000, 899_993, 900_993, 900_000, 910_993, 1_010_993]),
    (2, true, 2, [900_000, 900_100, 899_993, 900_000, 909_993, 1_009_993]),
    (3, true, 2, [900_000, 900_100, 900_093, 900_000, 910_093, 1_010_093]),
    (7, true, 4, [900_000, 900_100, 901_100, 900_000, 901_093, 1_001_093]),
    (8, true, 4, [900_000, 900_100, 901_100, 900_000, 900_093, 1_000_093]),
    (9, true, 4, [900_000, 900_100, 901_100, 900_000, 899_993, 999_993]),
    (11, true, 5, [900_000, 900_100, 901_100, 900_000, 911_100, 911_093]),
];

/// I10: the contracts behind M3 go on its close, which is 3M's; behind M4 no
/// spread is left that would.
fn spreads_behind_it() -> Vec<NamedCase> {
    let made = |third: u8, (spread, marked, by_vwap, closes): Row| {
        let marks = if marked { 1 << (spread - 1) } else { 0 };
        let sheet = stairs(third, marks, &[trade(SPREAD, spread, 7, 5)]);
        let how = if marked { "marked" } else { "unmarked" };
        case(&format!("I10 byte {third}: spread {spread} {how}"), sheet, &list(Some(by_vwap), closes))
    };
    let behind = BEHIND_M3.into_iter().map(|row| made(1, row));
    behind.chain(BESIDE_M4.into_iter().map(|row| made(2, row))).collect()
}

/// I10: M2 and M4 by TWAP and VWAP on M3's close, which is 3M's rounded one:
/// 900,020 of 3M is 900,000 on its step.
fn twap_behind_it() -> Vec<NamedCase> {
    let on_step = [trade(SPREAD, 3, 1, 5), trade(ANCHOR, 0, 900_020, 5)];
    let vwap = ["VWAP 900000 5", "VWAP 900000 5", "VWAP 900001 5", "TWAP 899990 0", "TWAP 910001 0"];
    let m2 = copper([vwap[0], vwap[1], vwap[2], vwap[3], vwap[4], "TWAP 1010001 0"]);
    let bid = [quote(SPREAD + 150_000, 3, 1, 1_010, 0)];
    let half = list(None, [900_000, 900_000, 901_005, 899_990, 911_005, 1_011_005]);
    let m4 = [trade(SPREAD, 4, 10, 1), trade(SPREAD, 5, 20, 4)];
    let m4_list = copper([
        "TWAP 900000 0",
        "TWAP 900000 0",
        "TWAP 901000 0",
        "VWAP 900182 5",
        "TWAP 911000 0",
        "TWAP 1011000 0",
    ]);
    let m1 = [trade(SPREAD, 7, 10, 1), trade(SPREAD, 8, 20, 1), trade(SPREAD, 10, 30, 3)];
    let m1_list = list(Some(4), [900_000, 900_000, 901_000, 899_990, 900_218, 1_000_218]);
    vec![
        case("I10 byte 1: M2 on the rounded close", stairs(1, 0, &on_step), &m2),
        case("I10 byte 1: M2 by TWAP, half a window at 10 more", stairs(1, 0, &bid), &half),
        case("I10 byte 1: M4 over M2-M4 and M3-M4", stairs(1, 0, &m4), &m4_list),
        case("I10 byte 1: M1 over M1-M2, M1-M3 and M1-M4", stairs(1, 0, &m1), &m1_list),
    ]
}

/// I1: 3M refused, and nothing is taken: 15 with 0 lots.
fn refused_3m() -> Vec<NamedCase> {
    let mut cases = Vec::new();
    for third in [1, 2] {
        let without = |records: &[Field]| {
            stairs_without(long_header(COPPER, 0, third), [lacking(third), Some(0)], records)
        };
        let four = [trade(ANCHOR + 1, 0, 900_000, 4)];
        let low = [trade(ANCHOR, 0, 24, 6)];
        let high = [trade(ANCHOR, 0, 99_999_975, 6)];
        let made = |name: &str, records: &[Field], list: &str| {
            case(&format!("I1 byte {third}: {name}"), without(records), list)
        };
        cases.push(made("3M without a reference", &[], &nothing()));
        cases.push(made("3M with four lots too late", &four, &copper_until(&["refused 13 4"])));
        cases.push(made("3M rounds to 0", &low, &copper_until(&["refused 14 6"])));
        cases.push(made("3M rounds to 100,000,000", &high, &copper_until(&["refused 14 6"])));
    }
    cases
}

/// I1: M4 is at step 4, behind M3 and M2.
fn refused_before_it() -> Vec<NamedCase> {
    let without = |instrument: u8, records: &[Field]| {
        stairs_without(long_header(COPPER, 0, 2), [lacking(2), Some(instrument)], records)
    };
    let traded = trade(ANCHOR, 0, 900_000, 7);
    let three = "VWAP 900000 7";
    let m3 = "TWAP 900100 0";
    let four = [trade(SPREAD, 2, 0, 4), traded];
    let deep = stairs(2, 0, &[trade(SPREAD, 3, -900_100, 6), traded]);
    let m3_deep = stairs(2, 0, &[trade(SPREAD, 1, -900_000, 6), traded]);
    vec![
        case("I1 byte 2: M3 is 13", without(1, &[traded]), &copper_until(&[three, "refused 13 0"])),
        case("I1 byte 2: M3 is 14", m3_deep, &copper_until(&[three, "refused 14 6"])),
        case("I1 byte 2: M2 is 13", without(3, &[traded]), &copper_until(&[three, m3, "refused 13 0"])),
        case(
            "I1 byte 2: M2 is 13 with four lots",
            without(3, &four),
            &copper_until(&[three, m3, "refused 13 4"]),
        ),
        case("I1 byte 2: M2 is 14", deep, &copper_until(&[three, m3, "refused 14 6"])),
    ]
}

/// I2: 14 comes behind the contract that 3M is as behind any other.
fn refused_behind_it() -> Vec<NamedCase> {
    let traded = trade(ANCHOR, 0, 900_000, 7);
    let three = "VWAP 900000 7";
    let at = |third: u8, spread: u8, price: i32| stairs(third, 0, &[trade(SPREAD, spread, price, 5), traded]);
    let m2 = "TWAP 901000 0";
    vec![
        case("I2 byte 1: M2 at 0", at(1, 3, -900_000), &copper_until(&[three, three, "refused 14 5"])),
        case("I2 byte 1: M4 at 0", at(1, 5, 900_000), &copper_until(&[three, three, m2, "refused 14 5"])),
        case(
            "I2 byte 1: M1 at 0",
            at(1, 8, -900_000),
            &copper_until(&[three, three, m2, "TWAP 899990 0", "refused 14 5"]),
        ),
        case(
            "I2 byte 2: M1 at 0",
            at(2, 9, -900_000),
            &copper_until(&[three, "TWAP 900100 0", "TWAP 901100 0", three, "refused 14 5"]),
        ),
    ]
}

/// I2: the contract that 3M is at the ends of the range, and M2 on it.
fn ends_of_the_range() -> Vec<NamedCase> {
    let sheet = |outright: i32, spread: i32| {
        let spread = trade(SPREAD, 3, spread, 5);
        ended_sheet(&[long_header(COPPER, 0, 1), spread, trade(ANCHOR, 0, outright, 5)])
    };
    let priced = |three: &str, m2: &str| copper_until(&[three, three, m2, "refused 13 0"]);
    let stopped = |three: &str| copper_until(&[three, three, "refused 14 5"]);
    let low = "VWAP 50 5";
    let high = "VWAP 99999950 5";
    vec![
        case("I2 byte 1: 50 and M2 at 1", sheet(25, -49), &priced(low, "VWAP 1 5")),
        case("I2 byte 1: 50 and M2 at 0", sheet(25, -50), &stopped(low)),
        case(
            "I2 byte 1: 99,999,950 and M2 at its greatest",
            sheet(99_999_974, 49),
            &priced(high, "VWAP 99999999 5"),
        ),
        case("I2 byte 1: 99,999,950 and M2 above it", sheet(99_999_974, 50), &stopped(high)),
    ]
}

/// I3: marks of the spreads that a byte bars change nothing; byte 1 bars those of
/// bits 0, 1, 5 and 8, byte 2 those of bits 3, 4, 5 and 9.
fn marks() -> Vec<NamedCase> {
    let made = |third: u8, marks: u16| {
        let plain = PLAIN[usize::from(third)];
        case(&format!("I3 byte {third}: marks {marks}"), stairs(third, marks, &[]), &list(None, plain))
    };
    let one = [0x0001, 0x0002, 0x0020, 0x0100, 0x0123].map(|marks| made(1, marks));
    let two = [0x0008, 0x0010, 0x0020, 0x0200, 0x0238].map(|marks| made(2, marks));
    one.into_iter().chain(two).collect()
}
