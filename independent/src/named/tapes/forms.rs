//! The forms of numbers, good and malformed, and numbers of any length.

use super::{refused, second, second_refused, NamedTape};
use crate::draft::{close, quote, trade};

pub(super) fn cases() -> Vec<NamedTape> {
    let mut cases = good_prices();
    cases.extend(malformed_prices());
    cases.extend(malformed_times());
    cases.extend(malformed_lots());
    cases.extend(malformed_marks());
    cases.extend(malformed_sides());
    cases.extend(thirty_digits());
    cases.extend(past_their_width());
    cases
}

/// Cents of M3-3M's previous close by how its price is written.
fn good_prices() -> Vec<NamedTape> {
    let prices = [
        ("0.00", 0),
        ("0.01", 1),
        ("0.09", 9),
        ("0.10", 10),
        ("0.50", 50),
        ("-0.50", -50),
        ("-0.01", -1),
        ("-0.10", -10),
        ("1.00", 100),
        ("-1.00", -100),
        ("10.00", 1_000),
        ("9.99", 999),
        ("-10.05", -1_005),
        ("99999.99", 9_999_999),
        ("-99999.99", -9_999_999),
    ];
    let price = |(written, cents): (&str, i32)| {
        second(&format!("H6 a price {written}"), &format!("PREV,M3-3M,{written}"), close(1, cents))
    };
    prices.into_iter().map(price).collect()
}

/// None of these is a price, of a close, of a trade or of a side.
fn malformed_prices() -> Vec<NamedTape> {
    let prices = [
        "-0.00", ".50", "-.50", "00.50", "-00.50", "01.00", "-01.00", "000.00", "1.5", "1.50.", "1.", "1",
        "0", "-1", "1.500", "1.000", "+1.00", "+0.50", "-+1.00", "--1.00", "1.-5", "1.+5", "1,50", "1-.00",
        "1.0-", "1.0O", ".", "-", "--", "", "1e2", "1.0e", "0x1.00", "1 000.00", "1'000.00", "1:00", "$1.00",
        "1.00$", "NaN", "inf",
    ];
    let mut cases = Vec::new();
    for price in prices {
        cases.push(second_refused(&format!("H6 a close at {price}"), &format!("PREV,M3-3M,{price}"), 17));
    }
    for price in ["-0.00", ".50", "00.50", "1.5", "1", "+1.00", "-", ""] {
        cases.push(second_refused(
            &format!("H6 a trade at {price}"),
            &format!("5,M3-3M,TRADE,{price},1"),
            17,
        ));
        cases.push(second_refused(&format!("H6 3M traded at {price}"), &format!("5,3M,TRADE,{price},1"), 17));
    }
    cases
}

fn malformed_times() -> Vec<NamedTape> {
    let time =
        |time: &str| second_refused(&format!("H6 a time {time}"), &format!("{time},M3-3M,TRADE,0.00,1"), 17);
    let mut cases: Vec<NamedTape> = [
        "-1", "-0", "+1", "01", "00", "0000", "", "1.0", "1.00", "1.", "-", "1e3", "0x5", "16:40", "5a", "a",
    ]
    .map(time)
    .into();
    cases.push(second("H6 a time 0", "0,M3-3M,TRADE,0.00,1", trade(0, 1, 0, 1)));
    cases.push(second("H6 a time 10", "10,M3-3M,TRADE,0.00,1", trade(10, 1, 0, 1)));
    cases
}

fn malformed_lots() -> Vec<NamedTape> {
    let lots =
        |lots: &str| second_refused(&format!("H6 {lots} lots"), &format!("5,M3-3M,TRADE,0.00,{lots}"), 17);
    let mut cases: Vec<NamedTape> =
        ["-1", "-0", "+1", "01", "00", "1.0", "1.00", "-", "1e3", "0x5", "five", "1-"].map(lots).into();
    cases.push(second("H6 10 lots", "5,M3-3M,TRADE,0.00,10", trade(5, 1, 0, 10)));
    cases
}

fn malformed_marks() -> Vec<NamedTape> {
    let marks = |marks: &str| refused(&format!("H6 marks {marks}"), format!("METAL,Copper,{marks}\n"), 17, 1);
    ["-1", "-0", "+0", "+1", "00", "01", "0.00", "0x7FF", "7FF", "11111111111b", "-"].map(marks).into()
}

/// `-` is an absent side and 0.00 a present one.
fn malformed_sides() -> Vec<NamedTape> {
    let sides = |name: &str, sides: &str, expected: (u8, i32, i32)| {
        let (bits, bid, offer) = expected;
        second(name, &format!("5,M3-3M,QUOTE,{sides}"), quote(5, 1, bits, bid, offer))
    };
    let mut cases = vec![
        sides("H6 no side", "-,-", (0, 0, 0)),
        sides("H6 a bid alone", "-0.50,-", (1, -50, 0)),
        sides("H6 an offer alone", "-,-0.50", (2, 0, -50)),
        sides("H6 both sides", "-0.50,0.50", (3, -50, 50)),
        sides("H6 a bid of 0 alone", "0.00,-", (1, 0, 0)),
        sides("H6 an offer of 0 alone", "-,0.00", (2, 0, 0)),
        sides("H6 both sides 0", "0.00,0.00", (3, 0, 0)),
        second("H6 no side of 3M", "5,3M,QUOTE,-,-", quote(5, 0, 0, 0, 0)),
    ];
    let sides =
        ["-0.00,-", "-,-0.00", "--,-", "-,--", "-,0", "0,-", "-,+1.00", ".50,-", "-,00.50", "-,1.5", "-,- "];
    for sides in sides {
        cases.push(second_refused(&format!("H6 the sides {sides}"), &format!("5,M3-3M,QUOTE,{sides}"), 17));
    }
    cases
}

const THIRTY: &str = "100000000000000000000000000000";

fn thirty_digits() -> Vec<NamedTape> {
    let behind = |name: &str, before: &str, after: &str, number: u8| {
        second_refused(name, &format!("{before}{THIRTY}{after}"), number)
    };
    vec![
        refused("H5 marks of thirty digits", format!("METAL,Copper,{THIRTY}\n"), 6, 1),
        refused("H5 marks of thirty digits and a letter", format!("METAL,Copper,{THIRTY}a\n"), 17, 1),
        refused("H5 marks of thirty digits behind a zero", format!("METAL,Copper,0{THIRTY}\n"), 17, 1),
        behind("H5 a close of thirty digits", "PREV,3M,", ".00", 9),
        behind("H5 a negative close of thirty digits", "PREV,M3-3M,-", ".00", 9),
        behind("H5 a close of thirty digits and no decimals", "PREV,3M,", "", 17),
        behind("H5 a close of thirty digits behind a zero", "PREV,3M,0", ".00", 17),
        behind("H5 a close of thirty decimals", "PREV,3M,1.", "", 17),
        behind("H5 a time of thirty digits", "", ",M3-3M,TRADE,0.00,1", 8),
        behind("H5 a quote's time of thirty digits", "", ",M3-3M,QUOTE,-,-", 8),
        behind("H5 a minus and a time of thirty digits", "-", ",M3-3M,TRADE,0.00,1", 17),
        behind("H5 a trade's price of thirty digits", "5,M3-3M,TRADE,", ".00,1", 9),
        behind("H5 a trade's negative price of thirty digits", "5,M3-3M,TRADE,-", ".00,1", 9),
        behind("H5 lots of thirty digits", "5,M3-3M,TRADE,0.00,", "", 10),
        behind("H5 lots of thirty digits behind a zero", "5,M3-3M,TRADE,0.00,0", "", 17),
        behind("H5 a bid of thirty digits", "5,M3-3M,QUOTE,", ".00,-", 9),
        behind("H5 an offer of thirty digits", "5,M3-3M,QUOTE,-,", ".00", 9),
        behind("H5 a bid of thirty digits above its offer", "5,M3-3M,QUOTE,", ".00,0.00", 9),
        behind("H5 an offer of thirty digits below its bid", "5,M3-3M,QUOTE,0.00,-", ".00", 9),
    ]
}

/// Cut to its field's bits each of these would be a good value.
fn past_their_width() -> Vec<NamedTape> {
    let marks =
        |written: &str| refused(&format!("H5 marks {written}"), format!("METAL,Copper,{written}\n"), 6, 1);
    let time =
        |time: &str| second_refused(&format!("H5 a time {time}"), &format!("{time},M3-3M,TRADE,0.00,1"), 8);
    let lots =
        |lots: &str| second_refused(&format!("H5 {lots} lots"), &format!("5,M3-3M,TRADE,0.00,{lots}"), 10);
    let price =
        |price: &str| second_refused(&format!("H5 3M at {price}"), &format!("5,3M,TRADE,{price},1"), 9);
    let spread =
        |price: &str| second_refused(&format!("H5 a spread at {price}"), &format!("PREV,M3-3M,{price}"), 9);
    let mut cases: Vec<NamedTape> =
        ["65536", "65537", "4294967296", "18446744073709551616"].map(marks).into();
    cases.extend(["4294967296", "4294967301", "18446744073709551616", "18446744073709551621"].map(time));
    cases.extend(["65537", "4294967297", "18446744073709551617"].map(lots));
    cases.extend(["42949672.97", "-42949672.95", "21474836.48", "184467440737095516.17"].map(price));
    cases.extend(
        ["42949672.96", "-42949672.96", "-21474836.48", "-21474836.49", "184467440737095516.16"].map(spread),
    );
    cases
}
