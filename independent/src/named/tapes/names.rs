//! Names and words: every known one, and near ones that are none.

use super::{copper, good, refused, second, second_refused, NamedTape, COPPER};
use crate::draft::{close, header, quote, trade};
use crate::field::Field;

pub(super) fn cases() -> Vec<NamedTape> {
    let mut cases = metals();
    cases.extend(unknown_metals());
    cases.extend(instruments());
    cases.extend(unknown_instruments());
    cases.extend(words());
    cases.extend(marked());
    cases
}

fn metals() -> Vec<NamedTape> {
    let names = ["Nickel", "Aluminium", "Zinc", "Copper", "Lead"];
    let metal = |(name, number): (&str, u8)| {
        good(&format!("H4 {name}"), &format!("METAL,{name},0\n"), &[header(number, 0)])
    };
    names.into_iter().zip(1..).map(metal).collect()
}

fn unknown_metals() -> Vec<NamedTape> {
    let metal = |name: &str, written: &str| refused(name, format!("METAL,{written},0\n"), 17, 1);
    vec![
        metal("H4 an unknown metal", "Tin"),
        metal("H4 a metal in lower case", "nickel"),
        metal("H4 a metal in upper case", "NICKEL"),
        metal("H4 a metal's first letters", "Nicke"),
        metal("H4 a metal with a letter more", "Nickels"),
        metal("H4 a metal written otherwise", "Aluminum"),
        metal("H4 a metal's number", "1"),
        metal("H4 no metal", ""),
        metal("H4 a metal with a zero byte", "Lead\0"),
        metal("H4 METAL as a metal", "METAL"),
        refused("H4 an unknown metal and marks out of range", "METAL,Tin,65536\n", 17, 1),
    ]
}

/// The instruments as the issue names them.
const NAMES: [&str; 12] = [
    "3M", "M3-3M", "M2-3M", "M2-M3", "M2-M4", "M3-M4", "3M-M4", "M1-M2", "M1-M3", "M1-3M", "M1-M4", "Cash-M1",
];

/// Each instrument alone, and closes, trades and quotes of all.
fn instruments() -> Vec<NamedTape> {
    let numbered = || NAMES.into_iter().zip(0u8..);
    let one = |(name, number): (&str, u8)| {
        second(&format!("H4 a close of {name}"), &format!("PREV,{name},1.00"), close(number, 100))
    };
    let mut text = COPPER.to_string();
    let mut fields: Vec<Field> = vec![copper()];
    for (name, number) in numbered() {
        text.push_str(&format!("PREV,{name},2.00\n"));
        fields.push(close(number, 200));
    }
    for (name, number) in numbered() {
        text.push_str(&format!("7,{name},TRADE,3.00,9\n7,{name},QUOTE,4.00,5.00\n"));
        fields.extend([trade(7, number, 300, 9), quote(7, number, 3, 400, 500)]);
    }
    let all = good("H4 closes, trades and quotes of every instrument", &text, &fields);
    numbered().map(one).chain([all]).collect()
}

fn unknown_instruments() -> Vec<NamedTape> {
    let close = |name: &str, written: &str| second_refused(name, &format!("PREV,{written},1.00"), 17);
    vec![
        close("H4 a close of no instrument", ""),
        close("H4 a close of an instrument's number", "0"),
        close("H4 a close of M3", "M3"),
        close("H4 a close of Cash", "Cash"),
        close("H4 a close of 3m", "3m"),
        close("H4 a close of M1-M5", "M1-M5"),
        close("H4 a close of M3-3", "M3-3"),
        close("H4 a close of M3-3MM", "M3-3MM"),
        close("H4 a close of M3_3M", "M3_3M"),
        close("H4 a close of a metal", "Copper"),
        second_refused("H4 a trade of M5", "5,M5,TRADE,1.00,1", 17),
        second_refused("H4 a trade of cash-M1", "5,cash-M1,TRADE,1.00,1", 17),
        second_refused("H4 a quote of 12", "5,12,QUOTE,-,-", 17),
        second_refused("H4 a quote of Cash-M10", "5,Cash-M10,QUOTE,-,-", 17),
        second_refused(
            "H4 an unknown instrument, time and lots out of range",
            "86400000,M5,TRADE,1.00,0",
            17,
        ),
    ]
}

fn words() -> Vec<NamedTape> {
    let trade =
        |word: &str| second_refused(&format!("H4 {word} for TRADE"), &format!("5,M3-3M,{word},0.00,1"), 17);
    let quote = |word: &str| {
        second_refused(&format!("H4 {word} for QUOTE"), &format!("5,M3-3M,{word},0.00,1.00"), 17)
    };
    let mut cases: Vec<NamedTape> = ["trade", "Trade", "TRAD", "TRADES", "T", "BUY"].map(trade).into();
    cases.extend(["quote", "Quote", "QUOT", "QUOTES", "Q", "TRADE"].map(quote));
    cases.extend([
        second_refused("H4 QUOTE for TRADE", "5,M3-3M,QUOTE,0.00,1", 17),
        second_refused("H4 prev for PREV", "prev,3M,1.00", 17),
        second_refused("H4 PRE for PREV", "PRE,3M,1.00", 17),
        second_refused("H4 PREVIOUS for PREV", "PREVIOUS,3M,1.00", 17),
        second_refused("H4 CLOSE for PREV", "CLOSE,3M,1.00", 17),
        refused("H4 Metal for METAL", "Metal,Copper,0\n", 17, 1),
        refused("H4 METALS for METAL", "METALS,Copper,0\n", 17, 1),
        second_refused("H4 the instrument before the time", "M3-3M,5,TRADE,0.00,1", 17),
        second_refused("H4 the word before the instrument", "5,TRADE,M3-3M,0.00,1", 17),
        second_refused("H4 the lots before the price", "5,M3-3M,TRADE,1,0.00", 17),
    ]);
    cases
}

/// A marked spread keeps its name; the name of the turned spread is none.
fn marked() -> Vec<NamedTape> {
    let lines = "PREV,M3-3M,1.00\n5,M3-3M,TRADE,2.00,1\n5,M3-3M,QUOTE,3.00,4.00\n";
    let fields =
        |marks: u16| [header(3, marks), close(1, 100), trade(5, 1, 200, 1), quote(5, 1, 3, 300, 400)];
    let marks = |name: &str, marks: u16| good(name, &format!("METAL,Zinc,{marks}\n{lines}"), &fields(marks));
    vec![
        marks("H9 no mark", 0),
        marks("H9 M3-3M marked", 1),
        marks("H9 Cash-M1 marked", 1_024),
        marks("H9 every spread marked", 2_047),
        refused("H9 the name of M3-3M turned round, marked", "METAL,Zinc,1\nPREV,3M-M3,1.00\n", 17, 2),
        refused("H9 the name of 3M-M4 turned round, marked", "METAL,Zinc,32\n5,M4-3M,QUOTE,-,-\n", 17, 2),
    ]
}
