//! Where a line ends, and what may not stand in it beside its items.

use super::{copper, good, refused, second_refused, NamedTape, COPPER};
use crate::draft::trade;

pub(super) fn cases() -> Vec<NamedTape> {
    let mut cases = line_feeds();
    cases.extend(empty_lines());
    cases.extend(returns());
    cases.extend(spaces());
    cases.extend(more_items());
    cases.extend(fewer_items());
    cases.extend(other_bytes());
    cases
}

fn line_feeds() -> Vec<NamedTape> {
    let two = |last: &str| format!("{COPPER}5,M3-3M,TRADE,0.00,1{last}");
    vec![
        good("H1 two lines, each with its line feed", &two("\n"), &[copper(), trade(5, 1, 0, 1)]),
        refused("H1 the last line without its line feed", two(""), 17, 2),
        refused("H1 the only line without its line feed", "METAL,Copper,0", 17, 1),
        refused("H1 the first letter alone", "M", 17, 1),
        refused("H1 the first word alone", "METAL\n", 17, 1),
        refused("H1 a good line that goes on behind a line feed", two("\n0"), 17, 3),
        refused("H1 a bad value without its line feed", format!("{COPPER}86400000,3M,TRADE,1.00,1"), 17, 2),
        refused("H1 a line out of place without its line feed", format!("{COPPER}METAL,Copper,0"), 17, 2),
        refused("H1 no line feed between two lines", "METAL,Copper,0PREV,3M,1.00\n", 17, 1),
        refused("H1 a comma for a line feed", "METAL,Copper,0,PREV,3M,1.00\n", 17, 1),
        refused("H1 a line feed for a comma", "METAL,Copper\n0\n", 17, 1),
    ]
}

fn empty_lines() -> Vec<NamedTape> {
    vec![
        refused("H1 a line feed alone", "\n", 17, 1),
        refused("H1 an empty line first", format!("\n{COPPER}"), 17, 1),
        refused("H1 an empty line in the middle", format!("{COPPER}\nPREV,3M,1.00\n"), 17, 2),
        refused("H1 an empty line at the end", format!("{COPPER}PREV,3M,1.00\n\n"), 17, 3),
        refused("H1 two empty lines at the end", format!("{COPPER}\n\n"), 17, 2),
        second_refused("H1 a comma alone", ",", 17),
        second_refused("H1 four commas alone", ",,,,", 17),
        second_refused("H1 a minus alone", "-", 17),
        second_refused("H1 a remark", "# noon", 17),
    ]
}

fn returns() -> Vec<NamedTape> {
    vec![
        refused("H1 carriage returns before line feeds", "METAL,Copper,0\r\nPREV,3M,1.00\r\n", 17, 1),
        refused("H1 a carriage return in the last line", format!("{COPPER}PREV,3M,1.00\r\n"), 17, 2),
        refused("H1 a carriage return for a line feed", "METAL,Copper,0\rPREV,3M,1.00\n", 17, 1),
        refused("H1 a carriage return behind a line feed", format!("{COPPER}\rPREV,3M,1.00\n"), 17, 2),
        refused("H1 a carriage return alone", "\r", 17, 1),
    ]
}

fn spaces() -> Vec<NamedTape> {
    vec![
        refused("H1 a space first", format!(" {COPPER}"), 17, 1),
        refused("H1 a space behind the first word", "METAL ,Copper,0\n", 17, 1),
        refused("H1 a space at the end", "METAL,Copper,0 \n", 17, 1),
        refused("H1 a space before the name", "METAL, Copper,0\n", 17, 1),
        refused("H1 a space behind the name", "METAL,Copper ,0\n", 17, 1),
        second_refused("H1 a space before a price", "PREV,3M, 1.00", 17),
        second_refused("H1 a space behind a minus", "PREV,M3-3M,- 1.00", 17),
        second_refused("H1 a space before the time", " 5,M3-3M,TRADE,0.00,1", 17),
        second_refused("H1 a space behind the lots", "5,M3-3M,TRADE,0.00,1 ", 17),
        second_refused("H1 spaces for commas", "5 M3-3M TRADE 0.00 1", 17),
        second_refused("H1 semicolons for commas", "5;M3-3M;TRADE;0.00;1", 17),
        second_refused("H1 a tab behind a comma", "5,M3-3M,TRADE,\t0.00,1", 17),
        second_refused("H1 quotation marks", "5,\"M3-3M\",TRADE,0.00,1", 17),
    ]
}

fn more_items() -> Vec<NamedTape> {
    vec![
        refused("H1 a comma behind the marks", "METAL,Copper,0,\n", 17, 1),
        second_refused("H1 a comma behind a close", "PREV,3M,1.00,", 17),
        second_refused("H1 lots behind a close", "PREV,3M,1.00,5", 17),
        second_refused("H1 a comma behind a trade", "5,M3-3M,TRADE,0.00,1,", 17),
        second_refused("H1 an item more in a trade", "5,M3-3M,TRADE,0.00,1,1", 17),
        second_refused("H1 an item more in a quote", "5,M3-3M,QUOTE,0.00,1.00,1", 17),
        second_refused("H1 a comma in front", ",5,M3-3M,TRADE,0.00,1", 17),
        second_refused("H1 two commas", "5,M3-3M,,TRADE,0.00,1", 17),
    ]
}

fn fewer_items() -> Vec<NamedTape> {
    vec![
        refused("H11 METAL without marks", "METAL,Copper\n", 17, 1),
        refused("H1 METAL with empty marks", "METAL,Copper,\n", 17, 1),
        second_refused("H1 PREV alone", "PREV", 17),
        second_refused("H1 PREV without a price", "PREV,3M", 17),
        second_refused("H1 PREV with an empty price", "PREV,3M,", 17),
        second_refused("H1 a time alone", "5", 17),
        second_refused("H1 a trade without its word", "5,M3-3M", 17),
        second_refused("H1 a trade without a price", "5,M3-3M,TRADE", 17),
        second_refused("H1 a trade without lots", "5,M3-3M,TRADE,0.00", 17),
        second_refused("H1 a trade with empty lots", "5,M3-3M,TRADE,0.00,", 17),
        second_refused("H1 a trade without an instrument", "5,TRADE,0.00,1", 17),
        second_refused("H1 a quote without an offer", "5,M3-3M,QUOTE,0.00", 17),
        second_refused("H1 a quote with an empty bid", "5,M3-3M,QUOTE,,0.00", 17),
        second_refused("H1 a quote with an empty offer", "5,M3-3M,QUOTE,0.00,", 17),
        second_refused("H1 a quote with two empty sides", "5,M3-3M,QUOTE,,", 17),
        second_refused("H1 no comma behind the word", "5,M3-3M,TRADE0.00,1", 17),
    ]
}

fn other_bytes() -> Vec<NamedTape> {
    let behind = |bytes: &[u8]| [COPPER.as_bytes(), bytes].concat();
    vec![
        refused("H1 a zero byte alone", [0], 17, 1),
        refused("H1 a zero byte behind the last line feed", behind(b"\0"), 17, 2),
        refused("H1 a zero byte in a number", behind(b"5,M3-3M,TRADE,0.00,1\0\n"), 17, 2),
        refused("H1 a byte order mark", [b"\xEF\xBB\xBF", COPPER.as_bytes()].concat(), 17, 1),
        refused("H1 a byte of 255", [0xFF, b'\n'], 17, 1),
        refused("H1 a digit with its highest bit set", behind(b"\xB5,M3-3M,TRADE,0.00,1\n"), 17, 2),
        refused("H1 a long minus", behind("PREV,M3-3M,\u{2212}1.00\n".as_bytes()), 17, 2),
        refused("H1 the bytes of a sheet", [1, 0, 3, 4, 0, 0, 5, 0, 4, 0, 0, 0, 1], 17, 1),
        refused("H1 the byte that is a line feed as metal 10", [1, 0, 3, 10, 0, 0], 17, 1),
    ]
}
