//! Lines out of their place, and which number comes first.

use super::{copper, good, refused, second_refused, NamedTape, COPPER};
use crate::draft::{close, quote, trade};

pub(super) fn cases() -> Vec<NamedTape> {
    let mut cases = no_metal();
    cases.extend(malformed_and_out_of_place());
    cases.extend(out_of_place_with_bad_values());
    cases.extend(out_of_place());
    cases.extend(falling_times());
    cases.extend(first_bad_line());
    cases.extend(whole_texts());
    cases
}

fn no_metal() -> Vec<NamedTape> {
    vec![
        refused("H2 the empty text", "", 5, 1),
        refused("H2 a close first", "PREV,3M,1.00\n", 5, 1),
        refused("H2 a trade first", "5,M3-3M,TRADE,0.00,1\n", 5, 1),
        refused("H2 a quote first", "5,M3-3M,QUOTE,-,-\n", 5, 1),
        refused("H2 the METAL line second", format!("PREV,3M,1.00\n{COPPER}"), 5, 1),
        refused(
            "H2 the METAL line last",
            format!("5,M3-3M,TRADE,0.00,1\n6,M3-3M,TRADE,0.00,1\n{COPPER}"),
            5,
            1,
        ),
        refused("H2 a malformed line and no METAL line", "PREV,3M\n", 17, 1),
        refused("H2 a lower-case METAL line", "metal,Copper,0\n", 17, 1),
    ]
}

fn malformed_and_out_of_place() -> Vec<NamedTape> {
    let behind_trade = |line: &str| format!("{COPPER}5,M3-3M,TRADE,0.00,1\n{line}\n");
    let behind_close = |line: &str| format!("{COPPER}PREV,M2-M3,0.00\n{line}\n");
    vec![
        refused("H3 a malformed trade first", "5,M3-3M,TRADE,0.0,1\n", 17, 1),
        refused("H3 a close of an unknown name first", "PREV,M5,1.00\n", 17, 1),
        second_refused("H3 a second METAL line of an unknown name", "METAL,Tin,0", 17),
        second_refused("H3 a second METAL line, marks with a zero", "METAL,Copper,00", 17),
        second_refused("H3 a second METAL line without marks", "METAL,Copper", 17),
        refused("H3 a malformed close behind a trade", behind_trade("PREV,3M,1.0"), 17, 3),
        refused("H3 a close of an unknown name behind a trade", behind_trade("PREV,M5,1.00"), 17, 3),
        refused("H3 a malformed close on the same instrument", behind_close("PREV,M2-M3,-0.00"), 17, 3),
        refused("H3 a malformed close on a lower one", behind_close("PREV,3M,1"), 17, 3),
        refused("H3 a falling time in a malformed trade", behind_trade("4,M3-3M,TRADE,0.00,01"), 17, 3),
        second_refused("H3 a time out of range, lots malformed", "86400000,M3-3M,TRADE,0.00,-1", 17),
        second_refused("H3 a price out of range, lots malformed", "5,3M,TRADE,0.00,1.00", 17),
        second_refused("H3 a bid out of range, the offer malformed", "5,3M,QUOTE,0.00,1.0", 17),
        refused("H3 marks out of range and an unknown name", "METAL,Tin,2048\n", 17, 1),
    ]
}

fn out_of_place_with_bad_values() -> Vec<NamedTape> {
    let behind_trade = |line: &str| format!("{COPPER}5,M3-3M,TRADE,0.00,1\n{line}\n");
    let behind_close = |line: &str| format!("{COPPER}PREV,M2-M3,0.00\n{line}\n");
    vec![
        second_refused("H3 a second METAL line, marks out of range", "METAL,Copper,2048", 5),
        refused("H3 a trade first, its time out of range", "86400000,M3-3M,TRADE,0.00,1\n", 5, 1),
        refused("H3 a trade first, its lots out of range", "5,M3-3M,TRADE,0.00,0\n", 5, 1),
        refused("H3 a quote first, its bid above its offer", "5,M3-3M,QUOTE,0.01,0.00\n", 5, 1),
        refused("H3 a close first, its price out of range", "PREV,3M,0.00\n", 5, 1),
        refused("H3 a close behind a trade, price out of range", behind_trade("PREV,3M,0.00"), 5, 3),
        refused("H3 the same close, price out of range", behind_close("PREV,M2-M3,100000.00"), 5, 3),
        refused(
            "H3 a lower close, price of thirty digits",
            behind_close(&format!("PREV,3M,{THIRTY}.00")),
            5,
            3,
        ),
    ]
}

const THIRTY: &str = "123456789012345678901234567890";

fn out_of_place() -> Vec<NamedTape> {
    let behind_trade = |line: &str| format!("{COPPER}5,M3-3M,TRADE,0.00,1\n{line}\n");
    let behind_quote = |line: &str| format!("{COPPER}5,M3-3M,QUOTE,-,-\n{line}\n");
    let behind_close = |line: &str| format!("{COPPER}PREV,M2-M3,0.00\n{line}\n");
    vec![
        second_refused("5 a second METAL line", "METAL,Copper,0", 5),
        second_refused("5 a second METAL line of another metal", "METAL,Lead,1", 5),
        refused("5 a METAL line behind a close", behind_close("METAL,Copper,0"), 5, 3),
        refused("5 a METAL line behind a trade", behind_trade("METAL,Copper,0"), 5, 3),
        refused("5 a close behind a trade", behind_trade("PREV,Cash-M1,0.00"), 5, 3),
        refused("5 a close behind a quote", behind_quote("PREV,Cash-M1,0.00"), 5, 3),
        refused("5 a close on the same instrument", behind_close("PREV,M2-M3,0.00"), 5, 3),
        refused("5 a close on the instrument before", behind_close("PREV,M2-3M,0.00"), 5, 3),
        refused("5 3M's close behind a spread's", behind_close("PREV,3M,1.00"), 5, 3),
        refused("5 two closes of 3M", format!("{COPPER}PREV,3M,1.00\nPREV,3M,1.00\n"), 5, 3),
    ]
}

fn falling_times() -> Vec<NamedTape> {
    let behind_10 = |line: &str| format!("{COPPER}10,M3-3M,TRADE,0.00,1\n{line}\n");
    vec![
        refused("8 a trade one millisecond earlier", behind_10("9,M3-3M,TRADE,0.00,1"), 8, 3),
        refused("8 a quote of another instrument earlier", behind_10("9,M2-M3,QUOTE,-,-"), 8, 3),
        refused("8 time 0 behind 10", behind_10("0,M3-3M,TRADE,0.00,1"), 8, 3),
        refused("8 a falling time and a price out of range", behind_10("9,3M,TRADE,0.00,1"), 8, 3),
        refused("8 a falling time and lots out of range", behind_10("9,M3-3M,TRADE,0.00,0"), 8, 3),
        refused("8 a falling time and the bid above the offer", behind_10("9,M3-3M,QUOTE,0.01,0.00"), 8, 3),
    ]
}

fn first_bad_line() -> Vec<NamedTape> {
    let three = |second: &str, third: &str| format!("{COPPER}{second}\n{third}\n");
    let bad = "malformed";
    vec![
        refused("H3 9 before a malformed line", three("PREV,3M,0.00", bad), 9, 2),
        refused("H3 10 before a malformed line", three("5,M3-3M,TRADE,0.00,0", bad), 10, 2),
        refused("H3 11 before a malformed line", three("5,M3-3M,QUOTE,0.01,0.00", bad), 11, 2),
        refused("H3 8 before a second METAL line", three("86400000,M3-3M,QUOTE,-,-", "METAL,Lead,0"), 8, 2),
        refused("H3 6 before a malformed line", format!("METAL,Copper,2048\n{bad}\n"), 6, 1),
        refused("H3 5 before a malformed line", three("METAL,Copper,0", bad), 5, 2),
        refused("H3 a malformed line before a bad value", three(bad, "PREV,3M,0.00"), 17, 2),
        refused("H3 a malformed line first", format!("{bad}\n{COPPER}"), 17, 1),
        refused("H3 a bad value before a missing line feed", format!("{COPPER}PREV,3M,0.00\nPREV"), 9, 2),
    ]
}

fn whole_texts() -> Vec<NamedTape> {
    let records = "0,M3-3M,TRADE,0.00,1\n0,M2-3M,QUOTE,-,-\n0,M3-3M,TRADE,0.00,2\n";
    let fields = [trade(0, 1, 0, 1), quote(0, 2, 0, 0, 0), trade(0, 1, 0, 2)];
    let equal: Vec<_> = [copper()].into_iter().chain(fields).collect();
    let closes = "PREV,3M,0.01\nPREV,Cash-M1,0.00\n";
    vec![
        good("H7 a METAL line alone: its end counts 1", COPPER, &[copper()]),
        good("H7 closes alone", &format!("{COPPER}{closes}"), &[copper(), close(0, 1), close(11, 0)]),
        good("8 equal times, from 0 on", &format!("{COPPER}{records}"), &equal),
        second_refused("H7 a line for the end", "END,1", 17),
        second_refused("H7 a line for the end by its tag", "5,1", 17),
    ]
}
