//! Values at the ends of their ranges and behind them, and their order.

use super::{good, refused, second, second_refused, NamedTape};
use crate::draft::{close, header, quote, trade};

pub(super) fn cases() -> Vec<NamedTape> {
    let mut cases = marks();
    cases.extend(times_and_lots());
    cases.extend(prices());
    cases.extend(sides());
    cases.extend(two_in_a_line());
    cases
}

fn marks() -> Vec<NamedTape> {
    let marks =
        |marks: u16| good(&format!("6 marks {marks}"), &format!("METAL,Lead,{marks}\n"), &[header(5, marks)]);
    let bad = |marks: &str| refused(&format!("6 marks {marks}"), format!("METAL,Lead,{marks}\n"), 6, 1);
    let mut cases: Vec<NamedTape> = [1, 9, 10, 100, 1_000, 1_024, 2_047].map(marks).into();
    cases.extend(["2048", "2049", "4096", "32768", "65535"].map(bad));
    cases
}

fn times_and_lots() -> Vec<NamedTape> {
    vec![
        second("8 the day's last time", "86399999,M3-3M,TRADE,0.00,1", trade(86_399_999, 1, 0, 1)),
        second_refused("8 a time of 86400000", "86400000,M3-3M,TRADE,0.00,1", 8),
        second_refused("8 a quote's time of 86400000", "86400000,M3-3M,QUOTE,-,-", 8),
        second_refused("8 a time of 4294967295", "4294967295,M3-3M,TRADE,0.00,1", 8),
        second("10 one lot", "5,M3-3M,TRADE,0.00,1", trade(5, 1, 0, 1)),
        second("10 10000 lots", "5,M3-3M,TRADE,0.00,10000", trade(5, 1, 0, 10_000)),
        second_refused("10 no lots", "5,M3-3M,TRADE,0.00,0", 10),
        second_refused("10 10001 lots", "5,M3-3M,TRADE,0.00,10001", 10),
        second_refused("10 65535 lots", "5,M3-3M,TRADE,0.00,65535", 10),
    ]
}

fn prices() -> Vec<NamedTape> {
    vec![
        second("9 3M at a cent", "PREV,3M,0.01", close(0, 1)),
        second("9 3M at its greatest", "5,3M,TRADE,999999.99,1", trade(5, 0, 99_999_999, 1)),
        second_refused("9 3M at 0", "PREV,3M,0.00", 9),
        second_refused("9 3M traded at 0", "5,3M,TRADE,0.00,1", 9),
        second_refused("9 3M below 0", "PREV,3M,-0.01", 9),
        second_refused("9 3M above its greatest", "5,3M,TRADE,1000000.00,1", 9),
        second("9 a spread at its greatest", "5,M3-3M,TRADE,99999.99,1", trade(5, 1, 9_999_999, 1)),
        second("9 a spread at its least", "5,M3-3M,TRADE,-99999.99,1", trade(5, 1, -9_999_999, 1)),
        second_refused("9 a spread above its greatest", "5,M3-3M,TRADE,100000.00,1", 9),
        second_refused("9 a spread below its least", "PREV,Cash-M1,-100000.00", 9),
        second_refused("9 a bid of 0 for 3M", "5,3M,QUOTE,0.00,-", 9),
        second_refused("9 an offer of 0 for 3M", "5,3M,QUOTE,-,0.00", 9),
        second_refused("9 a spread's bid below its least", "5,M3-3M,QUOTE,-100000.00,-", 9),
        second_refused("9 a spread's offer above its greatest", "5,M3-3M,QUOTE,1.00,100000.00", 9),
    ]
}

fn sides() -> Vec<NamedTape> {
    vec![
        second("11 a bid that equals its offer", "5,M3-3M,QUOTE,1.00,1.00", quote(5, 1, 3, 100, 100)),
        second("11 a bid a cent below its offer", "5,M3-3M,QUOTE,-1.01,-1.00", quote(5, 1, 3, -101, -100)),
        second_refused("11 a bid a cent above its offer", "5,M3-3M,QUOTE,1.01,1.00", 11),
        second_refused("11 a bid of 0 above its offer", "5,M3-3M,QUOTE,0.00,-0.01", 11),
        second_refused("11 3M's bid above its offer", "5,3M,QUOTE,999999.99,0.01", 11),
        second_refused("11 -1.00 above -1.01", "5,M3-3M,QUOTE,-1.00,-1.01", 11),
    ]
}

/// The order of the numbers in a line.
fn two_in_a_line() -> Vec<NamedTape> {
    vec![
        second_refused("8 before 9", "86400000,3M,TRADE,0.00,1", 8),
        second_refused("8 before 10", "86400000,M3-3M,TRADE,0.00,0", 8),
        second_refused("8 before 11", "86400000,M3-3M,QUOTE,0.01,0.00", 8),
        second_refused("9 before 10", "5,3M,TRADE,0.00,0", 9),
        second_refused("9 before 11, by the bid", "5,M3-3M,QUOTE,100000.00,0.00", 9),
        second_refused("9 before 11, by the offer", "5,3M,QUOTE,0.01,0.00", 9),
        second_refused("8 before 9 and 10", "86400000,3M,TRADE,1000000.00,10001", 8),
    ]
}
