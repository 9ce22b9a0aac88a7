//! The papers' own examples: the Nickel sheet byte by byte, the proved cases
//! P1 to P12, the exchange's Copper example, and the day on which 3M is M3.

use independent::closing_list;
use independent::draft::{close, ended_sheet, header, quote, trade};
use independent::indicator::{sum_by_spans, sum_by_walking};
use independent::judge_sheet;
use independent::named::{copper_sheet, nickel_sheet, third_wednesday_sheet};
use independent::named::{COPPER_LIST, NICKEL_LIST, THIRD_WEDNESDAY_LIST};
use independent::pricing::round_to_step;

/// The 130 bytes, worked out by hand.
const NICKEL_BYTES: [u8; 130] = [
    1, 0, 3, 1, 0, 0, //
    2, 0, 5, 7, 0xFF, 0xFF, 0xFF, 0x88, //
    2, 0, 5, 11, 0xFF, 0xFF, 0xFF, 0x06, //
    3, 0, 11, 0x03, 0x78, 0x0F, 0xC0, 1, 0xFF, 0xFF, 0xFE, 0x0C, 0, 4, //
    3, 0, 11, 0x03, 0x78, 0xFA, 0x20, 1, 0xFF, 0xFF, 0xFE, 0x0F, 0, 2, //
    3, 0, 11, 0x03, 0x79, 0xE4, 0x80, 3, 0xFF, 0xFF, 0xFE, 0xD4, 0, 5, //
    3, 0, 11, 0x03, 0x7A, 0x59, 0xB0, 5, 0xFF, 0xFF, 0xFE, 0x66, 0, 5, //
    4, 0, 14, 0x03, 0x7A, 0xCE, 0xE0, 7, 1, 0xFF, 0xFF, 0xFF, 0x92, 0, 0, 0, 0, //
    3, 0, 11, 0x03, 0x7C, 0xA3, 0xA0, 0, 0x00, 0x1B, 0x77, 0x68, 0, 3, //
    3, 0, 11, 0x03, 0x7D, 0x8E, 0x00, 0, 0x00, 0x1B, 0x77, 0xA4, 0, 3, //
    5, 0, 4, 0, 0, 0, 10,
];

fn list(sheet: &[u8]) -> String {
    String::from_utf8(closing_list(sheet)).unwrap()
}

#[test]
fn the_nickel_sheet_has_these_bytes_and_this_list() {
    assert_eq!(nickel_sheet(), NICKEL_BYTES);
    assert_eq!(list(&NICKEL_BYTES), NICKEL_LIST);
    assert_eq!(judge_sheet(&NICKEL_BYTES).unwrap().fields, 11);
}

#[test]
fn the_copper_example_gives_the_rules_m1_and_cash() {
    assert_eq!(list(&copper_sheet()), COPPER_LIST);
}

fn example(name: &str) -> Vec<u8> {
    std::fs::read(format!("{}/../examples/{name}", env!("CARGO_MANIFEST_DIR"))).unwrap()
}

#[test]
fn i9_the_day_on_which_3m_is_m3_is_the_example_sheet() {
    assert_eq!(example("third_wednesday.sheet"), third_wednesday_sheet());
    assert_eq!(example("third_wednesday.list"), THIRD_WEDNESDAY_LIST.as_bytes());
    assert_eq!(list(&third_wednesday_sheet()), THIRD_WEDNESDAY_LIST);
    assert_eq!(round_to_step(5 * 700_400 + 2 * 700_000, 7, 50), 700_300);
    assert_eq!(round_to_step(5 * 701_800 + 2 * 701_250, 7, 1), 701_643);
}

#[test]
fn p1_to_p3_the_copper_tables() {
    assert_eq!(round_to_step(345_210_000, 375, 1), 920_560);
    assert_eq!(round_to_step(294_658_000, 320, 1), 920_806);
    assert_eq!(round_to_step(622_071_936, 676, 1), 920_225);
}

/// Spread 7 at 375 from before the window; a bid at 400 in the second and
/// third minute; an offer at 350 in the fifth.
fn p4_sheet() -> Vec<u8> {
    ended_sheet(&[
        header(4, 0),
        trade(0, 7, 375, 1),
        quote(60_060_000, 7, 1, 400, 0),
        quote(60_180_000, 7, 0, 0, 0),
        quote(60_240_000, 7, 2, 0, 350),
    ])
}

#[test]
fn p4_and_p5_m1_and_cash() {
    let day = judge_sheet(&p4_sheet()).unwrap();
    let sum = 380 * 300_000;
    assert_eq!(sum_by_walking(&day, 7, 60_000_000), Some(sum));
    assert_eq!(sum_by_spans(&day, 7, 60_000_000), Some(sum));
    assert_eq!(round_to_step(300_000 * 920_806 + sum, 300_000, 1), 921_186);
    assert_eq!(round_to_step(300_000 * (921_186 + 50), 300_000, 1), 921_236);
}

#[test]
fn p6_to_p8_steps() {
    assert_eq!(round_to_step(920_125, 1, 50), 920_150);
    assert_eq!(round_to_step(920_124, 1, 50), 920_100);
    assert_eq!(round_to_step(1_800_049, 1, 100), 1_800_000);
}

/// The second line of the list (M3) of a Copper sheet with so many lots.
fn m3_with_lots(lots: u16) -> String {
    let sheet = ended_sheet(&[header(4, 0), close(0, 900_000), close(1, 0), trade(60_150_000, 1, 10, lots)]);
    list(&sheet).lines().nth(2).unwrap().to_string()
}

#[test]
fn p9_and_p10_five_lots_and_four() {
    assert_eq!(m3_with_lots(5), "M3 VWAP 900010 5");
    assert_eq!(m3_with_lots(4), "M3 TWAP 900005 4");
}

/// M3 of a Nickel sheet with five lots of M3-3M at 10 at this time.
fn nickel_m3_at(time: u32) -> String {
    let sheet = ended_sheet(&[header(1, 0), close(0, 900_000), close(1, 0), trade(time, 1, 10, 5)]);
    list(&sheet).lines().nth(2).unwrap().to_string()
}

#[test]
fn p11_and_p12_the_end_of_the_spread_window() {
    assert_eq!(nickel_m3_at(58_499_999), "M3 VWAP 900010 5");
    assert_eq!(nickel_m3_at(58_500_000), "M3 TWAP 900000 0");
}

#[test]
fn the_empty_sheet_is_2_at_byte_0() {
    assert_eq!(judge_sheet(&[]), Err((2, 0)));
    assert_eq!(list(&[]), "refused 2 0\n");
}
