//! One field behind a Copper header: heads, lengths, ranges on both sides, and
//! the order of the refusals inside a field.

use super::{behind_header, case, nothing, refused, refused_fields, NamedCase, COPPER};
use crate::draft::{close, end, ended_sheet, header, quote, trade};
use crate::field::Field;

pub(super) fn cases() -> Vec<NamedCase> {
    let mut cases = heads();
    cases.extend(lengths());
    cases.extend(headers());
    cases.extend(wrong(&wrong_closes()));
    cases.extend(wrong(&wrong_trades()));
    cases.extend(wrong(&wrong_quotes()));
    cases.extend(wrong(&quotes_with_two_faults()));
    cases.extend(good(&good_fields()));
    cases.extend(good(&good_quotes()));
    cases
}

fn heads() -> Vec<NamedCase> {
    let tag_7 = vec![7, 0, 4, 1, 0, 0, 0, 5, 0, 4, 0, 0, 0, 1];
    let window = vec![7, 0, 6, 3, 0x78, 0x0F, 0xC0, 0, 1, 5, 0, 4, 0, 0, 0, 1];
    vec![
        refused("A1 one byte that is no tag", vec![9], 2, 0),
        refused("A1 two bytes, no tag", vec![9, 0], 2, 0),
        refused("A1 three bytes, no tag", vec![9, 0, 0], 3, 0),
        refused("A1 one byte behind a header", behind_header(&[9]), 2, 6),
        refused("A1 two bytes behind a header", behind_header(&[9, 0]), 2, 6),
        refused("tag 9, wrong length, cut", behind_header(&[9, 0, 11]), 3, 6),
        refused("tag 0", vec![0, 0, 3, 1, 0, 0], 3, 0),
        refused("tag 255", behind_header(&[255, 0, 3, 1, 0, 0]), 3, 6),
        refused("A13 tag 7", tag_7, 3, 0),
        refused("A13 tag 7 with a time and lots", window, 3, 0),
        refused("A13 tag 7 behind a header", behind_header(&[7, 0, 4]), 3, 6),
    ]
}

fn lengths() -> Vec<NamedCase> {
    let short_trade = [3, 0, 10, 0, 0, 0, 0, 1, 0, 0, 0, 0, 0];
    let turned = [3, 11, 0, 0, 0, 0, 0, 1, 0, 0, 0, 0, 0, 1];
    vec![
        refused("A2 wrong length and cut", vec![1, 0, 4, 1], 4, 0),
        refused("A2 right length and cut", vec![1, 0, 3, 1, 0], 2, 0),
        refused("A2 a head alone", vec![1, 0, 3], 2, 0),
        refused("A2 a head alone, length 0", vec![1, 0, 0], 4, 0),
        refused("A2 a trade of ten bytes", behind_header(&short_trade), 4, 6),
        refused("A2 length bytes exchanged", behind_header(&turned), 4, 6),
        refused("A2 length 65,535", behind_header(&[4, 255, 255]), 4, 6),
        refused("A2 length 256 + 4", behind_header(&[5, 1, 4, 0, 0, 0, 1]), 4, 6),
        refused("A2 an end as long as a close", behind_header(&[5, 0, 5, 0, 0, 0, 1, 0]), 4, 6),
        refused("A2 a trade head alone", behind_header(&[3, 0, 11]), 2, 6),
        refused("A2 a quote one byte short", behind_header(&quote_but_one()), 2, 6),
        refused("a bad metal cut short", vec![1, 0, 3, 0], 2, 0),
    ]
}

/// A quote at time 0 on instrument 12, without its last byte.
fn quote_but_one() -> [u8; 16] {
    [4, 0, 14, 0, 0, 0, 0, 12, 0, 0, 0, 0, 0, 0, 0, 0]
}

fn headers() -> Vec<NamedCase> {
    let alone = |name: &str, field: Field| refused_fields(name, &[field, end(1)], 6, 0);
    let marked = ended_sheet(&[header(COPPER, 0x07FF)]);
    vec![
        alone("metal 0", header(0, 0)),
        alone("metal 6", header(6, 0)),
        alone("metal 255", header(255, 0)),
        alone("mark bit 11", header(1, 0x0800)),
        alone("mark bit 15", header(1, 0x8000)),
        alone("all sixteen marks", header(1, 0xFFFF)),
        alone("metal and marks wrong", header(0, 0xFFFF)),
        refused_fields("metal 9 and no end", &[header(9, 0)], 6, 0),
        refused("metal 0, then no tag", vec![1, 0, 3, 0, 0, 0, 9, 9, 9], 6, 0),
        case("B19 all eleven marks and no field", marked, &nothing()),
    ]
}

/// Fields of which each stands behind a header and is refused at byte 6.
fn wrong(fields: &[(&str, Field, u8)]) -> Vec<NamedCase> {
    let sheet = |field: Field| [header(COPPER, 0), field, end(2)];
    let made = |row: &(&str, Field, u8)| refused_fields(row.0, &sheet(row.1), row.2, 6);
    fields.iter().map(made).collect()
}

fn wrong_closes() -> Vec<(&'static str, Field, u8)> {
    vec![
        ("close: instrument 12, price 0", close(12, 0), 7),
        ("close: instrument 12, price in range", close(12, 1), 7),
        ("B9 close: instrument 200 first", close(200, 1), 7),
        ("close: outright 0", close(0, 0), 9),
        ("close: outright -1", close(0, -1), 9),
        ("close: outright 100,000,000", close(0, 100_000_000), 9),
        ("close: outright greatest number", close(0, i32::MAX), 9),
        ("close: spread 10,000,000", close(1, 10_000_000), 9),
        ("close: spread -10,000,000", close(11, -10_000_000), 9),
        ("close: spread least number", close(1, i32::MIN), 9),
    ]
}

fn wrong_trades() -> Vec<(&'static str, Field, u8)> {
    vec![
        ("A8 trade: 7 before 8, 9, 10", trade(86_400_000, 12, 0, 0), 7),
        ("A8 trade: 8 before 9, 10", trade(86_400_000, 0, 0, 0), 8),
        ("A8 trade: 9 before 10", trade(0, 0, 0, 0), 9),
        ("trade: lots 0", trade(0, 0, 1, 0), 10),
        ("A9 trade: instrument 255, spread price", trade(0, 255, -1, 1), 7),
        ("trade: instrument 12", trade(0, 12, 1, 1), 7),
        ("trade: time 86,400,000", trade(86_400_000, 1, 0, 1), 8),
        ("trade: greatest time", trade(u32::MAX, 1, 0, 1), 8),
        ("trade: outright 100,000,000", trade(0, 0, 100_000_000, 1), 9),
        ("trade: outright -1", trade(0, 0, -1, 1), 9),
        ("trade: spread 10,000,000", trade(0, 1, 10_000_000, 0), 9),
        ("trade: spread -10,000,000", trade(0, 11, -10_000_000, 1), 9),
        ("trade: lots 10,001", trade(0, 0, 1, 10_001), 10),
        ("trade: lots 65,535", trade(0, 1, 0, 65_535), 10),
    ]
}

fn wrong_quotes() -> Vec<(&'static str, Field, u8)> {
    vec![
        ("A11 quote: sides 4", quote(0, 1, 4, 0, 0), 11),
        ("A11 quote: sides 7", quote(0, 1, 7, 5, 6), 11),
        ("A11 quote: sides 255", quote(0, 1, 255, 6, 5), 11),
        ("quote: absent bid 1", quote(0, 1, 2, 1, 5), 11),
        ("quote: absent offer -1", quote(0, 1, 1, 5, -1), 11),
        ("quote: no sides, bid 1", quote(0, 1, 0, 1, 0), 11),
        ("quote: no sides, offer 1", quote(0, 1, 0, 0, 1), 11),
        ("quote: outright bid 0", quote(0, 0, 1, 0, 0), 9),
        ("quote: outright offer 0", quote(0, 0, 2, 0, 0), 9),
        ("quote: outright offer 100,000,000", quote(0, 0, 3, 1, 100_000_000), 9),
        ("quote: spread bid -10,000,000", quote(0, 1, 1, -10_000_000, 0), 9),
        ("quote: spread offer 10,000,000", quote(0, 11, 2, 0, 10_000_000), 9),
        ("quote: bid above offer by one", quote(0, 0, 3, 6, 5), 11),
        ("quote: spread bid 1, offer 0", quote(0, 1, 3, 1, 0), 11),
        ("quote: spread bid 0, offer -1", quote(0, 1, 3, 0, -1), 11),
    ]
}

fn quotes_with_two_faults() -> Vec<(&'static str, Field, u8)> {
    vec![
        ("A8 quote: 7 before 8, 11", quote(86_400_000, 12, 4, 0, 0), 7),
        ("A8 quote: 7 before 11", quote(0, 12, 4, 9, 9), 7),
        ("A8 quote: 8 before 11", quote(86_400_000, 0, 4, 0, 0), 8),
        ("A8 quote: 8 before bid above offer", quote(u32::MAX, 0, 3, 2, 1), 8),
        ("A8 quote: 8 before 9", quote(86_400_000, 0, 1, 0, 0), 8),
        ("A10 sides 4 before a bad price", quote(0, 0, 4, 100_000_000, 0), 11),
        ("A10 absent offer 5 before bid 0", quote(0, 0, 1, 0, 5), 11),
        ("A10 absent bid 5 before offer 0", quote(0, 0, 2, 5, 0), 11),
        ("A10 bid out of range before bid above offer", quote(0, 0, 3, 100_000_000, 5), 9),
        ("A10 offer out of range before bid above offer", quote(0, 0, 3, 5, 0), 9),
        ("A10 both out of range, bid above offer", quote(0, 1, 3, 10_000_000, -10_000_000), 9),
        ("A10 sides 7, bid above offer", quote(0, 0, 7, 6, 5), 11),
    ]
}

/// Fields of which each stands behind a header and is accepted, with no
/// contract priced.
fn good(fields: &[(&str, Field)]) -> Vec<NamedCase> {
    let sheet = |field: Field| ended_sheet(&[header(COPPER, 0), field]);
    let made = |row: &(&str, Field)| case(row.0, sheet(row.1), &nothing());
    fields.iter().map(made).collect()
}

fn good_fields() -> Vec<(&'static str, Field)> {
    vec![
        ("close: spread 9,999,999", close(11, 9_999_999)),
        ("close: spread -9,999,999", close(1, -9_999_999)),
        ("trade: last time, outright 1, 1 lot", trade(86_399_999, 0, 1, 1)),
        ("trade: outright 99,999,999", trade(86_399_999, 0, 99_999_999, 10_000)),
        ("B10 trade: time 0, spread -9,999,999", trade(0, 1, -9_999_999, 1)),
        ("trade: spread 9,999,999, 10,000 lots", trade(0, 11, 9_999_999, 10_000)),
    ]
}

fn good_quotes() -> Vec<(&'static str, Field)> {
    vec![
        ("quote: the whole outright range", quote(0, 0, 3, 1, 99_999_999)),
        ("quote: the whole spread range", quote(0, 11, 3, -9_999_999, 9_999_999)),
        ("quote: bid equal to offer", quote(0, 0, 3, 5, 5)),
        ("quote: spread bid and offer 0", quote(0, 1, 3, 0, 0)),
        ("B20 quote: outright, no sides", quote(0, 0, 0, 0, 0)),
        ("B20 quote: outright, bid alone", quote(0, 0, 1, 1, 0)),
        ("B20 quote: outright, offer alone", quote(0, 0, 2, 0, 1)),
        ("quote: last time", quote(86_399_999, 0, 0, 0, 0)),
    ]
}
