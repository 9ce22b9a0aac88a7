//! Fields in and out of their place, falling times, end counts and bytes
//! behind the end. A header has 6 bytes, a close 8, a trade 14, a quote 17 and
//! an end 7; the bytes below follow from that.

use super::{behind_header, case, copper_until, nothing, refused, refused_fields};
use super::{NamedCase, COPPER};
use crate::draft::{close, end, ended_sheet, header, quote, sheet_of, trade};
use crate::field::Field;

/// The Copper header that opens most sheets here.
const OPEN: (u8, u16) = (COPPER, 0);

pub(super) fn cases() -> Vec<NamedCase> {
    let mut cases = missing_ends();
    cases.extend(first_fields());
    cases.extend(headers_again());
    cases.extend(closes_out_of_place());
    cases.extend(falling_times());
    cases.extend(falling_times_and_more());
    cases.extend(counts());
    cases.extend(behind_the_end());
    cases.extend(whole_sheets());
    cases.extend(two_fields());
    cases
}

fn open() -> Field {
    header(OPEN.0, OPEN.1)
}

/// A sheet that begins with the Copper header, refused.
fn opened(name: &str, fields: &[Field], number: u8, byte: usize) -> NamedCase {
    let mut all = vec![open()];
    all.extend(fields);
    refused_fields(name, &all, number, byte)
}

fn missing_ends() -> Vec<NamedCase> {
    let cut = |fields: &[Field], length: usize| {
        let mut sheet = sheet_of(fields);
        sheet.truncate(length);
        sheet
    };
    let small = [open(), end(1)];
    let traded = [open(), close(3, 0), trade(5, 1, 0, 1)];
    vec![
        refused("B2 an end cut by one byte", cut(&small, 12), 2, 6),
        refused("B2 an end cut to its head", cut(&small, 9), 2, 6),
        refused("B2 an end cut to its tag", cut(&small, 7), 2, 6),
        refused("B2 a header and no end", cut(&small, 6), 2, 6),
        refused("B2 a header cut", cut(&small, 5), 2, 0),
        refused("B2 a trade and no end", cut(&traded, 28), 2, 28),
        refused("B2 a trade cut by one byte", cut(&traded, 27), 2, 14),
        refused("B2 a close and no end", cut(&traded, 14), 2, 14),
    ]
}

fn first_fields() -> Vec<NamedCase> {
    let bad_trade = trade(u32::MAX, 255, 0, 0);
    vec![
        refused_fields("B4 a trade with bad values first", &[bad_trade, end(1)], 5, 0),
        refused_fields("B4 a trade before the header", &[trade(0, 1, 0, 1), open(), end(2)], 5, 0),
        refused_fields("B4 a close on 200 first", &[close(200, 0), open(), end(2)], 5, 0),
        refused_fields("B4 a quote with sides 9 first", &[quote(0, 0, 9, 0, 0), end(1)], 5, 0),
        refused("B4 a first trade with a cut body", vec![3, 0, 11, 0], 2, 0),
        refused("B4 a first trade with a wrong length", vec![3, 0, 12, 0], 4, 0),
        refused("B4 a first field with a bad tag", vec![8, 0, 3, 1, 0, 0], 3, 0),
        refused_fields("B5 an end alone, count 0", &[end(0)], 5, 0),
        refused_fields("B5 an end alone, count 1", &[end(1)], 5, 0),
        refused_fields("B5 an end, then a sheet", &[end(0), open(), end(1)], 5, 0),
        refused_fields("B5 an end twice", &[end(0), end(1)], 5, 0),
    ]
}

fn headers_again() -> Vec<NamedCase> {
    let wrong_length = [1, 0, 4, 9, 0, 0, 0];
    vec![
        opened("B7 a second header", &[open(), end(2)], 5, 6),
        opened("B7 a second header with bad values", &[header(9, 0xFFFF), end(2)], 5, 6),
        opened("B7 a header behind a close", &[close(3, 0), open(), end(3)], 5, 14),
        opened("B7 a header behind a trade", &[trade(0, 1, 0, 1), header(0, 0), end(3)], 5, 20),
        refused("B7 a second header, cut", behind_header(&[1, 0, 3, 9]), 2, 6),
        refused("B7 a second header, wrong length", behind_header(&wrong_length), 4, 6),
    ]
}

fn closes_out_of_place() -> Vec<NamedCase> {
    let after = |name: &str, first: Field, second: Field, number: u8| {
        opened(name, &[first, second, end(3)], number, 14)
    };
    vec![
        after("B9 equal closes", close(3, 0), close(3, 0), 5),
        after("B9 equal closes on 0", close(0, 9), close(0, 9), 5),
        after("B9 equal closes on 11", close(11, 9), close(11, 9), 5),
        after("B9 falling closes", close(5, 0), close(3, 0), 5),
        after("B9 equal close, price out of range", close(3, 0), close(3, 10_000_000), 5),
        after("B9 falling close, outright 0", close(5, 0), close(0, 0), 5),
        after("B9 close on 12 behind 11", close(11, 0), close(12, 0), 7),
        after("B9 close on 200 behind 11", close(11, 0), close(200, i32::MIN), 7),
        opened("B9 200 before 100", &[close(200, 0), close(100, 0), end(3)], 7, 6),
        opened("B8 a close behind a trade", &[trade(0, 1, 0, 1), close(3, 0), end(3)], 5, 20),
        opened("B8 a close on 255 behind a trade", &[trade(0, 1, 0, 1), close(255, 0), end(3)], 5, 20),
        opened("B8 a close behind a quote", &[quote(0, 1, 0, 0, 0), close(3, 0), end(3)], 5, 23),
    ]
}

fn falling_times() -> Vec<NamedCase> {
    let early_trade = trade(4, 2, 0, 1);
    let early_quote = quote(4, 2, 0, 0, 0);
    let late_trade = trade(5, 1, 0, 1);
    let late_quote = quote(5, 1, 0, 0, 0);
    let three = [trade(5, 1, 0, 1), quote(9, 2, 0, 0, 0), trade(8, 3, 0, 1), end(4)];
    vec![
        opened("B11 trade 5, quote 4", &[late_trade, early_quote, end(3)], 8, 20),
        opened("B11 trade 5, trade 4", &[late_trade, early_trade, end(3)], 8, 20),
        opened("B11 quote 5, trade 4", &[late_quote, early_trade, end(3)], 8, 23),
        opened("B11 quote 5, quote 4", &[late_quote, early_quote, end(3)], 8, 23),
        opened("B11 trade 5, quote 9, trade 8", &three, 8, 37),
    ]
}

fn falling_times_and_more() -> Vec<NamedCase> {
    let after_10 = |name: &str, second: Field, number: u8| {
        opened(name, &[trade(10, 1, 0, 1), second, end(3)], number, 20)
    };
    let last = trade(86_399_999, 1, 0, 1);
    let later = trade(86_400_000, 1, 0, 1);
    vec![
        after_10("B12 falling time, instrument 12", trade(5, 12, 0, 1), 7),
        after_10("B12 falling time, price 0", trade(5, 0, 0, 1), 8),
        after_10("B12 falling time, lots 0", trade(5, 1, 0, 0), 8),
        after_10("B12 falling quote, sides 4", quote(5, 1, 4, 0, 0), 8),
        after_10("B12 falling quote, bid above offer", quote(9, 1, 3, 1, 0), 8),
        after_10("B12 falling quote, instrument 12", quote(9, 12, 4, 1, 0), 7),
        after_10("B12 greatest time, price 0", trade(u32::MAX, 0, 0, 1), 8),
        opened("B12 a time behind the last", &[last, later, end(3)], 8, 20),
    ]
}

fn counts() -> Vec<NamedCase> {
    let one = trade(0, 1, 0, 1);
    vec![
        opened("B13 a header, count 0", &[end(0)], 12, 6),
        opened("B13 a header, count 2", &[end(2)], 12, 6),
        opened("B13 a header, count bytes exchanged", &[end(0x0100_0000)], 12, 6),
        opened("B13 a header, count 257", &[end(257)], 12, 6),
        opened("B13 a header, count 1 + 2^16", &[end(65_537)], 12, 6),
        opened("B13 a header, count 1 + 2^24", &[end(16_777_217)], 12, 6),
        opened("B13 a header, greatest count", &[end(u32::MAX)], 12, 6),
        opened("B13 a trade, count 1", &[one, end(1)], 12, 20),
        opened("B13 a trade, count 3", &[one, end(3)], 12, 20),
        opened("B13 a trade, count 2 + 2^16", &[one, end(65_538)], 12, 20),
        opened("B13 a trade, count 2 + 2^24", &[one, end(16_777_218)], 12, 20),
        opened("B13 a close, count 1", &[close(3, 0), end(1)], 12, 14),
        opened("B14 wrong count, a second end", &[end(0), end(1)], 12, 6),
        refused("B14 wrong count, one byte behind", behind_header(&[5, 0, 4, 0, 0, 0, 2, 0]), 12, 6),
        opened("B16 the whole sheet's count in the middle", &[end(3), one, end(3)], 12, 6),
        opened("B16 a right count in the middle", &[end(1), one, end(3)], 5, 13),
    ]
}

fn behind_the_end() -> Vec<NamedCase> {
    let trailing = |name: &str, bytes: &[u8]| {
        let mut sheet = ended_sheet(&[open()]);
        sheet.extend(bytes);
        refused(name, sheet, 5, 13)
    };
    let good_trade = [3, 0, 11, 0, 0, 0, 0, 1, 0, 0, 0, 0, 0, 1];
    vec![
        trailing("B15 one zero byte behind the end", &[0]),
        trailing("B15 a bad tag behind the end", &[9, 0, 0]),
        trailing("B15 a cut head behind the end", &[5, 0]),
        trailing("B15 a line feed behind the end", b"\n"),
        trailing("B15 the same end again", &[5, 0, 4, 0, 0, 0, 1]),
        trailing("B15 an end that counts the first", &[5, 0, 4, 0, 0, 0, 2]),
        trailing("B15 a header behind the end", &[1, 0, 3, 4, 0, 0]),
        trailing("B15 a trade behind the end", &good_trade),
        trailing("B15 a wrong length behind the end", &[3, 0, 10, 0]),
    ]
}

fn whole_sheets() -> Vec<NamedCase> {
    let good = |fields: &[Field]| {
        let mut all = vec![open()];
        all.extend(fields);
        ended_sheet(&all)
    };
    let all_closes: Vec<Field> = (1..12).map(|instrument| close(instrument, 7)).collect();
    let lone_close = copper_until(&["TWAP 900050 0", "refused 13 0"]);
    let equal = [trade(0, 1, 0, 1), quote(0, 2, 0, 0, 0), trade(0, 1, 0, 1)];
    let edge_times = [quote(0, 1, 0, 0, 0), quote(86_399_999, 1, 0, 0, 0)];
    vec![
        case("B6 a header and an end", good(&[]), &nothing()),
        case("B6 a header, one close, an end", good(&[close(0, 900_025)]), &lone_close),
        case("B6 closes on all spreads", good(&all_closes), &nothing()),
        case("B10 a first record at time 0", good(&[close(11, 0), trade(0, 3, 0, 1)]), &nothing()),
        case("B11 equal times", good(&equal), &nothing()),
        case("B11 the first and last time", good(&edge_times), &nothing()),
    ]
}

/// The first faulty field decides, whatever the numbers.
fn two_fields() -> Vec<NamedCase> {
    let no_lots = trade(0, 1, 0, 0);
    let crossed = quote(7, 1, 3, 1, 0);
    vec![
        opened("B1 10, then 5", &[no_lots, open(), end(3)], 10, 6),
        opened("B1 11, then 7", &[crossed, trade(7, 12, 0, 1), end(3)], 11, 6),
        opened("B1 11, then 12", &[crossed, end(9)], 11, 6),
        opened("B1 9, then 5", &[close(0, 0), close(0, 1), end(3)], 9, 6),
        opened("B1 a bad field and a wrong count", &[no_lots, end(3)], 10, 6),
        opened("B1 10, then no end", &[no_lots], 10, 6),
        refused_fields("B1 6, then 5", &[header(6, 0), header(1, 0), end(2)], 6, 0),
        refused("B1 a close out of place, cut", cut_close_behind_trade(), 2, 20),
    ]
}

fn cut_close_behind_trade() -> Vec<u8> {
    let mut sheet = sheet_of(&[open(), trade(0, 1, 0, 1), close(255, 0)]);
    sheet.truncate(27);
    sheet
}
