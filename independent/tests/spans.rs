//! The spans of a window: they follow one another from its start to its end, are cut
//! at the instrument's records and nowhere else, have over them what the words of
//! RULES 7 say, and add up to the sum of the walk.

use independent::field::{BID, OFFER};
use independent::generator::accepted_days;
use independent::indicator::{spans, sum_by_spans, sum_by_walking, Indicator, Span};
use independent::named::{large_cases, named_cases, NamedCase};
use independent::sheet::Record;
use independent::tables::{in_window, metal_row, window_start, WINDOW};
use independent::{judge_sheet, Day};

/// The accepted sheets among the named cases, the longest too.
fn named_days() -> impl Iterator<Item = (String, Day)> {
    let cases = named_cases().into_iter().chain(large_cases());
    cases.filter_map(|NamedCase { name, sheet, .. }| Some((name, judge_sheet(&sheet).ok()?)))
}

/// The start of an instrument's window.
fn start_of(day: &Day, instrument: u8) -> u32 {
    window_start(metal_row(day.metal).unwrap(), instrument)
}

fn spans_of(day: &Day, instrument: u8) -> Vec<Span> {
    spans(day, instrument, start_of(day, instrument)).collect()
}

/// The last trade so far or the previous close, and the sides of the latest quote
/// so far, at a millisecond.
fn words_of_the_state(day: &Day, instrument: u8, millisecond: u32) -> Indicator {
    let so_far = |record: &&Record| record.instrument() == instrument && record.time() <= millisecond;
    let trade = day.records.iter().rev().filter(so_far).find_map(|record| match record {
        Record::Trade(trade) => Some(trade.price),
        Record::Quote(_) => None,
    });
    let quote = day.records.iter().rev().filter(so_far).find_map(|record| match record {
        Record::Trade(_) => None,
        Record::Quote(quote) => Some(quote),
    });
    Indicator {
        reference: trade.or(day.previous_close(instrument)),
        bid: quote.filter(|quote| quote.sides & BID != 0).map(|quote| quote.bid),
        offer: quote.filter(|quote| quote.sides & OFFER != 0).map(|quote| quote.offer),
    }
}

/// The indicator that the walk has at a millisecond, behind every record up to and
/// at it.
fn walked(day: &Day, instrument: u8, millisecond: u32) -> Option<i128> {
    let state = Indicator::new(day.previous_close(instrument));
    let so_far = |record: &&Record| record.instrument() == instrument && record.time() <= millisecond;
    day.records.iter().filter(so_far).fold(state, |state, record| state.after(record)).value()
}

/// Where spans begin: the window's start, and each later millisecond of the window
/// with a record of the instrument.
fn beginnings(day: &Day, instrument: u8) -> Vec<u32> {
    let start = start_of(day, instrument);
    let own = day.records.iter().filter(|record| record.instrument() == instrument);
    let times = own.map(Record::time).filter(|time| *time > start && in_window(start, *time));
    let mut begins: Vec<u32> = [start].into_iter().chain(times).collect();
    begins.dedup();
    begins
}

/// Everything that holds of the spans of an instrument.
fn check(name: &str, day: &Day, instrument: u8) {
    let start = start_of(day, instrument);
    let spans = spans_of(day, instrument);
    let begins: Vec<u32> = spans.iter().map(|span| span.from).collect();
    assert_eq!(begins, beginnings(day, instrument), "{name} {instrument}");
    assert_eq!(spans.last().map(|span| span.to), Some(start + WINDOW), "{name} {instrument}");
    assert!(spans.windows(2).all(|pair| pair[0].to == pair[1].from), "{name} {instrument}");
    assert!(spans.iter().all(|span| span.milliseconds() >= 1), "{name} {instrument}");
    assert_eq!(spans.iter().map(Span::milliseconds).sum::<u32>(), WINDOW, "{name} {instrument}");
    for span in spans {
        for millisecond in [span.from, span.to - 1] {
            let words = words_of_the_state(day, instrument, millisecond);
            assert_eq!(span.state, words, "{name} {instrument} {millisecond}");
            assert_eq!(span.indicator(), walked(day, instrument, millisecond), "{name} {instrument}");
        }
    }
}

/// Both sums of an instrument, which are one.
fn compare(name: &str, day: &Day, instrument: u8) {
    let start = start_of(day, instrument);
    let sum = sum_by_spans(day, instrument, start);
    assert_eq!(sum, sum_by_walking(day, instrument, start), "{name} {instrument}");
    let has_reference = words_of_the_state(day, instrument, start).reference.is_some();
    assert_eq!(sum.is_some(), has_reference, "{name} {instrument}");
}

#[test]
fn made_days_are_cut_at_their_records() {
    for day in accepted_days(41, 1_500) {
        (0..12).for_each(|instrument| check("made", &day, instrument));
    }
}

#[test]
fn named_days_are_cut_at_their_records() {
    for (name, day) in named_days() {
        (0..12).for_each(|instrument| check(&name, &day, instrument));
    }
}

#[test]
fn the_sums_of_made_days_agree() {
    for day in accepted_days(41, 400) {
        (0..12).for_each(|instrument| compare("made", &day, instrument));
    }
}

#[test]
fn the_sums_of_named_days_agree() {
    for (name, day) in named_days() {
        (0..12).for_each(|instrument| compare(&name, &day, instrument));
    }
}

/// A number, or `-` where there is none.
fn shown<T: ToString>(number: Option<T>) -> String {
    number.map_or("-".to_string(), |number| number.to_string())
}

/// From and to behind the window's start, reference, bid, offer, indicator and
/// product, of each span.
fn told(day: &Day, instrument: u8) -> Vec<String> {
    let start = start_of(day, instrument);
    let row = |span: Span| {
        let Indicator { reference, bid, offer } = span.state;
        let sides = [shown(reference), shown(bid), shown(offer)].join(" ");
        let price = [shown(span.indicator()), shown(span.product())].join(" ");
        format!("{} {} {sides} {price}", span.from - start, span.to - start)
    };
    spans_of(day, instrument).into_iter().map(row).collect()
}

/// Named cases, an instrument, and its spans by hand.
const BY_HAND: [(&str, u8, &[&str]); 15] = [
    ("K1 a trade and a bid at the start", 1, &["0 300000 -300000 -150000 - -150000 -45000000000"]),
    (
        "K1 a bid since noon counts until the first record",
        1,
        &["0 100000 0 10 - 10 1000000", "100000 300000 0 40 - 40 8000000"],
    ),
    (
        "K2 a span of one millisecond at each end",
        1,
        &["0 1 300000 - - 300000 300000", "1 299999 0 - - 0 0", "299999 300000 600000 - - 600000 600000"],
    ),
    ("K3 a bid, and none at start + 300,000", 1, &["0 300000 0 10 - 10 3000000"]),
    (
        "K4 trade, bid, trade and offer of one millisecond",
        1,
        &["0 100000 0 - - 0 0", "100000 300000 30 - 45 30 6000000"],
    ),
    (
        "K5 a quote of all others between two",
        1,
        &["0 100000 0 - - 0 0", "100000 250000 0 30 - 30 4500000", "250000 300000 0 - - 0 0"],
    ),
    (
        "K5 two spreads quoted in turn",
        3,
        &["0 120000 0 - - 0 0", "120000 240000 0 20 - 20 2400000", "240000 300000 0 80 - 80 4800000"],
    ),
    (
        "K6 trades below and above a standing offer",
        1,
        &[
            "0 100000 0 - -40 -40 -4000000",
            "100000 200000 -70 - -40 -70 -7000000",
            "200000 300000 20 - -40 -40 -4000000",
        ],
    ),
    (
        "K6 the same bid three times",
        1,
        &[
            "0 100000 0 - - 0 0",
            "100000 150000 0 30 - 30 1500000",
            "150000 299999 0 30 - 30 4499970",
            "299999 300000 0 30 - 30 30",
        ],
    ),
    ("K7 the greatest prices alone", 0, &["0 300000 99999950 - - 99999950 29999985000000"]),
    (
        "K8 no close, a bid at the start, a trade at start + 1",
        1,
        &["0 1 - 100 - - -", "1 300000 100 100 - 100 29999900"],
    ),
    (
        "K9 3M: the first five milliseconds",
        0,
        &[
            "0 1 900000 1400000 - 1400000 1400000",
            "1 2 900000 1900000 - 1900000 1900000",
            "2 3 900000 2400000 - 2400000 2400000",
            "3 4 900000 2900000 - 2900000 2900000",
            "4 5 900000 3400000 - 3400000 3400000",
            "5 300000 900000 - - 900000 269995500000",
        ],
    ),
    (
        "K10 both quoted in both windows",
        0,
        &[
            "0 150000 900000 900100 - 900100 135015000000",
            "150000 300000 900000 900200 - 900200 135030000000",
        ],
    ),
    (
        "K11 299,000 milliseconds, 999 and 1",
        1,
        &[
            "0 299000 0 10 - 10 2990000",
            "299000 299999 0 1000 - 1000 999000",
            "299999 300000 0 100000 - 100000 100000",
        ],
    ),
    (
        "K12 prices below 0, marked",
        1,
        &[
            "0 60000 -100 - - -100 -6000000",
            "60000 180000 -100 -40 - -40 -4800000",
            "180000 300000 -100 - -130 -130 -15600000",
        ],
    ),
];

#[test]
fn k1_to_k12_spans_written_by_hand() {
    let cases = named_cases();
    for (name, instrument, wanted) in BY_HAND {
        let case = cases.iter().find(|case| case.name == name).unwrap_or_else(|| panic!("no case {name}"));
        let day = judge_sheet(&case.sheet).unwrap();
        assert_eq!(told(&day, instrument), wanted, "{name}");
    }
}
