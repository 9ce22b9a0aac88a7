//! The arithmetic against slower words: rounding against a search, the answers by
//! spans against the walk, the indicator and 13 against their own sentences.

use independent::field::{BID, OFFER};
use independent::generator::accepted_days;
use independent::indicator::sum_by_walking;
use independent::pricing::{named_contract, price_day_by_spans, round_to_step};
use independent::sheet::Record;
use independent::tables::{in_window, metal_row, window_start, CONTRACTS, WINDOW};
use independent::{price_day, Answer, Day};

/// The greatest multiple m of u with 2Dm <= 2N + Du, by searching downwards.
fn searched(sum: i128, divisor: i128, step: i128) -> i128 {
    let mut multiple = (sum.abs() + 2 * step) / step * step;
    while 2 * divisor * multiple > 2 * sum + divisor * step {
        multiple -= step;
    }
    multiple
}

#[test]
fn rounding_is_the_greatest_multiple() {
    for step in [1, 2, 5, 50, 100] {
        for divisor in [1, 2, 3, 5, 7, 10] {
            for sum in -250..=250 {
                let rounded = round_to_step(sum, divisor, step);
                assert_eq!(rounded, searched(sum, divisor, step), "{sum}/{divisor} to {step}");
            }
        }
    }
}

#[test]
fn c14_negative_halves_go_up() {
    assert_eq!(round_to_step(-1, 2, 1), 0);
    assert_eq!(round_to_step(-3, 2, 1), -1);
    assert_eq!(round_to_step(-75, 1, 50), -50);
    assert_eq!(round_to_step(-76, 1, 50), -100);
    assert_eq!(round_to_step(-25, 1, 50), 0);
}

#[test]
fn both_ways_give_the_same_answers() {
    for day in accepted_days(31, 600) {
        assert_eq!(price_day(&day), price_day_by_spans(&day));
    }
}

/// What the indicator says (RULES 7) at a millisecond: the last trade so far or
/// the previous close, and the sides of the latest quote so far.
fn words_of_the_indicator(day: &Day, instrument: u8, millisecond: u32) -> Option<i128> {
    let so_far = |record: &&Record| record.instrument() == instrument && record.time() <= millisecond;
    let trade = day.records.iter().rev().filter(so_far).find_map(|record| match record {
        Record::Trade(trade) => Some(trade.price),
        Record::Quote(_) => None,
    });
    let quote = day.records.iter().rev().filter(so_far).find_map(|record| match record {
        Record::Trade(_) => None,
        Record::Quote(quote) => Some(quote),
    });
    let reference = trade.or(day.previous_close(instrument))?;
    let value = match quote {
        Some(quote) if quote.sides & BID != 0 && quote.bid > reference => quote.bid,
        Some(quote) if quote.sides & OFFER != 0 && quote.offer < reference => quote.offer,
        _ => reference,
    };
    Some(i128::from(value))
}

#[test]
fn g1_the_sum_follows_the_indicators_words() {
    for day in accepted_days(31, 15) {
        let metal = metal_row(day.metal).unwrap();
        for row in &CONTRACTS {
            let start = window_start(metal, row.twap_from);
            let window = start..start + WINDOW;
            let sum: Option<i128> =
                window.map(|millisecond| words_of_the_indicator(&day, row.twap_from, millisecond)).sum();
            assert_eq!(sum_by_walking(&day, row.twap_from, start), sum);
        }
    }
}

/// The trades of a day.
fn trades(day: &Day) -> impl Iterator<Item = (u32, u8, u64)> + '_ {
    day.records.iter().filter_map(|record| match record {
        Record::Trade(trade) => Some((trade.time, trade.instrument, u64::from(trade.lots))),
        Record::Quote(_) => None,
    })
}

/// What 13 says (RULES 9), and the contract's lots.
fn words_of_13(day: &Day, contract: usize) -> (bool, u64) {
    let row = &CONTRACTS[contract];
    let metal = metal_row(day.metal).unwrap();
    let start = window_start(metal, row.twap_from);
    let lots = trades(day)
        .filter(|(time, instrument, _)| row.vwap_from.contains(instrument) && in_window(start, *time))
        .map(|(_, _, lots)| lots)
        .sum();
    let no_close = day.previous_close(row.twap_from).is_none();
    let early = |(time, instrument, _)| instrument == row.twap_from && time <= start;
    (lots < 5 && no_close && !trades(day).any(early), lots)
}

/// The answers of a day's contracts that go by their own instruments.
fn own_answers(day: &Day) -> impl Iterator<Item = (usize, Answer)> {
    let named = named_contract(day);
    price_day_by_spans(day).into_iter().enumerate().filter(move |(contract, _)| Some(*contract) != named)
}

#[test]
fn c1_to_c4_refusals_and_lots_follow_their_words() {
    for day in accepted_days(31, 3_000) {
        let mut stopped = false;
        for (contract, answer) in own_answers(&day) {
            let (is_13, in_all) = words_of_13(&day, contract);
            match answer {
                Answer::Refused { number: 15, lots } => assert!(stopped && lots == 0),
                Answer::Refused { number, lots } => {
                    assert!(!stopped && lots == in_all && (number == 13) == is_13);
                    stopped = true;
                }
                Answer::Priced { lots, .. } => assert!(!stopped && !is_13 && lots == in_all),
            }
        }
    }
}

/// The named contract has 3M's answer where every contract before it has a price,
/// and 15 with 0 lots behind a refused one; without its own instruments it would
/// be 13.
#[test]
fn i1_i9_the_named_contract_follows_its_words() {
    let mut counts = [0; 2];
    for day in accepted_days(31, 3_000) {
        let answers = price_day_by_spans(&day);
        if let Some(named) = named_contract(&day) {
            let refused = |answer: &Answer| matches!(answer, Answer::Refused { .. });
            let stopped = answers[..named].iter().any(refused);
            let not_reached = Answer::Refused { number: 15, lots: 0 };
            assert_eq!(answers[named], if stopped { not_reached } else { answers[0] });
            assert_eq!(words_of_13(&day, named), (true, 0));
            counts[usize::from(stopped)] += 1;
        }
    }
    assert!(counts[0] > 300 && counts[1] > 30, "{counts:?}");
}

/// With byte 0 in a long header every answer is that behind a short one.
#[test]
fn i8_byte_0_prices_as_no_byte() {
    for mut day in accepted_days(31, 300) {
        if named_contract(&day).is_none() {
            let answers = [None, Some(0)].map(|third| {
                day.third = third;
                price_day_by_spans(&day)
            });
            assert_eq!(answers[0], answers[1]);
        }
    }
}
