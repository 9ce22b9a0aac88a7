//! The six contracts in pricing order, with i128 arithmetic throughout.

use crate::indicator::{sum_by_spans, sum_by_walking, IndicatorSum};
use crate::sheet::{Day, Record};
use crate::tables::{
    in_window, metal_row, third_row, window_start, Metal, CONTRACTS, GREATEST_OUTRIGHT, LEAST_OUTRIGHT, LEGS,
    MINIMUM_VOLUME, THREE_MONTHS, WINDOW,
};

#[derive(Clone, Copy, Debug, PartialEq, Eq)]
pub enum Method {
    Vwap,
    Twap,
}

impl Method {
    pub fn name(self) -> &'static str {
        match self {
            Method::Vwap => "VWAP",
            Method::Twap => "TWAP",
        }
    }
}

/// A contract's answer. Lots are the sum over its VWAP instruments in the
/// window, 0 for number 15, and 3M's for the M contract that 3M is.
#[derive(Clone, Copy, Debug, PartialEq, Eq)]
pub enum Answer {
    Priced { method: Method, price: i64, lots: u64 },
    Refused { number: u8, lots: u64 },
}

/// A contract's price before rounding: `sum` over `divisor`.
#[derive(Clone, Copy, Debug, PartialEq, Eq)]
pub struct Exact {
    pub method: Method,
    pub sum: i128,
    pub divisor: i128,
}

/// Of `sum` over `divisor` to `step`: the greatest multiple m of the step with
/// 2 * divisor * m no greater than 2 * sum + divisor * step.
pub fn round_to_step(sum: i128, divisor: i128, step: i128) -> i128 {
    let steps = (2 * sum + divisor * step).div_euclid(2 * divisor * step);
    steps * step
}

/// The metal's row; an accepted sheet always has one.
fn row_of(day: &Day) -> Option<&'static Metal> {
    metal_row(day.metal)
}

/// `times` times the price of the contract that quoted spread prices with this
/// sum imply: the other leg's close plus or minus the spread. For the outright,
/// the quoted price itself.
fn implied(
    day: &Day,
    contract: usize,
    instrument: u8,
    quoted: i128,
    times: i128,
    closes: &[i128; 6],
) -> i128 {
    if instrument == 0 {
        return quoted;
    }
    let spread = if day.is_marked(instrument) { -quoted } else { quoted };
    let (leg_a, leg_b) = LEGS[usize::from(instrument)];
    if contract == leg_a {
        times * closes[leg_b] + spread
    } else {
        times * closes[leg_a] - spread
    }
}

/// The in-window trades of a contract's VWAP instruments: their lots, and the
/// sum of lots times implied price.
fn volume(day: &Day, metal: &Metal, contract: usize, closes: &[i128; 6]) -> (u64, i128) {
    let mut lots = 0;
    let mut sum = 0;
    for record in &day.records {
        let Record::Trade(trade) = record else {
            continue;
        };
        let start = window_start(metal, trade.instrument);
        let counts = CONTRACTS[contract].vwap_from.contains(&trade.instrument);
        if counts && in_window(start, trade.time) {
            let price = i128::from(trade.price);
            lots += u64::from(trade.lots);
            sum += i128::from(trade.lots) * implied(day, contract, trade.instrument, price, 1, closes);
        }
    }
    (lots, sum)
}

/// A contract's price before rounding, none where it has no reference at the
/// window's first millisecond (13), and its lots.
pub fn exact_price(
    day: &Day,
    contract: usize,
    closes: &[i128; 6],
    indicator_sum: IndicatorSum,
) -> (Option<Exact>, u64) {
    let Some(metal) = row_of(day) else {
        return (None, 0);
    };
    let (lots, sum) = volume(day, metal, contract, closes);
    if lots >= MINIMUM_VOLUME {
        let exact = Exact { method: Method::Vwap, sum, divisor: i128::from(lots) };
        return (Some(exact), lots);
    }
    let instrument = CONTRACTS[contract].twap_from;
    let times = i128::from(WINDOW);
    let quoted = indicator_sum(day, instrument, window_start(metal, instrument));
    let exact = quoted.map(|quoted| Exact {
        method: Method::Twap,
        sum: implied(day, contract, instrument, quoted, times, closes),
        divisor: times,
    });
    (exact, lots)
}

/// The rounding step of a contract.
pub fn step_of(day: &Day, contract: usize) -> i128 {
    match row_of(day) {
        Some(metal) if contract == THREE_MONTHS => i128::from(metal.step),
        _ => 1,
    }
}

fn price_contract(day: &Day, contract: usize, closes: &[i128; 6], indicator_sum: IndicatorSum) -> Answer {
    let (exact, lots) = exact_price(day, contract, closes, indicator_sum);
    let Some(exact) = exact else {
        return Answer::Refused { number: 13, lots };
    };
    let close = round_to_step(exact.sum, exact.divisor, step_of(day, contract));
    let range = i128::from(LEAST_OUTRIGHT)..=i128::from(GREATEST_OUTRIGHT);
    if !range.contains(&close) {
        return Answer::Refused { number: 14, lots };
    }
    Answer::Priced { method: exact.method, price: close as i64, lots }
}

/// The M contract that 3M is, by its place; none on most days.
pub fn named_contract(day: &Day) -> Option<usize> {
    third_row(day.third).and_then(|row| row.named)
}

/// The six answers, with a chosen way to sum the indicator. At its step the
/// named contract takes 3M's answer, which is a price: behind a refused
/// contract no step is reached.
pub fn price_day_with(day: &Day, indicator_sum: IndicatorSum) -> [Answer; 6] {
    let not_reached = Answer::Refused { number: 15, lots: 0 };
    let mut answers = [not_reached; 6];
    let mut closes = [0; 6];
    for contract in 0..CONTRACTS.len() {
        answers[contract] = if named_contract(day) == Some(contract) {
            answers[THREE_MONTHS]
        } else {
            price_contract(day, contract, &closes, indicator_sum)
        };
        match answers[contract] {
            Answer::Priced { price, .. } => closes[contract] = i128::from(price),
            Answer::Refused { .. } => break,
        }
    }
    answers
}

/// The six answers, walking every millisecond.
pub fn price_day(day: &Day) -> [Answer; 6] {
    price_day_with(day, sum_by_walking)
}

/// The six answers, by spans: the same and faster.
pub fn price_day_by_spans(day: &Day) -> [Answer; 6] {
    price_day_with(day, sum_by_spans)
}
