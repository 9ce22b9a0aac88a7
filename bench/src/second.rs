//! The independent program's functions, in the shapes of [`crate::functions`].

use crate::functions::{Rows, Values};
use independent::field::{read_field, Field};
use independent::pricing::{price_day, price_day_by_spans};
use independent::{judge_sheet, Answer, Day, Method};

/// The refusal's number, 0 for none, and its byte.
pub fn judge(sheet: &[u8]) -> (u8, usize) {
    match judge_sheet(sheet) {
        Ok(_) => (0, 0),
        Err(refusal) => refusal,
    }
}

/// How many trades and quotes an accepted sheet has.
pub fn records(sheet: &[u8]) -> usize {
    judge_sheet(sheet).map_or(0, |day| day.records.len())
}

fn values_of(field: Field) -> Values {
    match field {
        Field::Header(f) => match f.third {
            None => [1, f.metal.into(), f.marks.into(), 0, 0, 0],
            Some(third) => [6, f.metal.into(), f.marks.into(), third.into(), 0, 0],
        },
        Field::PreviousClose(f) => [2, f.instrument.into(), f.price.into(), 0, 0, 0],
        Field::Trade(f) => {
            let instrument = f.instrument.into();
            [3, f.time.into(), instrument, f.price.into(), f.lots.into(), 0]
        }
        Field::Quote(f) => {
            let (instrument, sides) = (f.instrument.into(), f.sides.into());
            [4, f.time.into(), instrument, sides, f.bid.into(), f.offer.into()]
        }
        Field::End(f) => [5, f.count.into(), 0, 0, 0, 0],
    }
}

/// The field at a place: its values and the place behind it, or a number. A
/// call of its own, as the library's is.
#[inline(never)]
pub fn read(sheet: &[u8], at: usize) -> Result<(Values, usize), u8> {
    match read_field(sheet, at) {
        Ok((field, next)) => Ok((values_of(field), next)),
        Err((number, _)) => Err(number),
    }
}

fn rows_of(answers: [Answer; 6]) -> Rows {
    let mut rows = [0; 18];
    for (row, answer) in rows.chunks_exact_mut(3).zip(answers) {
        let numbers = match answer {
            Answer::Priced { method: Method::Vwap, price, lots } => [1, price as u64, lots],
            Answer::Priced { method: Method::Twap, price, lots } => [2, price as u64, lots],
            Answer::Refused { number, lots } => [number.into(), 0, lots],
        };
        row.copy_from_slice(&numbers);
    }
    rows
}

fn answers_by(sheet: &[u8], price: fn(&Day) -> [Answer; 6]) -> Result<Rows, (u8, usize)> {
    judge_sheet(sheet).map(|day| rows_of(price(&day)))
}

/// The six answers, each TWAP by walking its window's milliseconds.
pub fn answers_by_walking(sheet: &[u8]) -> Result<Rows, (u8, usize)> {
    answers_by(sheet, price_day)
}

/// The six answers, each TWAP by the spans between records.
pub fn answers_by_spans(sheet: &[u8]) -> Result<Rows, (u8, usize)> {
    answers_by(sheet, price_day_by_spans)
}
