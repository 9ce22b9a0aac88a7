//! Demand 3's two laws as pairs of sheets: all prices of instrument 0 moved by
//! whole steps, and one spread turned round.

use crate::draft::sheet_of;
use crate::field::{Field, BID, OFFER};
use crate::generator::accepted_sheet;
use crate::pricing::Answer;
use crate::random::Random;
use crate::sheet::{fields_of, judge_sheet};
use crate::tables::{barred_instruments, metal_row, GREATEST_OUTRIGHT, LEAST_OUTRIGHT};

/// An accepted sheet, the sheet made of it, and by what: the number of steps
/// for a shifted sheet, the spread for a turned one.
#[derive(Clone, Debug)]
pub struct Pair {
    pub sheet: Vec<u8>,
    pub changed: Vec<u8>,
    pub by: i64,
}

/// The prices of instrument 0 in a field: close, trade, and present sides.
fn outright_prices(field: &mut Field) -> Vec<&mut i32> {
    match field {
        Field::PreviousClose(close) if close.instrument == 0 => vec![&mut close.price],
        Field::Trade(trade) if trade.instrument == 0 => vec![&mut trade.price],
        Field::Quote(quote) if quote.instrument == 0 => {
            let bid = (quote.sides & BID != 0).then_some(&mut quote.bid);
            let offer = (quote.sides & OFFER != 0).then_some(&mut quote.offer);
            bid.into_iter().chain(offer).collect()
        }
        _ => Vec::new(),
    }
}

/// The 3M step of an accepted sheet's metal.
fn step_of_sheet(sheet: &[u8]) -> Option<i64> {
    let day = judge_sheet(sheet).ok()?;
    metal_row(day.metal).map(|metal| i64::from(metal.step))
}

/// The sheet with every price of instrument 0 moved by so many whole steps;
/// none where it isn't accepted or the moved one wouldn't be.
pub fn shift_sheet(sheet: &[u8], steps: i64) -> Option<Vec<u8>> {
    let moved_by = steps.checked_mul(step_of_sheet(sheet)?)?;
    let mut fields = fields_of(sheet).ok()?;
    for field in &mut fields {
        for price in outright_prices(field) {
            let moved = i64::from(*price).checked_add(moved_by)?;
            *price = i32::try_from(moved).ok()?;
        }
    }
    let shifted = sheet_of(&fields);
    judge_sheet(&shifted).is_ok().then_some(shifted)
}

/// The fewest and the most steps (fewest first, below 0 for down) by which an
/// accepted sheet may be shifted.
pub fn possible_steps(sheet: &[u8]) -> Option<(i64, i64)> {
    let step = step_of_sheet(sheet)?;
    let mut fields = fields_of(sheet).ok()?;
    let mut down = i64::from(GREATEST_OUTRIGHT) / step;
    let mut up = down;
    for field in &mut fields {
        for price in outright_prices(field) {
            down = down.min(i64::from(*price - LEAST_OUTRIGHT) / step);
            up = up.min(i64::from(GREATEST_OUTRIGHT - *price) / step);
        }
    }
    Some((-down, up))
}

/// A random accepted sheet and the same shifted.
pub fn shifted_pair(random: &mut Random) -> Pair {
    let sheet = accepted_sheet(random);
    let (low, high) = possible_steps(&sheet).unwrap_or((0, 0));
    let near = random.between(-3, 3);
    let middle = random.between(-5_000, 5_000);
    let any = random.between(low, high);
    let by = random.pick(&[near, near, middle, any, low, high]);
    let by = by.clamp(low, high);
    let changed = shift_sheet(&sheet, by).unwrap_or_else(|| sheet.clone());
    Pair { sheet, changed, by }
}

/// A field with the spread turned round: its mark flipped, its prices negated,
/// bid and offer exchanged with their bits.
fn turned_field(field: Field, spread: u8) -> Field {
    match field {
        Field::Header(mut header) => {
            header.marks ^= 1 << (spread - 1);
            Field::Header(header)
        }
        Field::PreviousClose(mut close) if close.instrument == spread => {
            close.price = -close.price;
            Field::PreviousClose(close)
        }
        Field::Trade(mut trade) if trade.instrument == spread => {
            trade.price = -trade.price;
            Field::Trade(trade)
        }
        Field::Quote(mut quote) if quote.instrument == spread => {
            quote.sides = (quote.sides & BID) << 1 | (quote.sides & OFFER) >> 1;
            (quote.bid, quote.offer) = (-quote.offer, -quote.bid);
            Field::Quote(quote)
        }
        other => other,
    }
}

/// The sheet with one spread, 1 to 11, turned round; none where the sheet
/// isn't accepted or the number is no spread.
pub fn turn_sheet(sheet: &[u8], spread: u8) -> Option<Vec<u8>> {
    if !(1..=11).contains(&spread) {
        return None;
    }
    let fields = fields_of(sheet).ok()?.into_iter();
    let turned: Vec<Field> = fields.map(|field| turned_field(field, spread)).collect();
    Some(sheet_of(&turned))
}

fn spread_in(field: &Field) -> Option<u8> {
    let instrument = match field {
        Field::PreviousClose(close) => close.instrument,
        Field::Trade(trade) => trade.instrument,
        Field::Quote(quote) => quote.instrument,
        _ => 0,
    };
    (instrument > 0).then_some(instrument)
}

/// The spreads that a sheet of these fields bars: of each the mark alone is there
/// to be turned.
fn barred_in(fields: &[Field]) -> &'static [u8] {
    match fields.first() {
        Some(Field::Header(header)) => barred_instruments(header.third),
        _ => &[],
    }
}

/// A random accepted sheet and the same with one spread turned round, mostly
/// one that has fields, at times one that the header bars.
pub fn turned_pair(random: &mut Random) -> Pair {
    let sheet = accepted_sheet(random);
    let fields = fields_of(&sheet).unwrap_or_default();
    let used: Vec<u8> = fields.iter().filter_map(spread_in).collect();
    let barred = barred_in(&fields);
    let spread = if !barred.is_empty() && random.chance(25) {
        random.pick(barred)
    } else if used.is_empty() || random.chance(15) {
        random.between(1, 11) as u8
    } else {
        random.pick(&used)
    };
    let changed = turn_sheet(&sheet, spread).unwrap_or_else(|| sheet.clone());
    let by = i64::from(spread);
    Pair { sheet, changed, by }
}

/// Has any contract the refusal 14?
pub fn has_14(answers: &[Answer; 6]) -> bool {
    let is_14 = |answer: &Answer| matches!(answer, Answer::Refused { number: 14, .. });
    answers.iter().any(is_14)
}

/// The first law, where neither side has a 14: priced contracts move by so many
/// cents with the same method and lots, refused ones stay the same.
pub fn moved_alike(answers: &[Answer; 6], moved: &[Answer; 6], cents: i64) -> bool {
    let expected = answers.map(|answer| match answer {
        Answer::Priced { method, price, lots } => Answer::Priced { method, price: price + cents, lots },
        refused => refused,
    });
    expected == *moved
}
