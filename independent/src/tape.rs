//! The text tape (W-202): a day sheet as lines of text, and back. A line has
//! its items between commas and a line feed behind it:
//!
//! ```text
//! METAL,name,marks
//! METAL,name,marks,third
//! PREV,instrument,price
//! time,instrument,TRADE,price,lots
//! time,instrument,QUOTE,bid,offer
//! ```
//!
//! Prices are in dollars with two decimals, and `-` stands for an absent side.
//! The METAL line of three values is a long header's, its last value the byte.
//! The end field has no line. Every accepted sheet has one text, and every
//! accepted text is that of one sheet.

use crate::field::{append, fitting, End, Field, Header, PreviousClose, Quote, Refusal, Trade, BID, OFFER};
use crate::sheet::{judge_sheet, Day, Met, Record};
use crate::tables::{metal_row, INSTRUMENT_NAMES, METALS, SHEET_LIMIT};

/// No text of a sheet is longer: three times 1,048,576, the longest sheet.
pub const TAPE_LIMIT: usize = 3_145_728;

/// The sheet of a text, or the refusal: that of the first bad line with its
/// number from 1 on (17, 5, 6, 18, 8 to 11), 5 at line 1 for no line at all,
/// then 1 and 16 at 0. `room` is what the lent buffer holds.
pub fn tape_to_sheet(text: &[u8], room: usize) -> Result<Vec<u8>, Refusal> {
    let mut met = Met::default();
    let mut sheet = Vec::new();
    for (line, number) in text.split_inclusive(|byte| *byte == b'\n').zip(1..) {
        let field = field_of(line).ok_or((17, number))?;
        met.judge(&field).map_err(|refusal| (refusal, number))?;
        met.enter(&field);
        append(&mut sheet, &field);
    }
    if met.fields == 0 {
        return Err((5, 1));
    }
    append(&mut sheet, &Field::End(End { count: met.fields as u32 }));
    if sheet.len() > SHEET_LIMIT {
        return Err((1, 0));
    }
    fitting(sheet, room)
}

/// The text of a sheet, or the sheet's own refusal at its byte, then 16 at 0.
pub fn sheet_to_tape(sheet: &[u8], room: usize) -> Result<Vec<u8>, Refusal> {
    let day = judge_sheet(sheet)?;
    fitting(text_of(&day), room)
}

/// The values of a line with its line feed; none where it is malformed or has
/// an unknown name. They may be out of place or out of range.
fn field_of(line: &[u8]) -> Option<Field> {
    let line = line.strip_suffix(b"\n")?;
    let mut items = line.split(|byte| *byte == b',');
    let field = match items.next()? {
        b"METAL" => metal_line(&mut items),
        b"PREV" => prev_line(&mut items),
        time => record_line(time, &mut items),
    };
    let whole = items.next().is_none();
    field.filter(|_| whole)
}

fn metal_line<'a>(items: &mut impl Iterator<Item = &'a [u8]>) -> Option<Field> {
    let metal = 1 + numbered(METALS.iter().map(|metal| metal.name), items.next()?)?;
    let marks = u16::try_from(number(items.next()?)?).unwrap_or(u16::MAX);
    let third = match items.next() {
        Some(item) => Some(u8::try_from(number(item)?).unwrap_or(u8::MAX)),
        None => None,
    };
    Some(Field::Header(Header { metal, marks, third }))
}

fn prev_line<'a>(items: &mut impl Iterator<Item = &'a [u8]>) -> Option<Field> {
    let instrument = instrument(items.next()?)?;
    Some(Field::PreviousClose(PreviousClose { instrument, price: price(items.next()?)? }))
}

fn record_line<'a>(time: &[u8], items: &mut impl Iterator<Item = &'a [u8]>) -> Option<Field> {
    let time = u32::try_from(number(time)?).unwrap_or(u32::MAX);
    let instrument = instrument(items.next()?)?;
    match items.next()? {
        b"TRADE" => {
            let price = price(items.next()?)?;
            let lots = u16::try_from(number(items.next()?)?).unwrap_or(u16::MAX);
            Some(Field::Trade(Trade { time, instrument, price, lots }))
        }
        b"QUOTE" => {
            let bid = side(items.next()?)?;
            let offer = side(items.next()?)?;
            let sides = u8::from(bid.is_some()) * BID + u8::from(offer.is_some()) * OFFER;
            let (bid, offer) = (bid.unwrap_or(0), offer.unwrap_or(0));
            Some(Field::Quote(Quote { time, instrument, sides, bid, offer }))
        }
        _ => None,
    }
}

/// The place of a name among others.
fn numbered<'a>(mut names: impl Iterator<Item = &'a str>, name: &[u8]) -> Option<u8> {
    let place = names.position(|known| known.as_bytes() == name)?;
    u8::try_from(place).ok()
}

fn instrument(name: &[u8]) -> Option<u8> {
    numbered(INSTRUMENT_NAMES.into_iter(), name)
}

/// A number without sign and needless leading zero. One of too many digits is
/// the greatest there is: no field has so much, so it stays out of its range.
fn number(item: &[u8]) -> Option<u64> {
    match item {
        [] | [b'0', _, ..] => None,
        digits => digits_value(digits),
    }
}

/// The number that digits say, leading zeros allowed; none for other bytes.
fn digits_value(digits: &[u8]) -> Option<u64> {
    digits.iter().try_fold(0u64, |value, byte| {
        let digit = byte.is_ascii_digit().then(|| u64::from(byte - b'0'))?;
        Some(value.saturating_mul(10).saturating_add(digit))
    })
}

/// The cents of a price in dollars: a number, a point and two digits, a minus
/// before them where it is below zero. One too big for 32 bits is the greatest
/// or least there is, which no range takes in.
fn price(item: &[u8]) -> Option<i32> {
    let unsigned = item.strip_prefix(b"-");
    let [dollars @ .., b'.', tens, ones] = unsigned.unwrap_or(item) else { return None };
    let cents = digits_value(&[*tens, *ones])?;
    let cents = number(dollars)?.saturating_mul(100).saturating_add(cents);
    let cents = i32::try_from(cents).unwrap_or(i32::MAX);
    match unsigned {
        Some(_) if cents == 0 => None,
        Some(_) => Some(-cents),
        None => Some(cents),
    }
}

/// A side of a quote: an absent one, or its price.
fn side(item: &[u8]) -> Option<Option<i32>> {
    match item {
        b"-" => Some(None),
        _ => price(item).map(Some),
    }
}

/// The lines of an accepted sheet's day.
fn text_of(day: &Day) -> Vec<u8> {
    let mut text = b"METAL,".to_vec();
    text.extend(metal_row(day.metal).map_or("", |metal| metal.name).as_bytes());
    text.push(b',');
    put_number(&mut text, day.marks.into());
    if let Some(third) = day.third {
        text.push(b',');
        put_number(&mut text, third.into());
    }
    text.push(b'\n');
    for (name, price) in INSTRUMENT_NAMES.iter().zip(day.previous_closes) {
        if let Some(price) = price {
            text.extend(b"PREV,");
            text.extend(name.as_bytes());
            text.push(b',');
            put_price(&mut text, price);
            text.push(b'\n');
        }
    }
    for record in &day.records {
        put_record(&mut text, record);
    }
    text
}

fn put_record(text: &mut Vec<u8>, record: &Record) {
    put_number(text, record.time());
    text.push(b',');
    text.extend(INSTRUMENT_NAMES[usize::from(record.instrument())].as_bytes());
    match record {
        Record::Trade(trade) => {
            text.extend(b",TRADE,");
            put_price(text, trade.price);
            text.push(b',');
            put_number(text, trade.lots.into());
        }
        Record::Quote(quote) => {
            text.extend(b",QUOTE,");
            put_side(text, quote.sides & BID != 0, quote.bid);
            text.push(b',');
            put_side(text, quote.sides & OFFER != 0, quote.offer);
        }
    }
    text.push(b'\n');
}

fn put_side(text: &mut Vec<u8>, present: bool, price: i32) {
    if present {
        put_price(text, price);
    } else {
        text.push(b'-');
    }
}

fn put_price(text: &mut Vec<u8>, price: i32) {
    if price < 0 {
        text.push(b'-');
    }
    let cents = price.unsigned_abs();
    put_number(text, cents / 100);
    text.extend([b'.', digit(cents / 10), digit(cents)]);
}

/// The digits of a number, found from the last one on.
fn put_number(text: &mut Vec<u8>, number: u32) {
    let from = text.len();
    let mut rest = number;
    while rest >= 10 {
        text.push(digit(rest));
        rest /= 10;
    }
    text.push(digit(rest));
    text[from..].reverse();
}

/// The last digit of a number.
fn digit(number: u32) -> u8 {
    b'0' + (number % 10) as u8
}
