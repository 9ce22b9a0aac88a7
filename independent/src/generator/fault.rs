//! Accepted sheets with one fault put in, so that the number and the byte of
//! the refusal are known from how the sheet was made.

use crate::draft::{close, end, quote, sheet_of, start_of, trade};
use crate::field::{encode, Field, Header, Quote, BID, OFFER};
use crate::generator::sized::sized_sheet;
use crate::generator::values::any_header;
use crate::generator::{accepted_fields, accepted_fields_with};
use crate::random::Random;
use crate::tables::{
    allowed_instruments, barred_instruments, ALL_MARKS, GREATEST_LOTS, GREATEST_OUTRIGHT, GREATEST_SPREAD,
    LAST_TIME, SHEET_LIMIT,
};

/// A faulty sheet with the refusal it was made for.
#[derive(Clone, Debug)]
pub struct Faulty {
    pub sheet: Vec<u8>,
    pub number: u8,
    pub byte: usize,
}

/// A sheet made to be refused with this number, 1 to 12 or 18. (Other numbers
/// are taken as 12.)
pub fn sheet_with_fault(random: &mut Random, number: u8) -> Faulty {
    if number == 1 {
        let bytes = SHEET_LIMIT + 1 + random.index(100);
        let sheet = sized_sheet(random, bytes).unwrap_or_default();
        return faulty(sheet, 1, 0);
    }
    if number == 18 {
        return barred_field(random);
    }
    let fields = accepted_fields(random);
    match number {
        2 => cut_short(random, fields),
        3 => wrong_tag(random, fields),
        4 => wrong_length(random, fields),
        5 => out_of_place(random, fields),
        6 => wrong_header(random, fields),
        7 => wrong_instrument(random, fields),
        8 => wrong_time(random, fields),
        9 => wrong_price(random, fields),
        10 => wrong_lots(random, fields),
        11 => wrong_sides(random, fields),
        _ => wrong_count(random, fields),
    }
}

fn faulty(sheet: Vec<u8>, number: u8, byte: usize) -> Faulty {
    Faulty { sheet, number, byte }
}

/// The header's byte.
fn third_of(fields: &[Field]) -> Option<u8> {
    match fields.first() {
        Some(Field::Header(header)) => header.third,
        _ => None,
    }
}

/// An instrument that the header does not bar.
fn allowed(random: &mut Random, fields: &[Field]) -> u8 {
    random.pick(&allowed_instruments(third_of(fields)))
}

/// The time of the record at this index, none for other fields.
fn time_of(field: &Field) -> Option<u32> {
    match field {
        Field::Trade(trade) => Some(trade.time),
        Field::Quote(quote) => Some(quote.time),
        _ => None,
    }
}

/// The index behind the header and the previous closes.
fn first_record(fields: &[Field]) -> usize {
    let early = |field: &&Field| matches!(field, Field::Header(_) | Field::PreviousClose(_));
    fields.iter().take_while(early).count()
}

/// An index at which a record may stand, and the time before it (or 0).
fn record_place(random: &mut Random, fields: &[Field]) -> (usize, u32) {
    let first = first_record(fields);
    let index = first + random.index(fields.len() - first);
    (index, time_of(&fields[index - 1]).unwrap_or(0))
}

/// Puts a field in at the index and sets the end's count right.
fn put_in(mut fields: Vec<Field>, index: usize, field: Field, number: u8) -> Faulty {
    fields.insert(index, field);
    let count = fields.len() as u32 - 1;
    if let Some(last) = fields.last_mut() {
        *last = end(count);
    }
    faulty(sheet_of(&fields), number, start_of(&fields, index))
}

/// 2: the sheet stops inside a field, or behind one that isn't the end.
fn cut_short(random: &mut Random, fields: Vec<Field>) -> Faulty {
    let index = random.index(fields.len());
    let start = start_of(&fields, index);
    let kept = random.index(encode(&fields[index]).len());
    let mut sheet = sheet_of(&fields);
    sheet.truncate(start + kept);
    faulty(sheet, 2, start)
}

/// 3: another byte in place of a tag.
fn wrong_tag(random: &mut Random, fields: Vec<Field>) -> Faulty {
    let start = start_of(&fields, random.index(fields.len()));
    let mut sheet = sheet_of(&fields);
    let other = random.between(7, 255) as u8;
    sheet[start] = random.pick(&[0, 7, 7, 255, other]);
    faulty(sheet, 3, start)
}

/// 4: another number in place of a length.
fn wrong_length(random: &mut Random, fields: Vec<Field>) -> Faulty {
    let start = start_of(&fields, random.index(fields.len()));
    let mut sheet = sheet_of(&fields);
    let place = start + 1 + random.index(2);
    sheet[place] = sheet[place].wrapping_add(random.between(1, 255) as u8);
    faulty(sheet, 4, start)
}

/// 5: a field where it may not stand, a second header of either form among them,
/// or bytes behind the end.
fn out_of_place(random: &mut Random, mut fields: Vec<Field>) -> Faulty {
    let index = 1 + random.index(fields.len() - 1);
    match random.below(6) {
        0 => put_in(fields, index, any_header(random), 5),
        1 => {
            fields.remove(0);
            faulty(sheet_of(&fields), 5, 0)
        }
        2 => close_behind_record(random, fields),
        3 => close_not_rising(random, fields),
        4 => {
            let mut sheet = sheet_of(&fields);
            let length = sheet.len();
            for _ in 0..=random.below(12) {
                sheet.push(random.draw() as u8);
            }
            faulty(sheet, 5, length)
        }
        _ => {
            let early = put_in(fields, index, end(index as u32), 5);
            faulty(early.sheet, 5, early.byte + 7)
        }
    }
}

fn close_behind_record(random: &mut Random, mut fields: Vec<Field>) -> Faulty {
    let first = first_record(&fields);
    if time_of(&fields[first]).is_none() {
        fields.insert(first, quote(LAST_TIME, 3, 0, 0, 0));
    }
    let behind = first + 1 + random.index(fields.len() - first - 1);
    put_in(fields, behind, close(random.below(14) as u8, 5), 5)
}

fn close_not_rising(random: &mut Random, mut fields: Vec<Field>) -> Faulty {
    let last = first_record(&fields) - 1;
    if !matches!(fields[last], Field::PreviousClose(_)) {
        fields.insert(last + 1, close(7, 0));
    }
    let closes = first_record(&fields) - 1;
    let behind = 1 + random.index(closes);
    let instrument = match fields[behind] {
        Field::PreviousClose(before) => random.below(u64::from(before.instrument) + 1) as u8,
        _ => 0,
    };
    put_in(fields, behind + 1, close(instrument, 1), 5)
}

/// 6: the header's metal, its marks, or a long one's byte.
fn wrong_header(random: &mut Random, mut fields: Vec<Field>) -> Faulty {
    let mut wrong = Header { metal: 1, marks: 0, third: third_of(&fields) };
    match random.below(3) {
        0 => {
            let other = random.between(6, 255) as u8;
            wrong.metal = random.pick(&[0, 6, 255, other]);
        }
        1 => wrong.marks = 1 << random.between(11, 15) | (random.draw() as u16 & ALL_MARKS),
        _ => {
            let other = random.between(3, 255) as u8;
            wrong.third = Some(random.pick(&[3, 255, other]));
        }
    }
    fields[0] = Field::Header(wrong);
    faulty(sheet_of(&fields), 6, 0)
}

/// 7: an instrument above 11.
fn wrong_instrument(random: &mut Random, fields: Vec<Field>) -> Faulty {
    let other = random.between(12, 255) as u8;
    let instrument = random.pick(&[12, 255, other]);
    let (index, time) = record_place(random, &fields);
    match random.below(3) {
        0 => {
            let index = first_record(&fields);
            put_in(fields, index, close(instrument, 1), 7)
        }
        1 => put_in(fields, index, trade(time, instrument, 1, 1), 7),
        _ => put_in(fields, index, quote(time, instrument, 0, 0, 0), 7),
    }
}

/// 18: a field on an instrument that its header bars, of each kind as often; half
/// of them have more wrong, of what is judged behind 18.
fn barred_field(random: &mut Random) -> Faulty {
    let third = Some(random.pick(&[1, 2]));
    let fields = accepted_fields_with(random, third);
    let instrument = random.pick(barred_instruments(third));
    let (index, before) = record_place(random, &fields);
    let more = random.chance(50);
    let time = if more { time_outside(random, before) } else { before };
    let price = if more { price_outside(random, instrument) } else { 0 };
    match random.below(3) {
        0 => {
            let lower = |field: &&Field| match field {
                Field::Header(_) => true,
                Field::PreviousClose(close) => close.instrument < instrument,
                _ => false,
            };
            let index = fields.iter().take_while(lower).count();
            put_in(fields, index, close(instrument, price), 18)
        }
        1 => {
            let lots = if more { random.pick(&[0, 1, GREATEST_LOTS + 1]) } else { 1 };
            put_in(fields, index, trade(time, instrument, price, lots), 18)
        }
        _ => {
            let sides = if more { random.below(6) as u8 } else { BID };
            put_in(fields, index, quote(time, instrument, sides, price, 0), 18)
        }
    }
}

/// A time above the range, or below the one before.
fn time_outside(random: &mut Random, before: u32) -> u32 {
    if before > 0 && random.chance(60) {
        let any = random.time(0, before - 1);
        random.pick(&[before - 1, 0, any])
    } else {
        let any = random.time(LAST_TIME + 1, u32::MAX);
        random.pick(&[LAST_TIME + 1, u32::MAX, any])
    }
}

/// 8: a time above the range or below the one before.
fn wrong_time(random: &mut Random, fields: Vec<Field>) -> Faulty {
    let (index, before) = record_place(random, &fields);
    let time = time_outside(random, before);
    let instrument = allowed(random, &fields);
    if random.chance(50) {
        put_in(fields, index, trade(time, instrument, 0, 1), 8)
    } else {
        put_in(fields, index, quote(time, instrument, 0, 0, 0), 8)
    }
}

/// A price out of the instrument's range.
fn price_outside(random: &mut Random, instrument: u8) -> i32 {
    let (below, above) = if instrument == 0 {
        (0, GREATEST_OUTRIGHT + 1)
    } else {
        (-GREATEST_SPREAD - 1, GREATEST_SPREAD + 1)
    };
    let low = random.price(i32::MIN, below);
    let high = random.price(above, i32::MAX);
    random.pick(&[below, above, i32::MIN, i32::MAX, low, high])
}

/// 9: a price out of range in a close, a trade or a present side.
fn wrong_price(random: &mut Random, mut fields: Vec<Field>) -> Faulty {
    let any = allowed(random, &fields);
    let instrument = random.pick(&[0, 0, 3, 11, any]);
    let price = price_outside(random, instrument);
    let (index, time) = record_place(random, &fields);
    let closes = first_record(&fields) - 1;
    match random.below(4) {
        0 if closes > 0 => {
            let index = 1 + random.index(closes);
            if let Field::PreviousClose(old) = &mut fields[index] {
                old.price = price_outside(random, old.instrument);
            }
            faulty(sheet_of(&fields), 9, start_of(&fields, index))
        }
        1 => put_in(fields, index, quote(time, instrument, BID, price, 0), 9),
        2 => put_in(fields, index, quote(time, instrument, OFFER, 0, price), 9),
        _ => put_in(fields, index, trade(time, instrument, price, 1), 9),
    }
}

/// 10: lots 0 or above 10,000.
fn wrong_lots(random: &mut Random, fields: Vec<Field>) -> Faulty {
    let (index, time) = record_place(random, &fields);
    let instrument = allowed(random, &fields);
    let any = random.between(i64::from(GREATEST_LOTS) + 1, 65_535) as u16;
    let lots = random.pick(&[0, GREATEST_LOTS + 1, 65_535, any]);
    put_in(fields, index, trade(time, instrument, 1, lots), 10)
}

/// 11: no such sides, a price in an absent side, or a bid one above the offer.
fn wrong_sides(random: &mut Random, fields: Vec<Field>) -> Faulty {
    let (index, time) = record_place(random, &fields);
    let bid = random.price(2, 5_000);
    let (sides, bid, offer) = match random.below(5) {
        0 => (random.between(4, 255) as u8, bid, bid),
        1 => (0, bid, 0),
        2 => (BID, bid, 1),
        3 => (OFFER, -1, bid),
        _ => (BID | OFFER, bid, bid - 1),
    };
    let wrong = Field::Quote(Quote { time, instrument: allowed(random, &fields), sides, bid, offer });
    put_in(fields, index, wrong, 11)
}

/// 12: the end's count, sometimes with bytes behind the end.
fn wrong_count(random: &mut Random, mut fields: Vec<Field>) -> Faulty {
    let last = fields.len() - 1;
    let right = last as u32;
    let wrong = [right - 1, right + 1, right << 8, right << 16, right << 24, 0];
    fields[last] = end(random.pick(&wrong));
    let mut sheet = sheet_of(&fields);
    if random.chance(30) {
        sheet.push(random.draw() as u8);
    }
    faulty(sheet, 12, start_of(&fields, last))
}
