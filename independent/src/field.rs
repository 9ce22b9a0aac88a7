//! One field of a day sheet: its values, the reader of one field, the walker
//! over it, and the writer of one field.

use crate::tables::{
    third_row, ALL_MARKS, GREATEST_LOTS, GREATEST_OUTRIGHT, GREATEST_SPREAD, LAST_INSTRUMENT, LAST_TIME,
    LEAST_OUTRIGHT, METALS,
};

/// The number of a refusal and the byte (or place) it carries.
pub type Refusal = (u8, usize);

/// Bits of a quote's sides byte.
pub const BID: u8 = 1;
pub const OFFER: u8 = 2;

/// Bytes of a field's head: the tag and the length.
pub const HEAD: usize = 3;

/// A short header (tag 1) or a long one (tag 6).
#[derive(Clone, Copy, Debug, PartialEq, Eq)]
pub struct Header {
    pub metal: u8,
    pub marks: u16,
    /// The byte of a long header, which says what 3M is; a short one has none.
    pub third: Option<u8>,
}

#[derive(Clone, Copy, Debug, PartialEq, Eq)]
pub struct PreviousClose {
    pub instrument: u8,
    pub price: i32,
}

#[derive(Clone, Copy, Debug, PartialEq, Eq)]
pub struct Trade {
    pub time: u32,
    pub instrument: u8,
    pub price: i32,
    pub lots: u16,
}

#[derive(Clone, Copy, Debug, PartialEq, Eq)]
pub struct Quote {
    pub time: u32,
    pub instrument: u8,
    pub sides: u8,
    pub bid: i32,
    pub offer: i32,
}

#[derive(Clone, Copy, Debug, PartialEq, Eq)]
pub struct End {
    pub count: u32,
}

/// The values of one field. A value may be out of its range; the reader never
/// hands such a field back and the writer refuses it.
#[derive(Clone, Copy, Debug, PartialEq, Eq)]
pub enum Field {
    Header(Header),
    PreviousClose(PreviousClose),
    Trade(Trade),
    Quote(Quote),
    End(End),
}

/// The length a tag demands, or none where the tag isn't 1 to 6.
pub fn length_of_tag(tag: u8) -> Option<usize> {
    match tag {
        1 => Some(3),
        2 => Some(5),
        3 => Some(11),
        4 => Some(14),
        5 | 6 => Some(4),
        _ => None,
    }
}

/// The big-endian number in `count` bytes of a body.
fn number(body: &[u8], from: usize, count: usize) -> u32 {
    let bytes = body.iter().skip(from).take(count);
    bytes.fold(0, |sum, byte| (sum << 8) | u32::from(*byte))
}

fn byte(body: &[u8], from: usize) -> u8 {
    number(body, from, 1) as u8
}

fn short(body: &[u8], from: usize) -> u16 {
    number(body, from, 2) as u16
}

fn price(body: &[u8], from: usize) -> i32 {
    number(body, from, 4) as i32
}

/// A header's values, with the byte that a long one has.
fn header_in(body: &[u8], third: Option<u8>) -> Field {
    Field::Header(Header { metal: byte(body, 0), marks: short(body, 1), third })
}

/// The values in a body that has its tag's length.
fn values_of(tag: u8, body: &[u8]) -> Field {
    match tag {
        1 => header_in(body, None),
        2 => Field::PreviousClose(PreviousClose { instrument: byte(body, 0), price: price(body, 1) }),
        3 => Field::Trade(Trade {
            time: number(body, 0, 4),
            instrument: byte(body, 4),
            price: price(body, 5),
            lots: short(body, 9),
        }),
        4 => Field::Quote(Quote {
            time: number(body, 0, 4),
            instrument: byte(body, 4),
            sides: byte(body, 5),
            bid: price(body, 6),
            offer: price(body, 10),
        }),
        5 => Field::End(End { count: number(body, 0, 4) }),
        _ => header_in(body, Some(byte(body, 3))),
    }
}

/// The field that starts at `at`, with no test of its values: 2 for the head,
/// 3, 4, 2 for the body. Hands back the place behind the field too.
pub fn take_field(sheet: &[u8], at: usize) -> Result<(Field, usize), u8> {
    let rest = sheet.get(at..).unwrap_or(&[]);
    if rest.len() < HEAD {
        return Err(2);
    }
    let tag = rest[0];
    let length = length_of_tag(tag).ok_or(3)?;
    if number(rest, 1, 2) as usize != length {
        return Err(4);
    }
    let body = rest.get(HEAD..HEAD + length).ok_or(2)?;
    Ok((values_of(tag, body), at + HEAD + length))
}

fn demand(good: bool, refusal: u8) -> Result<(), u8> {
    if good {
        Ok(())
    } else {
        Err(refusal)
    }
}

fn judge_header(header: &Header) -> Result<(), u8> {
    let metal_known = (1..=METALS.len()).contains(&usize::from(header.metal));
    demand(metal_known && header.marks & !ALL_MARKS == 0 && third_row(header.third).is_some(), 6)
}

fn judge_instrument(instrument: u8, barred: &[u8]) -> Result<(), u8> {
    demand(instrument <= LAST_INSTRUMENT, 7)?;
    demand(!barred.contains(&instrument), 18)
}

fn judge_time(time: u32, earliest: u32) -> Result<(), u8> {
    demand(time <= LAST_TIME && time >= earliest, 8)
}

fn judge_price(instrument: u8, price: i32) -> Result<(), u8> {
    let range =
        if instrument == 0 { LEAST_OUTRIGHT..=GREATEST_OUTRIGHT } else { -GREATEST_SPREAD..=GREATEST_SPREAD };
    demand(range.contains(&price), 9)
}

/// A quote's sides and prices: 11 for sides and absent zeros, 9 for the
/// present sides, 11 for bid above offer.
fn judge_sides(quote: &Quote) -> Result<(), u8> {
    demand(quote.sides <= 3, 11)?;
    let has_bid = quote.sides & BID != 0;
    let has_offer = quote.sides & OFFER != 0;
    demand(has_bid || quote.bid == 0, 11)?;
    demand(has_offer || quote.offer == 0, 11)?;
    if has_bid {
        judge_price(quote.instrument, quote.bid)?;
    }
    if has_offer {
        judge_price(quote.instrument, quote.offer)?;
    }
    demand(!(has_bid && has_offer) || quote.bid <= quote.offer, 11)
}

/// The values of one field, in the order 6, 7, 18, then 8 to 11. A time below
/// `earliest` is 8 like one above the range, and a `barred` instrument is 18; 0
/// and no instrument leave the ranges alone.
pub fn judge_values(field: &Field, earliest: u32, barred: &[u8]) -> Result<(), u8> {
    match field {
        Field::Header(header) => judge_header(header),
        Field::PreviousClose(close) => {
            judge_instrument(close.instrument, barred)?;
            judge_price(close.instrument, close.price)
        }
        Field::Trade(trade) => {
            judge_instrument(trade.instrument, barred)?;
            judge_time(trade.time, earliest)?;
            judge_price(trade.instrument, trade.price)?;
            demand((1..=GREATEST_LOTS).contains(&trade.lots), 10)
        }
        Field::Quote(quote) => {
            judge_instrument(quote.instrument, barred)?;
            judge_time(quote.time, earliest)?;
            judge_sides(quote)
        }
        Field::End(_) => Ok(()),
    }
}

/// The reader of one field: its values and the place behind it, or a refusal
/// (2, 3, 4, 6 to 11, 8 for the range only) with the place asked for.
pub fn read_field(sheet: &[u8], at: usize) -> Result<(Field, usize), Refusal> {
    let (field, next) = take_field(sheet, at).map_err(|refusal| (refusal, at))?;
    judge_values(&field, 0, &[]).map_err(|refusal| (refusal, at))?;
    Ok((field, next))
}

/// The body of the field at `at` as a part of the sheet; where the reader of
/// one field refuses, an empty part.
pub fn field_body(sheet: &[u8], at: usize) -> &[u8] {
    match read_field(sheet, at) {
        Ok((_, next)) => sheet.get(at + HEAD..next).unwrap_or(&[]),
        Err(_) => &[],
    }
}

/// Goes through a sheet field by field, and knows its place.
#[derive(Clone, Copy, Debug)]
pub struct Walker<'a> {
    sheet: &'a [u8],
    place: usize,
}

impl<'a> Walker<'a> {
    pub fn new(sheet: &'a [u8], place: usize) -> Self {
        Walker { sheet, place }
    }

    pub fn place(&self) -> usize {
        self.place
    }

    /// The field at the place. The place moves behind it, and stays at a refusal.
    pub fn step(&mut self) -> Result<Field, Refusal> {
        let (field, next) = read_field(self.sheet, self.place)?;
        self.place = next;
        Ok(field)
    }
}

/// Puts a field behind the bytes, whether or not its values are in range.
pub fn append(bytes: &mut Vec<u8>, field: &Field) {
    match field {
        Field::Header(header) => {
            let head = if header.third.is_some() { [6, 0, 4] } else { [1, 0, 3] };
            bytes.extend(head);
            bytes.push(header.metal);
            bytes.extend(header.marks.to_be_bytes());
            bytes.extend(header.third);
        }
        Field::PreviousClose(close) => {
            bytes.extend([2, 0, 5, close.instrument]);
            bytes.extend(close.price.to_be_bytes());
        }
        Field::Trade(trade) => {
            bytes.extend([3, 0, 11]);
            bytes.extend(trade.time.to_be_bytes());
            bytes.push(trade.instrument);
            bytes.extend(trade.price.to_be_bytes());
            bytes.extend(trade.lots.to_be_bytes());
        }
        Field::Quote(quote) => {
            bytes.extend([4, 0, 14]);
            bytes.extend(quote.time.to_be_bytes());
            bytes.extend([quote.instrument, quote.sides]);
            bytes.extend(quote.bid.to_be_bytes());
            bytes.extend(quote.offer.to_be_bytes());
        }
        Field::End(end) => {
            bytes.extend([5, 0, 4]);
            bytes.extend(end.count.to_be_bytes());
        }
    }
}

/// The bytes of a field with these values, whether or not they are in range.
pub fn encode(field: &Field) -> Vec<u8> {
    let mut bytes = Vec::new();
    append(&mut bytes, field);
    bytes
}

/// The writer of one field: 6 to 11 (8 for the range only), then 16; all with
/// the place as given and no byte changed. Else the place behind the field.
pub fn write_field(field: &Field, buffer: &mut [u8], at: usize) -> Result<usize, Refusal> {
    judge_values(field, 0, &[]).map_err(|refusal| (refusal, at))?;
    let bytes = encode(field);
    let room = buffer.get_mut(at..).ok_or((16, at))?;
    let part = room.get_mut(..bytes.len()).ok_or((16, at))?;
    part.copy_from_slice(&bytes);
    Ok(at + bytes.len())
}

/// What a lent buffer gets where it has so much room; else 16 at 0.
pub(crate) fn fitting(bytes: Vec<u8>, room: usize) -> Result<Vec<u8>, Refusal> {
    if bytes.len() > room {
        return Err((16, 0));
    }
    Ok(bytes)
}
