//! One field of a sheet.

use crate::raw;
use crate::reason::Reason;

/// The bit of a quote's sides that says that there is a bid.
pub const BID: u8 = 1;

/// The bit of a quote's sides that says that there is an offer.
pub const OFFER: u8 = 2;

/// The values of one field. Any value can be held; the reader hands back none out of its range, and the writer refuses such.
#[derive(Clone, Copy, Debug, PartialEq, Eq, Hash)]
pub enum Field {
    /// The first field of a sheet, without a third value: as a long header whose third value is 0.
    Header {
        /// 1 Nickel, 2 Aluminium, 3 Zinc, 4 Copper, 5 Lead.
        metal: u8,
        /// Bit i-1 is set where spread i is quoted reversed.
        marks: u16,
    },
    /// The first field of a sheet, with a third value.
    LongHeader {
        /// 1 Nickel, 2 Aluminium, 3 Zinc, 4 Copper, 5 Lead.
        metal: u8,
        /// Bit i-1 is set where spread i is quoted reversed, a barred one too.
        marks: u16,
        /// The contract that has the date of 3M: 0 none, 1 M3, 2 M4. It takes 3M's answer. With 1 a whole sheet has no fields on the
        /// instruments 1, 2, 6 and 9, with 2 none on 4, 5, 6 and 10 ([`Reason::Barred`]).
        third: u8,
    },
    /// The previous close of an instrument.
    PreviousClose {
        /// 0 is 3M outright, 1 to 11 are the spreads.
        instrument: u8,
        /// The price.
        cents: i32,
    },
    /// A trade.
    Trade {
        /// Milliseconds of the day.
        time: u32,
        /// 0 is 3M outright, 1 to 11 are the spreads.
        instrument: u8,
        /// The price.
        cents: i32,
        /// 1 to 10,000.
        lots: u16,
    },
    /// A quote, which replaces both sides of the one before.
    Quote {
        /// Milliseconds of the day.
        time: u32,
        /// 0 is 3M outright, 1 to 11 are the spreads.
        instrument: u8,
        /// [`BID`] and [`OFFER`], each where its side is present.
        sides: u8,
        /// The bid in cents, 0 where it is absent.
        bid: i32,
        /// The offer in cents, 0 where it is absent.
        offer: i32,
    },
    /// The last field of a sheet.
    End {
        /// How many fields stand before it.
        count: u32,
    },
}

impl Field {
    /// A quote by the sides that are present.
    pub fn quote(time: u32, instrument: u8, bid: Option<i32>, offer: Option<i32>) -> Field {
        let sides = bid.map_or(0, |_| BID) | offer.map_or(0, |_| OFFER);
        Field::Quote { time, instrument, sides, bid: bid.unwrap_or(0), offer: offer.unwrap_or(0) }
    }

    /// The field that six numbers of the reader say: each is in its value's range, so no narrowing loses anything.
    fn of_values(values: [i64; 6]) -> Field {
        let [tag, a, b, c, d, e] = values;
        match tag {
            1 => Field::Header { metal: a as u8, marks: b as u16 },
            2 => Field::PreviousClose { instrument: a as u8, cents: b as i32 },
            3 => Field::Trade { time: a as u32, instrument: b as u8, cents: c as i32, lots: d as u16 },
            4 => Field::Quote {
                time: a as u32,
                instrument: b as u8,
                sides: c as u8,
                bid: d as i32,
                offer: e as i32,
            },
            5 => Field::End { count: a as u32 },
            6 => Field::LongHeader { metal: a as u8, marks: b as u16, third: c as u8 },
            _ => unreachable!("{tag} is no tag of a field"),
        }
    }
}

/// The field that starts at a place, and the place behind it. Whatever stands before or behind it is not looked at.
///
/// Refused with 2, 3, 4 or 6 to 11, the time for its range only; at a place past the end with [`Reason::BytesMissing`].
pub fn read_field(sheet: &[u8], at: usize) -> Result<(Field, usize), Reason> {
    let mut values = [0; 6];
    let mut next = at;
    // SAFETY: `sheet` is a slice, whose pointer is never null; `values` has 6 numbers, and it and `next` are ours.
    let number = unsafe { raw::bliskoru_read(sheet.as_ptr(), sheet.len(), at, &mut values, &mut next) };
    said(number)?;
    Ok((Field::of_values(values), next))
}

/// Writes a field at a place of the buffer, and hands back the place behind it. Where it is refused no byte has changed.
///
/// Refused with 6 to 11, the time for its range only, then with [`Reason::DoesNotFit`].
pub fn write_field(buffer: &mut [u8], at: usize, field: &Field) -> Result<usize, Reason> {
    let (start, length) = (buffer.as_mut_ptr(), buffer.len());
    let mut next = at;
    let behind = &mut next;
    // SAFETY: `start` and `length` are a slice that is borrowed alone, its pointer is never null, and `next` is ours.
    let number = unsafe {
        match *field {
            Field::Header { metal, marks } => {
                raw::bliskoru_write_header(start, length, at, metal, marks, behind)
            }
            Field::LongHeader { metal, marks, third } => {
                raw::bliskoru_write_long_header(start, length, at, metal, marks, third, behind)
            }
            Field::PreviousClose { instrument, cents } => {
                raw::bliskoru_write_previous_close(start, length, at, instrument, cents, behind)
            }
            Field::Trade { time, instrument, cents, lots } => {
                raw::bliskoru_write_trade(start, length, at, time, instrument, cents, lots, behind)
            }
            Field::Quote { time, instrument, sides, bid, offer } => {
                raw::bliskoru_write_quote(start, length, at, time, instrument, sides, bid, offer, behind)
            }
            Field::End { count } => raw::bliskoru_write_end(start, length, at, count, behind),
        }
    };
    said(number).map(|()| next)
}

/// 0 is yes; any other number is the reason.
fn said(number: u8) -> Result<(), Reason> {
    match number {
        0 => Ok(()),
        _ => Err(Reason::handed_back(u64::from(number))),
    }
}
