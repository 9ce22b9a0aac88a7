//! Sheets put together by hand: one short function for each kind of field, and
//! sheets made of fields, with no test of any value.

use crate::field::{encode, End, Field, Header, PreviousClose, Quote, Trade};
use crate::sheet::Record;

/// A short header, tag 1.
pub fn header(metal: u8, marks: u16) -> Field {
    Field::Header(Header { metal, marks, third: None })
}

/// A long header, tag 6.
pub fn long_header(metal: u8, marks: u16, third: u8) -> Field {
    Field::Header(Header { metal, marks, third: Some(third) })
}

pub fn close(instrument: u8, price: i32) -> Field {
    Field::PreviousClose(PreviousClose { instrument, price })
}

pub fn trade(time: u32, instrument: u8, price: i32, lots: u16) -> Field {
    Field::Trade(Trade { time, instrument, price, lots })
}

pub fn quote(time: u32, instrument: u8, sides: u8, bid: i32, offer: i32) -> Field {
    Field::Quote(Quote { time, instrument, sides, bid, offer })
}

pub fn end(count: u32) -> Field {
    Field::End(End { count })
}

/// A record as a field.
pub fn record_field(record: &Record) -> Field {
    match record {
        Record::Trade(trade) => Field::Trade(*trade),
        Record::Quote(quote) => Field::Quote(*quote),
    }
}

/// The bytes of these fields, one behind the other.
pub fn sheet_of(fields: &[Field]) -> Vec<u8> {
    fields.iter().flat_map(encode).collect()
}

/// These fields and an end field with the right count behind them.
pub fn ended(fields: &[Field]) -> Vec<Field> {
    let mut all = fields.to_vec();
    all.push(end(fields.len() as u32));
    all
}

/// The bytes of these fields and of the right end field.
pub fn ended_sheet(fields: &[Field]) -> Vec<u8> {
    sheet_of(&ended(fields))
}

/// The byte at which the field with this index starts.
pub fn start_of(fields: &[Field], index: usize) -> usize {
    let before = fields.iter().take(index);
    before.map(|field| encode(field).len()).sum()
}
