//! A whole day sheet: fields in sheet order, each in its place and with good
//! values, closed by an end field with the right count and nothing behind it.

use crate::field::{judge_values, read_field, take_field, Field, Header, Quote, Refusal, Trade, HEAD};
use crate::tables::{barred_instruments, SHEET_LIMIT};

/// A trade or a quote.
#[derive(Clone, Copy, Debug, PartialEq, Eq)]
pub enum Record {
    Trade(Trade),
    Quote(Quote),
}

impl Record {
    pub fn time(&self) -> u32 {
        match self {
            Record::Trade(trade) => trade.time,
            Record::Quote(quote) => quote.time,
        }
    }

    pub fn instrument(&self) -> u8 {
        match self {
            Record::Trade(trade) => trade.instrument,
            Record::Quote(quote) => quote.instrument,
        }
    }
}

/// What an accepted sheet says.
#[derive(Clone, Debug, PartialEq, Eq)]
pub struct Day {
    pub metal: u8,
    pub marks: u16,
    /// The byte of a long header; none where the header is short.
    pub third: Option<u8>,
    /// Previous closes as quoted, by instrument.
    pub previous_closes: [Option<i32>; 12],
    /// Trades and quotes in sheet order.
    pub records: Vec<Record>,
    /// All fields, header and end included.
    pub fields: usize,
}

impl Day {
    /// The previous close of an instrument, as quoted.
    pub fn previous_close(&self, instrument: u8) -> Option<i32> {
        let close = self.previous_closes.get(usize::from(instrument));
        close.copied().flatten()
    }

    /// Is the spread's mark set? Instrument 0 has none.
    pub fn is_marked(&self, instrument: u8) -> bool {
        (1..=11).contains(&instrument) && (self.marks >> (instrument - 1)) & 1 == 1
    }
}

/// What has been met of a sheet so far.
#[derive(Default)]
pub(crate) struct Met {
    header: Option<Header>,
    last_close: Option<u8>,
    last_time: Option<u32>,
    previous_closes: [Option<i32>; 12],
    records: Vec<Record>,
    pub(crate) fields: usize,
}

impl Met {
    /// May this field stand here?
    fn has_place_for(&self, field: &Field) -> bool {
        if let Field::Header(_) = field {
            return self.fields == 0;
        }
        if self.header.is_none() {
            return false;
        }
        match field {
            Field::PreviousClose(close) => {
                let rises = self.last_close.is_none_or(|last| close.instrument > last);
                self.records.is_empty() && rises
            }
            _ => true,
        }
    }

    /// A field that is the next one: 5 for its place, then 6, 7, 18 and 8 to 11
    /// for its values.
    pub(crate) fn judge(&self, field: &Field) -> Result<(), u8> {
        if !self.has_place_for(field) {
            return Err(5);
        }
        let barred = self.header.map_or(&[][..], |header| barred_instruments(header.third));
        judge_values(field, self.last_time.unwrap_or(0), barred)
    }

    /// Enters a field that stands in its place and has good values.
    pub(crate) fn enter(&mut self, field: &Field) {
        self.fields += 1;
        match field {
            Field::Header(header) => self.header = Some(*header),
            Field::PreviousClose(close) => {
                self.last_close = Some(close.instrument);
                if let Some(entry) = self.previous_closes.get_mut(usize::from(close.instrument)) {
                    *entry = Some(close.price);
                }
            }
            Field::Trade(trade) => self.enter_record(Record::Trade(*trade)),
            Field::Quote(quote) => self.enter_record(Record::Quote(*quote)),
            Field::End(_) => {}
        }
    }

    fn enter_record(&mut self, record: Record) {
        self.last_time = Some(record.time());
        self.records.push(record);
    }

    fn into_day(self) -> Option<Day> {
        let header = self.header?;
        Some(Day {
            metal: header.metal,
            marks: header.marks,
            third: header.third,
            previous_closes: self.previous_closes,
            records: self.records,
            fields: self.fields,
        })
    }
}

/// The tag of the new header, which a reader of the old one alone does not know.
const NEW_HEADER: u8 = 6;

/// One field judged in its sheet, by a reader of both headers or of the old one
/// alone: 2, 3, 4, 2, then 5, then 6, 7, 18, 8 to 12.
fn judge_field<const OLD_ALONE: bool>(sheet: &[u8], at: usize, met: &Met) -> Result<(Field, usize), u8> {
    if OLD_ALONE && sheet.get(at..at + HEAD).is_some_and(|head| head[0] == NEW_HEADER) {
        return Err(3);
    }
    let (field, next) = take_field(sheet, at)?;
    met.judge(&field)?;
    match field {
        Field::End(end) if end.count as usize != met.fields => Err(12),
        _ => Ok((field, next)),
    }
}

/// The day a sheet holds, or the refusal's number (SHEET 4) with its byte.
pub fn judge_sheet(sheet: &[u8]) -> Result<Day, Refusal> {
    judge_by::<false>(sheet)
}

/// What a reader of 01 alone, the scope without its change requests, says of a sheet:
/// it knows the old header only (W-204), and tag 6 is 3 to it.
pub fn judge_by_01_alone(sheet: &[u8]) -> Result<(), Refusal> {
    judge_by::<true>(sheet).map(|_| ())
}

/// A sheet judged by a reader of both headers, or of the old one alone.
fn judge_by<const OLD_ALONE: bool>(sheet: &[u8]) -> Result<Day, Refusal> {
    if sheet.len() > SHEET_LIMIT {
        return Err((1, 0));
    }
    let mut met = Met::default();
    let mut at = 0;
    loop {
        let (field, next) = judge_field::<OLD_ALONE>(sheet, at, &met).map_err(|refusal| (refusal, at))?;
        met.enter(&field);
        at = next;
        if let Field::End(_) = field {
            break;
        }
    }
    if at < sheet.len() {
        return Err((5, at));
    }
    met.into_day().ok_or((5, 0))
}

/// All fields of an accepted sheet, header and end included.
pub fn fields_of(sheet: &[u8]) -> Result<Vec<Field>, Refusal> {
    let day = judge_sheet(sheet)?;
    let mut fields = Vec::new();
    let mut at = 0;
    while fields.len() < day.fields {
        let (field, next) = read_field(sheet, at)?;
        fields.push(field);
        at = next;
    }
    Ok(fields)
}
