//! The indicator, the spans of a window over which it stands, and its sum over the
//! 300,000 milliseconds, taken twice: by walking every one, and span by span.

use crate::field::{Quote, BID, OFFER};
use crate::sheet::{Day, Record};
use crate::tables::WINDOW;

/// What the indicator is made of: the reference and the book's two sides.
#[derive(Clone, Copy, Debug, PartialEq, Eq)]
pub struct Indicator {
    pub reference: Option<i32>,
    pub bid: Option<i32>,
    pub offer: Option<i32>,
}

impl Indicator {
    /// Before any record: the previous close and an empty book.
    pub fn new(previous_close: Option<i32>) -> Self {
        Indicator { reference: previous_close, bid: None, offer: None }
    }

    /// A trade becomes the reference and leaves the book.
    pub fn after_trade(self, price: i32) -> Self {
        Indicator { reference: Some(price), ..self }
    }

    /// A quote replaces both sides and leaves the reference.
    pub fn after_quote(self, quote: &Quote) -> Self {
        Indicator {
            reference: self.reference,
            bid: (quote.sides & BID != 0).then_some(quote.bid),
            offer: (quote.sides & OFFER != 0).then_some(quote.offer),
        }
    }

    /// A record of this instrument, at whatever time of the day: an order given
    /// before the window rests into it.
    pub fn after(self, record: &Record) -> Self {
        match record {
            Record::Trade(trade) => self.after_trade(trade.price),
            Record::Quote(quote) => self.after_quote(quote),
        }
    }

    /// The indicator; none where there is no reference.
    pub fn value(&self) -> Option<i128> {
        let reference = self.reference?;
        let value = match (self.bid, self.offer) {
            (Some(bid), _) if bid > reference => bid,
            (_, Some(offer)) if offer < reference => offer,
            _ => reference,
        };
        Some(i128::from(value))
    }
}

/// How the indicator of an instrument is summed over the window at a start.
pub type IndicatorSum = fn(&Day, u8, u32) -> Option<i128>;

/// The sum of the quoted indicator over every millisecond of the window, or
/// none where a millisecond has no indicator.
pub fn sum_by_walking(day: &Day, instrument: u8, start: u32) -> Option<i128> {
    let mut indicator = Indicator::new(day.previous_close(instrument));
    let mut records = day.records.iter().filter(|record| record.instrument() == instrument).peekable();
    let mut sum = 0;
    for millisecond in start..start.saturating_add(WINDOW) {
        while let Some(record) = records.next_if(|record| record.time() <= millisecond) {
            indicator = indicator.after(record);
        }
        sum += indicator.value()?;
    }
    Some(sum)
}

/// A stretch of the window with no record of the instrument behind its first
/// millisecond, and what stands over it.
#[derive(Clone, Copy, Debug, PartialEq, Eq)]
pub struct Span {
    pub from: u32,
    /// The first millisecond behind it.
    pub to: u32,
    pub state: Indicator,
}

impl Span {
    pub fn milliseconds(&self) -> u32 {
        self.to - self.from
    }

    /// The indicator over the span; none where there is no reference yet.
    pub fn indicator(&self) -> Option<i128> {
        self.state.value()
    }

    /// The indicator times the length.
    pub fn product(&self) -> Option<i128> {
        Some(self.indicator()? * i128::from(self.milliseconds()))
    }
}

/// The spans of a window in order: what is left of the day's records, and where
/// and with what the next span begins.
struct Spans<'a> {
    records: &'a [Record],
    instrument: u8,
    state: Indicator,
    from: u32,
    behind: u32,
}

impl Iterator for Spans<'_> {
    type Item = Span;

    /// Takes every record up to and at the span's first millisecond; the next one
    /// of the instrument ends the span, or the window does.
    fn next(&mut self) -> Option<Span> {
        if self.from >= self.behind {
            return None;
        }
        let to = loop {
            let Some((record, rest)) = self.records.split_first() else {
                break self.behind;
            };
            if record.instrument() == self.instrument {
                if record.time() > self.from {
                    break record.time().min(self.behind);
                }
                self.state = self.state.after(record);
            }
            self.records = rest;
        };
        let span = Span { from: self.from, to, state: self.state };
        self.from = to;
        Some(span)
    }
}

/// The spans of an instrument in the window at a start. The first begins there; a
/// new one begins at each later millisecond of the window with a record of the
/// instrument, also where the indicator stays; the last ends behind the window.
pub fn spans(day: &Day, instrument: u8, start: u32) -> impl Iterator<Item = Span> + '_ {
    Spans {
        records: &day.records,
        instrument,
        state: Indicator::new(day.previous_close(instrument)),
        from: start,
        behind: start.saturating_add(WINDOW),
    }
}

/// The same sum by spans: price times length of each, or none where the first has
/// no reference.
pub fn sum_by_spans(day: &Day, instrument: u8, start: u32) -> Option<i128> {
    spans(day, instrument, start).map(|span| span.product()).sum()
}
