//! Accepted sheets of an exact number of bytes, each of one kind.

use independent::draft::{close, ended_sheet, header, long_header, quote, record_field, trade};
use independent::field::{Field, Quote, Trade};
use independent::random::Random;
use independent::sheet::Record;
use independent::tables::{window_start, METALS, WINDOW};

/// The Nickel sheet of docs/SHEET.md: four contracts by VWAP, two by TWAP.
const NICKEL: &[u8] = include_bytes!("../../examples/nickel.sheet");

/// The instruments that a TWAP asks for, one for each contract.
const ASKED: [u8; 6] = [0, 1, 3, 5, 7, 11];

/// All instruments, and those that are left where 3M is M3.
const ALL: [u8; 12] = [0, 1, 2, 3, 4, 5, 6, 7, 8, 9, 10, 11];
const LEFT: [u8; 8] = [0, 3, 4, 5, 7, 8, 10, 11];

pub const SIZES: [usize; 3] = [130, 65_536, 1_048_576];

#[derive(Clone, Copy, Debug, PartialEq, Eq)]
pub enum Kind {
    /// 19 of 20 records are trades, over four windows' length around both windows.
    Trades,
    /// 19 of 20 records are quotes, over the same time.
    Quotes,
    /// Half trades, all before the windows; half quotes, all inside them.
    Twap,
    /// Half trades, half quotes, all inside the windows.
    Vwap,
    /// The same behind a long header by which 3M is M3, on the instruments that are left.
    Third,
}

pub const KINDS: [Kind; 5] = [Kind::Trades, Kind::Quotes, Kind::Twap, Kind::Vwap, Kind::Third];

impl Kind {
    pub fn name(self) -> &'static str {
        match self {
            Kind::Trades => "trades",
            Kind::Quotes => "quotes",
            Kind::Twap => "twap",
            Kind::Vwap => "vwap",
            Kind::Third => "third",
        }
    }

    pub fn named(name: &str) -> Option<Kind> {
        KINDS.into_iter().find(|kind| kind.name() == name)
    }

    fn header(self) -> Field {
        match self {
            Kind::Third => long_header(1, 0, 1),
            _ => header(1, 0),
        }
    }

    fn instruments(self) -> &'static [u8] {
        match self {
            Kind::Third => &LEFT,
            _ => &ALL,
        }
    }

    /// How many of 20 bytes of records are quotes.
    fn quotes_of_20(self) -> usize {
        match self {
            Kind::Trades => 1,
            Kind::Quotes => 19,
            Kind::Twap | Kind::Vwap | Kind::Third => 10,
        }
    }
}

/// How many trades and quotes fill so many bytes, near the kind's share.
fn filling(kind: Kind, bytes: usize) -> (usize, usize) {
    let most = bytes * kind.quotes_of_20() / 20 / 17;
    let fits = |quotes: &usize| (bytes - quotes * 17).is_multiple_of(14);
    let quotes = (0..=most).rev().find(fits).unwrap_or(0);
    ((bytes - quotes * 17) / 14, quotes)
}

struct Maker {
    random: Random,
    kind: Kind,
}

impl Maker {
    fn price(&mut self, instrument: u8) -> i32 {
        let about = if instrument == 0 { 1_800_000 } else { 0 };
        about + self.random.price(-600, 600)
    }

    fn instrument(&mut self) -> u8 {
        self.random.pick(self.kind.instruments())
    }

    fn inside(&mut self, instrument: u8) -> u32 {
        let start = window_start(&METALS[0], instrument);
        self.random.time(start, start + WINDOW - 1)
    }

    fn around(&mut self) -> u32 {
        let start = METALS[0].spread_start;
        self.random.time(start - WINDOW, start + 3 * WINDOW - 1)
    }

    fn trade(&mut self) -> Record {
        let instrument = self.instrument();
        let start = METALS[0].spread_start;
        let time = match self.kind {
            Kind::Trades | Kind::Quotes => self.around(),
            Kind::Twap => self.random.time(start - WINDOW, start - 1),
            Kind::Vwap | Kind::Third => self.inside(instrument),
        };
        let price = self.price(instrument);
        let lots = self.random.between(1, 10) as u16;
        Record::Trade(Trade { time, instrument, price, lots })
    }

    fn quote(&mut self) -> Record {
        let instrument = self.instrument();
        let time = match self.kind {
            Kind::Trades | Kind::Quotes => self.around(),
            Kind::Twap | Kind::Vwap | Kind::Third => self.inside(instrument),
        };
        let bid = self.price(instrument);
        let offer = bid + self.random.price(0, 50);
        Record::Quote(Quote { time, instrument, sides: 3, bid, offer })
    }

    /// A header, a close of each instrument, records in the order of their times, an end.
    fn sheet(mut self, bytes: usize) -> Vec<u8> {
        let mut fields = vec![self.kind.header()];
        for &instrument in self.kind.instruments() {
            fields.push(close(instrument, self.price(instrument)));
        }
        let other = ended_sheet(&fields).len();
        let (trades, quotes) = filling(self.kind, bytes - other);
        let mut records: Vec<Record> = (0..trades).map(|_| self.trade()).collect();
        records.extend((0..quotes).map(|_| self.quote()));
        self.random.shuffle(&mut records);
        records.sort_by_key(Record::time);
        fields.extend(records.iter().map(record_field));
        ended_sheet(&fields)
    }
}

/// The sheets of 130 bytes, too short for a share.
fn short(kind: Kind) -> Vec<u8> {
    let at = |instrument: u8| window_start(&METALS[0], instrument);
    let price = |instrument: u8| if instrument == 0 { 1_800_040 } else { -300 };
    let trade_on = |i: u8, lots: u16| trade(at(i), i, price(i), lots);
    let quote_on = |i: u8| quote(at(i) + 60_000, i, 3, price(i) + 10, price(i) + 20);
    let close_on = |i: u8| close(i, price(i));
    let mut fields = vec![kind.header()];
    match kind {
        Kind::Trades => return NICKEL.to_vec(),
        Kind::Quotes => {
            fields.extend([0, 1, 3, 5].map(close_on));
            fields.extend([1, 3, 5, 7, 0].map(quote_on));
        }
        Kind::Twap => {
            fields.extend([0, 1, 3].map(close_on));
            fields.extend([5, 7, 11].map(|i| trade_on(i, 1)));
            fields.extend([5, 7, 0].map(quote_on));
        }
        Kind::Vwap => {
            fields.extend([7, 11].map(close_on));
            fields.extend(ASKED.into_iter().skip(1).map(|i| trade_on(i, 6)));
            fields.extend([quote_on(7), trade_on(0, 6)]);
        }
        Kind::Third => {
            fields.extend([3, 5, 7, 8, 11].map(close_on));
            fields.extend([3, 5].map(|i| trade_on(i, 6)));
            fields.extend([quote_on(7), quote_on(11), trade_on(0, 6)]);
        }
    }
    ended_sheet(&fields)
}

/// The sheet of a kind and size; the same one each time.
pub fn sheet(kind: Kind, bytes: usize) -> Vec<u8> {
    if bytes == 130 {
        return short(kind);
    }
    let random = Random::new(bytes as u64 + kind as u64);
    Maker { random, kind }.sheet(bytes)
}
