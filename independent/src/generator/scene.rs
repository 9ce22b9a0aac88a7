//! A random accepted day: each contract gets an activity of its own, aimed at
//! one of the lines that RULES and SHEET draw.

use crate::draft::{close, record_field};
use crate::field::{Field, Header, Quote, Trade, BID, OFFER};
use crate::random::Random;
use crate::sheet::Record;
use crate::tables::{
    allowed_instruments, window_start, Metal, ALL_MARKS, CONTRACTS, GREATEST_LOTS, GREATEST_OUTRIGHT,
    GREATEST_SPREAD, LAST_TIME, LEAST_OUTRIGHT, METALS, WINDOW,
};

/// What happens in one contract's instruments.
#[derive(Clone, Copy)]
enum Activity {
    Nothing,
    /// 5 lots exactly, over several instruments.
    FiveLots,
    /// 4 lots exactly, over several instruments.
    FourLots,
    ManyLots,
    /// A VWAP on, just below or just above a half.
    HalfVwap,
    /// A TWAP on, just below or just above a half.
    HalfTwap,
    /// A side that rests from before the window, or is taken away.
    Resting,
    /// A TWAP that tells in which millisecond each of its records is.
    Spans,
    /// Trades at the edges of both windows.
    Edges,
    /// No previous close, a trade at the window's first millisecond.
    TradeAtStart,
    /// No previous close, a trade one millisecond later.
    TradeBehindStart,
}

const ACTIVITIES: [Activity; 18] = [
    Activity::Nothing,
    Activity::Nothing,
    Activity::FiveLots,
    Activity::FiveLots,
    Activity::FourLots,
    Activity::FourLots,
    Activity::ManyLots,
    Activity::HalfVwap,
    Activity::HalfVwap,
    Activity::HalfTwap,
    Activity::HalfTwap,
    Activity::Resting,
    Activity::Resting,
    Activity::Spans,
    Activity::Spans,
    Activity::Edges,
    Activity::Edges,
    Activity::TradeAtStart,
];

/// A header's byte: a third of all headers are long, with each of 0, 1 and 2 as
/// often.
pub fn any_third(random: &mut Random) -> Option<u8> {
    (random.below(3) == 0).then(|| random.below(3) as u8)
}

/// A day in the making.
pub struct Scene<'a> {
    random: &'a mut Random,
    number: u8,
    metal: &'static Metal,
    marks: u16,
    /// The byte of a long header; none for a short one.
    third: Option<u8>,
    /// The instruments that the header does not bar.
    allowed: Vec<u8>,
    /// Outright prices lie around this one.
    base: i32,
    /// Spread prices lie between its negative and this.
    width: i32,
    previous_closes: [Option<i32>; 12],
    records: Vec<Record>,
}

impl<'a> Scene<'a> {
    /// A random day.
    pub fn random(random: &'a mut Random) -> Self {
        let third = any_third(random);
        Scene::random_with(random, third)
    }

    /// A random day whose header has this byte.
    pub fn random_with(random: &'a mut Random, third: Option<u8>) -> Self {
        let mut scene = Scene::empty_with(random, third);
        if scene.random.chance(8) {
            scene.fill_tiny();
        } else {
            scene.fill_closes();
            for contract in 0..CONTRACTS.len() {
                scene.fill_contract(contract);
            }
            if scene.random.chance(30) {
                let count = scene.random.between(1, 8);
                scene.add_noise(count);
            }
        }
        scene
    }

    /// A day with a header and a level of prices, and nothing else.
    pub fn empty(random: &'a mut Random) -> Self {
        let third = any_third(random);
        Scene::empty_with(random, third)
    }

    /// The same with this byte in its header.
    pub fn empty_with(random: &'a mut Random, third: Option<u8>) -> Self {
        let number = random.between(1, METALS.len() as i64) as u8;
        let marks = match random.below(3) {
            0 => 0,
            1 => 1 << random.below(11),
            _ => random.draw() as u16 & ALL_MARKS,
        };
        let base = match random.below(20) {
            0 => random.price(1, 120),
            1 => random.price(99_999_880, GREATEST_OUTRIGHT),
            2 => random.price(LEAST_OUTRIGHT, GREATEST_OUTRIGHT),
            _ => random.price(150_000, 3_000_000),
        };
        let width = match random.below(20) {
            0 => GREATEST_SPREAD,
            1 => 60_000,
            2..=7 => 3,
            8..=10 => 60,
            _ => 600,
        };
        Scene {
            random,
            number,
            metal: &METALS[usize::from(number) - 1],
            marks,
            third,
            allowed: allowed_instruments(third),
            base,
            width,
            previous_closes: [None; 12],
            records: Vec::new(),
        }
    }

    /// The fields of the day without the end: times never fall, and equal
    /// times stand in a random order.
    pub fn fields(mut self) -> Vec<Field> {
        self.random.shuffle(&mut self.records);
        self.records.sort_by_key(Record::time);
        let header = Header { metal: self.number, marks: self.marks, third: self.third };
        let mut fields = vec![Field::Header(header)];
        for (instrument, price) in (0..).zip(self.previous_closes) {
            fields.extend(price.map(|price| close(instrument, price)));
        }
        fields.extend(self.records.iter().map(record_field));
        fields
    }

    /// A day of a few fields.
    fn fill_tiny(&mut self) {
        for _ in 0..self.random.below(3) {
            let instrument = self.random.pick(&self.allowed);
            self.set_close(instrument);
        }
        let count = self.random.between(0, 2);
        self.add_noise(count);
    }

    /// Previous closes: mostly all that a TWAP asks for, sometimes fewer.
    fn fill_closes(&mut self) {
        let (asked_for, others) = match self.random.below(20) {
            0 => (0, 0),
            1..=2 => (70, 50),
            3..=6 => (100, 100),
            _ => (100, 10),
        };
        for instrument in self.allowed.clone() {
            let asked = CONTRACTS.iter().any(|row| row.twap_from == instrument);
            let percent = if asked { asked_for } else { others };
            if self.random.chance(percent) {
                self.set_close(instrument);
            }
        }
    }

    fn set_close(&mut self, instrument: u8) {
        let price = self.price(instrument);
        self.previous_closes[usize::from(instrument)] = Some(price);
    }

    /// The contract's VWAP instruments that the header does not bar: none of the
    /// contract that 3M is.
    fn vwap_from(&self, contract: usize) -> Vec<u8> {
        let from = CONTRACTS[contract].vwap_from.iter().copied();
        from.filter(|instrument| self.allowed.contains(instrument)).collect()
    }

    /// One contract's activity, and quotes of its TWAP instrument half the time.
    fn fill_contract(&mut self, contract: usize) {
        if self.vwap_from(contract).is_empty() {
            return;
        }
        let activity =
            if self.random.chance(3) { Activity::TradeBehindStart } else { self.random.pick(&ACTIVITIES) };
        match activity {
            Activity::Nothing => {}
            Activity::FiveLots => self.split_lots(contract, 5),
            Activity::FourLots => self.split_lots(contract, 4),
            Activity::ManyLots => {
                let lots = self.random.between(6, 30_000) as u64;
                self.split_lots(contract, lots);
            }
            Activity::HalfVwap => self.half_vwap(contract),
            Activity::HalfTwap => return self.half_twap(contract),
            Activity::Resting => return self.resting(contract),
            Activity::Spans => return self.spans(contract),
            Activity::Edges => self.edges(contract),
            Activity::TradeAtStart => self.first_trade(contract, 0),
            Activity::TradeBehindStart => self.first_trade(contract, 1),
        }
        if self.random.chance(50) {
            let count = self.random.between(1, 4);
            self.add_quotes(CONTRACTS[contract].twap_from, count);
        }
    }

    /// Trades inside the window with this sum of lots, over any of the
    /// contract's instruments.
    fn split_lots(&mut self, contract: usize, lots: u64) {
        let instruments = self.vwap_from(contract);
        let mut left = lots;
        while left > 0 {
            let most = left.min(u64::from(GREATEST_LOTS));
            let part = self.random.between(1, most as i64) as u16;
            let instrument = self.random.pick(&instruments);
            let time = self.time_inside(instrument);
            let price = self.price(instrument);
            self.add_trade(time, instrument, price, part);
            left -= u64::from(part);
        }
    }

    /// Equal lots one rounding step apart, or one trade on the middle of a
    /// step; now and then moved off the half by one lot or one cent.
    fn half_vwap(&mut self, contract: usize) {
        let instruments = self.vwap_from(contract);
        let instrument = self.random.pick(&instruments);
        let (low, step) = self.stepped_price(instrument);
        let lots = self.random.between(3, 40) as u16;
        let off = self.random.pick(&[0, 0, 1]);
        let times = [self.time_inside(instrument), self.time_inside(instrument)];
        if instrument == 0 && self.random.chance(50) {
            let nudge = self.random.pick(&[-1, 0, 0, 1]);
            let price = low + step / 2 + nudge;
            return self.add_trade(times[0], instrument, price, lots + 2);
        }
        self.add_trade(times[0], instrument, low, lots + off);
        self.add_trade(times[1], instrument, low + step, lots);
    }

    /// The reference for half of the window and a better side one step away
    /// for the other half; or one millisecond of a side 150,000 steps away.
    /// The side comes in the window, or rests from before it until it goes.
    fn half_twap(&mut self, contract: usize) {
        let instrument = CONTRACTS[contract].twap_from;
        let start = window_start(self.metal, instrument);
        let (low, step) = self.stepped_price(instrument);
        self.previous_closes[usize::from(instrument)] = Some(low);
        if self.random.chance(30) {
            let time = self.random.pick(&[start - 1, start]);
            self.add_trade(time, instrument, low, 1);
        }
        let nudge = self.random.pick(&[-1, 0, 0, 1]);
        let (length, away) = if instrument != 0 && self.random.chance(40) {
            (1, 150_000 + nudge)
        } else {
            ((WINDOW / 2).saturating_add_signed(nudge), step)
        };
        if self.random.chance(50) {
            return self.add_better_side(start + WINDOW - length, instrument, low, away);
        }
        let time = self.time_before(instrument);
        self.add_better_side(time, instrument, low, away);
        self.add_quote(start + length, instrument, 0, 0, 0);
    }

    /// A side better than the previous close from before the window on; half
    /// the time an empty quote comes behind it, before the window or inside it.
    fn resting(&mut self, contract: usize) {
        let instrument = CONTRACTS[contract].twap_from;
        let (low, step) = self.stepped_price(instrument);
        self.previous_closes[usize::from(instrument)] = Some(low);
        let time = self.time_before(instrument);
        let away = step * self.random.price(1, 9);
        self.add_better_side(time, instrument, low, away);
        if self.random.chance(50) {
            let later = self.time_around(instrument).max(time);
            self.add_quote(later, instrument, 0, 0, 0);
        }
    }

    /// Records of the TWAP instrument at the window's first two milliseconds, its
    /// last and the first behind it, at a few on end and before the window, up to
    /// two at each, with at most 4 lots. What is 150,000 steps away shows for a
    /// millisecond too.
    fn spans(&mut self, contract: usize) {
        let instrument = CONTRACTS[contract].twap_from;
        let start = window_start(self.metal, instrument);
        let behind = start + WINDOW;
        let (low, step) = self.stepped_price(instrument);
        self.previous_closes[usize::from(instrument)] = Some(low);
        let mut times = vec![(start, true), (start + 1, false), (behind - 1, true), (behind, true)];
        let first = self.time_inside(instrument);
        let on_end = self.random.below(6) as u32;
        times.extend((0..on_end).map(|after| (first + after, after % 2 == 0)));
        times.extend([true, false, false].map(|far| (self.time_before(instrument), far)));
        let mut lots = 4;
        for (time, far) in times {
            for _ in 0..self.random.pick(&[0, 1, 1, 2]) {
                let away = if far { 150_000 + self.random.price(-1, 1) } else { self.random.price(0, 9) };
                if lots > 0 && self.random.chance(40) {
                    lots -= 1;
                    let sign = self.random.pick(&[-1, 1]);
                    self.add_trade(time, instrument, low + sign * step * away, 1);
                } else {
                    self.add_better_side(time, instrument, low, step * away);
                }
            }
        }
    }

    /// A quote of a bid so far above the reference alone, or an offer so far
    /// below it.
    fn add_better_side(&mut self, time: u32, instrument: u8, reference: i32, away: i32) {
        if self.random.chance(50) {
            let bid = self.inside(instrument, reference + away);
            self.add_quote(time, instrument, BID, bid, 0);
        } else {
            let offer = self.inside(instrument, reference - away);
            self.add_quote(time, instrument, OFFER, 0, offer);
        }
    }

    /// Trades at the first and last millisecond of both windows and just
    /// outside them.
    fn edges(&mut self, contract: usize) {
        let instruments = self.vwap_from(contract);
        let instrument = self.random.pick(&instruments);
        for start in [self.metal.spread_start, self.metal.anchor_start] {
            for time in [start - 1, start, start + WINDOW - 1, start + WINDOW] {
                if self.random.chance(50) {
                    let lots = self.random.between(1, 9) as u16;
                    let price = self.price(instrument);
                    self.add_trade(time, instrument, price, lots);
                }
            }
        }
    }

    /// No previous close, and the first trade of the TWAP instrument so many
    /// milliseconds behind the window's start.
    fn first_trade(&mut self, contract: usize, behind: u32) {
        let instrument = CONTRACTS[contract].twap_from;
        self.previous_closes[usize::from(instrument)] = None;
        let time = window_start(self.metal, instrument) + behind;
        let lots = self.random.between(1, 5) as u16;
        let price = self.price(instrument);
        self.add_trade(time, instrument, price, lots);
    }

    /// Quotes of one instrument, often two of one millisecond.
    fn add_quotes(&mut self, instrument: u8, count: i64) {
        let mut time = self.time_around(instrument);
        for _ in 0..count {
            if self.random.chance(75) {
                time = self.time_around(instrument);
            }
            self.add_random_quote(time, instrument);
        }
    }

    /// Records of any instrument at any time.
    pub fn add_noise(&mut self, count: i64) {
        for _ in 0..count {
            let instrument = self.random.pick(&self.allowed);
            let time = self.any_time(instrument);
            if self.random.chance(50) {
                self.add_random_quote(time, instrument);
            } else {
                self.add_random_trade(time, instrument);
            }
        }
    }

    /// Trades or quotes only, as many as asked for.
    pub fn add_kind(&mut self, trades: bool, count: usize) {
        for _ in 0..count {
            let instrument = self.random.pick(&self.allowed);
            let time = self.any_time(instrument);
            if trades {
                self.add_random_trade(time, instrument);
            } else {
                self.add_random_quote(time, instrument);
            }
        }
    }

    /// Previous closes of the first instruments of the TWAP order that the header
    /// does not bar.
    pub fn add_closes(&mut self, count: usize) {
        let mut order = vec![0, 1, 3, 5, 7, 11, 2, 4, 6, 8, 9, 10];
        order.retain(|instrument| self.allowed.contains(instrument));
        for instrument in order.into_iter().take(count) {
            self.set_close(instrument);
        }
    }

    fn add_random_trade(&mut self, time: u32, instrument: u8) {
        let most = self.random.pick(&[1, 4, 5, 100, i64::from(GREATEST_LOTS)]);
        let lots = self.random.between(1, most) as u16;
        let price = self.price(instrument);
        self.add_trade(time, instrument, price, lots);
    }

    fn add_random_quote(&mut self, time: u32, instrument: u8) {
        let one = self.price(instrument);
        let other = match self.random.below(4) {
            0 => one,
            _ => self.price(instrument),
        };
        let sides = self.random.below(4) as u8;
        let bid = if sides & BID != 0 { one.min(other) } else { 0 };
        let offer = if sides & OFFER != 0 { one.max(other) } else { 0 };
        self.add_quote(time, instrument, sides, bid, offer);
    }

    fn add_trade(&mut self, time: u32, instrument: u8, price: i32, lots: u16) {
        let price = self.inside(instrument, price);
        self.records.push(Record::Trade(Trade { time, instrument, price, lots }));
    }

    fn add_quote(&mut self, time: u32, instrument: u8, sides: u8, bid: i32, offer: i32) {
        self.records.push(Record::Quote(Quote { time, instrument, sides, bid, offer }));
    }

    /// The nearest price that is in the instrument's range.
    fn inside(&self, instrument: u8, price: i32) -> i32 {
        if instrument == 0 {
            price.clamp(LEAST_OUTRIGHT, GREATEST_OUTRIGHT)
        } else {
            price.clamp(-GREATEST_SPREAD, GREATEST_SPREAD)
        }
    }

    /// A price of the instrument at the day's level; for a spread 0 and the
    /// ends of the range come up now and then.
    fn price(&mut self, instrument: u8) -> i32 {
        let price = match (instrument, self.random.below(40)) {
            (0, _) => self.base + self.random.price(-250, 250),
            (_, 0..=5) => 0,
            (_, 6) if self.width == GREATEST_SPREAD => GREATEST_SPREAD,
            (_, 7) if self.width == GREATEST_SPREAD => -GREATEST_SPREAD,
            _ => self.random.price(-self.width, self.width),
        };
        self.inside(instrument, price)
    }

    /// A price on a whole step of the instrument's contract, and the step.
    fn stepped_price(&mut self, instrument: u8) -> (i32, i32) {
        let price = self.price(instrument);
        if instrument != 0 {
            return (price, 1);
        }
        let step = self.metal.step;
        let stepped = (price / step * step).max(step);
        (stepped, step)
    }

    /// A time inside the instrument's window, its edges included.
    fn time_inside(&mut self, instrument: u8) -> u32 {
        let start = window_start(self.metal, instrument);
        let last = start + WINDOW - 1;
        match self.random.below(8) {
            0 => start,
            1 => last,
            2 => start + WINDOW / 2,
            _ => self.random.time(start, last),
        }
    }

    /// A time before the instrument's window: the day's first, the last before
    /// the window, any between, and mostly of the five minutes before it.
    fn time_before(&mut self, instrument: u8) -> u32 {
        let start = window_start(self.metal, instrument);
        match self.random.below(6) {
            0 => 0,
            1 => start - 1,
            2 => self.random.time(0, start - 1),
            _ => self.random.time(start - WINDOW, start - 1),
        }
    }

    /// A time before the instrument's window as often as inside it, now and
    /// then right behind it; edges more often.
    fn time_around(&mut self, instrument: u8) -> u32 {
        let start = window_start(self.metal, instrument);
        match self.random.below(16) {
            0 => start + WINDOW,
            1 => start + 1,
            2..=8 => self.time_inside(instrument),
            _ => self.time_before(instrument),
        }
    }

    /// A time of the day, mostly near a window, often one already used.
    fn any_time(&mut self, instrument: u8) -> u32 {
        match self.random.below(10) {
            0 => self.random.pick(&[0, LAST_TIME]),
            1 => self.random.time(0, LAST_TIME),
            2..=4 if !self.records.is_empty() => {
                let used = self.random.index(self.records.len());
                self.records[used].time()
            }
            _ => self.time_around(instrument),
        }
    }
}
