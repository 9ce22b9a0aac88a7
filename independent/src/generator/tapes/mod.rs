//! Random texts of the tape (W-202) from a seed: canonical ones, which are
//! accepted and are the text of their sheet, and the same with damage done.

mod bytes;
mod damage;
mod lines;
mod names;
mod numerals;
mod parts;
mod sized;
mod values;

pub use damage::{Damage, DAMAGES};
pub use sized::sized_tape;

use crate::draft::{close, quote, trade};
use crate::field::{Field, Header, BID, OFFER};
use crate::generator::scene::{any_third, Scene};
use crate::random::Random;
use crate::tables::{
    allowed_instruments, metal_row, ALL_MARKS, GREATEST_LOTS, GREATEST_OUTRIGHT, GREATEST_SPREAD,
    INSTRUMENT_NAMES, LAST_TIME, LEAST_OUTRIGHT, METALS,
};

#[derive(Clone, Copy, Debug, PartialEq, Eq)]
pub enum TapeKind {
    Canonical,
    Damaged,
}

/// A text, by its seed, its number and its kind only. The damaged text of a
/// number is its canonical one with one damage done, or two.
pub fn tape(seed: u64, number: u64, kind: TapeKind) -> Vec<u8> {
    let mut random = Random::for_item(seed, number);
    let text = text_of(&canonical_fields(&mut random));
    match kind {
        TapeKind::Canonical => text,
        TapeKind::Damaged => damage::damaged(&mut random, text),
    }
}

/// A day without its end: of the sheets' own generator, with every value at an
/// end of its range or where the number of its digits changes, or a long one.
fn canonical_fields(random: &mut Random) -> Vec<Field> {
    match random.below(400) {
        0 => long_day(random),
        1..=160 => day_of_edges(random),
        _ => Scene::random(random).fields(),
    }
}

fn long_day(random: &mut Random) -> Vec<Field> {
    let trades = random.between(200, 900) as usize;
    let quotes = random.between(200, 900) as usize;
    let mut scene = Scene::empty(random);
    scene.add_closes(12);
    scene.add_kind(true, trades);
    scene.add_kind(false, quotes);
    scene.fields()
}

fn day_of_edges(random: &mut Random) -> Vec<Field> {
    let one = 1 << random.below(11);
    let any = random.draw() as u16 & ALL_MARKS;
    let marks = random.pick(&[0, 1, 9, 10, 99, 100, 1_000, 1_024, ALL_MARKS, one, any]);
    let metal = random.between(1, METALS.len() as i64) as u8;
    let third = any_third(random);
    let allowed = allowed_instruments(third);
    let mut fields = vec![Field::Header(Header { metal, marks, third })];
    let closes = random.pick(&[0, 30, 100]);
    for instrument in &allowed {
        if random.chance(closes) {
            fields.push(close(*instrument, edge_price(random, *instrument)));
        }
    }
    let mut times: Vec<u32> = (0..random.below(24)).map(|_| edge_time(random)).collect();
    times.sort_unstable();
    for time in times {
        let instrument = random.pick(&allowed);
        fields.push(edge_record(random, time, instrument));
    }
    fields
}

fn edge_record(random: &mut Random, time: u32, instrument: u8) -> Field {
    let price = edge_price(random, instrument);
    let other = edge_price(random, instrument);
    if random.chance(50) {
        let any = random.between(1, i64::from(GREATEST_LOTS)) as u16;
        return trade(time, instrument, price, random.pick(&[1, 9, 10, 99, 100, 1_000, 9_999, 10_000, any]));
    }
    let sides = random.below(4) as u8;
    let other = random.pick(&[price, other, other]);
    let bid = if sides & BID != 0 { price.min(other) } else { 0 };
    let offer = if sides & OFFER != 0 { price.max(other) } else { 0 };
    quote(time, instrument, sides, bid, offer)
}

fn edge_time(random: &mut Random) -> u32 {
    let any = random.time(0, LAST_TIME);
    random.pick(&[0, 1, 9, 10, 99, 100, 9_999_999, 10_000_000, LAST_TIME - 1, LAST_TIME, any, any])
}

fn edge_price(random: &mut Random, instrument: u8) -> i32 {
    let cents = random.pick(&[1, 5, 9, 10, 50, 99, 100, 101, 110, 999, 1_000, 100_000]);
    if instrument == 0 {
        let any = random.price(LEAST_OUTRIGHT, GREATEST_OUTRIGHT);
        return random.pick(&[cents, cents, any, any, GREATEST_OUTRIGHT, GREATEST_OUTRIGHT - 1]);
    }
    let any = random.price(-GREATEST_SPREAD, GREATEST_SPREAD);
    random.pick(&[
        0,
        cents,
        -cents,
        cents,
        -cents,
        any,
        GREATEST_SPREAD,
        -GREATEST_SPREAD,
        1 - GREATEST_SPREAD,
    ])
}

/// The text of a day without its end.
fn text_of(fields: &[Field]) -> Vec<u8> {
    fields.iter().map(line_of).collect::<String>().into_bytes()
}

/// A field's line with its line feed; an end has none.
fn line_of(field: &Field) -> String {
    match field {
        Field::Header(header) => {
            let name = metal_row(header.metal).map_or("", |metal| metal.name);
            let third = header.third.map_or(String::new(), |third| format!(",{third}"));
            format!("METAL,{name},{}{third}\n", header.marks)
        }
        Field::PreviousClose(close) => format!("PREV,{},{}\n", named(close.instrument), dollars(close.price)),
        Field::Trade(trade) => {
            let start = format!("{},{},TRADE", trade.time, named(trade.instrument));
            format!("{start},{},{}\n", dollars(trade.price), trade.lots)
        }
        Field::Quote(quote) => {
            let start = format!("{},{},QUOTE", quote.time, named(quote.instrument));
            let side = |bit: u8, price: i32| match quote.sides & bit {
                0 => "-".to_string(),
                _ => dollars(price),
            };
            format!("{start},{},{}\n", side(BID, quote.bid), side(OFFER, quote.offer))
        }
        Field::End(_) => String::new(),
    }
}

fn named(instrument: u8) -> &'static str {
    INSTRUMENT_NAMES.get(usize::from(instrument)).copied().unwrap_or("")
}

/// Cents as dollars with two decimals.
fn dollars(cents: i32) -> String {
    let sign = if cents < 0 { "-" } else { "" };
    let cents = cents.unsigned_abs();
    format!("{sign}{}.{:02}", cents / 100, cents % 100)
}
