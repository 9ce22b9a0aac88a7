//! Well-formed values that are out of their range or out of order.

use super::dollars;
use super::parts::{kind_of, line, Item, Kind, Line, Parts};
use crate::random::Random;
use crate::tables::{GREATEST_SPREAD, LAST_TIME};

/// A value at the end of its range or behind it, well formed.
fn at_its_end(random: &mut Random, kind: Kind, outright: bool) -> Item {
    let words: &[&str] = match kind {
        Kind::Marks => &["2047", "2048", "2049", "4095", "4096", "32768", "65535"],
        Kind::Third => &["2", "3", "3", "4", "9", "10", "255"],
        Kind::Time => &["86400000", "86400001", "99999999", "100000000", "4294967295"],
        Kind::Lots => &["0", "0", "10000", "10001", "10002", "32768", "65535"],
        Kind::Price if outright => &["0.00", "-0.01", "1000000.00", "1000000.01", "999999.99", "-1.00"],
        Kind::Price => &["100000.00", "-100000.00", "100000.01", "-100000.01", "99999.99", "999999.99"],
    };
    random.pick(words).as_bytes().to_vec()
}

fn is_outright(line: &Line) -> bool {
    line.get(1).is_some_and(|item| item == b"3M")
}

fn out_of_range(random: &mut Random, parts: &mut Parts, kind: Kind) {
    if let Some((place, item, kind)) = parts.any_numeral(random, &[kind]) {
        let outright = is_outright(&parts.lines[place]);
        parts.lines[place][item] = at_its_end(random, kind, outright);
    }
}

pub(super) fn marks(random: &mut Random, parts: &mut Parts) {
    out_of_range(random, parts, Kind::Marks);
}

/// The third value of a METAL line, of one that has none too.
pub(super) fn third(random: &mut Random, parts: &mut Parts) {
    let value = at_its_end(random, Kind::Third, false);
    parts.set_third(Some(value));
}

pub(super) fn time(random: &mut Random, parts: &mut Parts) {
    out_of_range(random, parts, Kind::Time);
}

pub(super) fn price(random: &mut Random, parts: &mut Parts) {
    out_of_range(random, parts, Kind::Price);
}

pub(super) fn lots(random: &mut Random, parts: &mut Parts) {
    out_of_range(random, parts, Kind::Lots);
}

/// Several values of one line at once, so that the order of the numbers matters.
pub(super) fn several(random: &mut Random, parts: &mut Parts) {
    let place = parts.any_line(random);
    let line = &mut parts.lines[place];
    let outright = is_outright(line);
    for item in 0..line.len() {
        match kind_of(line, item) {
            Some(kind) if random.chance(65) => line[item] = at_its_end(random, kind, outright),
            _ => {}
        }
    }
}

/// A record's time below that of the record before it; a trade and one
/// millisecond less where there is no such record.
pub(super) fn falling_time(random: &mut Random, parts: &mut Parts) {
    let records = parts.records();
    let time_at = |place: usize| number(&parts.lines[place][0]).unwrap_or(0);
    let pairs = records.windows(2).filter(|pair| time_at(pair[0]) > 0);
    let pairs: Vec<(usize, i64)> = pairs.map(|pair| (pair[1], time_at(pair[0]))).collect();
    if let Some((place, before)) = pairs.get(random.index(pairs.len())).copied() {
        let any = random.between(0, before - 1);
        let time = random.pick(&[before - 1, before - 1, 0, any]);
        parts.lines[place][0] = time.to_string().into_bytes();
    } else {
        let end = parts.count();
        parts.lines.insert(end, line(&format!("{LAST_TIME},M3-3M,TRADE,0.00,1")));
        parts.lines.insert(end + 1, line(&format!("{},M3-3M,QUOTE,-,-", LAST_TIME - 1)));
    }
}

/// A record becomes a quote with the bid above the offer, mostly by a cent; now
/// and then it equals it.
pub(super) fn crossed(random: &mut Random, parts: &mut Parts) {
    let records = parts.records();
    let place = records.get(random.index(records.len())).copied().unwrap_or(parts.count());
    if place == parts.count() {
        parts.lines.insert(place, line(&format!("{LAST_TIME},M2-M3,TRADE,0.00,1")));
    }
    let low = if is_outright(&parts.lines[place]) { 1 } else { -GREATEST_SPREAD };
    let any = random.price(low, GREATEST_SPREAD - 100);
    let offer = random.pick(&[low, 1, 99, 100, any, GREATEST_SPREAD - 100]);
    let bid = offer + random.pick(&[1, 1, 1, 100, 0]);
    let line = &mut parts.lines[place];
    line.truncate(2);
    line.extend([b"QUOTE".to_vec(), dollars(bid).into_bytes(), dollars(offer).into_bytes()]);
}

fn number(item: &Item) -> Option<i64> {
    std::str::from_utf8(item).ok()?.parse().ok()
}
