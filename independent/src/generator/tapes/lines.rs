//! Lines out of their place, and what stands between items and lines.

use super::parts::{line, Line, Parts};
use crate::random::Random;
use crate::tables::INSTRUMENT_NAMES;

/// Puts a line in at a place behind the first and before the last.
fn insert_behind_first(random: &mut Random, parts: &mut Parts, new: Line) {
    let place = random.between(1, parts.count() as i64) as usize;
    parts.lines.insert(place.min(parts.count()), new);
}

pub(super) fn metal_later(random: &mut Random, parts: &mut Parts) {
    let first = parts.lines.remove(0);
    if parts.lines.is_empty() {
        parts.lines.push(line(""));
    }
    let any = random.index(parts.count() + 1);
    let later = random.pick(&[1, any, parts.count()]);
    parts.lines.insert(later.min(parts.count()), first);
}

/// A second header's line of either form, at times with a value out of range or
/// malformed.
pub(super) fn metal_twice(random: &mut Random, parts: &mut Parts) {
    let first = parts.lines[0].clone();
    let good = ["METAL,Zinc,0", "METAL,Zinc,0,0", "METAL,Lead,1,2"];
    let bad =
        ["METAL,Lead,2048", "METAL,Lead,0,3", "METAL,Tin,0", "METAL,Lead,00", "METAL,Lead,0,01", "METAL"];
    let other = if random.chance(50) { random.pick(&good) } else { random.pick(&bad) };
    let second = if random.chance(60) { first } else { line(other) };
    insert_behind_first(random, parts, second);
}

pub(super) fn metal_missing(_: &mut Random, parts: &mut Parts) {
    parts.lines.remove(0);
    if parts.lines.is_empty() {
        parts.lines.push(line(""));
    }
}

/// A previous close of any instrument, at times out of range or malformed.
fn any_close(random: &mut Random) -> Line {
    let name = random.pick(&INSTRUMENT_NAMES);
    let price = random.pick(&["1.00", "1.00", "1.00", "0.50", "9999999.00", "-0.00"]);
    line(&format!("PREV,{name},{price}"))
}

/// A previous close behind the first record, or behind all.
pub(super) fn close_behind_record(random: &mut Random, parts: &mut Parts) {
    let close = any_close(random);
    let first = parts.records().first().map_or(parts.count(), |first| first + 1);
    let place = random.between(first as i64, parts.count() as i64) as usize;
    parts.lines.insert(place.min(parts.count()), close);
}

/// A previous close on the instrument of the one before it, or a lower one.
pub(super) fn close_not_rising(random: &mut Random, parts: &mut Parts) {
    let closes = parts.closes();
    let Some(place) = closes.get(random.index(closes.len())).copied() else {
        let at = 1.min(parts.count());
        parts.lines.insert(at, line("PREV,M2-M3,0.00"));
        return parts.lines.insert(at, line("PREV,M2-M4,0.00"));
    };
    let mut next = parts.lines[place].clone();
    if random.chance(60) {
        let name = next.get(1).map_or(&b""[..], Vec::as_slice);
        let number = INSTRUMENT_NAMES.iter().position(|known| known.as_bytes() == name).unwrap_or(0);
        next = any_close(random);
        next[1] = INSTRUMENT_NAMES[random.index(number + 1)].as_bytes().to_vec();
    }
    parts.lines.insert(place + 1, next);
}

pub(super) fn swapped(random: &mut Random, parts: &mut Parts) {
    let (one, other) = (parts.any_line(random), parts.any_line(random));
    parts.lines.swap(one, other);
}

pub(super) fn repeated(random: &mut Random, parts: &mut Parts) {
    let place = parts.any_line(random);
    insert_behind_first(random, parts, parts.lines[place].clone());
}

pub(super) fn missing(random: &mut Random, parts: &mut Parts) {
    if parts.count() > 0 {
        parts.lines.remove(parts.any_line(random));
    }
}

/// All lines twice: a second header stands in the middle.
pub(super) fn whole_text_twice(_: &mut Random, parts: &mut Parts) {
    let lines = parts.lines[..parts.count()].to_vec();
    parts.lines.splice(0..0, lines);
}

/// An empty line in front, in the middle or at the end.
pub(super) fn empty_line(random: &mut Random, parts: &mut Parts) {
    let any = random.index(parts.count() + 1);
    parts.lines.insert(random.pick(&[0, any, any, parts.count()]), line(""));
}

/// Something that is no record between the records.
pub(super) fn foreign_line(random: &mut Random, parts: &mut Parts) {
    let words =
        ["END,3", "# trades", "time,instrument,TRADE,price,lots", ",", ",,,,", "-", "0", "METAL", "PREV,3M"];
    let place = random.index(parts.count() + 1);
    parts.lines.insert(place, line(random.pick(&words)));
}

/// Two lines with no line feed between them; at times a comma instead.
pub(super) fn joined_lines(random: &mut Random, parts: &mut Parts) {
    let place = parts.any_line(random);
    if place + 1 < parts.lines.len() {
        let mut next = parts.lines.remove(place + 1);
        if random.chance(50) {
            let first = next.remove(0);
            parts.lines[place].last_mut().into_iter().for_each(|item| item.extend(&first));
        }
        parts.lines[place].extend(next);
    }
}

/// A line feed for a comma.
pub(super) fn broken_line(random: &mut Random, parts: &mut Parts) {
    let place = parts.any_line(random);
    let line = &mut parts.lines[place];
    if line.len() > 1 {
        let rest = line.split_off(1 + random.index(line.len() - 1));
        parts.lines.insert(place + 1, rest);
    }
}

/// Two items with another byte between them, or none.
pub(super) fn no_comma(random: &mut Random, parts: &mut Parts) {
    let place = parts.any_line(random);
    let line = &mut parts.lines[place];
    if line.len() > 1 {
        let item = random.index(line.len() - 1);
        let next = line.remove(item + 1);
        line[item].extend(random.pick(&["", "", ";", " ", "\t", ".", "|", "\0"]).as_bytes());
        line[item].extend(next);
    }
}

/// An empty item: two commas, or one at the start or at the end.
pub(super) fn comma_more(random: &mut Random, parts: &mut Parts) {
    let place = parts.any_line(random);
    let line = &mut parts.lines[place];
    let any = random.index(line.len() + 1);
    line.insert(random.pick(&[any, any, 0, line.len()]), Vec::new());
}

/// A space, a tab or a quotation mark before an item or behind it.
pub(super) fn space(random: &mut Random, parts: &mut Parts) {
    let place = parts.any_line(random);
    let line = &mut parts.lines[place];
    let item = random.index(line.len());
    let at = random.pick(&[0, line[item].len()]);
    line[item].insert(at, random.pick(b"  \t\"\x0B"));
}
