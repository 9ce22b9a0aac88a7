//! Unknown names and words, and items where others belong.

use super::parts::{kind_of, line, Kind, Line, Parts};
use crate::random::Random;
use crate::tables::{barred_instruments, INSTRUMENT_NAMES, METALS};

/// A line and the place of its instrument's name, if it has one.
fn instrument_place(line: &Line) -> Option<usize> {
    let is_close = line.first().is_some_and(|item| item == b"PREV");
    (is_close || kind_of(line, 0) == Some(Kind::Time)).then_some(1)
}

/// A name in another case, cut, or with a byte more.
fn bent(random: &mut Random, name: &[u8]) -> Vec<u8> {
    let mut bent = name.to_vec();
    match random.below(6) {
        0 => bent.make_ascii_lowercase(),
        1 => drop(bent.pop()),
        2 => bent.push(random.pick(b"sM0 -")),
        3 => bent.insert(0, random.pick(b"M3 -")),
        4 => bent.rotate_left(1.min(name.len())),
        _ => bent.make_ascii_uppercase(),
    }
    bent
}

/// One of the words, or the name bent.
fn rename(random: &mut Random, line: &mut Line, item: usize, words: &[&str]) {
    if let Some(name) = line.get_mut(item) {
        *name = match random.below(2) {
            0 => bent(random, name),
            _ => random.pick(words).as_bytes().to_vec(),
        };
    }
}

pub(super) fn metal(random: &mut Random, parts: &mut Parts) {
    let words = ["Tin", "", "1", "Aluminum", "Nickel ", "nickel", "Cobalt", "METAL", "Nickel\0"];
    rename(random, &mut parts.lines[0], 1, &words);
}

pub(super) fn instrument(random: &mut Random, parts: &mut Parts) {
    let words =
        ["M3", "0", "", "Cash", "3M-M3", "M4-3M", "M3-M2", "M1-M5", "M2-M2", "3M-3M", "Cash-M2", "12"];
    let place = parts.any_line(random);
    if instrument_place(&parts.lines[place]).is_some() {
        rename(random, &mut parts.lines[place], 1, &words);
    } else {
        metal(random, parts);
    }
}

/// Another known name: mostly accepted, now and then out of its range or place.
pub(super) fn other_name(random: &mut Random, parts: &mut Parts) {
    let place = parts.any_line(random);
    let line = &mut parts.lines[place];
    if instrument_place(line).is_some() {
        line[1] = random.pick(&INSTRUMENT_NAMES).as_bytes().to_vec();
    } else if let Some(name) = line.get_mut(1) {
        *name = METALS[random.index(METALS.len())].name.as_bytes().to_vec();
    }
}

pub(super) fn word(random: &mut Random, parts: &mut Parts) {
    let place = parts.any_line(random);
    let line = &mut parts.lines[place];
    let item = if kind_of(line, 0).is_some() { 2 } else { 0 };
    let words =
        ["trade", "Trade", "TRADES", "QUOT", "quote", "", "T", "END", "BID", "CLOSE", "METALS", "PREVIOUS"];
    rename(random, line, item, &words);
}

/// `TRADE` for `QUOTE` and the other way.
pub(super) fn other_word(random: &mut Random, parts: &mut Parts) {
    let records = parts.records();
    if let Some(place) = records.get(random.index(records.len())) {
        let word = &mut parts.lines[*place][2];
        *word = if word == b"TRADE" { b"QUOTE".to_vec() } else { b"TRADE".to_vec() };
    }
}

/// `-` for any item at all: in a quote's side it is an absent one.
pub(super) fn absent(random: &mut Random, parts: &mut Parts) {
    let place = parts.any_line(random);
    let line = &mut parts.lines[place];
    let item = random.index(line.len());
    line[item] = b"-".to_vec();
}

pub(super) fn swapped(random: &mut Random, parts: &mut Parts) {
    let place = parts.any_line(random);
    let line = &mut parts.lines[place];
    let (one, other) = (random.index(line.len()), random.index(line.len()));
    line.swap(one, other);
}

pub(super) fn dropped(random: &mut Random, parts: &mut Parts) {
    let place = parts.any_line(random);
    let line = &mut parts.lines[place];
    line.remove(random.index(line.len()));
    if line.is_empty() {
        line.push(Vec::new());
    }
}

pub(super) fn doubled(random: &mut Random, parts: &mut Parts) {
    let place = parts.any_line(random);
    let line = &mut parts.lines[place];
    let item = random.index(line.len());
    line.insert(item, line[item].clone());
}

/// An item of another line.
pub(super) fn foreign(random: &mut Random, parts: &mut Parts) {
    let (from, to) = (parts.any_line(random), parts.any_line(random));
    let item = parts.lines[from][random.index(parts.lines[from].len())].clone();
    let place = random.index(parts.lines[to].len());
    parts.lines[to][place] = item;
}

/// A third value of the header's line that is no number, or the marks gone too.
pub(super) fn third_value(random: &mut Random, parts: &mut Parts) {
    let words = ["01", "00", "+1", "-1", "-0", "1.0", "1.", "", "-", "1 ", "M3", "one", "1e0", "0x1"];
    let word = random.pick(&words);
    parts.set_third(Some(word.as_bytes().to_vec()));
    if random.chance(15) {
        parts.lines[0].truncate(2);
    }
}

/// A fourth value of the header's line.
pub(super) fn fourth_value(random: &mut Random, parts: &mut Parts) {
    let third = random.pick(&["0", "1", "2", "3"]);
    parts.set_third(Some(third.as_bytes().to_vec()));
    let fourth = random.pick(&["0", "1", "2", ""]);
    parts.lines[0].push(fourth.as_bytes().to_vec());
}

/// Another third value, or none: what the lines behind it say is then barred, or
/// is not.
pub(super) fn other_third(random: &mut Random, parts: &mut Parts) {
    let value = random.pick(&[None, Some("0"), Some("1"), Some("1"), Some("2"), Some("2")]);
    parts.set_third(value.map(|value| value.as_bytes().to_vec()));
}

/// A header that says 1 or 2, and a line on an instrument that it bars: the first
/// close, or a record in the place and at the time of another.
pub(super) fn barred(random: &mut Random, parts: &mut Parts) {
    let third = random.pick(&[1, 2]);
    parts.set_third(Some(vec![b'0' + third]));
    let instrument = random.pick(barred_instruments(Some(third)));
    let name = INSTRUMENT_NAMES[usize::from(instrument)];
    let records = parts.records();
    match records.get(random.index(records.len())) {
        Some(place) if random.chance(70) => {
            let time = String::from_utf8_lossy(&parts.lines[*place][0]).into_owned();
            let rest = random.pick(&["TRADE,0.00,1", "TRADE,0.00,0", "QUOTE,-,-", "QUOTE,0.01,0.00"]);
            parts.lines.insert(*place, line(&format!("{time},{name},{rest}")));
        }
        _ => {
            let price = random.pick(&["0.00", "100000.00"]);
            parts.lines.insert(1.min(parts.count()), line(&format!("PREV,{name},{price}")));
        }
    }
}
