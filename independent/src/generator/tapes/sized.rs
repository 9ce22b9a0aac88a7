//! One accepted text of about so many bytes.

use super::line_of;
use crate::draft::{close, header, quote, trade};
use crate::field::{encode, Field};
use crate::generator::scene::Scene;
use crate::random::Random;
use crate::tables::{GREATEST_LOTS, GREATEST_SPREAD, LAST_TIME, SHEET_LIMIT};

/// Bytes of an end field, and of the shortest line and field of a record.
const END: usize = 7;
const LINE: usize = 15;
const RECORD: usize = 14;

/// The longest sheet of a random day has no text much longer than this.
const LONG: usize = 1_700_000;

/// An accepted text of trades and quotes over the whole day, as long as it may
/// be without passing so many bytes or being the text of too long a sheet.
pub fn sized_tape(seed: u64, bytes: usize) -> Vec<u8> {
    let mut random = Random::new(seed);
    let count = (bytes / LINE).min(SHEET_LIMIT / RECORD);
    let fields = if bytes > LONG { wide_day(&mut random, count) } else { mixed_day(&mut random, count) };
    let mut places: Vec<usize> = (1..fields.len()).collect();
    random.shuffle(&mut places);
    let chosen = fitting(&fields, &places, bytes);
    chosen.iter().map(|place| line_of(&fields[*place])).collect::<String>().into_bytes()
}

/// A random day, as many trades as quotes.
fn mixed_day(random: &mut Random, count: usize) -> Vec<Field> {
    let mut scene = Scene::empty(random);
    scene.add_closes(12);
    scene.add_kind(true, count / 2 + 1);
    scene.add_kind(false, count / 2 + 1);
    scene.fields()
}

/// A day whose numbers have as many digits as they may: spreads far below 0,
/// in the greatest lots, a quote to every three trades.
fn wide_day(random: &mut Random, count: usize) -> Vec<Field> {
    let mut fields = vec![header(2, 2_047)];
    fields.extend((1..12).map(|instrument| close(instrument, -GREATEST_SPREAD)));
    let mut times: Vec<u32> = (0..count).map(|_| random.time(10_000_000, LAST_TIME)).collect();
    times.sort_unstable();
    fields.extend(times.into_iter().map(|time| {
        let instrument = random.between(1, 11) as u8;
        let price = random.price(-GREATEST_SPREAD, -1_000_001);
        match random.below(4) {
            0 => quote(time, instrument, 3, price, price + 1),
            _ => trade(time, instrument, price, GREATEST_LOTS),
        }
    }));
    fields
}

/// The header's place and as many of these places, from the first on, as fit
/// into the bytes of a text and into a sheet; in the order of the day.
fn fitting(fields: &[Field], places: &[usize], bytes: usize) -> Vec<usize> {
    let mut chosen = vec![0];
    let mut text = line_of(&fields[0]).len();
    let mut sheet = encode(&fields[0]).len() + END;
    for place in places {
        text += line_of(&fields[*place]).len();
        sheet += encode(&fields[*place]).len();
        if text > bytes || sheet > SHEET_LIMIT {
            break;
        }
        chosen.push(*place);
    }
    chosen.sort_unstable();
    chosen
}
