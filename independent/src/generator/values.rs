//! Single fields whose values lie at, in or behind the ends of their ranges,
//! for comparing readers and writers of one field.

use crate::draft::{close, end, quote, trade};
use crate::field::{Field, Header};
use crate::random::Random;
use crate::tables::{GREATEST_LOTS, GREATEST_OUTRIGHT, GREATEST_SPREAD, LAST_TIME};

fn instrument(random: &mut Random) -> u8 {
    let any = random.draw() as u8;
    let good = random.below(12) as u8;
    random.pick(&[0, 0, 11, good, good, good, good, 12, 255, any])
}

fn time(random: &mut Random) -> u32 {
    let any = random.draw() as u32;
    let good = random.time(0, LAST_TIME);
    random.pick(&[0, good, good, good, LAST_TIME, LAST_TIME + 1, u32::MAX, any])
}

fn price(random: &mut Random) -> i32 {
    let any = random.draw() as i32;
    let small = random.price(-3, 3);
    let good = random.price(1, GREATEST_SPREAD);
    let ends = [
        GREATEST_OUTRIGHT,
        GREATEST_OUTRIGHT + 1,
        GREATEST_SPREAD,
        GREATEST_SPREAD + 1,
        -GREATEST_SPREAD,
        -GREATEST_SPREAD - 1,
        i32::MIN,
        i32::MAX,
    ];
    let end = random.pick(&ends);
    random.pick(&[0, small, small, good, good, good, end, any])
}

fn lots(random: &mut Random) -> u16 {
    let any = random.draw() as u16;
    random.pick(&[0, 1, 5, 99, GREATEST_LOTS, GREATEST_LOTS + 1, 65_535, any])
}

fn quote_values(random: &mut Random) -> Field {
    let any = random.draw() as u8;
    let sides = random.pick(&[0, 1, 1, 2, 2, 3, 3, 3, 3, 4, any]);
    let mut bid = price(random);
    let mut offer = match random.below(4) {
        0 => bid,
        1 => bid.saturating_sub(1),
        2 => bid.saturating_add(1),
        _ => price(random),
    };
    if sides & 1 == 0 && random.chance(80) {
        bid = 0;
    }
    if sides & 2 == 0 && random.chance(80) {
        offer = 0;
    }
    quote(time(random), instrument(random), sides, bid, offer)
}

/// A header of either form; the byte of a long one is good half the time.
pub(super) fn any_header(random: &mut Random) -> Field {
    let metal = random.between(0, 6) as u8;
    let any = random.draw() as u16;
    let marks = random.pick(&[0, 0x07FF, 0x0800, 1, any & 0x07FF, any]);
    let any = random.draw() as u8;
    let byte = random.pick(&[0, 1, 2, 3, 255, any]);
    let third = random.chance(50).then_some(byte);
    Field::Header(Header { metal, marks, third })
}

/// A field of any kind; about half of them would be refused.
pub fn any_field(random: &mut Random) -> Field {
    match random.below(5) {
        0 => any_header(random),
        1 => close(instrument(random), price(random)),
        2 => trade(time(random), instrument(random), price(random), lots(random)),
        3 => quote_values(random),
        _ => end(time(random)),
    }
}
