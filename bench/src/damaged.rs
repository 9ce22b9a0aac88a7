//! Sheets to hold the four sides to one another: the short sheets of the benchmark with every byte changed,
//! cut and lengthened, longer ones damaged at random, and those of the independent program's generator.

use crate::sheets::{sheet, KINDS};
use independent::generator::disturb::damage_bytes;
use independent::generator::sized::sized_sheet;
use independent::generator::{accepted_sheet, damaged_sheet};
use independent::random::Random;

const SEED: u64 = 20_240_131;

/// How many sheets of each of the kinds made at random.
const GENERATED: u64 = 24_000;
const LONG: u64 = 400;

/// A byte of a short sheet set to each value, a cut before each byte, and some bytes put behind the end.
fn short(visit: &mut dyn FnMut(&[u8])) {
    for kind in KINDS {
        let good = sheet(kind, 130);
        for place in 0..good.len() {
            let mut changed = good.clone();
            for value in 0..=255 {
                changed[place] = value;
                visit(&changed);
            }
            visit(&good[..place]);
        }
        for extra in 0..=40 {
            let mut longer = good.clone();
            longer.extend(good.iter().cycle().take(extra));
            visit(&longer);
        }
    }
}

/// Accepted and damaged sheets of some hundred bytes.
fn generated(visit: &mut dyn FnMut(&[u8])) {
    for item in 0..GENERATED {
        let random = &mut Random::for_item(SEED, item);
        visit(&accepted_sheet(random));
        visit(&damaged_sheet(random));
    }
}

/// Sheets of 65,536 bytes and of 1,000 to 65,536, whole and damaged.
fn long(visit: &mut dyn FnMut(&[u8])) {
    let timed = KINDS.map(|kind| sheet(kind, 65_536));
    for item in 0..LONG {
        let random = &mut Random::for_item(!SEED, item);
        let bytes = random.between(1_000, 65_536) as usize;
        let whole = sized_sheet(random, bytes).unwrap_or_else(|| accepted_sheet(random));
        visit(&whole);
        visit(&damage_bytes(random, whole));
        visit(&damage_bytes(random, timed[item as usize % timed.len()].clone()));
    }
}

/// The longest there is, whole and cut, and one byte longer.
fn longest(visit: &mut dyn FnMut(&[u8])) {
    for kind in KINDS {
        let mut longest = sheet(kind, 1_048_576);
        visit(&longest[..1_048_575]);
        longest.push(0);
        visit(&longest);
    }
}

/// Each of these sheets in turn; the same ones each time.
pub fn visit_all(visit: &mut dyn FnMut(&[u8])) {
    short(visit);
    generated(visit);
    long(visit);
    longest(visit);
}
