//! Which sheets are made: the independent program's generators, short and long.

use independent::generator::disturb::damage_bytes;
use independent::generator::fault::sheet_with_fault;
use independent::generator::sized::sized_sheet;
use independent::generator::{accepted_sheet, damaged_sheet};
use independent::random::Random;

/// The greatest length of a sheet, and of one that is listed.
const LONGEST: i64 = 1_048_576;
const LONGEST_LISTED: i64 = 65_536;

/// How many sheets are made of which kind, and from what seed.
pub struct Plan {
    pub seed: u64,
    pub accepted: u64,
    pub damaged: u64,
}

impl Plan {
    pub fn sheets(&self) -> u64 {
        self.accepted + self.damaged
    }

    /// The sheet with this number: the accepted ones come first.
    pub fn sheet(&self, item: u64) -> Vec<u8> {
        let random = &mut Random::for_item(self.seed, item);
        if item < self.accepted {
            accepted(random)
        } else {
            damaged(random)
        }
    }

    /// Is the independent program to walk every millisecond of this one? It goes by spans of the others. Two of twenty, one for each thread.
    pub fn is_walked(&self, item: u64) -> bool {
        item % 20 < 2
    }
}

/// An accepted sheet of a number of bytes in a range, or of a few hundred where no fields fill that number.
fn accepted_between(random: &mut Random, least: i64, greatest: i64) -> Vec<u8> {
    let bytes = random.between(least, greatest) as usize;
    sized_sheet(random, bytes).unwrap_or_else(|| accepted_sheet(random))
}

/// Mostly a few hundred bytes; one in 100 long, one in 400 too long for a list, one in 2,000 the longest there is.
fn accepted(random: &mut Random) -> Vec<u8> {
    match random.below(2_000) {
        0 => accepted_between(random, LONGEST, LONGEST),
        1 => accepted_between(random, LONGEST_LISTED, LONGEST_LISTED),
        2..=6 => accepted_between(random, LONGEST_LISTED + 1, LONGEST),
        7..=26 => accepted_between(random, 1_000, LONGEST_LISTED),
        _ => accepted_sheet(random),
    }
}

/// Mostly a few hundred bytes with a known fault, several faults or damage; some long ones, and some longer than a sheet may be.
fn damaged(random: &mut Random) -> Vec<u8> {
    match random.below(5_000) {
        0 => sheet_with_fault(random, 1).sheet,
        1..=3 => {
            let sheet = accepted_between(random, LONGEST_LISTED + 1, LONGEST);
            damage_bytes(random, sheet)
        }
        4..=33 => {
            let sheet = accepted_between(random, 1_000, LONGEST_LISTED);
            damage_bytes(random, sheet)
        }
        _ => damaged_sheet(random),
    }
}
