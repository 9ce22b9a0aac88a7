//! Random sheets from a seed: accepted ones, ones with a known fault, ones
//! with several faults, and plain damage to bytes.

pub mod disturb;
pub mod fault;
pub mod scene;
pub mod sized;
pub mod tapes;
pub mod values;

use crate::draft::{ended, sheet_of};
use crate::field::Field;
use crate::generator::disturb::{damage_bytes, garbage, several_faults};
use crate::generator::fault::sheet_with_fault;
use crate::generator::scene::Scene;
use crate::generator::sized::sized_sheet;
use crate::random::Random;
use crate::sheet::{judge_sheet, Day};

/// The fields of a random accepted sheet, its end included.
pub fn accepted_fields(random: &mut Random) -> Vec<Field> {
    ended(&Scene::random(random).fields())
}

/// A random accepted sheet.
pub fn accepted_sheet(random: &mut Random) -> Vec<u8> {
    sheet_of(&accepted_fields(random))
}

/// So many days of such sheets from a seed, one in fifty a long one.
pub fn accepted_days(seed: u64, count: u64) -> impl Iterator<Item = Day> {
    (0..count).map(move |item| {
        let mut random = Random::for_item(seed, item);
        let sheet = match item % 50 {
            49 => sized_sheet(&mut random, 4_000 + item as usize).expect("bytes that fields fill"),
            _ => accepted_sheet(&mut random),
        };
        judge_sheet(&sheet).expect("an accepted sheet")
    })
}

/// The fields of a random accepted sheet with this byte in its header.
fn accepted_fields_with(random: &mut Random, third: Option<u8>) -> Vec<Field> {
    ended(&Scene::random_with(random, third).fields())
}

/// The numbers of a sheet that take no more than a few fields.
const FAULTS: [u8; 12] = [2, 3, 4, 5, 6, 7, 8, 9, 10, 11, 12, 18];

/// A random sheet with something wrong, most of the time: one known fault,
/// several faults, damaged bytes, or no sheet at all.
pub fn damaged_sheet(random: &mut Random) -> Vec<u8> {
    match random.below(10) {
        0..=3 => {
            let number = random.pick(&FAULTS);
            sheet_with_fault(random, number).sheet
        }
        4..=6 => several_faults(random),
        7..=8 => {
            let sheet = accepted_sheet(random);
            damage_bytes(random, sheet)
        }
        _ => garbage(random),
    }
}

/// A random sheet of 10,000 to 40,000 bytes, sometimes damaged.
fn large_sheet(random: &mut Random) -> Vec<u8> {
    let bytes = random.between(10_000, 40_000) as usize;
    let sheet = sized_sheet(random, bytes).unwrap_or_default();
    if random.chance(30) {
        damage_bytes(random, sheet)
    } else {
        sheet
    }
}

/// Any random sheet of at most 65,536 bytes, mostly of a few hundred.
pub fn random_sheet(random: &mut Random) -> Vec<u8> {
    if random.below(250) == 0 {
        return large_sheet(random);
    }
    if random.chance(55) {
        accepted_sheet(random)
    } else {
        damaged_sheet(random)
    }
}
