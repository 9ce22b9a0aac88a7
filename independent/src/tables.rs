//! The constants of RULES 1 to 4 and SHEET 3: limits, ranges, the metals with their windows
//! and steps, the instruments with their legs, the contracts in pricing order, and what
//! follows where 3M is a third Wednesday.

/// A sheet longer than this is refused with 1.
pub const SHEET_LIMIT: usize = 1_048_576;
/// The program reads sheets up to this length.
pub const LIST_LIMIT: usize = 65_536;
/// Milliseconds in every window.
pub const WINDOW: u32 = 300_000;
/// Lots from which a contract is priced by VWAP.
pub const MINIMUM_VOLUME: u64 = 5;
/// The last millisecond of the day.
pub const LAST_TIME: u32 = 86_399_999;
/// Outright prices, and rounded closes, lie between these two.
pub const LEAST_OUTRIGHT: i32 = 1;
pub const GREATEST_OUTRIGHT: i32 = 99_999_999;
/// Spread prices lie between its negative and this.
pub const GREATEST_SPREAD: i32 = 9_999_999;
/// Lots of one trade lie between 1 and this.
pub const GREATEST_LOTS: u16 = 10_000;
/// The highest instrument number.
pub const LAST_INSTRUMENT: u8 = 11;
/// All marks that may be set: bits 0 to 10.
pub const ALL_MARKS: u16 = 0x07FF;

/// One row of the table of metals.
#[derive(Debug, PartialEq)]
pub struct Metal {
    pub name: &'static str,
    pub spread_start: u32,
    pub anchor_start: u32,
    /// The 3M rounding step in cents.
    pub step: i32,
}

const fn metal(name: &'static str, spread_start: u32, anchor_start: u32, step: i32) -> Metal {
    Metal { name, spread_start, anchor_start, step }
}

/// Metals 1 to 5, at places 0 to 4.
pub static METALS: [Metal; 5] = [
    metal("Nickel", 58_200_000, 58_500_000, 100),
    metal("Aluminium", 58_800_000, 59_100_000, 50),
    metal("Zinc", 59_400_000, 59_700_000, 50),
    metal("Copper", 60_000_000, 60_300_000, 50),
    metal("Lead", 60_600_000, 60_900_000, 50),
];

/// The row of a metal's number, or none where it isn't 1 to 5.
pub fn metal_row(number: u8) -> Option<&'static Metal> {
    METALS.get(usize::from(number).checked_sub(1)?)
}

/// Contracts by their place in pricing order.
pub const THREE_MONTHS: usize = 0;
pub const M3: usize = 1;
pub const M2: usize = 2;
pub const M4: usize = 3;
pub const M1: usize = 4;
pub const CASH: usize = 5;

/// One row of the table of contracts.
#[derive(Debug)]
pub struct Contract {
    pub name: &'static str,
    pub vwap_from: &'static [u8],
    pub twap_from: u8,
}

const fn contract(name: &'static str, vwap_from: &'static [u8], twap_from: u8) -> Contract {
    Contract { name, vwap_from, twap_from }
}

/// The six contracts, steps 1 to 6 at places 0 to 5.
pub static CONTRACTS: [Contract; 6] = [
    contract("3M", &[0], 0),
    contract("M3", &[1], 1),
    contract("M2", &[2, 3], 3),
    contract("M4", &[4, 5, 6], 5),
    contract("M1", &[7, 8, 9, 10], 7),
    contract("Cash", &[11], 11),
];

/// One row of what a long header's byte says.
#[derive(Debug)]
pub struct ThirdWednesday {
    /// The M contract that 3M is, by its place in pricing order.
    pub named: Option<usize>,
    /// The instruments that may have no field then, in rising order.
    pub barred: &'static [u8],
}

const fn third_wednesday(named: Option<usize>, barred: &'static [u8]) -> ThirdWednesday {
    ThirdWednesday { named, barred }
}

/// By the byte: 3M is no M contract, it is M3, it is M4.
pub static THIRD_WEDNESDAYS: [ThirdWednesday; 3] = [
    third_wednesday(None, &[]),
    third_wednesday(Some(M3), &[1, 2, 6, 9]),
    third_wednesday(Some(M4), &[4, 5, 6, 10]),
];

/// The row of a header's byte, or none where it is above 2. A short header has
/// no byte, and its row is that of 0.
pub fn third_row(third: Option<u8>) -> Option<&'static ThirdWednesday> {
    THIRD_WEDNESDAYS.get(usize::from(third.unwrap_or(0)))
}

/// The instruments that a header with this byte bars.
pub fn barred_instruments(third: Option<u8>) -> &'static [u8] {
    third_row(third).map_or(&[], |row| row.barred)
}

/// The instruments that it leaves.
pub fn allowed_instruments(third: Option<u8>) -> Vec<u8> {
    let barred = barred_instruments(third);
    (0..=LAST_INSTRUMENT).filter(|instrument| !barred.contains(instrument)).collect()
}

/// The legs A and B of each spread A-B by instrument number. Instrument 0 is
/// no spread; its row is never asked for.
pub const LEGS: [(usize, usize); 12] = [
    (THREE_MONTHS, THREE_MONTHS),
    (M3, THREE_MONTHS),
    (M2, THREE_MONTHS),
    (M2, M3),
    (M2, M4),
    (M3, M4),
    (THREE_MONTHS, M4),
    (M1, M2),
    (M1, M3),
    (M1, THREE_MONTHS),
    (M1, M4),
    (CASH, M1),
];

/// The names of the instruments by number: a spread's is that of its legs.
pub const INSTRUMENT_NAMES: [&str; 12] = [
    "3M", "M3-3M", "M2-3M", "M2-M3", "M2-M4", "M3-M4", "3M-M4", "M1-M2", "M1-M3", "M1-3M", "M1-M4", "Cash-M1",
];

/// Start of the window an instrument uses.
pub fn window_start(metal: &Metal, instrument: u8) -> u32 {
    if instrument == 0 {
        metal.anchor_start
    } else {
        metal.spread_start
    }
}

/// Is the time inside the window that starts at `start`?
pub fn in_window(start: u32, time: u32) -> bool {
    time >= start && time - start < WINDOW
}

#[cfg(test)]
mod tests {
    use super::{
        allowed_instruments, barred_instruments, third_row, CONTRACTS, INSTRUMENT_NAMES, LEGS, M4,
        THREE_MONTHS,
    };

    #[test]
    fn a_spread_has_the_names_of_its_legs() {
        assert_eq!(INSTRUMENT_NAMES[0], CONTRACTS[0].name);
        for (name, (a, b)) in INSTRUMENT_NAMES.iter().zip(LEGS).skip(1) {
            assert_eq!(*name, format!("{}-{}", CONTRACTS[a].name, CONTRACTS[b].name));
        }
    }

    /// The spreads that have this contract as a leg.
    fn spreads_of(contract: usize) -> Vec<u8> {
        let has = |(_, (a, b)): &(u8, (usize, usize))| *a == contract || *b == contract;
        (1..).zip(LEGS.into_iter().skip(1)).filter(has).map(|(spread, _)| spread).collect()
    }

    /// Where 3M is M3 all spreads of 3M are barred, and where it is M4 all of M4.
    #[test]
    fn all_spreads_of_one_contract_are_barred() {
        assert_eq!(barred_instruments(Some(1)), spreads_of(THREE_MONTHS));
        assert_eq!(barred_instruments(Some(2)), spreads_of(M4));
        assert_eq!(barred_instruments(Some(0)), barred_instruments(None));
        assert_eq!(allowed_instruments(Some(1)), [0, 3, 4, 5, 7, 8, 10, 11]);
        assert_eq!(allowed_instruments(Some(2)), [0, 1, 2, 3, 7, 8, 9, 11]);
        assert_eq!(allowed_instruments(None).len(), 12);
        assert!(third_row(Some(3)).is_none() && third_row(Some(255)).is_none());
    }

    /// No spread is left to price the named contract, and the TWAP spread is
    /// left to every other one.
    #[test]
    fn what_is_barred_leaves_the_other_contracts_their_twap() {
        for third in [Some(1), Some(2)] {
            let allowed = allowed_instruments(third);
            let named = third_row(third).and_then(|row| row.named);
            for (place, row) in CONTRACTS.iter().enumerate() {
                assert_eq!(allowed.contains(&row.twap_from), named != Some(place), "{}", row.name);
                assert_eq!(row.vwap_from.iter().any(|from| allowed.contains(from)), named != Some(place));
            }
        }
    }
}
