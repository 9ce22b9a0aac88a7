//! The worked sheets: the Nickel sheet of SHEET 6, the exchange's Copper example,
//! and a Copper day on which 3M is M3; and every way to cut the Nickel sheet short.

use super::{case, refused, NamedCase};
use crate::draft::{close, end, header, long_header, quote, sheet_of, trade};

/// The list of the Nickel sheet, six prices under the metal's name (RULES 10).
pub const NICKEL_LIST: &str = "\
Nickel
3M VWAP 1800100 6
M3 VWAP 1799601 6
M2 VWAP 1799301 5
M4 VWAP 1800011 5
M1 TWAP 1799185 0
Cash TWAP 1798935 0
";

/// The exchange's example, with the M1 and Cash that its rules give.
pub const COPPER_LIST: &str = "\
Copper
3M VWAP 920100 5
M3 VWAP 920560 375
M2 VWAP 920806 320
M4 VWAP 920225 676
M1 TWAP 921186 0
Cash TWAP 921236 0
";

/// The Nickel sheet of 130 bytes (SHEET 6).
pub fn nickel_sheet() -> Vec<u8> {
    sheet_of(&[
        header(1, 0),
        close(7, -120),
        close(11, -250),
        trade(58_200_000, 1, -500, 4),
        trade(58_260_000, 1, -497, 2),
        trade(58_320_000, 3, -300, 5),
        trade(58_350_000, 5, -410, 5),
        quote(58_380_000, 7, 1, -110, 0),
        trade(58_500_000, 0, 1_800_040, 3),
        trade(58_560_000, 0, 1_800_100, 3),
        end(10),
    ])
}

/// The exchange's Copper example as one sheet. Its clock times are moved into
/// Copper's spread window, 16:40 to 16:45, and 3M is one trade at 9,201.
pub fn copper_sheet() -> Vec<u8> {
    sheet_of(&[
        header(4, 0),
        close(7, 300),
        close(11, 50),
        trade(59_000_000, 7, 375, 1),
        quote(60_000_000, 11, 3, 0, 100),
        trade(60_010_000, 1, 500, 100),
        trade(60_020_000, 1, 400, 50),
        trade(60_030_000, 1, 450, 200),
        trade(60_040_000, 1, 500, 25),
        quote(60_060_000, 7, 1, 400, 0),
        trade(60_070_000, 3, 225, 50),
        trade(60_080_000, 3, 250, 250),
        trade(60_090_000, 2, 750, 5),
        trade(60_100_000, 2, 700, 15),
        quote(60_120_000, 7, 3, 400, 450),
        trade(60_130_000, 4, 600, 5),
        trade(60_140_000, 4, 400, 1),
        trade(60_150_000, 5, 300, 500),
        trade(60_160_000, 6, 0, 100),
        trade(60_170_000, 6, -50, 70),
        quote(60_180_000, 7, 2, 0, 450),
        quote(60_240_000, 7, 2, 0, 350),
        trade(60_300_000, 0, 920_100, 5),
        end(23),
    ])
}

/// A day like the exchange's 20 November 2018, when 3M was the third Wednesday
/// of M3: 3M (5 lots at 7,004, 2 at 7,000) is 700,285.7 and so 700,300, and M3
/// with it. M2-M3 is -400 for a minute, then -390: -392. M4 is 5 lots at 15
/// above M3 and 2 at 9.50. M1 is 4 lots on M3 and 2 on M4. Cash-M1 is offered at
/// -320 since noon, then -310 counts for as long: -315.
pub const THIRD_WEDNESDAY_LIST: &str = "\
Copper
3M VWAP 700300 7
M3 VWAP 700300 7
M2 TWAP 699908 3
M4 VWAP 701643 7
M1 VWAP 699541 6
Cash TWAP 699226 0
";

/// The sheet of that day, 179 bytes.
pub fn third_wednesday_sheet() -> Vec<u8> {
    sheet_of(&[
        long_header(4, 0, 1),
        close(3, -400),
        close(11, -310),
        quote(43_200_000, 11, 2, 0, -320),
        trade(60_020_000, 5, -1_500, 5),
        quote(60_060_000, 3, 3, -390, -370),
        trade(60_080_000, 8, -760, 4),
        trade(60_100_000, 10, -2_100, 2),
        quote(60_150_000, 11, 3, -330, -300),
        trade(60_180_000, 3, -390, 3),
        trade(60_240_000, 5, -950, 2),
        trade(60_300_000, 0, 700_400, 5),
        trade(60_420_000, 0, 700_000, 2),
        end(13),
    ])
}

pub(super) fn cases() -> Vec<NamedCase> {
    vec![
        case("the Nickel sheet", nickel_sheet(), NICKEL_LIST),
        case("C18 the exchange's Copper example", copper_sheet(), COPPER_LIST),
        case("I9 a Copper day on which 3M is M3", third_wednesday_sheet(), THIRD_WEDNESDAY_LIST),
        refused("B3 the empty sheet", Vec::new(), 2, 0),
    ]
}

/// The bytes at which the Nickel sheet's eleven fields start.
const NICKEL_STARTS: [usize; 11] = [0, 6, 14, 22, 36, 50, 64, 78, 95, 109, 123];

/// The Nickel sheet cut to each shorter length: 2 at the start of the field
/// that is cut, which for a cut between fields is the sheet's length.
pub(super) fn cut_nickel_sheets() -> Vec<NamedCase> {
    let whole = nickel_sheet();
    let cut = |length: usize| {
        let started = NICKEL_STARTS.iter().rev().find(|start| **start <= length);
        let name = format!("B2 the Nickel sheet cut to {length} bytes");
        refused(&name, whole[..length].to_vec(), 2, *started.unwrap_or(&0))
    };
    (0..whole.len()).map(cut).collect()
}
