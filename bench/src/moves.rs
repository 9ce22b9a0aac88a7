//! The sheets that are moved to another header, each with a short one.

use crate::sheets::Kind;
use independent::moves::to_new_header;
use independent::tables::SHEET_LIMIT;

/// The longest sheet that has room for the byte that a long header has more.
pub const LONGEST: usize = SHEET_LIMIT - 1;

pub const SIZES: [usize; 3] = [130, 65_536, LONGEST];

/// A move depends on the records alone, and not on their windows.
pub const KINDS: [Kind; 2] = [Kind::Trades, Kind::Quotes];

/// The sheet with a long header.
pub fn moved(sheet: &[u8]) -> Vec<u8> {
    to_new_header(sheet, SHEET_LIMIT).expect("an accepted sheet with a short header")
}
