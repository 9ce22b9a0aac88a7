//! Sheets moved from one header to the other (W-204): the old header is the short
//! one (tag 1), the new one the long one (tag 6). Moved to the new header a sheet
//! has the third value 0, so it prices the same, and only a sheet with that value
//! can be moved to the old one.
//!
//! A moved sheet is put together of the day that the first sheet holds, field by
//! field behind the other header. The end's count stays, since a sheet has one
//! header either way, and there and back gives the first sheet.

use crate::draft::record_field;
use crate::field::{append, fitting, End, Field, Header, PreviousClose, Refusal};
use crate::sheet::{judge_sheet, Day};
use crate::tables::SHEET_LIMIT;

/// The sheet with the new header, or the sheet's own refusal at its byte, then at
/// 0: 19 where it has that header, 1 for the longer sheet, 16. `room` is what the
/// lent buffer holds.
pub fn to_new_header(sheet: &[u8], room: usize) -> Result<Vec<u8>, Refusal> {
    let day = judge_sheet(sheet)?;
    if day.third.is_some() {
        return Err((19, 0));
    }
    let moved = sheet_with(&day, Some(0));
    if moved.len() > SHEET_LIMIT {
        return Err((1, 0));
    }
    fitting(moved, room)
}

/// The sheet with the old header, or the sheet's own refusal at its byte, then at
/// 0: 19 where it has that header or its third value names M3 or M4, 16.
pub fn to_old_header(sheet: &[u8], room: usize) -> Result<Vec<u8>, Refusal> {
    let day = judge_sheet(sheet)?;
    if day.third != Some(0) {
        return Err((19, 0));
    }
    fitting(sheet_with(&day, None), room)
}

/// The day's sheet behind a long header with this third value, or a short one.
fn sheet_with(day: &Day, third: Option<u8>) -> Vec<u8> {
    let mut fields = 0;
    let mut sheet = Vec::new();
    let mut put = |field: Field| {
        append(&mut sheet, &field);
        fields += 1;
    };
    put(Field::Header(Header { metal: day.metal, marks: day.marks, third }));
    for (instrument, price) in (0..).zip(day.previous_closes) {
        if let Some(price) = price {
            put(Field::PreviousClose(PreviousClose { instrument, price }));
        }
    }
    day.records.iter().map(record_field).for_each(put);
    append(&mut sheet, &Field::End(End { count: fields }));
    sheet
}
