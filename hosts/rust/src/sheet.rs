//! A whole sheet: its list, its judgement and its answers.

use crate::answer::Answer;
use crate::raw;
use crate::reason::{Reason, Refusal};

/// A sheet of more bytes is refused.
pub const LONGEST_SHEET: usize = 1_048_576;

/// The list of a sheet of more bytes is the line `too long`.
pub const LONGEST_LISTED: usize = 65_536;

/// Room that is enough for every list.
pub const LIST_ROOM: usize = 512;

/// The closing list of a sheet: the metal's name and six lines, or `refused`, number and byte, or `too long`.
pub fn list(sheet: &[u8]) -> String {
    let mut room = [0; LIST_ROOM];
    let length = list_into(sheet, &mut room).unwrap_or_else(|| unreachable!("no list is longer"));
    room[..length].iter().map(|&byte| char::from(byte)).collect()
}

/// The closing list of a sheet at the start of `out`, and its length. None where it does not fit; `out` is then as it was.
pub fn list_into(sheet: &[u8], out: &mut [u8]) -> Option<usize> {
    // SAFETY: both are slices, whose pointers are never null, and `out` is borrowed alone.
    let length = unsafe { raw::bliskoru_list(sheet.as_ptr(), sheet.len(), out.as_mut_ptr(), out.len()) };
    (length != 0).then_some(length)
}

/// Is this a sheet? If not, why and at which byte.
pub fn judge(sheet: &[u8]) -> Result<(), Refusal> {
    let mut byte = 0;
    // SAFETY: `sheet` is a slice, whose pointer is never null, and `byte` is ours.
    let number = unsafe { raw::bliskoru_judge(sheet.as_ptr(), sheet.len(), &mut byte) };
    judged(number, byte)
}

/// The answers of the six contracts in pricing order ([`CONTRACTS`](crate::CONTRACTS)), or why this is no sheet.
pub fn answers(sheet: &[u8]) -> Result<[Answer; 6], Refusal> {
    let mut rows = [0; 18];
    let mut byte = 0;
    // SAFETY: `sheet` is a slice, whose pointer is never null; `rows` has 18 numbers, and it and `byte` are ours.
    let number = unsafe { raw::bliskoru_answers(sheet.as_ptr(), sheet.len(), &mut rows, &mut byte) };
    judged(number, byte)?;
    Ok(std::array::from_fn(|k| Answer::of_row(rows[3 * k], rows[3 * k + 1], rows[3 * k + 2])))
}

/// 0 is yes; any other number is the reason.
fn judged(number: u8, byte: usize) -> Result<(), Refusal> {
    match number {
        0 => Ok(()),
        _ => Err(Refusal { reason: Reason::handed_back(u64::from(number)), byte }),
    }
}
