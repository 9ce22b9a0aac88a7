//! A text tape and its sheet, each made of the other. docs/TAPE.md has the lines.

use crate::reason::{Reason, Refusal, TapeRefusal};
use crate::sheet::LONGEST_SHEET;
use crate::turning::{in_room_for, Turning};

/// No accepted sheet has a text of more bytes. It has at most three for each byte of the sheet.
pub const LONGEST_TAPE: usize = 3_145_728;

/// The sheet of a text tape, with its right end field.
///
/// Refused at the first bad line with 5, 6, 8 to 11, [`Reason::Line`] or [`Reason::Barred`]; where no line is bad, with
/// [`Reason::SheetTooLong`].
///
/// ```
/// use bliskoru::{judge, sheet_to_tape, tape_to_sheet, Reason};
///
/// let tape = b"METAL,Copper,0\nPREV,M1-M2,-1.20\n58380000,M1-M2,QUOTE,-1.10,-\n";
/// let sheet = tape_to_sheet(tape)?;
/// assert_eq!((sheet.len(), judge(&sheet)), (38, Ok(())));
/// assert_eq!(sheet_to_tape(&sheet)?, tape);
///
/// let no = tape_to_sheet(b"METAL,Copper,0\nPREV,M1-M2,-1.2\n").expect_err("one decimal");
/// assert_eq!((no.reason, no.line), (Reason::Line, 2));
/// # Ok::<(), Box<dyn std::error::Error>>(())
/// ```
pub fn tape_to_sheet(tape: &[u8]) -> Result<Vec<u8>, TapeRefusal> {
    // A quote's line has at least 15 bytes for the 17 of its field, METAL's 13 for header and end or 15 for the 14 of a long header and end,
    // and others more than their fields.
    in_room_for(tape.len().saturating_mul(2).min(LONGEST_SHEET), |sheet| tape_to_sheet_into(tape, sheet))
}

/// The sheet of a text tape at the start of `sheet`, and its length. Where it is refused no byte has changed, and where not none behind it.
///
/// Refused as [`tape_to_sheet`] does it, then with [`Reason::DoesNotFit`]. Room for [`LONGEST_SHEET`] bytes is enough for every tape.
pub fn tape_to_sheet_into(tape: &[u8], sheet: &mut [u8]) -> Result<usize, TapeRefusal> {
    let told = Turning::TapeToSheet.into_lent(tape, sheet);
    told.map_err(|(number, line)| TapeRefusal { reason: Reason::handed_back(number.into()), line })
}

/// The text tape of a sheet: turned into a sheet again it is that sheet.
///
/// Refused with 1 to 12 or [`Reason::Barred`], as [`judge`](crate::judge) does it.
///
/// ```
/// let sheet = [1, 0, 3, 5, 0, 1, 5, 0, 4, 0, 0, 0, 1];
/// assert_eq!(bliskoru::sheet_to_tape(&sheet)?, b"METAL,Lead,1\n");
/// # Ok::<(), bliskoru::Refusal>(())
/// ```
pub fn sheet_to_tape(sheet: &[u8]) -> Result<Vec<u8>, Refusal> {
    in_room_for(sheet.len().saturating_mul(3).min(LONGEST_TAPE), |tape| sheet_to_tape_into(sheet, tape))
}

/// The text tape of a sheet at the start of `tape`, and its length. Where it is refused no byte has changed, and where not none behind it.
///
/// Refused as [`sheet_to_tape`] does it, then with [`Reason::DoesNotFit`] at byte 0. Room for [`LONGEST_TAPE`] bytes is enough for every
/// sheet.
pub fn sheet_to_tape_into(sheet: &[u8], tape: &mut [u8]) -> Result<usize, Refusal> {
    let told = Turning::SheetToTape.into_lent(sheet, tape);
    told.map_err(|(number, byte)| Refusal { reason: Reason::handed_back(number.into()), byte })
}
