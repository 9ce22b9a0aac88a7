//! A sheet moved to the long header, which is the new one, and back to the short one, which is the old. Metal, marks and all bytes behind
//! the header are the same, and so are the answers.

use crate::reason::{Reason, Refusal};
use crate::sheet::LONGEST_SHEET;
use crate::turning::{in_room_for, Turning};

/// The sheet with a long header, whose third value is 0, in the place of its short one: a byte more.
///
/// Refused with 1 to 12 or [`Reason::Barred`], as [`judge`](crate::judge) does it; then at byte 0 with [`Reason::HeaderForm`] where the
/// header is a long one, then with [`Reason::SheetTooLong`] where the sheet has [`LONGEST_SHEET`] bytes.
///
/// ```
/// use bliskoru::{to_new_header, to_old_header, Reason};
///
/// let old = [1, 0, 3, 5, 0, 1, 5, 0, 4, 0, 0, 0, 1];
/// let new = to_new_header(&old)?;
/// assert_eq!(new, [6, 0, 4, 5, 0, 1, 0, 5, 0, 4, 0, 0, 0, 1]);
/// assert_eq!(to_old_header(&new)?, old);
/// assert_eq!(to_new_header(&new).map_err(|no| (no.reason, no.byte)), Err((Reason::HeaderForm, 0)));
/// # Ok::<(), bliskoru::Refusal>(())
/// ```
pub fn to_new_header(sheet: &[u8]) -> Result<Vec<u8>, Refusal> {
    in_room_for(sheet.len().saturating_add(1).min(LONGEST_SHEET), |out| to_new_header_into(sheet, out))
}

/// The sheet with a long header at the start of `out`, and its length. Where it is refused no byte has changed, and where not none behind
/// it.
///
/// Refused as [`to_new_header`] does it, then with [`Reason::DoesNotFit`] at byte 0. Room for [`LONGEST_SHEET`] bytes is enough for every
/// sheet.
///
/// ```
/// let sheet = [1, 0, 3, 5, 0, 1, 5, 0, 4, 0, 0, 0, 1];
/// let mut room = [255; 15];
/// assert_eq!(bliskoru::to_new_header_into(&sheet, &mut room)?, 14);
/// assert_eq!(room, [6, 0, 4, 5, 0, 1, 0, 5, 0, 4, 0, 0, 0, 1, 255]);
/// # Ok::<(), bliskoru::Refusal>(())
/// ```
pub fn to_new_header_into(sheet: &[u8], out: &mut [u8]) -> Result<usize, Refusal> {
    moved(Turning::ToNewHeader, sheet, out)
}

/// The sheet with a short header in the place of its long one, whose third value is 0: a byte less.
///
/// Refused with 1 to 12 or [`Reason::Barred`], as [`judge`](crate::judge) does it; then at byte 0 with [`Reason::HeaderForm`] where the
/// header is a short one, or its third value is 1 or 2: a short header cannot say that 3M is M3 or M4.
///
/// ```
/// use bliskoru::{to_old_header, Reason};
///
/// assert_eq!(
///     to_old_header(&[6, 0, 4, 5, 0, 1, 0, 5, 0, 4, 0, 0, 0, 1])?,
///     [1, 0, 3, 5, 0, 1, 5, 0, 4, 0, 0, 0, 1]
/// );
/// let no = to_old_header(&[6, 0, 4, 5, 0, 1, 2, 5, 0, 4, 0, 0, 0, 1]).expect_err("3M is M4");
/// assert_eq!((no.reason, no.byte), (Reason::HeaderForm, 0));
/// # Ok::<(), bliskoru::Refusal>(())
/// ```
pub fn to_old_header(sheet: &[u8]) -> Result<Vec<u8>, Refusal> {
    in_room_for(sheet.len().min(LONGEST_SHEET), |out| to_old_header_into(sheet, out))
}

/// The sheet with a short header at the start of `out`, and its length. Where it is refused no byte has changed, and where not none behind
/// it.
///
/// Refused as [`to_old_header`] does it, then with [`Reason::DoesNotFit`] at byte 0. Room for as many bytes as the sheet has is enough.
///
/// ```
/// let sheet = [6, 0, 4, 5, 0, 1, 0, 5, 0, 4, 0, 0, 0, 1];
/// let mut room = [255; 14];
/// assert_eq!(bliskoru::to_old_header_into(&sheet, &mut room)?, 13);
/// assert_eq!(room, [1, 0, 3, 5, 0, 1, 5, 0, 4, 0, 0, 0, 1, 255]);
/// # Ok::<(), bliskoru::Refusal>(())
/// ```
pub fn to_old_header_into(sheet: &[u8], out: &mut [u8]) -> Result<usize, Refusal> {
    moved(Turning::ToOldHeader, sheet, out)
}

fn moved(turning: Turning, sheet: &[u8], out: &mut [u8]) -> Result<usize, Refusal> {
    let told = turning.into_lent(sheet, out);
    told.map_err(|(number, byte)| Refusal { reason: Reason::handed_back(number.into()), byte })
}
