//! The one shape of the functions that make a sheet or a text of another, and write it into lent memory.

use crate::raw;

/// Which of them.
#[derive(Clone, Copy)]
pub(crate) enum Turning {
    TapeToSheet,
    SheetToTape,
    ToNewHeader,
    ToOldHeader,
}

impl Turning {
    /// What is made of the bytes at the start of `out`: its length, or the number and the byte or line of a refusal.
    pub(crate) fn into_lent(self, bytes: &[u8], out: &mut [u8]) -> Result<usize, (u8, usize)> {
        let (mut length, mut place) = (0, 0);
        let function = match self {
            Turning::TapeToSheet => raw::bliskoru_tape_to_sheet,
            Turning::SheetToTape => raw::bliskoru_sheet_to_tape,
            Turning::ToNewHeader => raw::bliskoru_to_new_header,
            Turning::ToOldHeader => raw::bliskoru_to_old_header,
        };
        let (start, room) = (out.as_mut_ptr(), out.len());
        // SAFETY: both are slices, whose pointers are never null, `out` is borrowed alone, and `length` and `place` are ours.
        let number = unsafe { function(bytes.as_ptr(), bytes.len(), start, room, &mut length, &mut place) };
        match number {
            0 => Ok(length),
            _ => Err((number, place)),
        }
    }
}

/// What is written into memory of so many bytes, cut to its length.
pub(crate) fn in_room_for<E>(
    most: usize,
    write: impl FnOnce(&mut [u8]) -> Result<usize, E>,
) -> Result<Vec<u8>, E> {
    let mut out = vec![0; most];
    let length = write(&mut out)?;
    out.truncate(length);
    Ok(out)
}
