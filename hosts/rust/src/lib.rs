//! Closing prices of a day sheet's six contracts, single fields of a sheet, a text tape made into a sheet and back, and a sheet moved to
//! the long header and back to the short one, by the proved library Bliskoru.
//!
//! * [`list`], [`list_into`]: the closing list as text
//! * [`judge`]: is this a sheet, and if not, why and at which byte
//! * [`answers`]: price, method and lots of each contract, or why there is none
//! * [`read_field`], [`write_field`]: one field at a place
//! * [`tape_to_sheet`], [`sheet_to_tape`]: the sheet of a text tape, and the text tape of a sheet
//! * [`to_new_header`], [`to_old_header`]: the sheet with a long header, and with a short one
//! * [`tape_to_sheet_into`], [`sheet_to_tape_into`], [`to_new_header_into`], [`to_old_header_into`]: the same in lent memory
//! * [`raw`]: the functions of the archive as they are
//!
//! Nothing is kept between calls, so every function may be called from any number of threads at once.
//!
//! ```
//! use bliskoru::{judge, write_field, Field, Reason};
//!
//! let mut sheet = [0; 13];
//! let at = write_field(&mut sheet, 0, &Field::Header { metal: 4, marks: 0 })?;
//! let at = write_field(&mut sheet, at, &Field::End { count: 1 })?;
//! assert_eq!(at, 13);
//! assert_eq!(judge(&sheet), Ok(()));
//! assert_eq!(judge(&sheet[..12]).map_err(|no| (no.reason, no.byte)), Err((Reason::BytesMissing, 6)));
//! # Ok::<(), Reason>(())
//! ```

#![deny(unsafe_op_in_unsafe_fn)]
#![deny(missing_docs)]

mod answer;
mod field;
mod header;
pub mod raw;
mod reason;
mod sheet;
mod tape;
mod turning;

pub use answer::{Answer, Contract, Method, CONTRACTS};
pub use field::{read_field, write_field, Field, BID, OFFER};
pub use header::{to_new_header, to_new_header_into, to_old_header, to_old_header_into};
pub use reason::{Reason, Refusal, TapeRefusal};
pub use sheet::{answers, judge, list, list_into, LIST_ROOM, LONGEST_LISTED, LONGEST_SHEET};
pub use tape::{sheet_to_tape, sheet_to_tape_into, tape_to_sheet, tape_to_sheet_into, LONGEST_TAPE};
