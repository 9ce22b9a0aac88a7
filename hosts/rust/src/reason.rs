//! Why something was refused: the numbers of docs/SHEET.md, section 4.

use std::error::Error;
use std::fmt;

/// The numbers of docs/SHEET.md, section 4.
#[derive(Clone, Copy, Debug, PartialEq, Eq, PartialOrd, Ord, Hash)]
#[repr(u8)]
pub enum Reason {
    /// The sheet, or the one that a tape or a move would give, has more than 1,048,576 bytes.
    SheetTooLong = 1,
    /// Bytes of a field are missing, or the end field is.
    BytesMissing = 2,
    /// The tag is not 1 to 6.
    Tag = 3,
    /// The length is not the tag's.
    Length = 4,
    /// The field or the line is out of its place, bytes stand after the end field, or a tape has no line.
    OutOfPlace = 5,
    /// There is no such metal, a mark that no spread has, or no such third value.
    MetalOrMarks = 6,
    /// The instrument is above 11.
    Instrument = 7,
    /// The time is above its range or, in a whole sheet, below the time before it.
    Time = 8,
    /// A price is out of its range.
    Price = 9,
    /// The lots are out of their range.
    Lots = 10,
    /// The sides are above 3, an absent side is not zero, or the bid is above the offer.
    Sides = 11,
    /// The end field's count is wrong.
    EndCount = 12,
    /// A contract has less than 5 lots, and no reference at the window's first millisecond.
    NoReference = 13,
    /// A contract has no close of 1 to 99,999,999 cents after rounding.
    CloseOutOfRange = 14,
    /// An earlier contract was refused.
    NotReached = 15,
    /// There is no room for the field at that place, or for the sheet or the text.
    DoesNotFit = 16,
    /// A line of a tape is malformed, or names what there is not.
    Line = 17,
    /// The header's third value bars the instrument, in a whole sheet or a tape.
    Barred = 18,
    /// The sheet has the wanted header already or, going back to the short one, its third value names M3 or M4.
    HeaderForm = 19,
}

/// Every reason, number 1 first.
const REASONS: [Reason; 19] = [
    Reason::SheetTooLong,
    Reason::BytesMissing,
    Reason::Tag,
    Reason::Length,
    Reason::OutOfPlace,
    Reason::MetalOrMarks,
    Reason::Instrument,
    Reason::Time,
    Reason::Price,
    Reason::Lots,
    Reason::Sides,
    Reason::EndCount,
    Reason::NoReference,
    Reason::CloseOutOfRange,
    Reason::NotReached,
    Reason::DoesNotFit,
    Reason::Line,
    Reason::Barred,
    Reason::HeaderForm,
];

impl Reason {
    /// Its number.
    pub fn number(self) -> u8 {
        self as u8
    }

    /// The reason of a number, none where it is not 1 to 19.
    pub fn from_number(number: u8) -> Option<Reason> {
        REASONS.get(usize::from(number).checked_sub(1)?).copied()
    }

    /// The reason of a number that the archive handed back as a refusal. It hands back no other, so this never panics.
    pub(crate) fn handed_back(number: u64) -> Reason {
        let reason = u8::try_from(number).ok().and_then(Reason::from_number);
        reason.unwrap_or_else(|| unreachable!("{number} is no number of a refusal"))
    }

    fn words(self) -> &'static str {
        match self {
            Reason::SheetTooLong => "the sheet has more than 1,048,576 bytes",
            Reason::BytesMissing => "bytes of a field or the end field are missing",
            Reason::Tag => "the tag is not 1 to 6",
            Reason::Length => "the length is not the tag's",
            Reason::OutOfPlace => {
                "the field or line is out of its place, bytes stand after the end field, or there is no line"
            }
            Reason::MetalOrMarks => {
                "there is no such metal, a mark that no spread has, or no such third value"
            }
            Reason::Instrument => "the instrument is above 11",
            Reason::Time => "the time is above its range or below the time before it",
            Reason::Price => "a price is out of its range",
            Reason::Lots => "the lots are not 1 to 10,000",
            Reason::Sides => {
                "the sides are above 3, an absent side is not zero, or the bid is above the offer"
            }
            Reason::EndCount => "the end field's count is wrong",
            Reason::NoReference => "less than 5 lots, and no reference at the window's first millisecond",
            Reason::CloseOutOfRange => "no close of 1 to 99,999,999 cents after rounding",
            Reason::NotReached => "an earlier contract was refused",
            Reason::DoesNotFit => "there is no room for the field at that place, or for the sheet or text",
            Reason::Line => "the line is malformed, or names what there is not",
            Reason::Barred => "the header's third value bars the instrument",
            Reason::HeaderForm => "the sheet has the wanted header already, or its header names M3 or M4",
        }
    }
}

impl fmt::Display for Reason {
    fn fmt(&self, out: &mut fmt::Formatter<'_>) -> fmt::Result {
        write!(out, "{} ({})", self.words(), self.number())
    }
}

impl Error for Reason {}

/// A sheet that is refused: why, and the byte at which the field starts that earned it.
#[derive(Clone, Copy, Debug, PartialEq, Eq, Hash)]
pub struct Refusal {
    /// Why: [`Reason::SheetTooLong`] to [`Reason::EndCount`] or [`Reason::Barred`]. Of a sheet that is to be moved also
    /// [`Reason::HeaderForm`], and [`Reason::SheetTooLong`] for the moved one; [`Reason::DoesNotFit`] where that or the text has no room.
    pub reason: Reason,
    /// The byte, counted from 0: where the field starts; the sheet's length where the end is missing; 0 where it is no field that earned
    /// it: for a length, the header's form or the room.
    pub byte: usize,
}

impl fmt::Display for Refusal {
    fn fmt(&self, out: &mut fmt::Formatter<'_>) -> fmt::Result {
        write!(out, "refused at byte {}: {}", self.byte, self.reason)
    }
}

impl Error for Refusal {
    fn source(&self) -> Option<&(dyn Error + 'static)> {
        Some(&self.reason)
    }
}

/// A text tape that is refused: why, and its first bad line.
#[derive(Clone, Copy, Debug, PartialEq, Eq, Hash)]
pub struct TapeRefusal {
    /// Why: 5, 6, 8 to 11, [`Reason::Line`] or [`Reason::Barred`] for a line; [`Reason::SheetTooLong`] or [`Reason::DoesNotFit`] where no
    /// line is bad.
    pub reason: Reason,
    /// The line, counted from 1; 0 where no line is bad.
    pub line: usize,
}

impl fmt::Display for TapeRefusal {
    fn fmt(&self, out: &mut fmt::Formatter<'_>) -> fmt::Result {
        match self.line {
            0 => write!(out, "refused: {}", self.reason),
            line => write!(out, "refused at line {line}: {}", self.reason),
        }
    }
}

impl Error for TapeRefusal {
    fn source(&self) -> Option<&(dyn Error + 'static)> {
        Some(&self.reason)
    }
}
