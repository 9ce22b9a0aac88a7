//! Hand-made texts of the tape (W-202) with the sheets or refusals that they
//! must give, and sheets with their texts, both written by hand. A name begins
//! with its label of docs/CASES.md where there is one.

mod forms;
mod lines;
mod names;
mod order;
mod room;
mod sheets;
mod third;
mod values;

use crate::draft::{ended_sheet, header};
use crate::field::{Field, Refusal};

/// A text and the sheet that it must give, or a sheet and its text; or the
/// refusal. `room` is what the lent buffer holds.
#[derive(Clone, Debug)]
pub struct NamedTape {
    pub name: String,
    pub input: Vec<u8>,
    pub room: usize,
    pub expected: Result<Vec<u8>, Refusal>,
}

/// The Nickel sheet as text.
pub const NICKEL_TAPE: &str = "\
METAL,Nickel,0
PREV,M1-M2,-1.20
PREV,Cash-M1,-2.50
58200000,M3-3M,TRADE,-5.00,4
58260000,M3-3M,TRADE,-4.97,2
58320000,M2-M3,TRADE,-3.00,5
58350000,M3-M4,TRADE,-4.10,5
58380000,M1-M2,QUOTE,-1.10,-
58500000,3M,TRADE,18000.40,3
58560000,3M,TRADE,18001.00,3
";

/// The Copper day on which 3M is M3 as text.
pub const THIRD_WEDNESDAY_TAPE: &str = "\
METAL,Copper,0,1
PREV,M2-M3,-4.00
PREV,Cash-M1,-3.10
43200000,Cash-M1,QUOTE,-,-3.20
60020000,M3-M4,TRADE,-15.00,5
60060000,M2-M3,QUOTE,-3.90,-3.70
60080000,M1-M3,TRADE,-7.60,4
60100000,M1-M4,TRADE,-21.00,2
60150000,Cash-M1,QUOTE,-3.30,-3.00
60180000,M2-M3,TRADE,-3.90,3
60240000,M3-M4,TRADE,-9.50,2
60300000,3M,TRADE,7004.00,5
60420000,3M,TRADE,7000.00,2
";

/// The first line of most texts here, and its field.
const COPPER: &str = "METAL,Copper,0\n";

fn copper() -> Field {
    header(4, 0)
}

/// Room for every sheet and text of these cases.
const ROOM: usize = 4_096;

fn case(name: &str, input: &[u8], room: usize, expected: Result<Vec<u8>, Refusal>) -> NamedTape {
    NamedTape { name: name.to_string(), input: input.to_vec(), room, expected }
}

/// A text that is accepted: the sheet of these fields and their end.
fn good(name: &str, text: &str, fields: &[Field]) -> NamedTape {
    case(name, text.as_bytes(), ROOM, Ok(ended_sheet(fields)))
}

/// A text that is refused with this number at this line.
fn refused(name: &str, text: impl AsRef<[u8]>, number: u8, line: usize) -> NamedTape {
    case(name, text.as_ref(), ROOM, Err((number, line)))
}

/// One line behind the Copper line, accepted as this field.
fn second(name: &str, line: &str, field: Field) -> NamedTape {
    good(name, &format!("{COPPER}{line}\n"), &[copper(), field])
}

/// One line behind the Copper line, refused with this number.
fn second_refused(name: &str, line: &str, number: u8) -> NamedTape {
    refused(name, format!("{COPPER}{line}\n"), number, 2)
}

/// Texts to be turned into sheets.
pub fn named_tapes() -> Vec<NamedTape> {
    let mut cases = sheets::nickel_tapes();
    cases.extend(lines::cases());
    cases.extend(order::cases());
    cases.extend(names::cases());
    cases.extend(forms::cases());
    cases.extend(values::cases());
    cases.extend(third::cases());
    cases.extend(room::cases());
    cases
}

/// Sheets to be turned into texts.
pub fn named_untapes() -> Vec<NamedTape> {
    let mut cases = sheets::cases();
    cases.extend(third::sheets());
    cases
}

/// Texts of sheets at 1,048,576 bytes and longer ones.
pub fn large_tapes() -> Vec<NamedTape> {
    room::large_tapes()
}

/// Sheets of 1,048,576 bytes and longer ones.
pub fn large_untapes() -> Vec<NamedTape> {
    room::large_untapes()
}
