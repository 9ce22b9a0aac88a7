//! Hand-made sheets with their closing lists written by hand from the rules
//! (docs/RULES.md, docs/SHEET.md). A name begins with its label of
//! docs/CASES.md where there is one.

mod barred;
mod edges;
mod fields;
mod longest;
pub mod moves;
mod order;
mod papers;
mod pricing;
mod resting;
mod signs;
mod spans;
pub mod tapes;
mod third;

use crate::draft::{close, ended_sheet, header, quote, sheet_of, trade};
use crate::field::Field;

pub use papers::{copper_sheet, nickel_sheet, third_wednesday_sheet};
pub use papers::{COPPER_LIST, NICKEL_LIST, THIRD_WEDNESDAY_LIST};

/// A sheet, and the closing list it must give.
#[derive(Clone, Debug)]
pub struct NamedCase {
    pub name: String,
    pub sheet: Vec<u8>,
    pub list: String,
}

/// Copper's windows, which most cases use.
const SPREAD: u32 = 60_000_000;
const ANCHOR: u32 = 60_300_000;
const COPPER: u8 = 4;

/// A metal's number and name, its spread start and anchor start, and 900,050
/// rounded to its 3M step: Nickel's half of 100 goes up.
type Metal = (u8, &'static str, u32, u32, u32);

const METALS: [Metal; 5] = [
    (1, "Nickel", 58_200_000, 58_500_000, 900_100),
    (2, "Aluminium", 58_800_000, 59_100_000, 900_050),
    (3, "Zinc", 59_400_000, 59_700_000, 900_050),
    (4, "Copper", 60_000_000, 60_300_000, 900_050),
    (5, "Lead", 60_600_000, 60_900_000, 900_050),
];

fn case(name: &str, sheet: Vec<u8>, list: &str) -> NamedCase {
    NamedCase { name: name.to_string(), sheet, list: list.to_string() }
}

/// A case refused with this number at this byte.
fn refused(name: &str, sheet: Vec<u8>, number: u8, byte: usize) -> NamedCase {
    case(name, sheet, &format!("refused {number} {byte}\n"))
}

/// A case made of whole fields, refused.
fn refused_fields(name: &str, fields: &[Field], number: u8, byte: usize) -> NamedCase {
    refused(name, sheet_of(fields), number, byte)
}

/// A Copper header, then these bytes.
fn behind_header(bytes: &[u8]) -> Vec<u8> {
    let mut sheet = sheet_of(&[header(COPPER, 0)]);
    sheet.extend(bytes);
    sheet
}

/// A list of six lines under a metal's name.
fn lines(metal: &str, contracts: [&str; 6]) -> String {
    let mut text = format!("{metal}\n");
    for (name, answer) in ["3M", "M3", "M2", "M4", "M1", "Cash"].iter().zip(contracts) {
        text.push_str(&format!("{name} {answer}\n"));
    }
    text
}

/// The Copper list of six lines.
fn copper(contracts: [&str; 6]) -> String {
    lines("Copper", contracts)
}

/// The Copper list of the contracts priced, then one refused, then the rest.
fn copper_until(contracts: &[&str]) -> String {
    let mut all = ["refused 15 0"; 6];
    for (place, answer) in all.iter_mut().zip(contracts) {
        *place = answer;
    }
    copper(all)
}

/// Previous closes for every TWAP: 3M at 900,000 and all spreads at 0, so that
/// without records every contract is 900,000 by TWAP with 0 lots.
fn flat_closes() -> Vec<Field> {
    vec![close(0, 900_000), close(1, 0), close(3, 0), close(5, 0), close(7, 0), close(11, 0)]
}

/// A sheet with the flat closes and these records.
fn flat_of(metal: u8, marks: u16, records: &[Field]) -> Vec<u8> {
    let mut fields = vec![header(metal, marks)];
    fields.extend(flat_closes());
    fields.extend(records);
    ended_sheet(&fields)
}

/// A Copper sheet with the flat closes and these records.
fn flat(records: &[Field]) -> Vec<u8> {
    flat_of(COPPER, 0, records)
}

/// A Copper sheet with the flat closes except one instrument's, and records.
fn flat_without(instrument: u8, records: &[Field]) -> Vec<u8> {
    let lacks = |field: &Field| match field {
        Field::PreviousClose(close) => close.instrument != instrument,
        _ => true,
    };
    let mut fields = vec![header(COPPER, 0)];
    fields.extend(flat_closes().into_iter().filter(lacks));
    fields.extend(records);
    ended_sheet(&fields)
}

/// A sheet with a short header, that header made a long one with this byte.
fn with_byte(sheet: &[u8], third: u8) -> Vec<u8> {
    [&[6, 0, 4], &sheet[3..6], &[third], &sheet[6..]].concat()
}

/// The list of a Copper sheet in which nothing has a price.
fn nothing() -> String {
    copper_until(&["refused 13 0"])
}

/// All named cases that fit the program, the papers' own first.
pub fn named_cases() -> Vec<NamedCase> {
    let mut cases = papers::cases();
    cases.extend(fields::cases());
    cases.extend(order::cases());
    cases.extend(edges::cases());
    cases.extend(signs::cases());
    cases.extend(pricing::cases());
    cases.extend(resting::cases());
    cases.extend(barred::cases());
    cases.extend(third::cases());
    cases.extend(spans::cases());
    cases.extend(papers::cut_nickel_sheets());
    cases.extend(at_the_lists_limit());
    cases
}

/// Sheets as long as the program lists, whole and without their end (which
/// would be the 4,684th field), and one byte longer.
fn at_the_lists_limit() -> Vec<NamedCase> {
    let mut open = full_sheet(4_670, 6);
    open.truncate(65_536);
    vec![
        refused("B2 a sheet of 65,536 bytes without its end", open, 2, 65_536),
        case("D1 a sheet of 65,537 bytes", full_sheet(4_672, 4), "too long\n"),
        full_case("D1 a sheet of 65,536 bytes", 4_661, 13),
    ]
}

/// The flat Copper sheet (61 bytes) with so many trades of 10,000 lots at 10
/// on M3-3M (14 bytes each) and so many empty quotes on M2-3M (17 bytes each).
fn full_sheet(trades: usize, quotes: usize) -> Vec<u8> {
    let mut records = vec![trade(SPREAD, 1, 10, 10_000); trades];
    records.extend(vec![quote(SPREAD, 2, 0, 0, 0); quotes]);
    flat(&records)
}

fn full_case(name: &str, trades: usize, quotes: usize) -> NamedCase {
    let lots = trades * 10_000;
    let m3 = format!("VWAP 900010 {lots}");
    let rest = "TWAP 900010 0";
    let list = copper(["TWAP 900000 0", &m3, rest, rest, rest, rest]);
    case(name, full_sheet(trades, quotes), &list)
}

/// Cases longer than the program reads. The list is the one without the
/// program's own limit; the program prints `too long` for each.
pub fn large_cases() -> Vec<NamedCase> {
    let garbage = vec![0xFF; 1_048_577];
    let mut cases = vec![
        full_case("B18 a sheet of 65,537 bytes", 4_672, 4),
        full_case("B18 a sheet of 1,048,576 bytes", 74_883, 9),
        refused("B17 a good sheet of 1,048,577 bytes", full_sheet(74_894, 0), 1, 0),
        refused("B17 a bad first tag and 1,048,577 bytes", garbage, 1, 0),
    ];
    cases.extend(longest::cases());
    let longer = with_byte(&full_sheet(74_883, 9), 0);
    cases.push(refused("B17 the longest sheet with a long header", longer, 1, 0));
    cases
}
