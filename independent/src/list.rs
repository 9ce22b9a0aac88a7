//! The closing list as text.

use crate::field::Refusal;
use crate::pricing::{price_day, price_day_by_spans, Answer};
use crate::sheet::{judge_sheet, Day};
use crate::tables::{metal_row, CONTRACTS, LIST_LIMIT};

/// A contract's line.
pub fn contract_line(name: &str, answer: &Answer) -> String {
    match answer {
        Answer::Priced { method, price, lots } => format!("{name} {} {price} {lots}\n", method.name()),
        Answer::Refused { number, lots } => format!("{name} refused {number} {lots}\n"),
    }
}

/// The list of a judged sheet: the metal's name and six lines, or one line.
pub fn list_text(judged: &Result<Day, Refusal>, price: fn(&Day) -> [Answer; 6]) -> String {
    let day = match judged {
        Ok(day) => day,
        Err((number, byte)) => return format!("refused {number} {byte}\n"),
    };
    let metal = metal_row(day.metal).map_or("", |metal| metal.name);
    let answers = price(day);
    let mut text = format!("{metal}\n");
    for (contract, answer) in CONTRACTS.iter().zip(&answers) {
        text.push_str(&contract_line(contract.name, answer));
    }
    text
}

fn list_within_limit(sheet: &[u8], price: fn(&Day) -> [Answer; 6]) -> Vec<u8> {
    if sheet.len() > LIST_LIMIT {
        return b"too long\n".to_vec();
    }
    list_text(&judge_sheet(sheet), price).into_bytes()
}

/// What the program prints for a sheet.
pub fn closing_list(sheet: &[u8]) -> Vec<u8> {
    list_within_limit(sheet, price_day)
}

/// The same, with the indicator summed by spans.
pub fn closing_list_by_spans(sheet: &[u8]) -> Vec<u8> {
    list_within_limit(sheet, price_day_by_spans)
}

/// The list of a sheet of any length, without `too long`: above 1,048,576
/// bytes it is `refused 1 0`.
pub fn unlimited_list(sheet: &[u8]) -> Vec<u8> {
    list_text(&judge_sheet(sheet), price_day_by_spans).into_bytes()
}
