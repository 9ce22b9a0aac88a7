//! What was among the texts.

use crate::tally::{add_to, header_of, named, HEADERS};
use crate::tapes::{kind_of, KINDS};
use crate::turning::Told;

/// The numbers that a text can earn.
const NUMBERS: [u8; 9] = [1, 5, 6, 8, 9, 10, 11, 17, 18];

#[derive(Default)]
pub struct TapeTally {
    bytes: u64,
    /// Texts by kind.
    texts: [u64; 3],
    /// The accepted ones; each was refused with 16 in a byte less than its sheet needs.
    accepted: [u64; 3],
    /// The accepted ones by the header of their sheet.
    headers: [u64; 4],
    /// Refused texts by number.
    refused: [u64; 19],
}

impl TapeTally {
    pub fn count(&mut self, item: u64, tape: &[u8], told: &Told) {
        self.bytes += tape.len() as u64;
        self.texts[kind_of(item)] += 1;
        match told {
            Ok(sheet) => {
                self.accepted[kind_of(item)] += 1;
                self.headers[header_of(sheet)] += 1;
            }
            Err((number, _)) => self.refused[usize::from(*number)] += 1,
        }
    }

    pub fn add(&mut self, other: &TapeTally) {
        self.bytes += other.bytes;
        add_to(&mut self.texts, &other.texts);
        add_to(&mut self.accepted, &other.accepted);
        add_to(&mut self.headers, &other.headers);
        add_to(&mut self.refused, &other.refused);
    }

    /// Every canonical text must have been accepted, and so refused with 16 in too little room, every header must have been among the
    /// accepted ones, and every other number among the others.
    pub fn has_everything(&self) -> Result<(), String> {
        if self.texts[0] == 0 || self.accepted[0] != self.texts[0] {
            return Err("not every canonical text was accepted".to_string());
        }
        if self.headers.contains(&0) {
            return Err("a header was not among the accepted texts".to_string());
        }
        let seen = |number: &u8| self.refused[usize::from(*number)] > 0;
        match NUMBERS.iter().find(|number| !seen(number)) {
            Some(number) => Err(format!("no text was refused with {number}")),
            None => Ok(()),
        }
    }

    /// All of it in one line.
    pub fn line(&self) -> String {
        let accepted: u64 = self.accepted.iter().sum();
        let kinds = KINDS.iter().zip(self.accepted.iter().zip(self.texts));
        let kinds: Vec<String> =
            kinds.map(|(name, (accepted, texts))| format!("{accepted} of {texts} {name}")).collect();
        let numbers = NUMBERS.map(|number| format!("{number} {}", self.refused[usize::from(number)]));
        format!(
            "{} texts of {} bytes, no difference; accepted {}, {accepted} in all ({}), each back again from its sheet; refused by {}, 16 {accepted} in a byte too little",
            self.texts.iter().sum::<u64>(),
            self.bytes,
            kinds.join(", "),
            named(&HEADERS, &self.headers),
            numbers.join(", "),
        )
    }
}
