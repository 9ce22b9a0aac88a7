//! What was among the sheets.

use crate::moves::Moves;
use crate::same::Told;
use bliskoru::{Answer, Method};

/// Names of the metals, in their order.
const METALS: [&str; 5] = ["Nickel", "Aluminium", "Zinc", "Copper", "Lead"];

/// Headers of accepted sheets: a short one, and a long one with each third value.
pub const HEADERS: [&str; 4] = ["short header", "third value 0", "third value 1", "third value 2"];

/// The row of the contract that each of these headers says is 3M: M3 and M4.
const NAMED: [Option<usize>; 4] = [None, None, Some(1), Some(3)];

/// The numbers that a sheet can earn.
const NUMBERS: [&str; 13] = ["1", "2", "3", "4", "5", "6", "7", "8", "9", "10", "11", "12", "18"];

/// Sizes: up to so many bytes, and the last for longer ones.
const SIZES: [usize; 4] = [1_000, 65_536, 1_048_575, 1_048_576];
const SIZE_NAMES: [&str; 5] = ["to 1,000", "to 65,536", "to 1,048,575", "1,048,576", "longer"];

/// What a contract's answer was.
const ANSWERS: [&str; 5] = ["VWAP", "TWAP", "13", "14", "15"];

/// What the two moves of accepted sheets gave: a sheet, or 19.
const MOVES: [&str; 4] =
    ["to the long header", "to the short header", "19 to the long header", "19 to the short header"];

#[derive(Default)]
pub struct Tally {
    sheets: u64,
    walked: u64,
    bytes: u64,
    /// Accepted sheets by metal.
    metals: [u64; 5],
    /// Accepted sheets by header.
    headers: [u64; 4],
    /// Accepted sheets on which M3 or M4 took the close of 3M.
    taken: u64,
    /// Accepted sheets on which a quote from before a window decides an answer.
    resting: u64,
    /// Moves of accepted sheets by what they gave.
    moves: [u64; 4],
    /// Accepted sheets that a move would have made too long. They are rare, and among the named moves.
    longer: u64,
    /// Refused sheets by number.
    refused: [u64; 13],
    /// Contracts of accepted sheets by answer.
    answers: [u64; 5],
    sizes: [u64; 5],
}

fn place_of(answer: &Answer) -> usize {
    match answer {
        Answer::Priced { method: Method::Vwap, .. } => 0,
        Answer::Priced { method: Method::Twap, .. } => 1,
        Answer::Refused { reason, .. } => usize::from(reason.number()) - 11,
    }
}

/// The place of a number in `NUMBERS`.
fn place_of_number(number: u8) -> usize {
    if number == 18 {
        12
    } else {
        usize::from(number) - 1
    }
}

/// The place in `HEADERS` of an accepted sheet's header, by its tag and its third value.
pub fn header_of(sheet: &[u8]) -> usize {
    if sheet[0] == 1 {
        0
    } else {
        1 + usize::from(sheet[6])
    }
}

pub fn add_to(row: &mut [u64], other: &[u64]) {
    for (sum, count) in row.iter_mut().zip(other) {
        *sum += count;
    }
}

pub fn named(names: &[&str], counts: &[u64]) -> String {
    let items = names.iter().zip(counts).map(|(name, count)| format!("{name} {count}"));
    items.collect::<Vec<_>>().join(", ")
}

impl Tally {
    pub fn count(&mut self, sheet: &[u8], walked: bool, told: &Told) {
        self.sheets += 1;
        self.bytes += sheet.len() as u64;
        self.sizes[SIZES.iter().take_while(|size| sheet.len() > **size).count()] += 1;
        match told {
            Ok(accepted) => {
                let header = header_of(sheet);
                let close = NAMED[header].and_then(|row| accepted.answers[row].cents());
                self.walked += u64::from(walked);
                self.metals[usize::from(accepted.metal) - 1] += 1;
                self.headers[header] += 1;
                self.taken += u64::from(close.is_some());
                self.resting += u64::from(accepted.resting);
                for answer in &accepted.answers {
                    self.answers[place_of(answer)] += 1;
                }
                self.count_moves(accepted.moves);
            }
            Err((number, _)) => self.refused[place_of_number(*number)] += 1,
        }
    }

    fn count_moves(&mut self, Moves { to_new, to_old }: Moves) {
        let given = [to_new == 0, to_old == 0, to_new == 19, to_old == 19];
        add_to(&mut self.moves, &given.map(u64::from));
        self.longer += u64::from(to_new == 1);
    }

    pub fn add(&mut self, other: &Tally) {
        self.sheets += other.sheets;
        self.walked += other.walked;
        self.bytes += other.bytes;
        self.taken += other.taken;
        self.resting += other.resting;
        self.longer += other.longer;
        add_to(&mut self.metals, &other.metals);
        add_to(&mut self.headers, &other.headers);
        add_to(&mut self.moves, &other.moves);
        add_to(&mut self.refused, &other.refused);
        add_to(&mut self.answers, &other.answers);
        add_to(&mut self.sizes, &other.sizes);
    }

    /// Every metal, header, move, number, answer and size must have been among them, a contract that took the close of 3M, and a resting
    /// quote.
    pub fn has_everything(&self) -> Result<(), String> {
        let single = [self.taken, self.resting];
        let rows: [&[u64]; 7] =
            [&self.metals, &self.headers, &self.moves, &self.refused, &self.answers, &self.sizes, &single];
        if rows.iter().all(|row| row.iter().all(|count| *count > 0)) {
            return Ok(());
        }
        Err("a metal, a header, a move, a number, an answer, a size, a close of 3M that is taken or a resting quote was not among the sheets".to_string())
    }

    /// All of it in one line.
    pub fn line(&self) -> String {
        let accepted: u64 = self.metals.iter().sum();
        format!(
            "{} sheets of {} bytes, no difference; accepted {accepted} ({}; {}), each as text and back, {} of them walked, {} with a contract that took the close of 3M, {} decided by a resting quote; moved and back, or refused: {}, 1 for the longer sheet {}; refused by {}; contracts {}; bytes {}",
            self.sheets,
            self.bytes,
            named(&METALS, &self.metals),
            named(&HEADERS, &self.headers),
            self.walked,
            self.taken,
            self.resting,
            named(&MOVES, &self.moves),
            self.longer,
            named(&NUMBERS, &self.refused),
            named(&ANSWERS, &self.answers),
            named(&SIZE_NAMES, &self.sizes),
        )
    }
}
