//! Accepted texts of the tape, each of one kind.

use crate::sheets::{self, sheet};
use independent::tables::SHEET_LIMIT;
use independent::tape::{sheet_to_tape, tape_to_sheet, TAPE_LIMIT};

/// The most bytes that a timed text has; the last is more than any text of a sheet.
pub const SIZES: [usize; 2] = [65_536, TAPE_LIMIT];

/// How many trades a sheet has room for, between its header and its end.
const MOST_TRADES: usize = (SHEET_LIMIT - 13) / 14;

#[derive(Clone, Copy, Debug, PartialEq, Eq)]
pub enum Kind {
    /// The text of the sheet that is mostly trades.
    Trades,
    /// The text of the sheet that is mostly quotes.
    Quotes,
    /// Trades alone, with the longest line there is.
    Widest,
}

pub const KINDS: [Kind; 3] = [Kind::Trades, Kind::Quotes, Kind::Widest];

impl Kind {
    pub fn name(self) -> &'static str {
        match self {
            Kind::Trades => "trades",
            Kind::Quotes => "quotes",
            Kind::Widest => "widest",
        }
    }

    pub fn named(name: &str) -> Option<Kind> {
        KINDS.into_iter().find(|kind| kind.name() == name)
    }
}

/// The first lines of a sheet's text, as many as so many bytes hold. A sheet has fewer bytes than its text here.
fn first_lines(kind: sheets::Kind, bytes: usize) -> Vec<u8> {
    let sheet = sheet(kind, bytes.min(SHEET_LIMIT));
    let mut tape = sheet_to_tape(&sheet, TAPE_LIMIT).expect("an accepted sheet");
    tape.truncate(bytes);
    let end = tape.iter().rposition(|byte| *byte == b'\n').map_or(0, |last| last + 1);
    tape.truncate(end);
    tape
}

fn widest(bytes: usize) -> Vec<u8> {
    let (metal, trade) = ("METAL,Aluminium,2047\n", "86399999,Cash-M1,TRADE,-99999.99,10000\n");
    let lines = ((bytes - metal.len()) / trade.len()).min(MOST_TRADES);
    format!("{metal}{}", trade.repeat(lines)).into_bytes()
}

/// The text of a kind with at most so many bytes, as long as it may be; the same one each time.
pub fn tape(kind: Kind, bytes: usize) -> Vec<u8> {
    match kind {
        Kind::Trades => first_lines(sheets::Kind::Trades, bytes),
        Kind::Quotes => first_lines(sheets::Kind::Quotes, bytes),
        Kind::Widest => widest(bytes),
    }
}

/// The sheet of an accepted text.
pub fn sheet_of(tape: &[u8]) -> Vec<u8> {
    tape_to_sheet(tape, SHEET_LIMIT).expect("an accepted text")
}
