//! Text tapes asked of both, and sheets turned into text and back.

use crate::same::in_numbers;
use crate::turning::{Told, Turning};
use independent::generator::accepted_sheet;
use independent::generator::sized::sized_sheet;
use independent::generator::tapes::{tape, TapeKind};
use independent::random::Random;

/// The kinds of texts: such as a sheet has, such with damage done, and long ones. So many of each are made from a seed, on every processor.
pub const KINDS: [&str; 3] = ["canonical", "damaged", "long"];
const CANONICAL: u64 = 20_000;
const DAMAGED: u64 = 20_000;
const LONG: u64 = 12;

/// The bytes of the longest sheet.
const LONGEST: usize = 1_048_576;

pub const TO_SHEET: Turning = Turning {
    name: "the sheet of a text",
    library: |tape, room| {
        bliskoru::tape_to_sheet_into(tape, room).map_err(|no| (no.reason.number(), no.line))
    },
    independent: independent::tape::tape_to_sheet,
};

pub const TO_TAPE: Turning = Turning {
    name: "the text of a sheet",
    library: |sheet, room| bliskoru::sheet_to_tape_into(sheet, room).map_err(in_numbers),
    independent: independent::tape::sheet_to_tape,
};

/// A text by both; one that is accepted is the text of its sheet.
pub fn look(tape: &[u8]) -> Result<Told, String> {
    TO_SHEET.look_and_back(tape, &TO_TAPE)
}

/// A sheet by both; one that is accepted is the sheet of its text.
pub fn look_at_sheet(sheet: &[u8]) -> Result<Told, String> {
    TO_TAPE.look_and_back(sheet, &TO_SHEET)
}

pub fn count() -> u64 {
    CANONICAL + DAMAGED + LONG
}

/// The kind of the text with this number: the canonical ones come first, the long ones last.
pub fn kind_of(item: u64) -> usize {
    usize::from(item >= CANONICAL) + usize::from(item >= CANONICAL + DAMAGED)
}

/// The text with this number.
pub fn made(seed: u64, item: u64) -> Vec<u8> {
    match kind_of(item) {
        0 => tape(seed, item, TapeKind::Canonical),
        1 => tape(seed, item - CANONICAL, TapeKind::Damaged),
        _ => long(&mut Random::for_item(seed, item), item),
    }
}

/// The text of the longest sheet, or that and a line too many, with a bad line behind it or without.
fn long(random: &mut Random, number: u64) -> Vec<u8> {
    let sheet = sized_sheet(random, LONGEST).unwrap_or_else(|| accepted_sheet(random));
    let mut tape = independent::tape::sheet_to_tape(&sheet, usize::MAX).unwrap_or_default();
    let more: &[&[u8]] = match number % 4 {
        0 => &[],
        1 => &[b"86399999,3M,QUOTE,-,-\n"],
        2 => &[b"86399999,3M,QUOTE,-,-\n", b"PREV,3M,1.00\n"],
        _ => &[b"86399999,3M,QUOTE,-,-\n", b"86399999,3M,TRADE,1.00,1"],
    };
    tape.extend(more.concat());
    tape
}
