//! One sheet, asked of both.

use crate::moves::{self, Moves};
use crate::tapes;
use bliskoru::{Answer, Field, Method, LIST_ROOM};
use independent::list::{closing_list, closing_list_by_spans};
use independent::pricing::{price_day, price_day_by_spans};
use independent::sheet::Record;
use independent::tables::{metal_row, window_start};
use independent::{judge_sheet, Day, Refusal};
use std::fmt::Debug;

/// What both say of an accepted sheet and of its moves, and whether a quote that rests from before a window decides one of the answers.
#[derive(Clone, Copy)]
pub struct Accepted {
    pub metal: u8,
    pub answers: [Answer; 6],
    pub moves: Moves,
    pub resting: bool,
}

/// What both say: of an accepted sheet, or the refusal.
pub type Told = Result<Accepted, Refusal>;

/// What the room for a list is filled with.
const FILL: u8 = 0xA5;

/// The bytes of a quote.
const LONGEST_FIELD: usize = 17;

/// Fields are compared in sheets up to this length.
const LONGEST_READ: usize = 4_096;

pub fn hexadecimal(sheet: &[u8]) -> String {
    sheet.iter().map(|byte| format!("{byte:02x}")).collect()
}

pub fn same<T: PartialEq + Debug>(what: &str, library: &T, independent: &T) -> Result<(), String> {
    if library == independent {
        return Ok(());
    }
    Err(format!("{what}: the library says {library:?}, the independent program {independent:?}"))
}

/// A refusal of the library in the independent program's form.
pub fn in_numbers(no: bliskoru::Refusal) -> Refusal {
    (no.reason.number(), no.byte)
}

/// What both say of a sheet, or where they differ.
pub fn look(sheet: &[u8], item: u64, walked: bool) -> Result<Told, String> {
    let judged = judge_sheet(sheet);
    let judgement = judged.as_ref().map(|_| ()).map_err(|no| *no);
    let price = if walked { price_day } else { price_day_by_spans };
    let answers = judged.as_ref().map(|day| answers_of(day, price)).map_err(|no| *no);
    same("judgement", &bliskoru::judge(sheet).map_err(in_numbers), &judgement)?;
    same("answers", &bliskoru::answers(sheet).map_err(in_numbers), &answers)?;
    look_at_list(sheet, walked)?;
    let text = tapes::look_at_sheet(sheet)?;
    same("judgement by the text", &text.map(|_| ()), &judgement)?;
    let moves = moves::look(sheet, &answers)?;
    if sheet.len() <= LONGEST_READ {
        look_at_fields(sheet, item)?;
    }
    let accepted = |day: Day, answers| Accepted {
        metal: day.metal,
        answers,
        moves,
        resting: is_decided_by_resting(&day),
    };
    Ok(judged.and_then(|day| Ok(accepted(day, answers?))))
}

/// The independent program's answers in the library's words.
pub fn answers_of(day: &Day, price: fn(&Day) -> [independent::Answer; 6]) -> [Answer; 6] {
    price(day).map(|answer| in_the_librarys_words(&answer))
}

/// Are the answers others without the quotes that came before the windows of their instruments?
fn is_decided_by_resting(day: &Day) -> bool {
    let Some(metal) = metal_row(day.metal) else {
        return false;
    };
    let rests = |record: &Record| matches!(record, Record::Quote(quote) if quote.time < window_start(metal, quote.instrument));
    let mut without = day.clone();
    without.records.retain(|record| !rests(record));
    price_day_by_spans(&without) != price_day_by_spans(day)
}

/// The independent program's answer in the library's words. A close that 32 bits cannot hold becomes one that no close equals.
fn in_the_librarys_words(answer: &independent::Answer) -> Answer {
    match *answer {
        independent::Answer::Priced { method, price, lots } => {
            let method = match method {
                independent::Method::Vwap => Method::Vwap,
                independent::Method::Twap => Method::Twap,
            };
            Answer::Priced { method, cents: u32::try_from(price).unwrap_or(u32::MAX), lots }
        }
        independent::Answer::Refused { number, lots } => {
            let reason = bliskoru::Reason::from_number(number).unwrap_or(bliskoru::Reason::DoesNotFit);
            Answer::Refused { reason, lots }
        }
    }
}

/// The list, byte for byte, with what stands behind it in its room.
fn look_at_list(sheet: &[u8], walked: bool) -> Result<(), String> {
    let list = if walked { closing_list(sheet) } else { closing_list_by_spans(sheet) };
    let mut room = [FILL; LIST_ROOM];
    let mut wanted = [FILL; LIST_ROOM];
    wanted[..list.len()].copy_from_slice(&list);
    same("the list's length", &bliskoru::list_into(sheet, &mut room), &Some(list.len()))?;
    if room == wanted {
        return Ok(());
    }
    same("the list in its room", &shown(&room), &shown(&wanted))
}

/// What stands in a room before its last bytes as they were filled.
fn shown(room: &[u8]) -> String {
    let length = room.iter().rposition(|byte| *byte != FILL).map_or(0, |last| last + 1);
    room[..length].escape_ascii().to_string()
}

/// The fields one after the other up to a refusal, one at a place that depends on the sheet's number, and one past the end.
fn look_at_fields(sheet: &[u8], item: u64) -> Result<(), String> {
    look_at_field(sheet, item as usize % (sheet.len() + 4))?;
    look_at_field(sheet, usize::MAX - item as usize % 20)?;
    let mut at = 0;
    while let Some(next) = look_at_field(sheet, at)? {
        at = next;
    }
    Ok(())
}

/// The field at a place, read by both; where there is one, it is written back as its bytes, and the place behind it is handed back.
fn look_at_field(sheet: &[u8], at: usize) -> Result<Option<usize>, String> {
    let read = bliskoru::read_field(sheet, at);
    let theirs = independent::read_field(sheet, at);
    let wanted = theirs.map(|(field, next)| (values(&field), next)).map_err(|(number, _)| number);
    same(&format!("the field at {at}"), &read.map_err(bliskoru::Reason::number), &wanted)?;
    let Ok((field, next)) = read else {
        return Ok(None);
    };
    let mut written = [FILL; 2 + LONGEST_FIELD + 2];
    let mut wanted = written;
    wanted[2..2 + next - at].copy_from_slice(&sheet[at..next]);
    let behind = bliskoru::write_field(&mut written, 2, &field);
    same("the place behind what is written", &behind, &Ok(2 + next - at))?;
    same("what is written", &written, &wanted)?;
    Ok(Some(next))
}

/// The independent program's field as the library's.
fn values(field: &independent::Field) -> Field {
    match *field {
        independent::Field::Header(f) => match f.third {
            None => Field::Header { metal: f.metal, marks: f.marks },
            Some(third) => Field::LongHeader { metal: f.metal, marks: f.marks, third },
        },
        independent::Field::PreviousClose(f) => {
            Field::PreviousClose { instrument: f.instrument, cents: f.price }
        }
        independent::Field::Trade(f) => {
            Field::Trade { time: f.time, instrument: f.instrument, cents: f.price, lots: f.lots }
        }
        independent::Field::Quote(f) => Field::Quote {
            time: f.time,
            instrument: f.instrument,
            sides: f.sides,
            bid: f.bid,
            offer: f.offer,
        },
        independent::Field::End(f) => Field::End { count: f.count },
    }
}
