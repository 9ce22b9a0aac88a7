//! Sheets moved to the long header and to the short one, asked of both.

use crate::same::{answers_of, in_numbers, same};
use crate::turning::Turning;
use bliskoru::Answer;
use independent::pricing::price_day_by_spans;
use independent::{judge_sheet, moves, Refusal};

pub const TO_NEW: Turning = Turning {
    name: "the sheet with a long header",
    library: |sheet, room| bliskoru::to_new_header_into(sheet, room).map_err(in_numbers),
    independent: moves::to_new_header,
};

pub const TO_OLD: Turning = Turning {
    name: "the sheet with a short header",
    library: |sheet, room| bliskoru::to_old_header_into(sheet, room).map_err(in_numbers),
    independent: moves::to_old_header,
};

/// The numbers that both moves of a sheet gave, 0 where it was moved.
#[derive(Clone, Copy)]
pub struct Moves {
    pub to_new: u8,
    pub to_old: u8,
}

/// A sheet with these answers, or this refusal, moved to either header by both.
pub fn look(sheet: &[u8], answers: &Result<[Answer; 6], Refusal>) -> Result<Moves, String> {
    Ok(Moves {
        to_new: look_at(sheet, answers, &TO_NEW, &TO_OLD)?,
        to_old: look_at(sheet, answers, &TO_OLD, &TO_NEW)?,
    })
}

/// The number of one move, 0 where the sheet is moved: then it comes back, and the moved one has the same answers. A refused sheet is refused
/// as it was judged, an accepted one with 19 or 1.
fn look_at(
    sheet: &[u8],
    answers: &Result<[Answer; 6], Refusal>,
    there: &Turning,
    back: &Turning,
) -> Result<u8, String> {
    match (there.look_and_back(sheet, back)?, answers) {
        (Ok(moved), _) => look_at_answers(&moved, answers).map(|()| 0),
        (Err(no), Err(refusal)) => same("judgement by a move", &no, refusal).map(|()| no.0),
        (Err((number @ (1 | 19), 0)), Ok(_)) => Ok(number),
        (Err(no), Ok(_)) => Err(format!("{}: both refuse an accepted sheet with {no:?}", there.name)),
    }
}

/// Both price a moved sheet as it was priced before.
fn look_at_answers(moved: &[u8], answers: &Result<[Answer; 6], Refusal>) -> Result<(), String> {
    same("answers of a moved sheet", &bliskoru::answers(moved).map_err(in_numbers), answers)?;
    let theirs = judge_sheet(moved).map(|day| answers_of(&day, price_day_by_spans));
    if theirs != *answers {
        return Err(format!(
            "the independent program gives {theirs:?} for a moved sheet, and {answers:?} before"
        ));
    }
    Ok(())
}
