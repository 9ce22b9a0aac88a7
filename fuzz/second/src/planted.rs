//! The rules as they are, and with one of them wrong where a feature asks for it.

use independent::field::{take_field, Field, Refusal};
use independent::moves;
use independent::pricing::price_day_by_spans;
use independent::sheet::Record;
use independent::tables::{metal_row, window_start, WINDOW};
use independent::tape;
use independent::{judge_sheet, Answer, Day};

/// The judgement. Wrong under `equal-sides` and under `late-bar`.
pub fn judge(sheet: &[u8]) -> Result<Day, Refusal> {
    let judged = judge_sheet(sheet);
    if cfg!(feature = "equal-sides") {
        without_equal_sides(sheet, judged)
    } else if cfg!(feature = "late-bar") {
        with_a_late_bar(sheet, judged)
    } else {
        judged
    }
}

/// `equal-sides`: a bid equal to the offer is 11.
fn without_equal_sides(sheet: &[u8], judged: Result<Day, Refusal>) -> Result<Day, Refusal> {
    let behind = match &judged {
        Ok(_) => sheet.len(),
        Err((_, byte)) => *byte,
    };
    let mut at = 0;
    while at < behind {
        let Ok((field, next)) = take_field(sheet, at) else {
            break;
        };
        if matches!(field, Field::Quote(quote) if quote.sides == 3 && quote.bid == quote.offer) {
            return Err((11, at));
        }
        at = next;
    }
    judged
}

/// `late-bar`: 18 comes behind 8, so a field that is 8 where nothing is barred is 8.
fn with_a_late_bar(sheet: &[u8], judged: Result<Day, Refusal>) -> Result<Day, Refusal> {
    let Err((18, byte)) = judged else {
        return judged;
    };
    let mut without = sheet.to_vec();
    without[6] = 0;
    match judge_sheet(&without) {
        Err((8, at)) if at == byte => Err((8, byte)),
        _ => judged,
    }
}

/// The sheet of a text. Wrong under `negative-zero`: -0.00 is taken for 0.00.
pub fn tape_to_sheet(text: &[u8], room: usize) -> Result<Vec<u8>, Refusal> {
    if !cfg!(feature = "negative-zero") {
        return tape::tape_to_sheet(text, room);
    }
    let text = String::from_utf8_lossy(text).replace(",-0.00", ",0.00");
    tape::tape_to_sheet(text.as_bytes(), room)
}

/// The sheet with the old header. Wrong under `named-back`: the third value 2 is
/// moved as 0 is.
pub fn to_old_header(sheet: &[u8], room: usize) -> Result<Vec<u8>, Refusal> {
    if !cfg!(feature = "named-back") {
        return moves::to_old_header(sheet, room);
    }
    let mut sheet = sheet.to_vec();
    if judge_sheet(&sheet).is_ok_and(|day| day.third == Some(2)) {
        sheet[6] = 0;
    }
    moves::to_old_header(&sheet, room)
}

/// The six answers. Wrong under `window-end`: a trade at start + 300,000 counts.
pub fn price(day: &Day) -> [Answer; 6] {
    if !cfg!(feature = "window-end") {
        return price_day_by_spans(day);
    }
    let mut day = day.clone();
    for record in &mut day.records {
        let (Record::Trade(trade), Some(metal)) = (record, metal_row(day.metal)) else {
            continue;
        };
        if trade.time == window_start(metal, trade.instrument) + WINDOW {
            trade.time -= 1;
        }
    }
    price_day_by_spans(&day)
}
