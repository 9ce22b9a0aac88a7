//! The named cases: the library's lists and answers, sheets of texts, texts of sheets and moved sheets beside those written by hand, and
//! beside the independent program's.

use crate::moves::{TO_NEW, TO_OLD};
use crate::same;
use crate::tapes::{look, TO_SHEET, TO_TAPE};
use crate::turning::{Told, Turning};
use bliskoru::CONTRACTS;
use independent::named::moves::named_moves;
use independent::named::tapes::{large_tapes, large_untapes, named_tapes, named_untapes};
use independent::named::{large_cases, named_cases, NamedCase};
use independent::TAPE_LIMIT;

/// Every named case, those too long for a list too; how many they are, or the first that differs.
pub fn hold() -> Result<usize, String> {
    let (short, large) = (named_cases(), large_cases());
    let lists = short.iter().map(|case| (case, bliskoru::list(&case.sheet)));
    let answers = large.iter().map(|case| (case, answers_as_lines(case)));
    for (case, given) in lists.chain(answers) {
        told_as_written(case, given)?;
    }
    Ok(short.len() + large.len())
}

/// The library's list as it is by hand, and both alike in everything else.
fn told_as_written(case: &NamedCase, given: String) -> Result<(), String> {
    if given != case.list {
        return Err(format!("{}: by hand\n{}the library says\n{given}", case.name, case.list));
    }
    let looked = same::look(&case.sheet, 0, false);
    looked.map(|_| ()).map_err(|difference| format!("{}: {difference}", case.name))
}

/// The library's answers as a list has them, under the name that the list by hand starts with.
fn answers_as_lines(case: &NamedCase) -> String {
    let answers = match bliskoru::answers(&case.sheet) {
        Ok(answers) => answers,
        Err(no) => return format!("refused {} {}\n", no.reason.number(), no.byte),
    };
    let metal = case.list.lines().next().unwrap_or_default();
    let lines = CONTRACTS.iter().zip(answers).map(|(contract, answer)| format!("{contract} {answer}\n"));
    format!("{metal}\n{}", lines.collect::<String>())
}

/// Lines that may stand behind those of any day: with them no line of a named text is among the last of its text, which the library reads by
/// another way.
const BEHIND: &[u8] = b"86399999,3M,TRADE,1.00,1\n86399999,3M,QUOTE,1.00,-\n86399999,3M,TRADE,1.00,1\n";

/// Every named text and sheet that is turned, the longest among them, and each text with lines behind it; how many they are, or the first that
/// differs.
pub fn hold_tapes() -> Result<usize, String> {
    let texts = [named_tapes(), large_tapes()].concat();
    for case in &texts {
        let longer = [&case.input, BEHIND].concat();
        if let Err(difference) = look(&longer) {
            return Err(format!("{} with lines behind it: {difference}", case.name));
        }
    }
    let sheets = [named_untapes(), large_untapes()].concat();
    let turned = texts.iter().map(|case| (case, &TO_SHEET));
    for (case, turning) in turned.chain(sheets.iter().map(|case| (case, &TO_TAPE))) {
        turned_as_written(turning, &case.input, case.room, &case.expected)
            .map_err(|difference| format!("{}: {difference}", case.name))?;
    }
    Ok(texts.len() + sheets.len())
}

/// Every named move, those of the longest sheets too; how many they are, or the first that differs.
pub fn hold_moves() -> Result<usize, String> {
    let cases = named_moves();
    for case in &cases {
        let turning = if case.to_new { TO_NEW } else { TO_OLD };
        turned_as_written(&turning, &case.sheet, case.room, &case.told)
            .and_then(|()| same::look(&case.sheet, 0, false).map(|_| ()))
            .map_err(|difference| format!("{}: {difference}", case.name))?;
    }
    Ok(cases.len())
}

/// Turned by both as it is by hand in the room of the case, and alike in any other room.
fn turned_as_written(turning: &Turning, input: &[u8], room: usize, by_hand: &Told) -> Result<(), String> {
    // the greatest room of a case is more than there is memory for, and none needs more than this
    let told = turning.look_at_room(input, room.min(TAPE_LIMIT))?;
    if told != *by_hand {
        let [by_hand, told] = [by_hand, &told].map(shown);
        return Err(format!("by hand {by_hand}, both say {told}"));
    }
    turning.look(input).map(|_| ())
}

fn shown(told: &Told) -> String {
    match told {
        Ok(bytes) => format!("{} bytes {}", bytes.len(), bytes.escape_ascii()),
        Err((number, place)) => format!("{number} at {place}"),
    }
}
