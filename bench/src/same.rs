//! The four sides held to one another over a sheet: judgement, fields, answers and list, and every byte that a
//! call leaves as it was. The two that have texts are held to one another over these, and all four over moves to
//! another header.

use crate::damaged::visit_all;
use crate::functions::{Functions, Lister, Mover, Rows, Turner, Values};
use crate::functions::{LIBRARY, LIBRARY_LIST, LIBRARY_TO_SHEET, LIBRARY_TO_TAPE, LIMIT, LIMIT_LIST, PLAIN};
use crate::functions::{LIBRARY_MOVES, LIMIT_MOVES, PLAIN_MOVES};
use crate::moves::moved;
use crate::second;
use crate::tapes::sheet_of;
use independent::list::closing_list_by_spans;
use std::fmt::{self, Debug, Display};

/// What the buffers hold before a call.
const FILL: u8 = 0xA5;
const ROOM: usize = 512;

/// Fields are compared in sheets up to this length.
const LONGEST_READ: usize = 4_096;

/// How many sheets were compared.
#[derive(Default)]
pub struct Tally {
    judged: usize,
    read: usize,
    accepted: usize,
}

impl Display for Tally {
    fn fmt(&self, f: &mut fmt::Formatter) -> fmt::Result {
        let Tally { judged, read, accepted } = self;
        write!(f, "{judged} sheets judged and priced by all four, {accepted} of them accepted, ")?;
        write!(f, "the fields of {read} read by all four")
    }
}

fn same<T: PartialEq + Debug>(what: &str, side: &str, given: T, wanted: T) -> Result<(), String> {
    if given == wanted {
        return Ok(());
    }
    Err(format!("{what}: the {side} gives {given:?}, the independent program {wanted:?}"))
}

const SIDES: [(&str, &Functions); 3] = [("library", &LIBRARY), ("plain", &PLAIN), ("limit", &LIMIT)];
const LISTERS: [(&str, &Lister); 2] = [("library", &LIBRARY_LIST), ("limit", &LIMIT_LIST)];

/// The number and what is left in the place, which a good sheet leaves as it was.
fn judged(side: &Functions, sheet: &[u8]) -> (u8, usize) {
    let mut at = usize::MAX;
    let number = side.judge_at(sheet, &mut at);
    (number, at)
}

fn look_at_judgement(sheet: &[u8]) -> Result<bool, String> {
    let (number, byte) = second::judge(sheet);
    let wanted = (number, if number == 0 { usize::MAX } else { byte });
    for (name, side) in SIDES {
        same("judgement", name, judged(side, sheet), wanted)?;
    }
    Ok(number == 0)
}

fn look_at_field(sheet: &[u8], at: usize) -> Result<Option<usize>, String> {
    let found = second::read(sheet, at);
    let untouched: (Values, usize) = ([i64::MIN; 6], usize::MAX);
    let wanted = match found {
        Ok((values, next)) => (0, values, next),
        Err(number) => (number, untouched.0, untouched.1),
    };
    for (name, side) in SIDES {
        let (mut values, mut next) = untouched;
        let number = side.read_at(sheet, at, &mut values, &mut next);
        same(&format!("the field at {at}"), name, (number, values, next), wanted)?;
    }
    Ok(found.ok().map(|(_, next)| next))
}

/// The fields up to a refusal, and fields at places that are none.
fn look_at_fields(sheet: &[u8], item: usize) -> Result<(), String> {
    let mut at = 0;
    while let Some(next) = look_at_field(sheet, at)? {
        at = next;
    }
    for place in [item % (sheet.len() + 4), sheet.len(), usize::MAX - item % 20] {
        look_at_field(sheet, place)?;
    }
    Ok(())
}

fn look_at_answers(sheet: &[u8]) -> Result<(), String> {
    let wanted = match second::answers_by_spans(sheet) {
        Ok(rows) => (0, rows, usize::MAX),
        Err((number, byte)) => (number, [u64::MAX; 18], byte),
    };
    for (name, side) in SIDES {
        let (mut rows, mut at): (Rows, usize) = ([u64::MAX; 18], usize::MAX);
        let number = side.answers_at(sheet, &mut rows, &mut at);
        same("answers", name, (number, rows, at), wanted)?;
    }
    Ok(())
}

/// The list in a room with bytes behind it, in one that it just fills, and in one a byte too short.
fn look_at_list(sheet: &[u8]) -> Result<(), String> {
    let list = closing_list_by_spans(sheet);
    for room in [ROOM, list.len(), list.len() - 1] {
        let mut wanted = [FILL; ROOM];
        let length = if room < list.len() { 0 } else { list.len() };
        wanted[..length].copy_from_slice(&list[..length]);
        for (name, side) in LISTERS {
            let mut out = [FILL; ROOM];
            same("the list's length", name, side.list(sheet, &mut out[..room]), length)?;
            if out != wanted {
                same("the list", name, out.escape_ascii().to_string(), wanted.escape_ascii().to_string())?;
            }
        }
    }
    Ok(())
}

/// All that the four sides say of a sheet.
fn look(sheet: &[u8], tally: &mut Tally) -> Result<(), String> {
    let accepted = look_at_judgement(sheet)?;
    tally.judged += 1;
    tally.accepted += usize::from(accepted);
    if sheet.len() <= LONGEST_READ {
        look_at_fields(sheet, tally.judged)?;
        tally.read += 1;
    }
    look_at_answers(sheet)?;
    look_at_list(sheet)
}

fn shown(sheet: &[u8]) -> String {
    let hexadecimal: String = sheet.iter().take(1_000).map(|byte| format!("{byte:02x}")).collect();
    format!("a sheet of {} bytes, the first 1,000 at most: {hexadecimal}", sheet.len())
}

/// Everything of one accepted sheet by all, the independent program's walk over the milliseconds included.
pub fn agree(sheet: &[u8]) -> Result<(), String> {
    let look = || {
        look_at_judgement(sheet)?;
        look_at_fields(sheet, 0)?;
        look_at_answers(sheet)?;
        look_at_list(sheet)?;
        same("answers by spans", "spans", second::answers_by_spans(sheet), second::answers_by_walking(sheet))
    };
    look().map_err(|difference| format!("{difference}\n{}", shown(sheet)))
}

/// Turned by a side in room with bytes behind it, in exact room, and in a byte less, where nothing changes.
fn look_at_turning(name: &str, side: &Turner, bytes: &[u8], turned: &[u8]) -> Result<(), String> {
    for room in [turned.len() + 1, turned.len(), turned.len() - 1] {
        let mut out = vec![FILL; room];
        let fits = room >= turned.len();
        let (wanted, length) = if fits { (Ok(turned.len()), turned.len()) } else { (Err((16, 0)), 0) };
        same("a turning", name, side.turn(bytes, &mut out), wanted)?;
        let behind = out[length..].iter().all(|byte| *byte == FILL);
        same("what is turned", name, out[..length] == turned[..length] && behind, true)?;
    }
    Ok(())
}

/// An accepted text and its sheet by the independent program, each made of the other by the library.
pub fn agree_on_tape(tape: &[u8]) -> Result<(), String> {
    let sheet = sheet_of(tape);
    look_at_turning("library", &LIBRARY_TO_SHEET, tape, &sheet)?;
    look_at_turning("library", &LIBRARY_TO_TAPE, &sheet, tape)
}

const MOVERS: [(&str, &Mover); 3] =
    [("library", &LIBRARY_MOVES), ("plain", &PLAIN_MOVES), ("limit", &LIMIT_MOVES)];

/// An accepted sheet with a short header and the same with a long one by the independent program, each made of the
/// other by all others, and none moved to the header that it has.
pub fn agree_on_moves(sheet: &[u8]) -> Result<(), String> {
    let moved = moved(sheet);
    for (name, side) in MOVERS {
        look_at_turning(name, &side.to_new, sheet, &moved)?;
        look_at_turning(name, &side.to_old, &moved, sheet)?;
        same("a move", name, side.to_new.turn(&moved, &mut []), Err((19, 0)))?;
        same("a move", name, side.to_old.turn(sheet, &mut []), Err((19, 0)))?;
    }
    Ok(())
}

/// The four sides over all sheets made for it: how many, or the first difference.
pub fn compare() -> Result<Tally, String> {
    let mut tally = Tally::default();
    let mut found = Ok(());
    visit_all(&mut |sheet| {
        if found.is_ok() {
            found = look(sheet, &mut tally).map_err(|difference| format!("{difference}\n{}", shown(sheet)));
        }
    });
    found.map(|()| tally)
}
