//! The pieces of work that are timed and counted, by name, for each side.

use crate::functions::{Functions, Lister, Turner, Values, LIBRARY, LIBRARY_LIST, LIMIT, LIMIT_LIST, PLAIN};
use crate::functions::{LIBRARY_MOVES, LIBRARY_TO_SHEET, LIBRARY_TO_TAPE, LIMIT_MOVES, PLAIN_MOVES};
use crate::moves;
use crate::second;
use crate::tapes::sheet_of;
use independent::list::{closing_list, closing_list_by_spans};
use independent::moves::{to_new_header, to_old_header};
use independent::tables::SHEET_LIMIT;
use independent::tape::{sheet_to_tape, tape_to_sheet, TAPE_LIMIT};
use std::cell::RefCell;
use std::hint::black_box;

/// One side's way to do a piece of work over a sheet or a text.
pub struct Way {
    pub side: &'static str,
    pub run: fn(&[u8]),
}

pub struct Work {
    pub name: &'static str,
    /// The longest sheet or text it is done over.
    pub limit: usize,
    /// What the ways are given of a sheet or a text: itself, or what is made of it.
    pub given: fn(&[u8]) -> Vec<u8>,
    pub ways: &'static [Way],
}

/// Reads every field of a sheet, one call each, into the same six numbers, as a C host would.
fn walk(side: &Functions, sheet: &[u8]) {
    let (mut values, mut at, mut next): (Values, usize, usize) = ([0; 6], 0, 0);
    while side.read_at(sheet, at, &mut values, &mut next) == 0 {
        black_box(&values);
        at = next;
    }
}

/// The same by the independent program, which hands the numbers back.
fn walk_second(sheet: &[u8]) {
    let mut at = 0;
    while let Ok((values, next)) = second::read(sheet, at) {
        black_box(&values);
        at = next;
    }
}

fn list(side: &Lister, sheet: &[u8]) {
    let mut out = [0; 512];
    black_box(side.list(sheet, &mut out));
    black_box(&out);
}

fn hold<T>(given: T) {
    black_box(given);
}

thread_local! {
    /// What the library is lent: room that it takes from no heap while it is timed.
    static ROOM: RefCell<Vec<u8>> = RefCell::new(vec![0; TAPE_LIMIT]);
}

fn turn(side: &Turner, bytes: &[u8]) {
    ROOM.with_borrow_mut(|room| {
        hold(side.turn(bytes, room));
        black_box(room);
    });
}

/// The ways of each, the library first. `walking` is the independent program with each TWAP by every millisecond
/// of its window; all others go from record to record.
pub const ALL: [Work; 4] = [
    Work {
        name: "judge",
        limit: 1_048_576,
        given: <[u8]>::to_vec,
        ways: &[
            Way { side: "library", run: |sheet| hold(LIBRARY.judge(sheet)) },
            Way { side: "independent", run: |sheet| hold(second::judge(sheet)) },
            Way { side: "plain", run: |sheet| hold(PLAIN.judge(sheet)) },
            Way { side: "limit", run: |sheet| hold(LIMIT.judge(sheet)) },
        ],
    },
    Work {
        name: "read",
        limit: 1_048_576,
        given: <[u8]>::to_vec,
        ways: &[
            Way { side: "library", run: |sheet| walk(&LIBRARY, sheet) },
            Way { side: "independent", run: walk_second },
            Way { side: "plain", run: |sheet| walk(&PLAIN, sheet) },
            Way { side: "limit", run: |sheet| walk(&LIMIT, sheet) },
        ],
    },
    Work {
        name: "list",
        limit: 65_536,
        given: <[u8]>::to_vec,
        ways: &[
            Way { side: "library", run: |sheet| list(&LIBRARY_LIST, sheet) },
            Way { side: "independent", run: |sheet| hold(closing_list_by_spans(sheet)) },
            Way { side: "limit", run: |sheet| list(&LIMIT_LIST, sheet) },
            Way { side: "walking", run: |sheet| hold(closing_list(sheet)) },
        ],
    },
    Work {
        name: "answers",
        limit: 1_048_576,
        given: <[u8]>::to_vec,
        ways: &[
            Way { side: "library", run: |sheet| hold(LIBRARY.answers(sheet)) },
            Way { side: "independent", run: |sheet| hold(second::answers_by_spans(sheet)) },
            Way { side: "plain", run: |sheet| hold(PLAIN.answers(sheet)) },
            Way { side: "limit", run: |sheet| hold(LIMIT.answers(sheet)) },
            Way { side: "walking", run: |sheet| hold(second::answers_by_walking(sheet)) },
        ],
    },
];

/// The same for texts: a text turned into its sheet, and that sheet turned back. The C programs have neither.
pub const ON_TAPES: [Work; 2] = [
    Work {
        name: "to-sheet",
        limit: TAPE_LIMIT,
        given: <[u8]>::to_vec,
        ways: &[
            Way { side: "library", run: |tape| turn(&LIBRARY_TO_SHEET, tape) },
            Way { side: "independent", run: |tape| hold(tape_to_sheet(tape, SHEET_LIMIT)) },
        ],
    },
    Work {
        name: "to-tape",
        limit: TAPE_LIMIT,
        given: sheet_of,
        ways: &[
            Way { side: "library", run: |sheet| turn(&LIBRARY_TO_TAPE, sheet) },
            Way { side: "independent", run: |sheet| hold(sheet_to_tape(sheet, TAPE_LIMIT)) },
        ],
    },
];

/// The same for moves: a sheet moved to the long header, and the moved one back to the short one. The C programs copy what they judged.
pub const ON_MOVES: [Work; 2] = [
    Work {
        name: "to-new",
        limit: moves::LONGEST,
        given: <[u8]>::to_vec,
        ways: &[
            Way { side: "library", run: |sheet| turn(&LIBRARY_MOVES.to_new, sheet) },
            Way { side: "independent", run: |sheet| hold(to_new_header(sheet, SHEET_LIMIT)) },
            Way { side: "plain", run: |sheet| turn(&PLAIN_MOVES.to_new, sheet) },
            Way { side: "limit", run: |sheet| turn(&LIMIT_MOVES.to_new, sheet) },
        ],
    },
    Work {
        name: "to-old",
        limit: moves::LONGEST,
        given: moves::moved,
        ways: &[
            Way { side: "library", run: |sheet| turn(&LIBRARY_MOVES.to_old, sheet) },
            Way { side: "independent", run: |sheet| hold(to_old_header(sheet, SHEET_LIMIT)) },
            Way { side: "plain", run: |sheet| turn(&PLAIN_MOVES.to_old, sheet) },
            Way { side: "limit", run: |sheet| turn(&LIMIT_MOVES.to_old, sheet) },
        ],
    },
];
