//! Each function of the archive at its edges: every number that it can give, with all that was lent compared behind the call.

mod common;

use bliskoru::raw;
use common::{file, filled, longer, moves, pair_of, rows, tape_rows, Pair, Row, FILL, FILLED, GUARD};
use common::{long_nickel_of, long_nickel_tape_of, nickel_of, nickel_tape_of};

/// All that a call may write but buffers, between guards.
#[repr(C)]
#[derive(Debug, PartialEq)]
struct Lent {
    guard_1: u64,
    answers: [u64; 18],
    guard_2: u64,
    values: [i64; 6],
    guard_3: u64,
    place: usize,
    guard_4: u64,
    length: usize,
    guard_5: u64,
}

fn lent() -> Lent {
    let all = u64::from_ne_bytes([FILL; 8]);
    Lent {
        guard_1: all,
        answers: [all; 18],
        guard_2: all,
        values: [all as i64; 6],
        guard_3: all,
        place: FILLED,
        guard_4: all,
        length: FILLED,
        guard_5: all,
    }
}

/// Lends a copy of the sheet, and looks behind the call that no byte of it has changed.
fn with_copy<T>(sheet: &[u8], text: &str, call: impl FnOnce(*const u8, usize) -> T) -> T {
    let mut copy = sheet.to_vec();
    let told = call(copy.as_mut_ptr(), copy.len());
    assert!(copy == sheet, "the sheet of {text}");
    told
}

/// The list into a buffer of `room` bytes: all of it, or nothing where it is longer.
fn look_at_room(sheet: &[u8], list: &[u8], room: usize, text: &str) {
    let mut got = filled(room);
    let mut wanted = filled(room);
    let length = if list.len() <= room { list.len() } else { 0 };
    wanted[GUARD..GUARD + length].copy_from_slice(&list[..length]);
    let out = &mut got[GUARD..GUARD + room];
    let told = with_copy(sheet, text, |start, length| {
        // SAFETY: two slices, and `out` is borrowed alone.
        unsafe { raw::bliskoru_list(start, length, out.as_mut_ptr(), out.len()) }
    });
    assert_eq!(told, length, "{text}");
    assert!(got == wanted, "the list's buffer: {text}");
}

fn look_at_list(sheet: &[u8], list: &[u8], text: &str) {
    for room in [512, list.len() + 1, list.len(), list.len() - 1, 0] {
        look_at_room(sheet, list, room, text);
    }
}

/// Judgement and answers of a sheet: a refusal at a byte, or 0 and these answers.
fn look_at_sheet(sheet: &[u8], number: u8, byte: usize, answers: Option<[u64; 18]>, text: &str) {
    let place = if number == 0 { FILLED } else { byte };
    let mut got = lent();
    let told = with_copy(sheet, text, |start, length| {
        // SAFETY: a slice, and a place of our own.
        unsafe { raw::bliskoru_judge(start, length, &mut got.place) }
    });
    assert_eq!((told, got), (number, Lent { place, ..lent() }), "{text}");

    let mut got = lent();
    let told = with_copy(sheet, text, |start, length| {
        // SAFETY: a slice, and 18 numbers and a place of our own.
        unsafe { raw::bliskoru_answers(start, length, &mut got.answers, &mut got.place) }
    });
    let answers = answers.unwrap_or(lent().answers);
    assert_eq!((told, got), (number, Lent { place, answers, ..lent() }), "{text}");
}

/// Reading at a place: a refusal, or 0 with these values and the place behind.
fn look_at_read(sheet: &[u8], at: usize, wanted: Result<([i64; 6], usize), u8>, text: &str) {
    let mut got = lent();
    let told = with_copy(sheet, text, |start, length| {
        // SAFETY: a slice, and 6 numbers and a place of our own.
        unsafe { raw::bliskoru_read(start, length, at, &mut got.values, &mut got.place) }
    });
    let (number, behind) = match wanted {
        Ok((values, place)) => (0, Lent { values, place, ..lent() }),
        Err(number) => (number, lent()),
    };
    assert_eq!((told, got), (number, behind), "{text}");
}

/// The field of a row by the function of its tag.
fn written(row: &Row, buffer: &mut [u8], at: usize, next: &mut usize) -> u8 {
    let (start, length) = (buffer.as_mut_ptr(), buffer.len());
    let v = &row.numbers[2..];
    // SAFETY: a slice that is borrowed alone, and a place that is.
    unsafe {
        match row.numbers[1] {
            1 => raw::bliskoru_write_header(start, length, at, v[0] as u8, v[1] as u16, next),
            2 => raw::bliskoru_write_previous_close(start, length, at, v[0] as u8, v[1] as i32, next),
            3 => {
                let (time, instrument, cents, lots) = (v[0] as u32, v[1] as u8, v[2] as i32, v[3] as u16);
                raw::bliskoru_write_trade(start, length, at, time, instrument, cents, lots, next)
            }
            4 => {
                let (time, instrument, sides) = (v[0] as u32, v[1] as u8, v[2] as u8);
                let (bid, offer) = (v[3] as i32, v[4] as i32);
                raw::bliskoru_write_quote(start, length, at, time, instrument, sides, bid, offer, next)
            }
            6 => {
                let (metal, marks, third) = (v[0] as u8, v[1] as u16, v[2] as u8);
                raw::bliskoru_write_long_header(start, length, at, metal, marks, third, next)
            }
            _ => raw::bliskoru_write_end(start, length, at, v[0] as u32, next),
        }
    }
}

/// Writing at a place of a buffer of so many bytes: the values' number, else 16 where it does not fit, else the field's bytes and no other.
fn look_at_write(row: &Row, length: usize, at: usize) {
    let mut buffer = filled(length);
    let mut behind = filled(length);
    let mut place = lent().place;
    let fits = at <= length && row.bytes.len() <= length - at;
    let number = if row.number() == 0 && !fits { 16 } else { row.number() };
    if number == 0 {
        behind[GUARD + at..GUARD + at + row.bytes.len()].copy_from_slice(&row.bytes);
        place = at + row.bytes.len();
    }
    let mut got = lent();
    let told = written(row, &mut buffer[GUARD..GUARD + length], at, &mut got.place);
    assert_eq!((told, got), (number, Lent { place, ..lent() }), "{length} {at} {}", row.text);
    assert!(buffer == behind, "the buffer of {length} {at} {}", row.text);
}

/// One of the four functions that make a sheet or a tape of another.
type Turning = unsafe extern "C" fn(*const u8, usize, *mut u8, usize, *mut usize, *mut usize) -> u8;

/// Turning into a buffer of `room` bytes: the refusal, else 16 at place 0 where it does not fit, else the bytes at its start and no other.
fn look_at_turning(turn: Turning, bytes: &[u8], told: Result<&[u8], (u8, usize)>, room: usize, text: &str) {
    let mut buffer = filled(room);
    let mut behind = filled(room);
    let (number, place, length) = match told {
        Ok(turned) if turned.len() > room => (16, 0, FILLED),
        Ok(turned) => {
            behind[GUARD..GUARD + turned.len()].copy_from_slice(turned);
            (0, FILLED, turned.len())
        }
        Err((number, place)) => (number, place, FILLED),
    };
    let mut got = lent();
    let out = &mut buffer[GUARD..GUARD + room];
    let given = with_copy(bytes, text, |start, length| {
        // SAFETY: two slices, of which `out` is borrowed alone, and a length and a place of our own.
        unsafe { turn(start, length, out.as_mut_ptr(), out.len(), &mut got.length, &mut got.place) }
    });
    assert_eq!((given, got), (number, Lent { place, length, ..lent() }), "{room} {text}");
    assert!(buffer == behind, "the buffer of {room} {text}");
}

/// Room that is ample, one byte more, exact, one byte too little, and none.
fn look_at_rooms(turn: Turning, bytes: &[u8], told: Result<&[u8], (u8, usize)>, text: &str) {
    let length = told.map_or(0, <[u8]>::len);
    for room in [length + 100, length + 1, length, length.saturating_sub(1), 0] {
        look_at_turning(turn, bytes, told, room, text);
    }
}

/// An accepted text and its sheet, each turned into the other.
fn look_at_pair(tape: &[u8], sheet: &[u8], text: &str) {
    look_at_rooms(raw::bliskoru_tape_to_sheet, tape, Ok(sheet), text);
    look_at_rooms(raw::bliskoru_sheet_to_tape, sheet, Ok(tape), text);
}

/// A sheet that neither move takes, for one and the same reason.
fn look_at_unmoved(sheet: &[u8], refusal: (u8, usize), text: &str) {
    look_at_rooms(raw::bliskoru_to_new_header, sheet, Err(refusal), text);
    look_at_rooms(raw::bliskoru_to_old_header, sheet, Err(refusal), text);
}

/// Each sheet of a pair moved to the other, and none to the header that it has.
fn look_at_moves(pair: &Pair, text: &str) {
    look_at_rooms(raw::bliskoru_to_new_header, &pair.old, Ok(&pair.new), text);
    look_at_rooms(raw::bliskoru_to_old_header, &pair.new, Ok(&pair.old), text);
    look_at_rooms(raw::bliskoru_to_new_header, &pair.new, Err((19, 0)), text);
    look_at_rooms(raw::bliskoru_to_old_header, &pair.old, Err((19, 0)), text);
}

/// Each line of the table in its own room; one that is refused but for room is so in every room.
#[test]
fn sheets_are_moved_to_the_other_header_or_refused() {
    for row in moves() {
        let function = if row.to_new { raw::bliskoru_to_new_header } else { raw::bliskoru_to_old_header };
        let told = row.told.as_deref().map_err(|no| *no);
        look_at_turning(function, &row.sheet, told, row.room, &row.text);
        if told != Err((16, 0)) {
            look_at_rooms(function, &row.sheet, told, &row.text);
        }
    }
}

#[test]
fn refused_sheets_are_moved_to_no_header() {
    for row in rows("sheets", 130) {
        look_at_unmoved(&row.bytes, (row.number(), row.numbers[1] as usize), &row.text);
    }
}

#[test]
fn accepted_sheets_have_the_same_answers_with_the_other_header() {
    for row in rows("answers", 50) {
        let Some(pair) = pair_of(&row.bytes) else {
            look_at_unmoved(&row.bytes, (19, 0), &row.text);
            continue;
        };
        let answers = std::array::from_fn(|k| row.numbers[k] as u64);
        look_at_sheet(&pair.old, 0, 0, Some(answers), &row.text);
        look_at_sheet(&pair.new, 0, 0, Some(answers), &row.text);
        look_at_moves(&pair, &row.text);
    }
}

/// Behind a short header 6 + 14 * 74,890 + 17 * 6 + 7 = 1,048,575, and a byte more behind a long one.
#[test]
fn the_longest_sheet_that_is_moved_has_a_byte_to_spare() {
    let pair = Pair { old: nickel_of(74_890, 6), new: long_nickel_of(0, 74_890, 6) };
    assert_eq!((pair.old.len(), pair.new.len()), (1_048_575, 1_048_576));
    look_at_moves(&pair, "longest that is moved");
    look_at_unmoved(&long_nickel_of(2, 74_890, 6), (19, 0), "longest, and M4 is named");
}

/// The longest sheet has a short header, and moved it would be a byte longer: 1 in any room. With a byte more it is no sheet either way.
#[test]
fn the_longest_sheet_is_not_moved_to_a_longer_one() {
    let turn = raw::bliskoru_to_new_header;
    let sheet = nickel_of(74_884, 11);
    for room in [0, 1, 1_048_575, 1_048_576, 1_048_577] {
        look_at_turning(turn, &sheet, Err((1, 0)), room, "too long to move");
    }
    look_at_rooms(raw::bliskoru_to_old_header, &sheet, Err((19, 0)), "longest, and has a short header");
    look_at_unmoved(&longer(&sheet), (1, 0), "one byte longer");
    let sheet = long_nickel_of(0, 74_884, 11);
    assert_eq!(sheet.len(), 1_048_577);
    look_at_unmoved(&sheet, (1, 0), "one byte longer by a long header");
    look_at_turning(raw::bliskoru_to_old_header, &sheet, Err((1, 0)), 1_048_577, "one byte longer");
}

#[test]
fn tapes_are_turned_into_sheets_and_back_or_refused_at_a_line() {
    for row in tape_rows() {
        match row.number {
            0 => look_at_pair(&row.tape, &row.sheet, &row.text),
            number => {
                look_at_rooms(raw::bliskoru_tape_to_sheet, &row.tape, Err((number, row.line)), &row.text);
            }
        }
    }
}

#[test]
fn refused_sheets_have_no_text() {
    for row in rows("sheets", 130) {
        let refusal = Err((row.number(), row.numbers[1] as usize));
        look_at_rooms(raw::bliskoru_sheet_to_tape, &row.bytes, refusal, &row.text);
    }
}

#[test]
fn sample_tapes_are_those_of_their_sheets() {
    for name in ["nickel", "copper", "third_wednesday"] {
        look_at_pair(&file(&format!("examples/{name}.tape")), &file(&format!("examples/{name}.sheet")), name);
    }
}

#[test]
fn the_longest_sheet_has_a_text_and_a_longer_one_has_none() {
    let sheet = nickel_of(74_884, 11);
    look_at_pair(&nickel_tape_of(74_884, 11), &sheet, "longest");
    look_at_rooms(raw::bliskoru_sheet_to_tape, &longer(&sheet), Err((1, 0)), "one byte longer");
}

/// By a long header 7 + 14 * 74,890 + 17 * 6 + 7 = 1,048,576; M3 is 3M. The fields of the longest sheet by a short header are a byte too
/// many behind a long one, and a barred line, the 74,897th of its text, comes before that.
#[test]
fn the_longest_sheet_by_a_long_header_is_priced_and_has_a_text() {
    let sheet = long_nickel_of(1, 74_890, 6);
    assert_eq!(sheet.len(), 1_048_576);
    let answers =
        [1, 1_800_000, 748_900_000, 1, 1_800_000, 748_900_000, 13, 0, 0, 15, 0, 0, 15, 0, 0, 15, 0, 0];
    look_at_sheet(&sheet, 0, 0, Some(answers), "longest by a long header");
    look_at_pair(&long_nickel_tape_of(1, 74_890, 6), &sheet, "longest by a long header");
    look_at_sheet(&long_nickel_of(1, 74_884, 11), 1, 0, None, "too long by a long header");
    let tape = long_nickel_tape_of(1, 74_884, 11);
    look_at_turning(raw::bliskoru_tape_to_sheet, &tape, Err((1, 0)), 1_048_577, "too long by a long header");
    let barred = [&tape[..], b"58500000,M3-3M,QUOTE,-,-\n"].concat();
    look_at_rooms(raw::bliskoru_tape_to_sheet, &barred, Err((18, 74_897)), "too long and barred");
}

/// A sheet of 6 + 14 * 74,895 + 17 * 2 + 7 = 1,048,577 bytes, of which the text has 74,898 lines.
#[test]
fn a_text_too_long_for_a_sheet_is_refused_in_any_room_behind_every_bad_line() {
    let turn = raw::bliskoru_tape_to_sheet;
    let tape = nickel_tape_of(74_895, 2);
    for room in [0, 1_048_576, 1_048_577] {
        look_at_turning(turn, &tape, Err((1, 0)), room, "one byte too long");
    }
    let cut = &tape[..tape.len() - 1];
    look_at_rooms(turn, cut, Err((17, 74_898)), "no last line feed");
    let falls = [&tape[..], b"0,3M,QUOTE,-,-\n"].concat();
    look_at_rooms(turn, &falls, Err((8, 74_899)), "a time that falls");
}

#[test]
fn fields_are_written_at_every_edge_of_room_and_place() {
    for row in rows("fields", 110) {
        let size = row.bytes.len();
        for (length, at) in [(size, 0), (size - 1, 0), (0, 0), (size + 9, 5), (size + 5, 5), (size + 4, 5)] {
            look_at_write(&row, length, at);
        }
        for at in [100 - size, 101 - size, 100, 101, usize::MAX, usize::MAX - size, usize::MAX - size + 1] {
            look_at_write(&row, 100, at);
        }
        look_at_write(&row, 0, usize::MAX);
    }
}

#[test]
fn fields_are_read_as_their_values_or_refused_by_them() {
    for row in rows("fields", 110) {
        let size = row.bytes.len();
        let values: [i64; 6] = std::array::from_fn(|k| row.numbers[1 + k] as i64);
        let wanted = |next: usize| if row.number() == 0 { Ok((values, next)) } else { Err(row.number()) };
        look_at_read(&row.bytes, 0, wanted(size), &row.text);
        look_at_read(&row.bytes[..size - 1], 0, Err(2), &row.text);
        let within = [&[255; 3], &row.bytes[..], &[255; 5]].concat();
        look_at_read(&within, 3, wanted(size + 3), &row.text);
    }
}

#[test]
fn what_is_no_field_is_refused_at_every_place() {
    for row in rows("heads", 50) {
        look_at_read(&row.bytes, row.numbers[1] as usize, Err(row.number()), &row.text);
    }
}

#[test]
fn a_field_is_read_far_behind_the_longest_sheet() {
    let mut sheet = vec![0; 2_000_000];
    sheet.extend([1, 0, 3, 4, 7, 255]);
    look_at_read(&sheet, 2_000_000, Ok(([1, 4, 2047, 0, 0, 0], 2_000_006)), "byte 2,000,000");
    look_at_read(&sheet, 2_000_001, Err(3), "byte 2,000,001");
}

#[test]
fn refused_sheets_have_their_number_and_byte() {
    for row in rows("sheets", 130) {
        let byte = row.numbers[1] as usize;
        look_at_sheet(&row.bytes, row.number(), byte, None, &row.text);
        look_at_list(&row.bytes, format!("refused {} {byte}\n", row.number()).as_bytes(), &row.text);
    }
}

#[test]
fn accepted_sheets_have_their_answers() {
    for row in rows("answers", 50) {
        let answers = std::array::from_fn(|k| row.numbers[k] as u64);
        look_at_sheet(&row.bytes, 0, 0, Some(answers), &row.text);
    }
}

#[test]
fn samples_have_their_lists() {
    for name in ["nickel", "copper", "torn", "no_reference", "resting", "third_wednesday"] {
        let list = file(&format!("examples/{name}.list"));
        look_at_list(&file(&format!("examples/{name}.sheet")), &list, name);
    }
}

/// 6 + 14 * 74,884 + 17 * 11 + 7 = 1,048,576.
#[test]
fn the_longest_sheet_is_priced_and_a_longer_one_refused() {
    let sheet = nickel_of(74_884, 11);
    assert_eq!(sheet.len(), 1_048_576);
    let answers = [1, 1_800_000, 748_840_000, 13, 0, 0, 15, 0, 0, 15, 0, 0, 15, 0, 0, 15, 0, 0];
    look_at_sheet(&sheet, 0, 0, Some(answers), "longest");
    look_at_list(&sheet, b"too long\n", "longest");
    look_at_sheet(&longer(&sheet), 1, 0, None, "one byte longer");
    look_at_list(&longer(&sheet), b"too long\n", "one byte longer");
    look_at_sheet(&vec![0; 1_048_576], 3, 0, None, "1,048,576 zero bytes");
    look_at_sheet(&vec![0; 1_048_577], 1, 0, None, "1,048,577 zero bytes");
}

/// 6 + 14 * 4,679 + 17 + 7 = 65,536.
#[test]
fn the_longest_listed_sheet_is_listed_and_a_longer_one_is_not() {
    let sheet = nickel_of(4_679, 1);
    assert_eq!(sheet.len(), 65_536);
    let priced = "Nickel\n3M VWAP 1800000 46790000\nM3 refused 13 0\n";
    let list = format!("{priced}M2 refused 15 0\nM4 refused 15 0\nM1 refused 15 0\nCash refused 15 0\n");
    look_at_list(&sheet, list.as_bytes(), "65,536 bytes");
    look_at_list(&longer(&sheet), b"too long\n", "65,537 bytes");
    look_at_sheet(&longer(&sheet), 5, 65_536, None, "65,537 bytes");
    look_at_list(&vec![0; 65_536], b"refused 3 0\n", "65,536 zero bytes");
    look_at_list(&vec![0; 65_537], b"too long\n", "65,537 zero bytes");
}

/// By a long header 7 + 14 * 4,668 + 17 * 10 + 7 = 65,536; M3 is 3M.
#[test]
fn the_longest_listed_sheet_by_a_long_header_has_the_answer_of_3m_twice() {
    let sheet = long_nickel_of(1, 4_668, 10);
    assert_eq!(sheet.len(), 65_536);
    let priced = "Nickel\n3M VWAP 1800000 46680000\nM3 VWAP 1800000 46680000\nM2 refused 13 0\n";
    let list = format!("{priced}M4 refused 15 0\nM1 refused 15 0\nCash refused 15 0\n");
    look_at_list(&sheet, list.as_bytes(), "65,536 bytes by a long header");
}
