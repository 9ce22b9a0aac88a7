//! The independent program's answers for a C program: judgement, six answers,
//! list, one field, a tape turned into a sheet and back, and a sheet moved to
//! another header, each TWAP by spans. The features plant a wrong rule.

mod planted;

use independent::field::{read_field, Field};
use independent::list::list_text;
use independent::moves::to_new_header;
use independent::tables::LIST_LIMIT;
use independent::tape::sheet_to_tape;
use independent::{Answer, Method, Refusal};
use std::slice;

/// # Safety
/// `sheet` and `len` are those of a slice that lives as long as the call.
unsafe fn lent<'a>(sheet: *const u8, len: usize) -> &'a [u8] {
    unsafe { slice::from_raw_parts(sheet, len) }
}

/// 0, or the refusal's number with its byte in `at`.
///
/// # Safety
/// `sheet` and `len` are a live slice's, `at` is a live number.
#[no_mangle]
pub unsafe extern "C" fn second_judge(sheet: *const u8, len: usize, at: &mut usize) -> u8 {
    match planted::judge(unsafe { lent(sheet, len) }) {
        Ok(_) => 0,
        Err((number, byte)) => {
            *at = byte;
            number
        }
    }
}

/// 0 and three numbers for each contract, or the refusal's number with its byte
/// in `at`.
///
/// # Safety
/// As for [`second_judge`]; `rows` are live.
#[no_mangle]
pub unsafe extern "C" fn second_answers(
    sheet: *const u8,
    len: usize,
    rows: &mut [u64; 18],
    at: &mut usize,
) -> u8 {
    let day = match planted::judge(unsafe { lent(sheet, len) }) {
        Ok(day) => day,
        Err((number, byte)) => {
            *at = byte;
            return number;
        }
    };
    for (row, answer) in rows.chunks_exact_mut(3).zip(planted::price(&day)) {
        let numbers = match answer {
            Answer::Priced { method, price, lots } => {
                [if method == Method::Vwap { 1 } else { 2 }, price as u64, lots]
            }
            Answer::Refused { number, lots } => [number.into(), 0, lots],
        };
        row.copy_from_slice(&numbers);
    }
    0
}

/// The list's length; the list is longer than `room` nowhere.
///
/// # Safety
/// As for [`second_judge`]; `out` and `room` are a live slice's.
#[no_mangle]
pub unsafe extern "C" fn second_list(sheet: *const u8, len: usize, out: *mut u8, room: usize) -> usize {
    let text = if len > LIST_LIMIT {
        "too long\n".to_string()
    } else {
        list_text(&planted::judge(unsafe { lent(sheet, len) }), planted::price)
    };
    let out = unsafe { slice::from_raw_parts_mut(out, room) };
    out[..text.len()].copy_from_slice(text.as_bytes());
    text.len()
}

fn values_of(field: Field) -> [i64; 6] {
    match field {
        Field::Header(f) => match f.third {
            None => [1, f.metal.into(), f.marks.into(), 0, 0, 0],
            Some(third) => [6, f.metal.into(), f.marks.into(), third.into(), 0, 0],
        },
        Field::PreviousClose(f) => [2, f.instrument.into(), f.price.into(), 0, 0, 0],
        Field::Trade(f) => {
            let instrument = f.instrument.into();
            [3, f.time.into(), instrument, f.price.into(), f.lots.into(), 0]
        }
        Field::Quote(f) => {
            let (instrument, sides) = (f.instrument.into(), f.sides.into());
            [4, f.time.into(), instrument, sides, f.bid.into(), f.offer.into()]
        }
        Field::End(f) => [5, f.count.into(), 0, 0, 0, 0],
    }
}

/// 0, the field's tag and values and the place behind it, or the refusal's number.
///
/// # Safety
/// As for [`second_judge`]; `values` and `next` are live.
#[no_mangle]
pub unsafe extern "C" fn second_read(
    sheet: *const u8,
    len: usize,
    at: usize,
    values: &mut [i64; 6],
    next: &mut usize,
) -> u8 {
    match read_field(unsafe { lent(sheet, len) }, at) {
        Ok((field, behind)) => {
            *values = values_of(field);
            *next = behind;
            0
        }
        Err((number, _)) => number,
    }
}

/// What a C program lends a turning to be written.
struct Lent<'a> {
    out: &'a mut [u8],
    length: &'a mut usize,
    at: &'a mut usize,
}

impl Lent<'_> {
    /// 0 and what was turned at the buffer's start with its length, or the
    /// refusal's number with its place in `at`.
    fn tell(self, told: Result<Vec<u8>, Refusal>) -> u8 {
        match told {
            Ok(bytes) => {
                self.out[..bytes.len()].copy_from_slice(&bytes);
                *self.length = bytes.len();
                0
            }
            Err((number, place)) => {
                *self.at = place;
                number
            }
        }
    }
}

/// 0, the sheet of a tape and its length, or the refusal's number with its line.
///
/// # Safety
/// `tape` and `len` are a live slice's, and so are `sheet` and `room`; `length`
/// and `at` are live.
#[no_mangle]
pub unsafe extern "C" fn second_tape_to_sheet(
    tape: *const u8,
    len: usize,
    sheet: *mut u8,
    room: usize,
    length: &mut usize,
    at: &mut usize,
) -> u8 {
    let out = unsafe { slice::from_raw_parts_mut(sheet, room) };
    Lent { out, length, at }.tell(planted::tape_to_sheet(unsafe { lent(tape, len) }, room))
}

/// 0, the tape of a sheet and its length, or the refusal's number with its byte.
///
/// # Safety
/// As for [`second_tape_to_sheet`].
#[no_mangle]
pub unsafe extern "C" fn second_sheet_to_tape(
    sheet: *const u8,
    len: usize,
    tape: *mut u8,
    room: usize,
    length: &mut usize,
    at: &mut usize,
) -> u8 {
    let out = unsafe { slice::from_raw_parts_mut(tape, room) };
    Lent { out, length, at }.tell(sheet_to_tape(unsafe { lent(sheet, len) }, room))
}

/// 0, the sheet with the new header and its length, or the refusal's number with
/// its byte.
///
/// # Safety
/// As for [`second_tape_to_sheet`].
#[no_mangle]
pub unsafe extern "C" fn second_to_new_header(
    sheet: *const u8,
    len: usize,
    out: *mut u8,
    room: usize,
    length: &mut usize,
    at: &mut usize,
) -> u8 {
    let out = unsafe { slice::from_raw_parts_mut(out, room) };
    Lent { out, length, at }.tell(to_new_header(unsafe { lent(sheet, len) }, room))
}

/// 0, the sheet with the old header and its length, or the refusal's number with
/// its byte.
///
/// # Safety
/// As for [`second_tape_to_sheet`].
#[no_mangle]
pub unsafe extern "C" fn second_to_old_header(
    sheet: *const u8,
    len: usize,
    out: *mut u8,
    room: usize,
    length: &mut usize,
    at: &mut usize,
) -> u8 {
    let out = unsafe { slice::from_raw_parts_mut(out, room) };
    Lent { out, length, at }.tell(planted::to_old_header(unsafe { lent(sheet, len) }, room))
}
