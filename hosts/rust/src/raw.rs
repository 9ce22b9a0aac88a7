//! The functions of the archive as they are, for hosts that want no wrapper. `hosts/c/bliskoru.h` says what each does and writes.
//!
//! # Safety
//!
//! The same holds for all fourteen. A pointer and the length behind it are a slice, and every other pointer is a reference: none is null,
//! even where the length is 0; each is aligned and holds for the whole call; what a `*mut` points to overlaps with nothing else that
//! is lent to the same call. `answers` points to 18 numbers and `values` to 6.

extern "C" {
    /// The closing list into `out`: its length, or 0 where it does not fit and nothing is written.
    pub fn bliskoru_list(sheet: *const u8, sheet_len: usize, out: *mut u8, out_len: usize) -> usize;

    /// 0, or the sheet's refusal, 1 to 12 or 18, with its byte in `at`.
    pub fn bliskoru_judge(sheet: *const u8, sheet_len: usize, at: *mut usize) -> u8;

    /// 0 and six rows of three numbers; or the sheet's refusal, 1 to 12 or 18, with its byte in `at`.
    pub fn bliskoru_answers(
        sheet: *const u8,
        sheet_len: usize,
        answers: *mut [u64; 18],
        at: *mut usize,
    ) -> u8;

    /// 0, the field's six numbers and the place behind it; or 2, 3, 4, 6 to 11, and nothing is written.
    pub fn bliskoru_read(
        sheet: *const u8,
        sheet_len: usize,
        at: usize,
        values: *mut [i64; 6],
        next: *mut usize,
    ) -> u8;

    /// 0 and the place behind the header; or 6, 16, and nothing is written.
    pub fn bliskoru_write_header(
        buffer: *mut u8,
        buffer_len: usize,
        at: usize,
        metal: u8,
        marks: u16,
        next: *mut usize,
    ) -> u8;

    /// 0 and the place behind the long header; or 6, 16, and nothing is written.
    pub fn bliskoru_write_long_header(
        buffer: *mut u8,
        buffer_len: usize,
        at: usize,
        metal: u8,
        marks: u16,
        third: u8,
        next: *mut usize,
    ) -> u8;

    /// 0 and the place behind the previous close; or 7, 9, 16, and nothing is written.
    pub fn bliskoru_write_previous_close(
        buffer: *mut u8,
        buffer_len: usize,
        at: usize,
        instrument: u8,
        cents: i32,
        next: *mut usize,
    ) -> u8;

    /// 0 and the place behind the trade; or 7, 8, 9, 10, 16, and nothing is written.
    pub fn bliskoru_write_trade(
        buffer: *mut u8,
        buffer_len: usize,
        at: usize,
        time: u32,
        instrument: u8,
        cents: i32,
        lots: u16,
        next: *mut usize,
    ) -> u8;

    /// 0 and the place behind the quote; or 7, 8, 9, 11, 16, and nothing is written.
    pub fn bliskoru_write_quote(
        buffer: *mut u8,
        buffer_len: usize,
        at: usize,
        time: u32,
        instrument: u8,
        sides: u8,
        bid: i32,
        offer: i32,
        next: *mut usize,
    ) -> u8;

    /// 0 and the place behind the end; or 16, and nothing is written.
    pub fn bliskoru_write_end(
        buffer: *mut u8,
        buffer_len: usize,
        at: usize,
        count: u32,
        next: *mut usize,
    ) -> u8;

    /// 0, the sheet and its `length`; or 5, 6, 8 to 11, 17, 18 with the line in `at`, then 1, 16 with 0 there, and nothing else is written.
    pub fn bliskoru_tape_to_sheet(
        tape: *const u8,
        tape_len: usize,
        sheet: *mut u8,
        sheet_len: usize,
        length: *mut usize,
        at: *mut usize,
    ) -> u8;

    /// 0, the text and its `length`; or 1 to 12, 18 with the byte in `at`, then 16 with 0 there, and nothing else is written.
    pub fn bliskoru_sheet_to_tape(
        sheet: *const u8,
        sheet_len: usize,
        tape: *mut u8,
        tape_len: usize,
        length: *mut usize,
        at: *mut usize,
    ) -> u8;

    /// 0, the sheet with a long header and its `length`; or 1 to 12, 18 with the byte in `at`, then 19, 1, 16 with 0 there, and nothing else
    /// is written.
    pub fn bliskoru_to_new_header(
        sheet: *const u8,
        sheet_len: usize,
        out: *mut u8,
        out_len: usize,
        length: *mut usize,
        at: *mut usize,
    ) -> u8;

    /// 0, the sheet with a short header and its `length`; or 1 to 12, 18 with the byte in `at`, then 19, 16 with 0 there, and nothing else
    /// is written.
    pub fn bliskoru_to_old_header(
        sheet: *const u8,
        sheet_len: usize,
        out: *mut u8,
        out_len: usize,
        length: *mut usize,
        at: *mut usize,
    ) -> u8;
}
