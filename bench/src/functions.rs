//! The functions of the archive and those of `plain.c` and `limit.c`, which have the same shapes, as safe
//! functions over slices.

/// A field's tag and values, zeros behind them.
pub type Values = [i64; 6];

/// The six answers, three numbers each.
pub type Rows = [u64; 18];

/// One side's functions; `hosts/c/bliskoru.h` says what each does.
pub struct Functions {
    judge: unsafe extern "C" fn(*const u8, usize, *mut usize) -> u8,
    answers: unsafe extern "C" fn(*const u8, usize, *mut Rows, *mut usize) -> u8,
    read: unsafe extern "C" fn(*const u8, usize, usize, *mut Values, *mut usize) -> u8,
}

extern "C" {
    fn bliskoru_list(sheet: *const u8, len: usize, out: *mut u8, room: usize) -> usize;
    fn bliskoru_judge(sheet: *const u8, len: usize, at: *mut usize) -> u8;
    fn bliskoru_answers(sheet: *const u8, len: usize, rows: *mut Rows, at: *mut usize) -> u8;
    fn bliskoru_read(sheet: *const u8, len: usize, at: usize, values: *mut Values, next: *mut usize) -> u8;
    fn bliskoru_tape_to_sheet(
        tape: *const u8,
        len: usize,
        sheet: *mut u8,
        room: usize,
        length: *mut usize,
        at: *mut usize,
    ) -> u8;
    fn bliskoru_sheet_to_tape(
        sheet: *const u8,
        len: usize,
        tape: *mut u8,
        room: usize,
        length: *mut usize,
        at: *mut usize,
    ) -> u8;
    fn bliskoru_to_new_header(
        sheet: *const u8,
        len: usize,
        out: *mut u8,
        room: usize,
        length: *mut usize,
        at: *mut usize,
    ) -> u8;
    fn bliskoru_to_old_header(
        sheet: *const u8,
        len: usize,
        out: *mut u8,
        room: usize,
        length: *mut usize,
        at: *mut usize,
    ) -> u8;

    fn plain_judge(sheet: *const u8, len: usize, at: *mut usize) -> u8;
    fn plain_answers(sheet: *const u8, len: usize, rows: *mut Rows, at: *mut usize) -> u8;
    fn plain_read(sheet: *const u8, len: usize, at: usize, values: *mut Values, next: *mut usize) -> u8;
    fn plain_to_new_header(
        sheet: *const u8,
        len: usize,
        out: *mut u8,
        room: usize,
        length: *mut usize,
        at: *mut usize,
    ) -> u8;
    fn plain_to_old_header(
        sheet: *const u8,
        len: usize,
        out: *mut u8,
        room: usize,
        length: *mut usize,
        at: *mut usize,
    ) -> u8;

    fn limit_list(sheet: *const u8, len: usize, out: *mut u8, room: usize) -> usize;
    fn limit_judge(sheet: *const u8, len: usize, at: *mut usize) -> u8;
    fn limit_answers(sheet: *const u8, len: usize, rows: *mut Rows, at: *mut usize) -> u8;
    fn limit_read(sheet: *const u8, len: usize, at: usize, values: *mut Values, next: *mut usize) -> u8;
    fn limit_to_new_header(
        sheet: *const u8,
        len: usize,
        out: *mut u8,
        room: usize,
        length: *mut usize,
        at: *mut usize,
    ) -> u8;
    fn limit_to_old_header(
        sheet: *const u8,
        len: usize,
        out: *mut u8,
        room: usize,
        length: *mut usize,
        at: *mut usize,
    ) -> u8;
}

/// One side's list; `plain.c` has none.
pub struct Lister(unsafe extern "C" fn(*const u8, usize, *mut u8, usize) -> usize);

/// What makes a sheet or a text of another. The C programs have no texts.
pub struct Turner(unsafe extern "C" fn(*const u8, usize, *mut u8, usize, *mut usize, *mut usize) -> u8);

pub const LIBRARY_TO_SHEET: Turner = Turner(bliskoru_tape_to_sheet);
pub const LIBRARY_TO_TAPE: Turner = Turner(bliskoru_sheet_to_tape);

/// One side's moves of a sheet to the long header and to the short one.
pub struct Mover {
    pub to_new: Turner,
    pub to_old: Turner,
}

pub const LIBRARY_MOVES: Mover =
    Mover { to_new: Turner(bliskoru_to_new_header), to_old: Turner(bliskoru_to_old_header) };
pub const PLAIN_MOVES: Mover =
    Mover { to_new: Turner(plain_to_new_header), to_old: Turner(plain_to_old_header) };
pub const LIMIT_MOVES: Mover =
    Mover { to_new: Turner(limit_to_new_header), to_old: Turner(limit_to_old_header) };

pub const LIBRARY: Functions =
    Functions { judge: bliskoru_judge, answers: bliskoru_answers, read: bliskoru_read };
pub const PLAIN: Functions = Functions { judge: plain_judge, answers: plain_answers, read: plain_read };
pub const LIMIT: Functions = Functions { judge: limit_judge, answers: limit_answers, read: limit_read };

pub const LIBRARY_LIST: Lister = Lister(bliskoru_list);
pub const LIMIT_LIST: Lister = Lister(limit_list);

impl Lister {
    /// The closing list, and its length; 0 where the room is too short.
    pub fn list(&self, sheet: &[u8], out: &mut [u8]) -> usize {
        // SAFETY: both pairs are a live slice's pointer and length.
        unsafe { (self.0)(sheet.as_ptr(), sheet.len(), out.as_mut_ptr(), out.len()) }
    }
}

impl Turner {
    /// What is turned stands at the start of `out`: its length, or the refusal's number and place.
    pub fn turn(&self, bytes: &[u8], out: &mut [u8]) -> Result<usize, (u8, usize)> {
        let (mut length, mut at) = (0, 0);
        // SAFETY: both pairs are a live slice's; `length` and `at` are live.
        match unsafe {
            (self.0)(bytes.as_ptr(), bytes.len(), out.as_mut_ptr(), out.len(), &mut length, &mut at)
        } {
            0 => Ok(length),
            number => Err((number, at)),
        }
    }
}

impl Functions {
    /// The refusal's number, 0 for none; its byte is left in `at`.
    pub fn judge_at(&self, sheet: &[u8], at: &mut usize) -> u8 {
        // SAFETY: the pair is a live slice's; `at` is a live number.
        unsafe { (self.judge)(sheet.as_ptr(), sheet.len(), at) }
    }

    /// The same for the six answers, which are left in `rows`.
    pub fn answers_at(&self, sheet: &[u8], rows: &mut Rows, at: &mut usize) -> u8 {
        // SAFETY: the pair is a live slice's; `rows` and `at` are live.
        unsafe { (self.answers)(sheet.as_ptr(), sheet.len(), rows, at) }
    }

    /// The number that a field earns, 0 for none; its values and the place behind it are left in `values` and
    /// `next`.
    pub fn read_at(&self, sheet: &[u8], at: usize, values: &mut Values, next: &mut usize) -> u8 {
        // SAFETY: the pair is a live slice's; `values` and `next` are live.
        unsafe { (self.read)(sheet.as_ptr(), sheet.len(), at, values, next) }
    }

    /// The refusal's number, 0 for none, and its byte.
    pub fn judge(&self, sheet: &[u8]) -> (u8, usize) {
        let mut at = 0;
        let number = self.judge_at(sheet, &mut at);
        (number, at)
    }

    /// The six answers, or the refusal's number and byte.
    pub fn answers(&self, sheet: &[u8]) -> Result<Rows, (u8, usize)> {
        let (mut rows, mut at) = ([0; 18], 0);
        match self.answers_at(sheet, &mut rows, &mut at) {
            0 => Ok(rows),
            number => Err((number, at)),
        }
    }
}
