//! The tables of `hosts/edges`, long sheets and texts, and memory that is filled before it is lent.

#![allow(dead_code)]

use std::fs;
use std::path::PathBuf;

/// What all lent memory is filled with.
pub const FILL: u8 = 0xA5;
/// A place that is filled.
pub const FILLED: usize = usize::from_ne_bytes([FILL; 8]);
/// Bytes before and behind each lent buffer.
pub const GUARD: usize = 32;

/// A line of a table: numbers, then bytes, in the table of moves the moved bytes behind them.
pub struct Row {
    pub numbers: Vec<i128>,
    pub bytes: Vec<u8>,
    pub moved: Vec<u8>,
    pub text: String,
}

impl Row {
    pub fn number(&self) -> u8 {
        self.numbers[0] as u8
    }
}

/// A file of the repository.
pub fn file(path: &str) -> Vec<u8> {
    let path = PathBuf::from(env!("CARGO_MANIFEST_DIR")).join("../..").join(path);
    fs::read(&path).unwrap_or_else(|error| panic!("{}: {error}", path.display()))
}

/// The bytes of hexadecimal digits, spaces left out.
fn bytes_of(text: &str) -> Vec<u8> {
    let digits: Vec<u8> = text.chars().filter_map(|c| c.to_digit(16)).map(|digit| digit as u8).collect();
    digits.chunks(2).map(|pair| pair[0] << 4 | pair[1]).collect()
}

fn row_of(line: &str) -> Option<Row> {
    let said = line.split('#').next()?;
    let (numbers, bytes) = said.split_once(':')?;
    let (bytes, moved) = bytes.split_once(':').unwrap_or((bytes, ""));
    let numbers = numbers.split_whitespace().map(|number| number.parse().expect("a number")).collect();
    Some(Row { numbers, bytes: bytes_of(bytes), moved: bytes_of(moved), text: line.to_string() })
}

/// The lines of a table, which has `least` lines or more.
pub fn rows(table: &str, least: usize) -> Vec<Row> {
    let text = String::from_utf8(file(&format!("hosts/edges/{table}.txt"))).expect("a text");
    let rows: Vec<Row> = text.lines().filter_map(row_of).collect();
    assert!(rows.len() >= least, "{table} has {} lines", rows.len());
    rows
}

/// A line of the table of moves: to the long header or to the short one, in so much room, the sheet and what it is moved to or its refusal.
pub struct Move {
    pub to_new: bool,
    pub room: usize,
    pub sheet: Vec<u8>,
    pub told: Result<Vec<u8>, (u8, usize)>,
    pub text: String,
}

fn move_of(row: Row) -> Move {
    let [tag, room, number, byte] = row.numbers[..] else {
        panic!("four numbers: {}", row.text);
    };
    let told = if number == 0 { Ok(row.moved) } else { Err((number as u8, byte as usize)) };
    Move { to_new: tag == 6, room: room as usize, sheet: row.bytes, told, text: row.text }
}

/// The lines of the table of moves, which has 100 lines or more.
pub fn moves() -> Vec<Move> {
    rows("moves", 100).into_iter().map(move_of).collect()
}

/// An accepted sheet with a short header, and the same with a long one.
pub struct Pair {
    pub old: Vec<u8>,
    pub new: Vec<u8>,
}

/// The pair that an accepted sheet is one of; none where its header names M3 or M4.
pub fn pair_of(sheet: &[u8]) -> Option<Pair> {
    let values = &sheet[3..6];
    let (behind, third) = if sheet[0] == 1 { (&sheet[6..], 0) } else { (&sheet[7..], sheet[6]) };
    let pair = || Pair {
        old: [&[1, 0, 3], values, behind].concat(),
        new: [&[6, 0, 4], values, &[0], behind].concat(),
    };
    (third == 0).then(pair)
}

/// A line of the table of tapes: number and line of a refusal, or zeros; the text; where it is accepted, its sheet.
pub struct TapeRow {
    pub number: u8,
    pub line: usize,
    pub tape: Vec<u8>,
    pub sheet: Vec<u8>,
    pub text: String,
}

/// The bytes of a quoted text.
fn unescaped(quoted: &str) -> Vec<u8> {
    let mut bytes = Vec::new();
    let mut rest = quoted;
    while let Some(first) = rest.chars().next() {
        let escape = if first == '\\' { rest.chars().nth(1) } else { None };
        let (byte, behind) = match escape {
            None => (first as u8, 1),
            Some('n') => (b'\n', 2),
            Some('r') => (b'\r', 2),
            Some('t') => (b'\t', 2),
            Some(_) => (bytes_of(&rest[2..4])[0], 4),
        };
        bytes.push(byte);
        rest = &rest[behind..];
    }
    bytes
}

fn tape_row_of(line: &str) -> Option<TapeRow> {
    if line.starts_with('#') {
        return None;
    }
    let (numbers, rest) = line.split_once('"')?;
    let (quoted, rest) = rest.split_once('"').expect("the end of the text");
    let mut numbers = numbers.split_whitespace().map(|number| number.parse().expect("a number"));
    let mut number = || -> usize { numbers.next().expect("two numbers") };
    Some(TapeRow {
        number: number() as u8,
        line: number(),
        tape: unescaped(quoted),
        sheet: bytes_of(rest.split('#').next()?),
        text: line.to_string(),
    })
}

/// The lines of the table of tapes, which has 500 lines or more.
pub fn tape_rows() -> Vec<TapeRow> {
    let text = String::from_utf8(file("hosts/edges/tapes.txt")).expect("a text");
    let rows: Vec<TapeRow> = text.lines().filter_map(tape_row_of).collect();
    assert!(rows.len() >= 500, "tapes has {} lines", rows.len());
    rows
}

/// The bytes between two guards, all filled.
pub fn filled(length: usize) -> Vec<u8> {
    vec![FILL; GUARD + length + GUARD]
}

/// A Nickel sheet of trades of 10,000 lots of 3M at 1,800,000 in the first millisecond of its window, and quotes without sides: 6 bytes
/// for the header, 14 a trade, 17 a quote, 7 for the end.
pub fn nickel_of(trades: usize, quotes: usize) -> Vec<u8> {
    behind_header(&[1, 0, 3, 1, 0, 0], trades, quotes)
}

/// The same by a long header, of 7 bytes, with this third value.
pub fn long_nickel_of(third: u8, trades: usize, quotes: usize) -> Vec<u8> {
    behind_header(&[6, 0, 4, 1, 0, 0, third], trades, quotes)
}

fn behind_header(header: &[u8], trades: usize, quotes: usize) -> Vec<u8> {
    let time = 58_500_000_u32.to_be_bytes();
    let mut sheet = header.to_vec();
    for _ in 0..trades {
        sheet.extend([3, 0, 11]);
        sheet.extend(time);
        sheet.push(0);
        sheet.extend(1_800_000_i32.to_be_bytes());
        sheet.extend(10_000_u16.to_be_bytes());
    }
    for _ in 0..quotes {
        sheet.extend([4, 0, 14]);
        sheet.extend(time);
        sheet.extend([0; 10]);
    }
    sheet.extend([5, 0, 4]);
    sheet.extend((1 + trades as u32 + quotes as u32).to_be_bytes());
    sheet
}

/// The sheet with one zero byte behind it.
pub fn longer(sheet: &[u8]) -> Vec<u8> {
    [sheet, &[0]].concat()
}

/// The text of the sheet of `nickel_of`.
pub fn nickel_tape_of(trades: usize, quotes: usize) -> Vec<u8> {
    behind_line("METAL,Nickel,0\n", trades, quotes)
}

/// The text of the sheet of `long_nickel_of`.
pub fn long_nickel_tape_of(third: u8, trades: usize, quotes: usize) -> Vec<u8> {
    behind_line(&format!("METAL,Nickel,0,{third}\n"), trades, quotes)
}

fn behind_line(metal: &str, trades: usize, quotes: usize) -> Vec<u8> {
    let trades = "58500000,3M,TRADE,18000.00,10000\n".repeat(trades);
    let quotes = "58500000,3M,QUOTE,-,-\n".repeat(quotes);
    format!("{metal}{trades}{quotes}").into_bytes()
}
