//! Does one piece of work for one side over one sheet or text, once or so many
//! times: what callgrind counts and perf samples. `one list library twap 65536`,
//! `one to-sheet library trades 65536`, `one to-new plain trades 65536`; `one sheet
//! twap 65536` writes the sheet, `one tape trades 65536` the text.

use bench::sheets::{sheet, Kind};
use bench::tapes;
use bench::work::{Work, ALL, ON_MOVES, ON_TAPES};
use std::io::{self, Write};

/// Only what happens in here is counted.
#[inline(never)]
#[no_mangle]
pub fn counted(run: fn(&[u8]), sheet: &[u8], times: usize) {
    for _ in 0..times {
        run(sheet);
    }
}

fn write_sheet(kind: &str, bytes: &str) -> Option<()> {
    let sheet = sheet(Kind::named(kind)?, bytes.parse().ok()?);
    io::stdout().write_all(&sheet).ok()
}

fn tape(kind: &str, bytes: &str) -> Option<Vec<u8>> {
    Some(tapes::tape(tapes::Kind::named(kind)?, bytes.parse().ok()?))
}

fn write_tape(kind: &str, bytes: &str) -> Option<()> {
    io::stdout().write_all(&tape(kind, bytes)?).ok()
}

/// The work of a name, and what it is done over.
fn work_and_given(work: &str, kind: &str, bytes: &str) -> Option<(&'static Work, Vec<u8>)> {
    let is_named = |known: &&Work| known.name == work;
    if let Some(known) = ON_TAPES.iter().find(is_named) {
        return Some((known, (known.given)(&tape(kind, bytes)?)));
    }
    let known = ALL.iter().chain(&ON_MOVES).find(is_named)?;
    Some((known, (known.given)(&sheet(Kind::named(kind)?, bytes.parse().ok()?))))
}

fn do_work(work: &str, side: &str, kind: &str, bytes: &str, times: &str) -> Option<()> {
    let (work, given) = work_and_given(work, kind, bytes)?;
    let way = work.ways.iter().find(|way| way.side == side)?;
    counted(way.run, &given, times.parse().ok()?);
    Some(())
}

fn main() {
    let words: Vec<String> = std::env::args().skip(1).collect();
    let words: Vec<&str> = words.iter().map(String::as_str).collect();
    let done = match words[..] {
        ["sheet", kind, bytes] => write_sheet(kind, bytes),
        ["tape", kind, bytes] => write_tape(kind, bytes),
        [work, side, kind, bytes] => do_work(work, side, kind, bytes, "1"),
        [work, side, kind, bytes, times] => do_work(work, side, kind, bytes, times),
        _ => None,
    };
    if done.is_none() {
        eprintln!("usage: one WORK SIDE KIND BYTES [TIMES], one sheet KIND BYTES, or one tape KIND BYTES");
        std::process::exit(2);
    }
}
