//! A text tape turned into its day sheet, or a day sheet into its text: from a file to standard output.

use std::error::Error;
use std::io::{self, Write};
use std::process::ExitCode;

fn turn(to_sheet: bool, path: &str) -> Result<(), Box<dyn Error>> {
    let given = std::fs::read(path)?;
    let turned = if to_sheet {
        bliskoru::tape_to_sheet(&given)?
    } else {
        bliskoru::sheet_to_tape(&given)?
    };
    Ok(io::stdout().write_all(&turned)?)
}

fn main() -> ExitCode {
    let words: Vec<String> = std::env::args().skip(1).collect();
    let words: Vec<&str> = words.iter().map(String::as_str).collect();
    let done = match words[..] {
        ["to-sheet", path] => turn(true, path),
        ["to-tape", path] => turn(false, path),
        _ => {
            eprintln!("usage: tape to-sheet TAPE, or tape to-tape SHEET");
            return ExitCode::from(2);
        }
    };
    match done {
        Ok(()) => ExitCode::SUCCESS,
        Err(error) => {
            eprintln!("{error}");
            ExitCode::FAILURE
        }
    }
}
