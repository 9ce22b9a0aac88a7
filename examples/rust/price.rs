//! The six answers of a day sheet from a file, a line each: contract, method, cents, lots.

use std::error::Error;
use std::process::ExitCode;

fn price(path: &str) -> Result<(), Box<dyn Error>> {
    let sheet = std::fs::read(path)?;
    for (contract, answer) in bliskoru::CONTRACTS.iter().zip(bliskoru::answers(&sheet)?) {
        println!("{contract} {answer}");
    }
    Ok(())
}

fn main() -> ExitCode {
    let Some(path) = std::env::args().nth(1) else {
        eprintln!("usage: price SHEET");
        return ExitCode::from(2);
    };
    match price(&path) {
        Ok(()) => ExitCode::SUCCESS,
        Err(error) => {
            eprintln!("{error}");
            ExitCode::FAILURE
        }
    }
}
