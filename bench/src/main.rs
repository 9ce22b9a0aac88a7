//! Holds the four sides to one another, then times each piece of work on every sheet or text, the ways to do it
//! taking turns in one loop, and keeps the least time of each. `bench compare` does the first part alone.

use bench::moves;
use bench::same::{agree, agree_on_moves, agree_on_tape, compare};
use bench::second::records;
use bench::sheets::{sheet, KINDS, SIZES};
use bench::tapes;
use bench::work::{Way, Work, ALL, ON_MOVES, ON_TAPES};
use std::process::ExitCode;
use std::time::{Duration, Instant};

/// How long one piece of work on one sheet is measured, and in how many rounds at least.
const SPENT: Duration = Duration::from_millis(1500);
const ROUNDS: usize = 15;

/// How long one measurement lasts at least, in nanoseconds, so that the clock tells it well.
const LASTING: u128 = 40_000;

/// How often a way is run in one measurement. Its first run, which fills the caches, does not count.
fn repeats(way: &Way, sheet: &[u8]) -> u32 {
    (way.run)(sheet);
    let start = Instant::now();
    (way.run)(sheet);
    (LASTING / start.elapsed().as_nanos().max(1)).clamp(1, 1000) as u32
}

/// The least time of each way in nanoseconds, and the number of rounds.
fn least_times(work: &Work, sheet: &[u8]) -> (Vec<f64>, usize) {
    let repeats: Vec<u32> = work.ways.iter().map(|way| repeats(way, sheet)).collect();
    let mut least = vec![f64::MAX; work.ways.len()];
    let begin = Instant::now();
    let mut rounds = 0;
    while rounds < ROUNDS || begin.elapsed() < SPENT {
        for ((least, way), repeats) in least.iter_mut().zip(work.ways).zip(&repeats) {
            let start = Instant::now();
            for _ in 0..*repeats {
                (way.run)(sheet);
            }
            *least = least.min(start.elapsed().as_nanos() as f64 / f64::from(*repeats));
        }
        rounds += 1;
    }
    (least, rounds)
}

/// One line of times over what is given of a sheet or a text of so many bytes and records: each way's
/// nanoseconds, and library / it.
fn time(work: &Work, kind: &str, bytes: usize, records: usize, given: &[u8]) {
    let (times, rounds) = least_times(work, given);
    print!("{:<8} {kind:<7} {bytes:>7} {records:>7} {rounds:>7}", work.name);
    for (way, time) in work.ways.iter().zip(&times) {
        print!("  {} {time:.1} ({:.2})", way.side, times[0] / time);
    }
    println!();
}

fn run(names: &[String]) -> Result<(), String> {
    let tally = compare()?;
    println!("compared: {tally}");
    if names.iter().any(|name| name == "compare") {
        return Ok(());
    }
    println!("work     sheet     bytes records  rounds  each way: ns (library / it)");
    let is_named = |work: &&Work| names.is_empty() || names.iter().any(|name| name == work.name);
    for work in ALL.iter().filter(is_named) {
        for kind in KINDS {
            for bytes in SIZES.into_iter().filter(|bytes| *bytes <= work.limit) {
                let sheet = sheet(kind, bytes);
                assert_eq!(sheet.len(), bytes);
                agree(&sheet)?;
                time(work, kind.name(), bytes, records(&sheet), &sheet);
            }
        }
    }
    ON_TAPES.iter().filter(is_named).try_for_each(run_on_tapes)?;
    ON_MOVES.iter().filter(is_named).try_for_each(run_on_moves)
}

fn run_on_tapes(work: &Work) -> Result<(), String> {
    for kind in tapes::KINDS {
        for tape in tapes::SIZES.map(|bytes| tapes::tape(kind, bytes)) {
            agree_on_tape(&tape)?;
            let records = records(&tapes::sheet_of(&tape));
            time(work, kind.name(), tape.len(), records, &(work.given)(&tape));
        }
    }
    Ok(())
}

fn run_on_moves(work: &Work) -> Result<(), String> {
    for kind in moves::KINDS {
        for sheet in moves::SIZES.map(|bytes| sheet(kind, bytes)) {
            agree_on_moves(&sheet)?;
            time(work, kind.name(), sheet.len(), records(&sheet), &(work.given)(&sheet));
        }
    }
    Ok(())
}

fn main() -> ExitCode {
    let names: Vec<String> = std::env::args().skip(1).collect();
    match run(&names) {
        Ok(()) => ExitCode::SUCCESS,
        Err(difference) => {
            eprintln!("the sides differ: {difference}");
            ExitCode::FAILURE
        }
    }
}
