//! Asks the proved library and the independent program for the list, the judgement, the answers, the fields, the text and the sheet with
//! another header of many sheets made from a seed, then for the sheets of many texts, and stops at the first difference with that sheet in
//! hexadecimal or that text. A sheet or text depends on the seed, its number and its kind only. Before them come the named cases, the longest
//! sheets among them, whose answers are written by hand, named texts and their sheets, and named moves.

#![forbid(unsafe_code)]

mod moves;
mod named;
mod same;
mod sheets;
mod tally;
mod tape_tally;
mod tapes;
mod turning;

use sheets::Plan;
use std::panic::{self, UnwindSafe};
use std::process::ExitCode;
use std::sync::atomic::{AtomicBool, Ordering};
use std::thread;
use tally::Tally;
use tape_tally::TapeTally;

const USAGE: &str = "usage:
  compare SEED ACCEPTED DAMAGED        compare on the named cases, on so many sheets of each kind, and on 40,000 texts
  compare SEED ACCEPTED DAMAGED TIMES  the same for so many seeds from this one on, two lines each, and two for all
";

/// Two sheets or texts are looked at at a time.
const THREADS: usize = 2;

fn main() -> ExitCode {
    let words: Vec<String> = std::env::args().skip(1).collect();
    match run(&words) {
        Ok(()) => ExitCode::SUCCESS,
        Err(message) => {
            eprintln!("{message}");
            ExitCode::FAILURE
        }
    }
}

fn run(words: &[String]) -> Result<(), String> {
    let numbers: Option<Vec<u64>> = words.iter().map(|word| word.parse().ok()).collect();
    match numbers.as_deref() {
        Some([seed, accepted, damaged]) => row_of_seeds(*seed, *accepted, *damaged, 1),
        Some([seed, accepted, damaged, times]) => row_of_seeds(*seed, *accepted, *damaged, *times),
        _ => Err(USAGE.to_string()),
    }
}

fn row_of_seeds(first: u64, accepted: u64, damaged: u64, times: u64) -> Result<(), String> {
    println!("{} named cases as they are written by hand", named::hold()?);
    println!("{} named texts and sheets, each turned as it is written by hand, and the texts with lines behind them", named::hold_tapes()?);
    println!("{} named moves to another header as they are written by hand", named::hold_moves()?);
    let (mut all, mut all_tapes) = (Tally::default(), TapeTally::default());
    for seed in first..first + times {
        let tally = compare(&Plan { seed, accepted, damaged })?;
        println!("seed {seed}: {}", tally.line());
        all.add(&tally);
        let tally = compare_tapes(seed)?;
        println!("seed {seed}: {}", tally.line());
        all_tapes.add(&tally);
    }
    if times > 1 {
        println!("all: {}\nall: {}", all.line(), all_tapes.line());
    }
    all.has_everything()?;
    all_tapes.has_everything()
}

/// Every sheet of the plan.
fn compare(plan: &Plan) -> Result<Tally, String> {
    let look = |item: u64, tally: &mut Tally| {
        let sheet = plan.sheet(item);
        let walked = plan.is_walked(item);
        let told = held(|| same::look(&sheet, item, walked)).map_err(|difference| {
            format!("seed {} sheet {item}: {difference}\n{}", plan.seed, same::hexadecimal(&sheet))
        })?;
        tally.count(&sheet, walked, &told);
        Ok(())
    };
    let mut all = Tally::default();
    each(plan.sheets(), look)?.iter().for_each(|part| all.add(part));
    Ok(all)
}

/// Every text of a seed.
fn compare_tapes(seed: u64) -> Result<TapeTally, String> {
    let look = |item: u64, tally: &mut TapeTally| {
        let tape = tapes::made(seed, item);
        let told = held(|| tapes::look(&tape)).map_err(|difference| {
            format!("seed {seed} text {item}: {difference}\n{}", tape.escape_ascii())
        })?;
        tally.count(item, &tape, &told);
        Ok(())
    };
    let mut all = TapeTally::default();
    each(tapes::count(), look)?.iter().for_each(|part| all.add(part));
    Ok(all)
}

/// What a look says; that one of the two panicked is a difference too.
fn held<T>(look: impl FnOnce() -> Result<T, String> + UnwindSafe) -> Result<T, String> {
    panic::catch_unwind(look).unwrap_or_else(|_| Err("one of the two panicked".to_string()))
}

/// So many items, each thread taking every second one: the tally of each thread, or the first difference.
fn each<T: Default + Send>(
    count: u64,
    look: impl Fn(u64, &mut T) -> Result<(), String> + Sync,
) -> Result<Vec<T>, String> {
    let stop = AtomicBool::new(false);
    thread::scope(|scope| {
        let work = |first| {
            let (look, stop) = (&look, &stop);
            scope.spawn(move || part(first, count, look, stop))
        };
        let handles: Vec<_> = (0..THREADS).map(work).collect();
        handles
            .into_iter()
            .map(|handle| handle.join().unwrap_or_else(|_| Err("a thread panicked".into())))
            .collect()
    })
}

/// Every second item from the first one on, up to a difference in either thread.
fn part<T: Default>(
    first: usize,
    count: u64,
    look: impl Fn(u64, &mut T) -> Result<(), String>,
    stop: &AtomicBool,
) -> Result<T, String> {
    let mut tally = T::default();
    for item in (first as u64..count).step_by(THREADS) {
        if stop.load(Ordering::Relaxed) {
            break;
        }
        look(item, &mut tally).inspect_err(|_| stop.store(true, Ordering::Relaxed))?;
    }
    Ok(tally)
}
