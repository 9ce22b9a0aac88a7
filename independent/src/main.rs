//! The commands: a closing list, streams of cases, and the answers to them.

use independent::field_cases::field_cases;
use independent::generator::sized::sized_sheet;
use independent::generator::tapes::{sized_tape, tape, TapeKind};
use independent::holds::{all_hold, shift_holds, turn_holds, Law};
use independent::laws::Pair;
use independent::list::closing_list;
use independent::named::named_cases;
use independent::random::Random;
use independent::sheet_cases::sheet_cases;
use independent::stream;
use independent::tables::{LIST_LIMIT, SHEET_LIMIT};
use independent::{sheet_to_tape, tape_to_sheet, to_new_header, to_old_header, Refusal, TAPE_LIMIT};
use std::io::{self, Read, Write};
use std::process::ExitCode;
use std::str::FromStr;

const USAGE: &str = "usage:
  independent list < SHEET              the closing list
  independent cases SEED COUNT          a stream of cases, the named ones first
  independent names                     the names of the named cases, in order
  independent answer < STREAM           each closing list and an empty line
  independent answer-by-spans < STREAM  the same, faster
  independent judge < STREAM            accepted or refused, a line each
  independent tally < STREAM            how often each number is given
  independent shifted SEED COUNT        a stream of pairs, 3M shifted
  independent shifts SEED COUNT         by how many steps each pair is shifted
  independent turned SEED COUNT         a stream of pairs, one spread turned
  independent turns SEED COUNT          which spread each pair has turned
  independent shift-holds SEED COUNT < ANSWERS  does another's answer to that
                                        stream obey the first law
  independent turn-holds SEED COUNT < ANSWERS   and the second
  independent sized SEED BYTES          one accepted sheet of so many bytes
  independent sheet-cases < TEXT        what is said of sheets written as digits
  independent field-cases < SHEET       what is said of single fields, and of
                                        walks over the Nickel sheet
  independent tape-to-sheet < TEXT      the sheet of a text tape; what is refused
                                        is told on standard error alone
  independent sheet-to-tape < SHEET     the text tape of a sheet, likewise
  independent to-new-header < SHEET     the sheet moved to the new header, likewise
  independent to-old-header < SHEET     the sheet moved to the old header, likewise
  independent tapes SEED COUNT KIND     a stream of texts, canonical or damaged
  independent sized-tape SEED BYTES     one accepted text of about so many bytes
";

fn main() -> ExitCode {
    let words: Vec<String> = std::env::args().skip(1).collect();
    let words: Vec<&str> = words.iter().map(String::as_str).collect();
    let done = run(&words).and_then(|output| {
        let written = io::stdout().write_all(&output);
        written.map_err(|error| error.to_string())
    });
    match done {
        Ok(()) => ExitCode::SUCCESS,
        Err(message) => {
            let _ = writeln!(io::stderr(), "{message}");
            ExitCode::FAILURE
        }
    }
}

fn run(words: &[&str]) -> Result<Vec<u8>, String> {
    match words {
        ["list"] => Ok(closing_list(&read_up_to(LIST_LIMIT)?)),
        ["names"] => Ok(names().into_bytes()),
        ["sheet-cases"] => said_of_text(),
        ["field-cases"] => Ok(field_cases(&read_up_to(LIST_LIMIT)?).into_bytes()),
        ["tape-to-sheet"] => rewritten(TAPE_LIMIT, |text| tape_to_sheet(text, SHEET_LIMIT)),
        ["sheet-to-tape"] => rewritten(SHEET_LIMIT, |sheet| sheet_to_tape(sheet, TAPE_LIMIT)),
        ["to-new-header"] => rewritten(SHEET_LIMIT, |sheet| to_new_header(sheet, SHEET_LIMIT)),
        ["to-old-header"] => rewritten(SHEET_LIMIT, |sheet| to_old_header(sheet, SHEET_LIMIT)),
        ["tapes", seed, count, "canonical"] => tapes(number(seed)?, number(count)?, TapeKind::Canonical),
        ["tapes", seed, count, "damaged"] => tapes(number(seed)?, number(count)?, TapeKind::Damaged),
        [command, seed, count] => make(command, number(seed)?, number(count)?),
        [command] => read_and_answer(command),
        _ => Err(USAGE.to_string()),
    }
}

/// A number on the command line.
fn number<T: FromStr>(word: &str) -> Result<T, String> {
    word.parse().map_err(|_| USAGE.to_string())
}

/// The commands that make sheets from a seed, and those that look at answers to them.
fn make(command: &str, seed: u64, count: usize) -> Result<Vec<u8>, String> {
    match command {
        "cases" => Ok(stream::stream_of_cases(&stream::cases(seed, count))),
        "shifted" => Ok(stream::stream_of_pairs(&stream::shifted(seed, count))),
        "shifts" => Ok(numbers(&stream::shifted(seed, count))),
        "turned" => Ok(stream::stream_of_pairs(&stream::turned(seed, count))),
        "turns" => Ok(numbers(&stream::turned(seed, count))),
        "shift-holds" => held(shift_holds, &stream::shifted(seed, count)),
        "turn-holds" => held(turn_holds, &stream::turned(seed, count)),
        "sized" => {
            sized_sheet(&mut Random::new(seed), count).ok_or_else(|| format!("no fields fill {count} bytes"))
        }
        "sized-tape" => Ok(sized_tape(seed, count)),
        _ => Err(USAGE.to_string()),
    }
}

/// The stream of so many texts.
fn tapes(seed: u64, count: u64, kind: TapeKind) -> Result<Vec<u8>, String> {
    let texts: Vec<Vec<u8>> = (0..count).map(|number| tape(seed, number, kind)).collect();
    Ok(stream::stream_of_cases(&texts))
}

/// Standard input as a sheet, as a text or with its other header; nothing where it
/// is too long or refused, which standard error tells.
fn rewritten(limit: usize, turn: fn(&[u8]) -> Result<Vec<u8>, Refusal>) -> Result<Vec<u8>, String> {
    let input = read_up_to(limit)?;
    let told = if input.len() > limit {
        "too long".to_string()
    } else {
        match turn(&input) {
            Ok(output) => return Ok(output),
            Err((number, place)) => format!("refused {number} {place}"),
        }
    };
    writeln!(io::stderr(), "{told}").map_err(|error| error.to_string())?;
    Ok(Vec::new())
}

/// The answers on standard input under a law, by what each pair was changed by.
fn held(law: Law, pairs: &[Pair]) -> Result<Vec<u8>, String> {
    let mut answers = String::new();
    let read = io::stdin().read_to_string(&mut answers);
    read.map_err(|error| error.to_string())?;
    let numbers: Vec<i64> = pairs.iter().map(|pair| pair.by).collect();
    all_hold(law, &numbers, &answers).map(String::into_bytes)
}

/// The commands that read a stream.
fn read_and_answer(command: &str) -> Result<Vec<u8>, String> {
    let answer: fn(&[&[u8]]) -> Vec<u8> = match command {
        "answer" => stream::answer,
        "answer-by-spans" => stream::answer_by_spans,
        "judge" => |sheets| stream::judge(sheets).into_bytes(),
        "tally" => |sheets| stream::tally_text(sheets).into_bytes(),
        _ => return Err(USAGE.to_string()),
    };
    let mut input = Vec::new();
    let read = io::stdin().read_to_end(&mut input);
    read.map_err(|error| error.to_string())?;
    let cut = |byte| format!("the stream is cut short in the sheet at byte {byte}");
    let sheets = stream::frames(&input).map_err(cut)?;
    Ok(answer(&sheets))
}

/// What is said of the sheets that standard input has as digits.
fn said_of_text() -> Result<Vec<u8>, String> {
    let mut text = String::new();
    io::stdin().read_to_string(&mut text).map_err(|error| error.to_string())?;
    let said = sheet_cases(&text).map_err(|line| format!("line {line} has no whole bytes"))?;
    Ok(said.into_bytes())
}

/// Standard input up to one byte more than the limit.
fn read_up_to(limit: usize) -> Result<Vec<u8>, String> {
    let mut input = Vec::new();
    let read = io::stdin().take(limit as u64 + 1).read_to_end(&mut input);
    read.map_err(|error| error.to_string())?;
    Ok(input)
}

fn names() -> String {
    let names = named_cases().into_iter().map(|case| case.name + "\n");
    names.collect()
}

/// What each pair was changed by, a line each.
fn numbers(pairs: &[Pair]) -> Vec<u8> {
    let lines = pairs.iter().map(|pair| format!("{}\n", pair.by));
    lines.collect::<String>().into_bytes()
}
