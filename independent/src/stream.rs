//! Many sheets in one stream: each as a four-byte big-endian length and its
//! bytes. The answers to a stream are plain text.

use crate::generator::random_sheet;
use crate::laws::{shifted_pair, turned_pair, Pair};
use crate::list::{closing_list, closing_list_by_spans};
use crate::named::named_cases;
use crate::pricing::{price_day_by_spans, Answer};
use crate::random::Random;
use crate::sheet::judge_sheet;

/// Puts one sheet behind the others. A sheet too long for four bytes of length
/// is left out; no sheet here is near that.
pub fn push_frame(stream: &mut Vec<u8>, sheet: &[u8]) {
    if let Ok(length) = u32::try_from(sheet.len()) {
        stream.extend(length.to_be_bytes());
        stream.extend(sheet);
    }
}

/// The sheets of a stream, or the byte at which it is cut short.
pub fn frames(stream: &[u8]) -> Result<Vec<&[u8]>, usize> {
    let mut sheets = Vec::new();
    let mut rest = stream;
    while !rest.is_empty() {
        let at = stream.len() - rest.len();
        let (head, behind) = rest.split_at_checked(4).ok_or(at)?;
        let length = head.iter().fold(0, |sum, byte| sum << 8 | usize::from(*byte));
        let (sheet, next) = behind.split_at_checked(length).ok_or(at)?;
        sheets.push(sheet);
        rest = next;
    }
    Ok(sheets)
}

/// So many cases: the named ones first, then random ones. Each random case
/// depends on the seed and its own place only.
pub fn cases(seed: u64, count: usize) -> Vec<Vec<u8>> {
    let named = named_cases().into_iter().map(|case| case.sheet);
    let random = (0..).map(|item| random_sheet(&mut Random::for_item(seed, item)));
    named.chain(random).take(count).collect()
}

/// So many pairs of a sheet and the same shifted.
pub fn shifted(seed: u64, count: usize) -> Vec<Pair> {
    pairs(seed, count, shifted_pair)
}

/// So many pairs of a sheet and the same with one spread turned round.
pub fn turned(seed: u64, count: usize) -> Vec<Pair> {
    pairs(seed, count, turned_pair)
}

fn pairs(seed: u64, count: usize, make: fn(&mut Random) -> Pair) -> Vec<Pair> {
    let items = 0..count as u64;
    items.map(|item| make(&mut Random::for_item(seed, item))).collect()
}

/// The stream of these cases.
pub fn stream_of_cases(sheets: &[Vec<u8>]) -> Vec<u8> {
    let mut stream = Vec::new();
    for sheet in sheets {
        push_frame(&mut stream, sheet);
    }
    stream
}

/// The stream of these pairs: each sheet, then the changed one.
pub fn stream_of_pairs(pairs: &[Pair]) -> Vec<u8> {
    let mut stream = Vec::new();
    for pair in pairs {
        push_frame(&mut stream, &pair.sheet);
        push_frame(&mut stream, &pair.changed);
    }
    stream
}

fn answers_with(sheets: &[&[u8]], list: fn(&[u8]) -> Vec<u8>) -> Vec<u8> {
    let mut text = Vec::new();
    for sheet in sheets {
        text.extend(list(sheet));
        text.push(b'\n');
    }
    text
}

/// Each sheet's closing list, an empty line behind each.
pub fn answer(sheets: &[&[u8]]) -> Vec<u8> {
    answers_with(sheets, closing_list)
}

/// The same, with the indicator summed by spans.
pub fn answer_by_spans(sheets: &[&[u8]]) -> Vec<u8> {
    answers_with(sheets, closing_list_by_spans)
}

/// `accepted METAL MARKS FIELDS` or `refused NUMBER BYTE`, without a line feed.
pub fn judge_line(sheet: &[u8]) -> String {
    match judge_sheet(sheet) {
        Ok(day) => format!("accepted {} {} {}", day.metal, day.marks, day.fields),
        Err((number, byte)) => format!("refused {number} {byte}"),
    }
}

/// One judge line for each sheet.
pub fn judge(sheets: &[&[u8]]) -> String {
    let lines = sheets.iter().map(|sheet| judge_line(sheet) + "\n");
    lines.collect()
}

/// How many sheets are refused with each number 1 to 12 and 18, in how many a
/// contract is refused with each number 13 to 15, and (place 0) how many are
/// accepted. 16 and 17 are no numbers of a sheet.
pub fn tally(sheets: &[&[u8]]) -> [usize; 19] {
    let mut counts = [0; 19];
    for sheet in sheets {
        match judge_sheet(sheet) {
            Err((number, _)) => counts[usize::from(number)] += 1,
            Ok(day) => {
                counts[0] += 1;
                let answers = price_day_by_spans(&day);
                for number in 13..=15 {
                    let has = |answer: &Answer| is_refused_with(answer, number);
                    counts[usize::from(number)] += usize::from(answers.iter().any(has));
                }
            }
        }
    }
    counts
}

fn is_refused_with(answer: &Answer, wanted: u8) -> bool {
    matches!(answer, Answer::Refused { number, .. } if *number == wanted)
}

/// The tally as text, one line for each number of a sheet.
pub fn tally_text(sheets: &[&[u8]]) -> String {
    let counts = tally(sheets);
    let mut text = format!("sheets {}\naccepted {}\n", sheets.len(), counts[0]);
    for number in (1..=15).chain([18]) {
        text.push_str(&format!("{number} {}\n", counts[number]));
    }
    text
}
