//! What must be printed of a text of sheets: one sheet to a line as hexadecimal
//! digits, judged, or priced where the line starts with `=`. A line that starts
//! with `#` is printed as it stands. Two sheets of zero bytes come last.

use crate::list::unlimited_list;
use crate::stream::judge_line;
use crate::tables::SHEET_LIMIT;

/// What is printed of a text, or the number of the first line (from 1 on) that
/// says no whole bytes.
pub fn sheet_cases(text: &str) -> Result<String, usize> {
    let mut printed = String::new();
    for (place, line) in text.lines().enumerate() {
        printed.push_str(&said_of_line(line).ok_or(place + 1)?);
    }
    printed.push_str(&sheets_of_zeros());
    Ok(printed)
}

fn said_of_line(line: &str) -> Option<String> {
    if line.starts_with('#') {
        return Some(format!("{line}\n"));
    }
    match line.strip_prefix('=') {
        Some(digits) => Some(answers(&bytes_of(digits)?)),
        None => Some(judge_line(&bytes_of(line)?) + "\n"),
    }
}

/// The list without the metal's name; a refused sheet's list has none.
fn answers(sheet: &[u8]) -> String {
    let list = String::from_utf8_lossy(&unlimited_list(sheet)).into_owned();
    match list.split_once('\n') {
        Some((_, contracts)) if !contracts.is_empty() => contracts.to_string(),
        _ => list,
    }
}

/// The bytes that a line says, two digits each; spaces mean nothing.
fn bytes_of(line: &str) -> Option<Vec<u8>> {
    let digits: Option<Vec<u8>> =
        line.chars().filter(|c| *c != ' ').map(|c| c.to_digit(16).map(|digit| digit as u8)).collect();
    let digits = digits.filter(|digits| digits.len() % 2 == 0)?;
    Some(digits.chunks(2).map(|pair| pair[0] << 4 | pair[1]).collect())
}

/// B17: as many zero bytes as a sheet may have, and one more.
fn sheets_of_zeros() -> String {
    let zeros = vec![0; SHEET_LIMIT + 1];
    let longest = judge_line(&zeros[..SHEET_LIMIT]);
    let longer = judge_line(&zeros);
    format!("# B17 as many zero bytes as a sheet may have, and one more\n{longest}\n{longer}\n")
}
