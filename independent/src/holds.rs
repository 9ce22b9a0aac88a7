//! Do printed closing lists obey demand 3's two laws? Only the lists are read,
//! and how each pair was changed: no sheet is priced here.

use crate::list::contract_line;
use crate::pricing::{Answer, Method};
use crate::tables::{Metal, CONTRACTS, METALS};

/// What a closing list of an accepted sheet says.
#[derive(Debug, PartialEq)]
pub struct Printed {
    pub metal: &'static Metal,
    pub answers: [Answer; 6],
}

/// A law: what the lists of a sheet and of the changed one have to be to each
/// other, by the number of steps or the spread; else what is wrong.
pub type Law = fn(&Printed, &Printed, i64) -> Result<(), String>;

/// A line's answer; none where it is no line of this contract.
fn answer_in(contract: &str, line: &str) -> Option<Answer> {
    let words: Vec<&str> = line.split(' ').collect();
    let &[_, method, number, lots] = words.as_slice() else { return None };
    let lots = lots.parse().ok()?;
    let number: u32 = number.parse().ok()?;
    let answer = match method {
        "VWAP" => Answer::Priced { method: Method::Vwap, price: number.into(), lots },
        "TWAP" => Answer::Priced { method: Method::Twap, price: number.into(), lots },
        "refused" => Answer::Refused { number: number.try_into().ok()?, lots },
        _ => return None,
    };
    (contract_line(contract, &answer) == format!("{line}\n")).then_some(answer)
}

/// The list in these lines; none where they are no list of an accepted sheet.
pub fn printed(lines: &[&str]) -> Option<Printed> {
    let (name, lines) = lines.split_first()?;
    let metal = METALS.iter().find(|metal| metal.name == *name)?;
    let named = CONTRACTS.iter().zip(lines);
    let answers = named.filter_map(|(contract, line)| answer_in(contract.name, line));
    let answers: Vec<Answer> = answers.collect();
    let whole = lines.len() == CONTRACTS.len();
    Some(Printed { metal, answers: answers.try_into().ok().filter(|_| whole)? })
}

/// Each list of the answers to a stream, an empty line behind each.
fn lists(answers: &str) -> Result<Vec<Printed>, String> {
    let Some(answers) = answers.strip_suffix("\n\n") else {
        return Err("the last list is cut short".to_string());
    };
    let lists = answers.split("\n\n").enumerate().map(|(place, text)| {
        let lines: Vec<&str> = text.split('\n').collect();
        printed(&lines).ok_or_else(|| format!("list {place} is none of an accepted sheet"))
    });
    lists.collect()
}

fn is_14(answer: &Answer) -> bool {
    matches!(answer, Answer::Refused { number: 14, .. })
}

/// The first law: up to the first 14 of either list a priced contract has
/// moved by so many steps, with the same method and lots, and a refused one is
/// the same.
pub fn shift_holds(before: &Printed, after: &Printed, steps: i64) -> Result<(), String> {
    if before.metal.name != after.metal.name {
        return Err("another metal".to_string());
    }
    let cents = steps * i64::from(before.metal.step);
    let both = before.answers.iter().zip(&after.answers);
    let both = both.take_while(|(one, other)| !is_14(one) && !is_14(other));
    for (contract, (one, other)) in CONTRACTS.iter().zip(both) {
        let expected = match *one {
            Answer::Priced { method, price, lots } => Answer::Priced { method, price: price + cents, lots },
            refused => refused,
        };
        if expected != *other {
            return Err(format!("{} is not moved by {cents} cents", contract.name));
        }
    }
    Ok(())
}

/// The second law: both lists are the same.
pub fn turn_holds(before: &Printed, after: &Printed, spread: i64) -> Result<(), String> {
    let told = || format!("spread {spread} turned round gives another list");
    (before == after).then_some(()).ok_or_else(told)
}

/// What the lists of these pairs hold, one line, or the first fault.
pub fn all_hold(law: Law, numbers: &[i64], answers: &str) -> Result<String, String> {
    let lists = lists(answers)?;
    if lists.len() != 2 * numbers.len() {
        return Err(format!("{} lists for {} pairs", lists.len(), numbers.len()));
    }
    for (place, (pair, number)) in lists.chunks_exact(2).zip(numbers).enumerate() {
        if let [before, after] = pair {
            law(before, after, *number).map_err(|fault| format!("pair {place}: {fault}"))?;
        }
    }
    Ok(held_text(&lists))
}

/// How many pairs there are and in how many the two lists differ; how many
/// lists each metal has, and how many contracts are priced by each method or
/// refused with each number.
fn held_text(lists: &[Printed]) -> String {
    let differ = lists.chunks_exact(2).filter(|pair| pair[0] != pair[1]).count();
    let mut text = format!("{} pairs hold, {differ} with different lists:", lists.len() / 2);
    for metal in &METALS {
        let of_metal = lists.iter().filter(|list| list.metal.name == metal.name);
        text.push_str(&format!(" {} {}", metal.name, of_metal.count()));
    }
    for kind in ["VWAP", "TWAP", "13", "14", "15"] {
        let answers = lists.iter().flat_map(|list| &list.answers);
        text.push_str(&format!(" {kind} {}", answers.filter(|answer| kind_of(answer) == kind).count()));
    }
    text + "\n"
}

fn kind_of(answer: &Answer) -> String {
    match answer {
        Answer::Priced { method, .. } => method.name().to_string(),
        Answer::Refused { number, .. } => number.to_string(),
    }
}
