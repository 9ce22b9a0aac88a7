//! Every named case gives its hand-written list; each label in a name has its
//! row in docs/CASES.md.

use independent::list::{closing_list_by_spans, unlimited_list};
use independent::named::{large_cases, named_cases, NamedCase};
use independent::sheet::Record;
use independent::stream::judge_line;
use independent::{closing_list, judge_sheet};
use std::collections::HashSet;

fn text(bytes: Vec<u8>) -> String {
    String::from_utf8(bytes).unwrap()
}

#[test]
fn every_named_case_gives_its_list() {
    let mut wrong = Vec::new();
    for NamedCase { name, sheet, list } in named_cases() {
        let given = text(closing_list(&sheet));
        if given != list {
            wrong.push(format!("{name}\nexpected\n{list}given\n{given}"));
        }
        assert_eq!(text(closing_list_by_spans(&sheet)), given, "{name}");
    }
    assert!(wrong.is_empty(), "{}", wrong.join("\n"));
}

#[test]
fn names_are_told_apart() {
    let names: Vec<String> = named_cases().into_iter().map(|case| case.name).collect();
    let distinct: HashSet<&String> = names.iter().collect();
    assert_eq!(distinct.len(), names.len());
}

#[test]
fn every_row_of_b_c_g_i_and_k_seen_from_outside_has_a_named_case() {
    let cases = named_cases();
    let large = large_cases();
    let named = |id: &str| {
        let begins = |case: &NamedCase| case.name.starts_with(&format!("{id} "));
        cases.iter().any(begins) || large.iter().any(begins)
    };
    for row in 1..=20 {
        assert!(named(&format!("B{row}")), "B{row}");
    }
    for row in 1..=18 {
        assert!(named(&format!("C{row}")), "C{row}");
    }
    for row in 1..=2 {
        assert!(named(&format!("G{row}")), "G{row}");
    }
    for row in [1, 2, 3, 4, 5, 6, 8, 9, 10] {
        assert!(named(&format!("I{row}")), "I{row}");
    }
    for row in 1..=12 {
        assert!(named(&format!("K{row}")), "K{row}");
    }
}

#[test]
fn b17_b18_d1_large_sheets() {
    let cases = large_cases();
    let lengths: Vec<usize> = cases.iter().map(|case| case.sheet.len()).collect();
    assert_eq!(lengths[..4], [65_537, 1_048_576, 1_048_577, 1_048_577]);
    assert_eq!(lengths[4..14], [1_048_576; 10]);
    assert_eq!(lengths[14..], [1_048_577]);
    for NamedCase { name, sheet, list } in cases {
        assert_eq!(text(unlimited_list(&sheet)), list, "{name}");
        assert_eq!(text(closing_list(&sheet)), "too long\n", "{name}");
    }
}

#[test]
fn b17_the_judge_of_large_sheets() {
    let lines: Vec<String> = large_cases().iter().map(|case| judge_line(&case.sheet)).collect();
    assert_eq!(lines[..4], ["accepted 4 0 4684", "accepted 4 0 74900", "refused 1 0", "refused 1 0"]);
    for line in &lines[4..12] {
        assert!(["accepted 4 0 74900", "accepted 1 0 74900"].contains(&line.as_str()), "{line}");
    }
    assert_eq!(lines[12..], ["accepted 4 0 74901", "accepted 4 0 74901", "refused 1 0"]);
}

/// The sums that the longest sheets' comments state: each on a half of its
/// contract's step, or one cent of one trade below it.
#[test]
fn the_longest_sheets_have_the_sums_that_they_name() {
    let halves: [(u128, u128, u128); 3] = [
        (74_894_943_828_750_000, 748_950_000, 50),
        (74_894_887_657_500_000, 748_950_000, 100),
        (74_893_998_876_590_000, 748_940_000, 1),
    ];
    let mut wanted = Vec::new();
    for (sum, lots, step) in halves {
        assert!(sum > 1 << 56);
        assert_eq!(2 * sum % (lots * step), 0);
        assert_eq!(2 * sum / (lots * step) % 2, 1);
        wanted.extend([sum, sum - 10_000]);
    }
    wanted.extend([74_893_998_876_590_000, 74_893_998_876_580_000]);
    wanted.extend([74_894_943_828_750_000, 74_894_943_828_740_000]);
    let found: Vec<u128> = large_cases()[4..14].iter().map(|case| greatest_sum(&case.sheet)).collect();
    assert_eq!(found, wanted);
}

/// The greater of the sums of lots times price over 3M's trades, and over the
/// trades of M3-3M and 3M-M4 on a leg at 99,999,950.
fn greatest_sum(sheet: &[u8]) -> u128 {
    let mut sums = [0i128; 2];
    for record in judge_sheet(sheet).unwrap().records {
        if let Record::Trade(trade) = record {
            let (place, price) = match trade.instrument {
                0 => (0, trade.price),
                1 => (1, 99_999_950 + trade.price),
                _ => (1, 99_999_950 - trade.price),
            };
            sums[place] += i128::from(trade.lots) * i128::from(price);
        }
    }
    sums.into_iter().max().unwrap().try_into().unwrap()
}

#[test]
fn d1_the_longest_sheet_of_the_program_is_judged() {
    let longest = named_cases().into_iter().last().unwrap();
    assert_eq!(longest.sheet.len(), 65_536);
    assert!(judge_sheet(&longest.sheet).is_ok());
    let zeros = vec![0; 65_536];
    assert_eq!(closing_list(&zeros), b"refused 3 0\n");
    let more = vec![0; 65_537];
    assert_eq!(closing_list(&more), b"too long\n");
}

/// D5: seven lines or one, each with a line feed behind it.
#[test]
fn d5_seven_lines_or_one() {
    for case in named_cases() {
        let list = text(closing_list(&case.sheet));
        let accepted = judge_sheet(&case.sheet).is_ok();
        let listed = case.sheet.len() <= 65_536;
        assert!(list.ends_with('\n'));
        assert_eq!(list.lines().count(), if accepted && listed { 7 } else { 1 });
        assert_eq!(list.starts_with("refused "), !accepted);
    }
}
