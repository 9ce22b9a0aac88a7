//! The laws on printed lists: kept by right answers, and not by wrong ones.

use independent::holds::{all_hold, shift_holds, turn_holds};
use independent::laws::Pair;
use independent::stream::{answer_by_spans, shifted, turned};

const BEFORE: &str = "\
Nickel
3M VWAP 1800100 6
M3 VWAP 1799601 6
M2 TWAP 1799301 4
M4 refused 13 2
M1 refused 15 0
Cash refused 15 0

";

/// The list above for the sheet lifted by two steps of 100 cents.
const AFTER: &str = "\
Nickel
3M VWAP 1800300 6
M3 VWAP 1799801 6
M2 TWAP 1799501 4
M4 refused 13 2
M1 refused 15 0
Cash refused 15 0

";

/// M3 is 14 and the rest is not reached; so nothing is said of M3 and behind.
const SUNK: &str = "\
Nickel
3M VWAP 1800300 6
M3 refused 14 6
M2 refused 15 0
M4 refused 15 0
M1 refused 15 0
Cash refused 15 0

";

fn shift(before: &str, after: &str) -> Result<String, String> {
    all_hold(shift_holds, &[2], &format!("{before}{after}"))
}

fn turn(before: &str, after: &str) -> Result<String, String> {
    all_hold(turn_holds, &[5], &format!("{before}{after}"))
}

/// Lists with one fault each.
fn faulty(list: &str) -> Vec<String> {
    let faults = [
        ("1799801", "1799802"),
        ("1799601", "1799600"),
        ("TWAP", "VWAP"),
        ("VWAP", "TWAP"),
        (" 4\nM4", " 3\nM4"),
        ("13 2", "13 1"),
        ("13 2", "15 0"),
        ("M1 refused 15 0", "M1 VWAP 1799301 5"),
        ("Nickel", "Lead"),
    ];
    let made = faults.iter().map(|(old, new)| list.replacen(old, new, 1));
    made.filter(|made| made != list).collect()
}

#[test]
fn right_answers_obey() {
    assert!(shift(BEFORE, AFTER).is_ok());
    assert!(turn(BEFORE, BEFORE).is_ok());
    assert!(shift(BEFORE, SUNK).is_ok() && shift(SUNK, &AFTER.replace("800300", "800500")).is_ok());
}

#[test]
fn a_changed_answer_does_not() {
    assert!(faulty(AFTER).len() >= 8 && faulty(BEFORE).len() >= 8);
    for fault in faulty(AFTER) {
        assert!(shift(BEFORE, &fault).is_err(), "{fault}");
    }
    for fault in faulty(BEFORE) {
        assert!(shift(&fault, AFTER).is_err(), "{fault}");
        assert!(turn(BEFORE, &fault).is_err() && turn(&fault, BEFORE).is_err(), "{fault}");
    }
}

#[test]
fn prices_that_did_not_move_disobey() {
    assert!(shift(BEFORE, BEFORE).is_err() && turn(BEFORE, AFTER).is_err());
    assert!(shift(BEFORE, &SUNK.replace("1800300", "1800301")).is_err());
}

#[test]
fn what_is_no_list_disobeys() {
    let short = AFTER.replace("Cash refused 15 0\n", "");
    let spaced = AFTER.replace("M4 refused", "M4  refused");
    let swapped = AFTER.replace("M1 refused", "M9 refused");
    let signed = AFTER.replace("1799801", "+1799801");
    let long = AFTER.replace("\n\n", "\nCash refused 15 0\n\n");
    for bad in ["refused 2 0\n\n", "too long\n\n", "\n", "", &short, &spaced, &swapped, &signed, &long] {
        assert!(shift(BEFORE, bad).is_err(), "{bad}");
        assert!(turn(bad, bad).is_err(), "{bad}");
    }
    assert!(shift(BEFORE, &format!("{AFTER}{AFTER}")).is_err());
    assert!(shift(BEFORE, AFTER.strip_suffix('\n').unwrap()).is_err());
}

fn answers(pairs: &[Pair]) -> (Vec<i64>, String) {
    let sheets: Vec<&[u8]> = pairs.iter().flat_map(|pair| [&pair.sheet[..], &pair.changed]).collect();
    let text = String::from_utf8(answer_by_spans(&sheets)).unwrap();
    (pairs.iter().map(|pair| pair.by).collect(), text)
}

#[test]
fn this_programs_own_answers_obey() {
    let (steps, text) = answers(&shifted(1, 1_000));
    let held = all_hold(shift_holds, &steps, &text).unwrap();
    assert!(held.starts_with("1000 pairs hold, ") && !held.contains(" 0"), "{held}");
    let (spreads, text) = answers(&turned(1, 1_000));
    let held = all_hold(turn_holds, &spreads, &text).unwrap();
    assert!(
        held.starts_with("1000 pairs hold, 0 with different lists:") && held.matches(" 0").count() == 1,
        "{held}"
    );
}
