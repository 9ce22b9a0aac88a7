//! Sheets moved to the other header: the named cases hold; made sheets go there and
//! back without a byte changed and price the same; every refusal comes up.

use independent::generator::sized::sized_sheet;
use independent::generator::{accepted_sheet, damaged_sheet, random_sheet};
use independent::list::unlimited_list;
use independent::named::moves::{named_moves, NamedMove};
use independent::named::{nickel_sheet, NICKEL_LIST};
use independent::random::Random;
use independent::tables::SHEET_LIMIT;
use independent::{closing_list, judge_by_01_alone, judge_sheet, price_day, Day};
use independent::{to_new_header, to_old_header, Refusal};
use std::collections::{BTreeSet, HashMap, HashSet};

type Move = fn(&[u8], usize) -> Result<Vec<u8>, Refusal>;

fn move_to(to_new: bool) -> Move {
    if to_new {
        to_new_header
    } else {
        to_old_header
    }
}

/// The moved bytes of an accepted sheet: another head, the third value 0 put behind
/// the marks or left out, and all else as it is.
fn moved_bytes(sheet: &[u8], to_new: bool) -> Vec<u8> {
    if to_new {
        [&[6, 0, 4], &sheet[3..6], &[0], &sheet[6..]].concat()
    } else {
        [&[1, 0, 3], &sheet[3..6], &sheet[7..]].concat()
    }
}

/// What a reader of the old header alone says of a sheet in both its forms.
fn read_by_01_alone(old: &[u8], new: &[u8]) {
    assert_eq!(judge_by_01_alone(old), Ok(()));
    assert_eq!(judge_by_01_alone(new), Err((3, 0)));
}

/// A sheet that can be moved: its bytes in just their room and in a byte less, the way
/// back likewise, a second move, the day, and the prices.
fn holds_there_and_back(sheet: &[u8], to_new: bool) {
    let (there, back) = (move_to(to_new), move_to(!to_new));
    let moved = moved_bytes(sheet, to_new);
    assert_eq!(there(sheet, moved.len()).as_ref(), Ok(&moved));
    assert_eq!(there(sheet, usize::MAX).as_ref(), Ok(&moved));
    for room in [0, moved.len() - 1] {
        assert_eq!(there(sheet, room), Err((16, 0)));
    }
    assert_eq!(back(&moved, sheet.len()).as_deref(), Ok(sheet));
    assert_eq!(back(&moved, sheet.len() - 1), Err((16, 0)));
    assert_eq!(there(&moved, usize::MAX), Err((19, 0)));
    let day = judge_sheet(sheet).unwrap();
    let third = to_new.then_some(0);
    assert_eq!(judge_sheet(&moved), Ok(Day { third, ..day }));
    assert_eq!(unlimited_list(&moved), unlimited_list(sheet));
    let (old, new) = if to_new { (sheet, &moved[..]) } else { (&moved[..], sheet) };
    read_by_01_alone(old, new);
}

/// What comes of a move: the moved sheet, the sheet's own refusal, 19 for one of its
/// causes (with the third value that names a contract), or 1 for the longer sheet.
#[derive(Clone, Copy, Debug, PartialEq, Eq, Hash)]
enum Outcome {
    Moved,
    Own(u8),
    AlreadyNew,
    AlreadyOld,
    Names(u8),
    Longer,
}

/// What has to come of a move, by the judgement of the sheet, and the refusal.
fn wanted(sheet: &[u8], to_new: bool) -> (Outcome, Option<Refusal>) {
    match judge_sheet(sheet).map(|day| day.third) {
        Err(refusal) => (Outcome::Own(refusal.0), Some(refusal)),
        Ok(Some(_)) if to_new => (Outcome::AlreadyNew, Some((19, 0))),
        Ok(None) if !to_new => (Outcome::AlreadyOld, Some((19, 0))),
        Ok(Some(third)) if third > 0 => (Outcome::Names(third), Some((19, 0))),
        Ok(None) if sheet.len() == SHEET_LIMIT => (Outcome::Longer, Some((1, 0))),
        Ok(_) => (Outcome::Moved, None),
    }
}

/// Holds a move of any sheet to what has to come of it. A refusal that is not for the
/// room comes whatever the room.
fn held(sheet: &[u8], to_new: bool) -> Outcome {
    let (outcome, refusal) = wanted(sheet, to_new);
    match refusal {
        None => holds_there_and_back(sheet, to_new),
        Some(refusal) => {
            for room in [0, sheet.len().saturating_sub(1), sheet.len(), sheet.len() + 1, usize::MAX] {
                assert_eq!(move_to(to_new)(sheet, room), Err(refusal), "{room}");
            }
        }
    }
    outcome
}

/// How often each outcome came, by where the sheets were moved to.
type Counts = HashMap<(bool, Outcome), usize>;

fn counted(sheets: impl Iterator<Item = Vec<u8>>) -> Counts {
    let mut counts = Counts::new();
    for sheet in sheets {
        for to_new in [true, false] {
            *counts.entry((to_new, held(&sheet, to_new))).or_default() += 1;
        }
    }
    counts
}

fn came(counts: &Counts, to_new: bool, outcome: Outcome, least: usize) {
    let count = counts.get(&(to_new, outcome)).copied().unwrap_or(0);
    assert!(count >= least, "{outcome:?} to_new {to_new}: {count} of {least}");
}

#[test]
fn every_named_move_gives_its_answer() {
    let mut wrong = Vec::new();
    for NamedMove { name, sheet, to_new, room, told } in named_moves() {
        let given = move_to(to_new)(&sheet, room);
        if given != told {
            let length = |answer: Result<Vec<u8>, Refusal>| answer.map(|bytes| bytes.len());
            wrong.push(format!("{name}: expected {:?}, given {:?}", length(told), length(given)));
        } else if given.is_ok() {
            holds_there_and_back(&sheet, to_new);
        }
    }
    assert!(wrong.is_empty(), "{}", wrong.join("\n"));
}

#[test]
fn names_are_told_apart() {
    let cases = named_moves();
    let names: HashSet<&String> = cases.iter().map(|case| &case.name).collect();
    assert_eq!(names.len(), cases.len());
}

#[test]
fn every_label_has_named_moves_both_ways() {
    let cases = named_moves();
    for row in 1..=5 {
        let label = format!("J{row} ");
        let ways: BTreeSet<bool> =
            cases.iter().filter(|case| case.name.starts_with(&label)).map(|case| case.to_new).collect();
        assert_eq!(ways.len(), if row == 2 { 1 } else { 2 }, "{label}");
    }
}

/// Both ways every number comes up, and the sheet's own behind both headers, so also
/// where the sheet is already in the wanted form; 18 behind the new one alone.
#[test]
fn every_number_has_named_moves() {
    let cases = named_moves();
    let tags = |to_new: bool, number: u8| -> BTreeSet<u8> {
        let refused = |case: &&NamedMove| matches!(case.told, Err((told, _)) if told == number);
        let refused = cases.iter().filter(|case| case.to_new == to_new).filter(refused);
        refused.filter_map(|case| case.sheet.first().copied()).filter(|tag| [1, 6].contains(tag)).collect()
    };
    for to_new in [true, false] {
        for number in 1..=12 {
            assert_eq!(tags(to_new, number), BTreeSet::from([1, 6]), "{number}");
        }
        assert_eq!(tags(to_new, 16), BTreeSet::from([if to_new { 1 } else { 6 }]));
        assert_eq!(tags(to_new, 18), BTreeSet::from([6]));
    }
    assert_eq!(tags(true, 19), BTreeSet::from([6]));
    assert_eq!(tags(false, 19), BTreeSet::from([1, 6]));
}

#[test]
fn the_nickel_sheet_goes_there_and_back() {
    let example = std::fs::read(concat!(env!("CARGO_MANIFEST_DIR"), "/../examples/nickel.sheet")).unwrap();
    assert_eq!(example, nickel_sheet());
    let moved = to_new_header(&example, 131).unwrap();
    assert_eq!(moved[..7], [6, 0, 4, 1, 0, 0, 0]);
    assert_eq!(closing_list(&moved), NICKEL_LIST.as_bytes());
    assert_eq!(to_old_header(&moved, 130), Ok(example));
}

/// Accepted sheets, a third of them with the new header.
#[test]
fn j3_accepted_sheets_go_there_and_back() {
    let counts = counted((0..4_000).map(|item| accepted_sheet(&mut Random::for_item(21, item))));
    came(&counts, true, Outcome::Moved, 2_500);
    came(&counts, true, Outcome::AlreadyNew, 1_200);
    came(&counts, false, Outcome::Moved, 350);
    came(&counts, false, Outcome::AlreadyOld, 2_500);
    came(&counts, false, Outcome::Names(1), 350);
    came(&counts, false, Outcome::Names(2), 350);
    assert_eq!(counts.len(), 6);
}

/// The same prices where the TWAP is summed over its milliseconds.
#[test]
fn j3_moved_sheets_price_the_same() {
    let mut moves = 0;
    for item in 0..60 {
        let sheet = accepted_sheet(&mut Random::for_item(22, item));
        let moved = [to_new_header(&sheet, SHEET_LIMIT), to_old_header(&sheet, SHEET_LIMIT)];
        for moved in moved.into_iter().flatten() {
            let prices = |sheet: &[u8]| price_day(&judge_sheet(sheet).unwrap());
            assert_eq!(prices(&moved), prices(&sheet));
            moves += 1;
        }
    }
    assert!(moves >= 40, "{moves}");
}

/// Damaged sheets, which are mostly refused: each number of a sheet many times behind
/// either header, so also where the sheet is already in the wanted form.
#[test]
fn j4_a_torn_sheet_has_its_own_refusal() {
    let damaged = || (0..8_000).map(|item| damaged_sheet(&mut Random::for_item(23, item)));
    let begins = |sheet: &Vec<u8>, tag: u8| sheet.first() == Some(&tag);
    let old = counted(damaged().filter(|sheet| begins(sheet, 1)));
    let new = counted(damaged().filter(|sheet| begins(sheet, 6)));
    for to_new in [true, false] {
        for number in 2..=12 {
            came(&old, to_new, Outcome::Own(number), 60);
            came(&new, to_new, Outcome::Own(number), 60);
        }
        came(&new, to_new, Outcome::Own(18), 60);
    }
    let none = counted(damaged().filter(|sheet| !begins(sheet, 1) && !begins(sheet, 6)));
    for number in 2..=5 {
        came(&none, true, Outcome::Own(number), 10);
    }
}

/// A torn sheet in its other form: the same number, at the same field.
#[test]
fn j4_the_other_header_moves_the_byte_of_a_refusal() {
    let mut torn = 0;
    for item in 0..4_000 {
        let sheet = damaged_sheet(&mut Random::for_item(24, item));
        let Err((number, byte)) = judge_sheet(&sheet) else { continue };
        let (to_new, length) = if sheet.first() == Some(&1) { (true, 6) } else { (false, 7) };
        if byte >= length && (to_new || sheet[6] == 0) {
            let other = moved_bytes(&sheet, to_new);
            let refusal = (number, if to_new { byte + 1 } else { byte - 1 });
            assert_eq!(move_to(to_new)(&other, 0), Err(refusal));
            assert_eq!(move_to(!to_new)(&other, 0), Err(refusal));
            torn += 1;
        }
    }
    assert!(torn >= 1_000, "{torn}");
}

/// Sheets at the limit and a byte on either side of it.
#[test]
fn j2_the_longest_sheets() {
    let sheets = |bytes: usize| (0..24).map(move |seed| sized_sheet(&mut Random::new(seed), bytes).unwrap());
    let below = counted(sheets(SHEET_LIMIT - 1));
    came(&below, true, Outcome::Moved, 5);
    came(&below, true, Outcome::AlreadyNew, 3);
    assert!(!below.contains_key(&(true, Outcome::Longer)));
    let at = counted(sheets(SHEET_LIMIT));
    came(&at, true, Outcome::Longer, 5);
    came(&at, true, Outcome::AlreadyNew, 3);
    came(&at, false, Outcome::AlreadyOld, 5);
    came(&at, false, Outcome::Moved, 1);
    assert!(!at.contains_key(&(true, Outcome::Moved)));
    let above = counted(sheets(SHEET_LIMIT + 1).take(4));
    assert_eq!(above, Counts::from([((true, Outcome::Own(1)), 4), ((false, Outcome::Own(1)), 4)]));
}

/// What the reader of the old header alone says of heads with tag 6, and of bytes
/// that it does not read.
#[test]
fn j6_tag_6_is_3_to_a_reader_of_the_old_header() {
    let behind_header = |bytes: &[u8]| [&[1, 0, 3, 4, 0, 0], bytes].concat();
    let right_end = [5, 0, 4, 0, 0, 0, 1];
    let first: [(&[u8], Refusal); 8] = [
        (&[], (2, 0)),
        (&[6], (2, 0)),
        (&[6, 0], (2, 0)),
        (&[6, 0, 4], (3, 0)),
        (&[6, 0, 5], (3, 0)),
        (&[6, 0, 4, 9, 255, 255, 255], (3, 0)),
        (&[7, 0, 4], (3, 0)),
        (&[0, 0, 3], (3, 0)),
    ];
    for (bytes, refusal) in first {
        assert_eq!(judge_by_01_alone(bytes), Err(refusal), "{bytes:?}");
    }
    let behind: [(&[u8], Refusal); 6] = [
        (&[], (2, 6)),
        (&[6, 0], (2, 6)),
        (&[6, 0, 4], (3, 6)),
        (&[6, 0, 3, 4, 0, 0], (3, 6)),
        (&[6, 0, 4, 4, 0, 0, 0], (3, 6)),
        (&[1, 0, 3, 4, 0, 0], (5, 6)),
    ];
    for (bytes, refusal) in behind {
        assert_eq!(judge_by_01_alone(&behind_header(bytes)), Err(refusal), "{bytes:?}");
    }
    assert_eq!(judge_by_01_alone(&behind_header(&right_end)), Ok(()));
    let trailing = [&right_end[..], &[6, 0, 4, 4, 0, 0, 0]].concat();
    assert_eq!(judge_by_01_alone(&behind_header(&trailing)), Err((5, 13)));
    assert_eq!(judge_by_01_alone(&vec![6; SHEET_LIMIT]), Err((3, 0)));
    assert_eq!(judge_by_01_alone(&vec![6; SHEET_LIMIT + 1]), Err((1, 0)));
}

/// Behind the old header that reader says what all others say, but for a head of tag
/// 6, which is a second header or a torn one: 3 at the same byte.
#[test]
fn j6_the_old_header_is_read_as_ever() {
    let (mut accepted, mut same, mut other) = (0, 0, 0);
    for item in 0..8_000 {
        let sheet = random_sheet(&mut Random::for_item(25, item));
        let alone = judge_by_01_alone(&sheet);
        if sheet.len() >= 3 && sheet[0] == 6 {
            assert_eq!(alone, Err((3, 0)));
            continue;
        }
        let judged = judge_sheet(&sheet).map(|_| ());
        if alone == judged {
            accepted += usize::from(judged.is_ok());
            same += usize::from(judged.is_err());
        } else {
            let (number, byte) = judged.expect_err("a refusal");
            assert!([2, 4, 5].contains(&number) && sheet[byte] == 6 && sheet.len() - byte >= 3);
            assert_eq!(alone, Err((3, byte)));
            other += 1;
        }
    }
    assert!(accepted >= 2_500 && same >= 1_500 && other >= 10, "{accepted} {same} {other}");
}
