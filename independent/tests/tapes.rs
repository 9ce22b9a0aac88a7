//! The text tape: the named cases hold; texts and sheets go there and back
//! without a byte changed; every number comes up.

use independent::field::{Field, BID, OFFER};
use independent::generator::tapes::{sized_tape, tape, TapeKind, DAMAGES};
use independent::generator::{accepted_sheet, random_sheet};
use independent::named::tapes::{
    large_tapes, large_untapes, named_tapes, named_untapes, NamedTape, NICKEL_TAPE, THIRD_WEDNESDAY_TAPE,
};
use independent::named::{nickel_sheet, third_wednesday_sheet};
use independent::random::Random;
use independent::sheet::fields_of;
use independent::tables::SHEET_LIMIT;
use independent::{judge_sheet, sheet_to_tape, tape_to_sheet, Refusal, TAPE_LIMIT};
use std::collections::{BTreeSet, HashMap, HashSet};

type Turn = fn(&[u8], usize) -> Result<Vec<u8>, Refusal>;

/// Holds each case to its answer, and where that is no refusal to the way back.
fn hold(cases: Vec<NamedTape>, there: Turn, back: Turn) {
    let mut wrong = Vec::new();
    for NamedTape { name, input, room, expected } in cases {
        let given = there(&input, room);
        if given != expected {
            let refusal = |answer: &Result<Vec<u8>, Refusal>| answer.clone().map(|bytes| bytes.len());
            wrong.push(format!("{name}: expected {:?}, given {:?}", refusal(&expected), refusal(&given)));
        } else if let Ok(bytes) = given {
            assert_eq!(back(&bytes, input.len()), Ok(input), "{name}");
        }
    }
    assert!(wrong.is_empty(), "{}", wrong.join("\n"));
}

#[test]
fn every_named_text_gives_its_sheet() {
    hold(named_tapes(), tape_to_sheet, sheet_to_tape);
    hold(large_tapes(), tape_to_sheet, sheet_to_tape);
}

#[test]
fn every_named_sheet_gives_its_text() {
    hold(named_untapes(), sheet_to_tape, tape_to_sheet);
    hold(large_untapes(), sheet_to_tape, tape_to_sheet);
}

#[test]
fn names_are_told_apart() {
    for cases in [named_tapes(), named_untapes(), large_tapes(), large_untapes()] {
        let names: HashSet<&String> = cases.iter().map(|case| &case.name).collect();
        assert_eq!(names.len(), cases.len());
    }
}

#[test]
fn the_nickel_text_is_the_example_sheet() {
    let example = std::fs::read(concat!(env!("CARGO_MANIFEST_DIR"), "/../examples/nickel.sheet")).unwrap();
    assert_eq!(example, nickel_sheet());
    assert_eq!(tape_to_sheet(NICKEL_TAPE.as_bytes(), SHEET_LIMIT), Ok(example.clone()));
    assert_eq!(sheet_to_tape(&example, TAPE_LIMIT), Ok(NICKEL_TAPE.as_bytes().to_vec()));
    assert_eq!(NICKEL_TAPE.len(), 254);
}

#[test]
fn h11_the_day_on_which_3m_is_m3_is_the_example_text() {
    let example =
        std::fs::read(concat!(env!("CARGO_MANIFEST_DIR"), "/../examples/third_wednesday.tape")).unwrap();
    assert_eq!(example, THIRD_WEDNESDAY_TAPE.as_bytes());
    assert_eq!(tape_to_sheet(&example, SHEET_LIMIT), Ok(third_wednesday_sheet()));
    assert_eq!(sheet_to_tape(&third_wednesday_sheet(), TAPE_LIMIT), Ok(example));
}

#[test]
fn every_row_of_h_has_a_named_case() {
    let cases = [named_tapes(), named_untapes(), large_tapes(), large_untapes()].concat();
    for row in 1..=12 {
        let label = format!("H{row} ");
        assert!(cases.iter().any(|case| case.name.starts_with(&label)), "{label}");
    }
}

/// Every number of a text comes up in a named case, at several lines where it
/// can, and 6 at line 1 alone: behind that a METAL line is 5.
#[test]
fn every_number_has_named_cases() {
    let cases = named_tapes();
    let lines = |number: u8| -> BTreeSet<usize> {
        let refused = cases.iter().filter_map(|case| case.expected.clone().err());
        refused.filter(|refusal| refusal.0 == number).map(|refusal| refusal.1).collect()
    };
    assert_eq!(lines(6), BTreeSet::from([1]));
    assert_eq!(lines(16), BTreeSet::from([0]));
    for number in [5, 17] {
        assert_eq!(lines(number), BTreeSet::from([1, 2, 3]), "{number}");
    }
    assert_eq!(lines(8), BTreeSet::from([2, 3]));
    assert_eq!(lines(18), BTreeSet::from([2, 3]));
    for number in [9, 10, 11] {
        assert!(lines(number).contains(&2), "{number}");
    }
}

/// What is known of a text: the sheet it gives or the refusal.
fn judged(text: &[u8]) -> Result<Vec<u8>, Refusal> {
    tape_to_sheet(text, SHEET_LIMIT)
}

/// An accepted text: its sheet is accepted, and gives the same text in just
/// its room; the text has at most three bytes for one of the sheet.
fn holds_there_and_back(text: &[u8], sheet: &[u8]) {
    let shown = || String::from_utf8_lossy(text).into_owned();
    assert!(judge_sheet(sheet).is_ok(), "{}", shown());
    assert_eq!(sheet_to_tape(sheet, text.len()).as_deref(), Ok(text), "{}", shown());
    assert_eq!(sheet_to_tape(sheet, text.len() - 1), Err((16, 0)));
    assert_eq!(tape_to_sheet(text, sheet.len()).as_deref(), Ok(sheet));
    assert_eq!(tape_to_sheet(text, sheet.len() - 1), Err((16, 0)));
    assert!(text.len() <= 3 * sheet.len(), "{}", shown());
}

#[test]
fn canonical_texts_go_there_and_back() {
    for number in 0..5_000 {
        let text = tape(1, number, TapeKind::Canonical);
        let sheet = judged(&text).expect("an accepted text");
        holds_there_and_back(&text, &sheet);
    }
}

/// Damaged texts are refused at one of their lines, or go there and back like
/// any other. Each number comes up often and, but for 6, at many lines.
#[test]
fn damaged_texts_are_refused_or_go_there_and_back() {
    let mut places: HashMap<u8, Vec<usize>> = HashMap::new();
    for number in 0..6_000 {
        let text = tape(2, number, TapeKind::Damaged);
        let lines = text.split_inclusive(|byte| *byte == b'\n').count();
        match judged(&text) {
            Ok(sheet) => holds_there_and_back(&text, &sheet),
            Err((refusal, line)) => {
                assert!(line >= 1 && line <= lines.max(1));
                assert_eq!(tape_to_sheet(&text, 0), Err((refusal, line)));
                places.entry(refusal).or_default().push(line);
            }
        }
    }
    let refused: usize = places.values().map(Vec::len).sum();
    assert!((4_800..5_900).contains(&refused), "{refused}");
    assert_eq!(places.len(), 8, "{:?}", places.keys());
    assert!(places[&6].len() >= 60 && places[&6].iter().all(|line| *line == 1));
    for number in [5, 8, 9, 10, 11, 17, 18] {
        let lines: BTreeSet<usize> = places[&number].iter().copied().collect();
        assert!(places[&number].len() >= 60 && lines.len() >= 15, "{number} {lines:?}");
    }
}

/// Every kind of damage leads to a refusal, most of them nearly always.
#[test]
fn every_damage_is_seen() {
    for damage in &DAMAGES {
        let refused = (0..100).filter(|number| {
            let text = tape(3, *number, TapeKind::Canonical);
            let done = damage.done_to(&mut Random::for_item(4, *number), text);
            judged(&done).is_err()
        });
        let least = match damage.name {
            "another name"
            | "another third value"
            | "any digit"
            | "line missing"
            | "line twice"
            | "lines swapped"
            | "the other sign" => 3,
            _ => 30,
        };
        let count = refused.count();
        assert!(count >= least, "{}: {count}", damage.name);
    }
}

/// What a canonical text may hold comes up: every metal, every mark, every
/// instrument in closes, trades and quotes, every side, and the ends of ranges.
#[test]
fn canonical_texts_hold_everything() {
    let mut seen: HashMap<String, usize> = HashMap::new();
    for number in 0..3_000 {
        let sheet = judged(&tape(5, number, TapeKind::Canonical)).unwrap();
        for field in fields_of(&sheet).unwrap() {
            for what in told(&field) {
                *seen.entry(what).or_default() += 1;
            }
        }
    }
    let mut wanted: Vec<String> = (1..=5).map(|metal| format!("metal {metal}")).collect();
    wanted.extend([None, Some(0), Some(1), Some(2)].map(|third| format!("third {third:?}")));
    wanted.extend((0..11).map(|bit| format!("mark {bit}")));
    for kind in ["close", "trade", "quote"] {
        wanted.extend((0..12).map(|instrument| format!("{kind} of {instrument}")));
    }
    wanted.extend((0..4).map(|sides| format!("sides {sides}")));
    wanted.extend([0, 86_399_999].map(|time| format!("time {time}")));
    wanted.extend([1, 10_000].map(|lots| format!("lots {lots}")));
    wanted.extend([1, 99_999_999].map(|price| format!("outright {price}")));
    wanted.extend([-9_999_999, -50, -1, 0, 1, 50, 9_999_999].map(|price| format!("spread {price}")));
    for what in wanted {
        let count = seen.get(&what).copied().unwrap_or(0);
        assert!(count >= 50, "{what}: {count}");
    }
}

/// The values of a field that are looked for.
fn told(field: &Field) -> Vec<String> {
    let price = |instrument: u8, price: i32| match instrument {
        0 => format!("outright {price}"),
        _ => format!("spread {price}"),
    };
    match *field {
        Field::Header(header) => {
            let marks = (0..11).filter(|bit| header.marks >> bit & 1 == 1).map(|bit| format!("mark {bit}"));
            marks.chain([format!("metal {}", header.metal), format!("third {:?}", header.third)]).collect()
        }
        Field::PreviousClose(close) => {
            vec![format!("close of {}", close.instrument), price(close.instrument, close.price)]
        }
        Field::Trade(trade) => vec![
            format!("trade of {}", trade.instrument),
            format!("time {}", trade.time),
            format!("lots {}", trade.lots),
            price(trade.instrument, trade.price),
        ],
        Field::Quote(quote) => {
            let mut values = vec![format!("quote of {}", quote.instrument), format!("sides {}", quote.sides)];
            let sides = [(BID, quote.bid), (OFFER, quote.offer)];
            let present = sides.into_iter().filter(|(bit, _)| quote.sides & bit != 0);
            values.extend(present.map(|(_, side)| price(quote.instrument, side)));
            values
        }
        Field::End(_) => Vec::new(),
    }
}

#[test]
fn h7_accepted_sheets_go_there_and_back() {
    for item in 0..3_000 {
        let sheet = accepted_sheet(&mut Random::for_item(6, item));
        let text = sheet_to_tape(&sheet, TAPE_LIMIT).expect("an accepted sheet");
        holds_there_and_back(&text, &sheet);
    }
}

#[test]
fn h12_a_refused_sheet_has_its_own_refusal() {
    let mut numbers = BTreeSet::new();
    for item in 0..6_000 {
        let sheet = random_sheet(&mut Random::for_item(7, item));
        match judge_sheet(&sheet) {
            Ok(_) => {
                assert_eq!(sheet_to_tape(&sheet, 0), Err((16, 0)));
                let text = sheet_to_tape(&sheet, TAPE_LIMIT).unwrap();
                assert_eq!(tape_to_sheet(&text, SHEET_LIMIT), Ok(sheet));
            }
            Err(refusal) => {
                numbers.insert(refusal.0);
                assert_eq!(sheet_to_tape(&sheet, TAPE_LIMIT), Err(refusal));
                assert_eq!(sheet_to_tape(&sheet, 0), Err(refusal));
            }
        }
    }
    assert_eq!(numbers, (2..=12).chain([18]).collect());
}

/// A text cut anywhere is 17 at the line that is cut; between two lines it is
/// good.
#[test]
fn h1_every_cut_of_a_text_is_17_or_good() {
    for number in 0..60 {
        let text = tape(8, number, TapeKind::Canonical);
        for length in 0..text.len().min(2_000) {
            let lines = text[..length].iter().filter(|byte| **byte == b'\n').count();
            match judged(&text[..length]) {
                Ok(sheet) => holds_there_and_back(&text[..length], &sheet),
                Err(refusal) if length == 0 => assert_eq!(refusal, (5, 1)),
                Err(refusal) => assert_eq!(refusal, (17, lines + 1)),
            }
        }
    }
}

#[test]
fn a_text_depends_on_its_seed_number_and_kind_only() {
    let texts = |seed: u64| -> Vec<Vec<u8>> { (0..50).map(|n| tape(seed, n, TapeKind::Canonical)).collect() };
    assert_eq!(texts(1), texts(1));
    assert_ne!(texts(1), texts(2));
    assert_eq!(tape(1, 7, TapeKind::Damaged), tape(1, 7, TapeKind::Damaged));
}

#[test]
fn texts_are_mostly_short() {
    let lengths: Vec<usize> = (0..5_000).map(|number| tape(9, number, TapeKind::Canonical).len()).collect();
    assert!(lengths.iter().sum::<usize>() < 5_000 * 1_200);
    assert!(lengths.iter().any(|length| *length > 10_000));
    assert!(lengths.iter().any(|length| *length < 30));
}

#[test]
fn sized_texts_have_about_their_size() {
    for bytes in [1_000, 65_536, 1_000_000] {
        let text = sized_tape(3, bytes);
        assert!(text.len() <= bytes && text.len() + 50 > bytes, "{} for {bytes}", text.len());
        holds_there_and_back(&text, &judged(&text).unwrap());
    }
    let longest = sized_tape(3, TAPE_LIMIT);
    let sheet = judged(&longest).unwrap();
    assert!(sheet.len() > SHEET_LIMIT - 40 && longest.len() > 2_600_000, "{}", longest.len());
    holds_there_and_back(&longest, &sheet);
    assert!(judged(&sized_tape(3, 0)).is_ok());
}

#[test]
fn the_limit_is_three_times_the_sheets() {
    assert_eq!(TAPE_LIMIT, 3 * SHEET_LIMIT);
    let refused = tape_to_sheet(&vec![b'7'; TAPE_LIMIT + 1], SHEET_LIMIT);
    assert_eq!(refused, Err((17, 1)));
}
