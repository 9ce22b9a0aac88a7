//! The two laws of docs/LAWS.md on random pairs, and the pairs themselves.

use independent::draft::{close, ended_sheet, header, long_header, quote, trade};
use independent::laws::{has_14, moved_alike, possible_steps, shift_sheet, turn_sheet, Pair};
use independent::pricing::price_day_by_spans;
use independent::stream::{shifted, turned};
use independent::tables::{barred_instruments, metal_row};
use independent::{judge_sheet, Answer, Day, Method};

fn day(sheet: &[u8]) -> Day {
    judge_sheet(sheet).expect("an accepted sheet")
}

fn answers(sheet: &[u8]) -> [Answer; 6] {
    price_day_by_spans(&day(sheet))
}

#[test]
fn r1_close_trade_and_present_sides_are_shifted() {
    let sheet = |up: i32| {
        ended_sheet(&[
            header(1, 3),
            close(0, 1_000 + up),
            close(1, 5),
            quote(1, 0, 0, 0, 0),
            quote(1, 0, 1, 900 + up, 0),
            quote(1, 0, 2, 0, 1_100 + up),
            quote(1, 2, 3, 7, 8),
            trade(2, 0, 801 + up, 9),
            trade(2, 3, 0, 1),
        ])
    };
    assert_eq!(shift_sheet(&sheet(0), 3), Some(sheet(300)));
    assert_eq!(shift_sheet(&sheet(0), -8), Some(sheet(-800)));
    assert_eq!(shift_sheet(&sheet(0), -9), None);
    assert_eq!(shift_sheet(&sheet(0), i64::MAX), None);
    assert_eq!(possible_steps(&sheet(0)), Some((-8, 999_988)));
    assert_eq!(shift_sheet(b"no sheet", 1), None);
}

#[test]
fn r3_a_spread_is_turned_with_its_mark_and_sides() {
    let plain = ended_sheet(&[
        header(1, 0x0401),
        close(1, 5),
        close(3, -7),
        quote(1, 3, 1, -9, 0),
        quote(1, 3, 2, 0, 4),
        quote(1, 3, 3, -2, 6),
        quote(1, 3, 0, 0, 0),
        trade(2, 3, 0, 1),
        trade(2, 3, 9_999_999, 1),
        trade(2, 1, 4, 1),
    ]);
    let turned = ended_sheet(&[
        header(1, 0x0405),
        close(1, 5),
        close(3, 7),
        quote(1, 3, 2, 0, 9),
        quote(1, 3, 1, -4, 0),
        quote(1, 3, 3, -6, 2),
        quote(1, 3, 0, 0, 0),
        trade(2, 3, 0, 1),
        trade(2, 3, -9_999_999, 1),
        trade(2, 1, 4, 1),
    ]);
    assert_eq!(turn_sheet(&plain, 3), Some(turned.clone()));
    assert_eq!(turn_sheet(&turned, 3), Some(plain.clone()));
    assert_eq!(turn_sheet(&plain, 0), None);
    assert_eq!(turn_sheet(&plain, 12), None);
}

/// A bid in each book of a Copper sheet, resting since noon: 3M 100 above its
/// close of 900,000, and the spreads 10 to 50 above theirs of 0.
fn resting_sheet() -> Vec<u8> {
    let mut fields = vec![header(4, 0), close(0, 900_000)];
    fields.extend([1, 3, 5, 7, 11].map(|spread| close(spread, 0)));
    fields.push(quote(43_200_000, 0, 1, 900_100, 0));
    let bids = [(1, 10), (3, 20), (5, 30), (7, 40), (11, 50)];
    fields.extend(bids.map(|(spread, bid)| quote(43_200_000, spread, 1, bid, 0)));
    ended_sheet(&fields)
}

#[test]
fn g1_resting_bids_obey_both_laws() {
    let sheet = resting_sheet();
    let moved = |cents: i64| {
        [900_100, 900_110, 900_130, 900_080, 900_170, 900_220].map(|price| Answer::Priced {
            method: Method::Twap,
            price: price + cents,
            lots: 0,
        })
    };
    assert_eq!(answers(&sheet), moved(0));
    for steps in [-17_000, -1, 1, 3, 1_900_000] {
        let shifted = shift_sheet(&sheet, steps).unwrap();
        assert_eq!(answers(&shifted), moved(50 * steps), "{steps}");
    }
    for spread in 1..=11 {
        let turned = turn_sheet(&sheet, spread).unwrap();
        assert_eq!(answers(&turned), moved(0), "{spread}");
    }
}

#[test]
fn r2_the_first_law_holds() {
    let mut compared = 0;
    let mut moved = 0;
    let mut named = [0; 4];
    for Pair { sheet, changed, by } in shifted(4, 3_000) {
        named[place_of_byte(&sheet)] += 1;
        let step = i64::from(metal_row(day(&sheet).metal).unwrap().step);
        assert_eq!(shift_sheet(&sheet, by), Some(changed.clone()));
        let (before, after) = (answers(&sheet), answers(&changed));
        if !has_14(&before) && !has_14(&after) {
            assert!(moved_alike(&before, &after, by * step), "{sheet:?} {by}");
            compared += 1;
            moved += usize::from(before != after);
        }
    }
    assert!(compared > 1_500 && moved > 1_200, "{compared} {moved}");
    assert!(named.iter().all(|count| *count > 200), "{named:?}");
}

/// 0 for a short header, 1 to 3 for the bytes 0 to 2.
fn place_of_byte(sheet: &[u8]) -> usize {
    day(sheet).third.map_or(0, |third| 1 + usize::from(third))
}

#[test]
fn r4_turning_a_barred_spread_changes_its_mark_alone() {
    for (third, spreads) in [(1, [1, 2, 6, 9]), (2, [4, 5, 6, 10])] {
        let sheet = |marks: u16| {
            ended_sheet(&[
                long_header(1, marks, third),
                close(0, 1_000),
                close(3, -7),
                quote(1, 3, 1, -9, 0),
                trade(2, 0, 801, 9),
                trade(2, 7, 4, 1),
            ])
        };
        for spread in spreads {
            let mark = 1 << (spread - 1);
            assert_eq!(turn_sheet(&sheet(0), spread), Some(sheet(mark)), "{spread}");
            assert_eq!(turn_sheet(&sheet(0x07FF), spread), Some(sheet(0x07FF & !mark)), "{spread}");
            assert_eq!(answers(&sheet(0)), answers(&sheet(mark)), "{spread}");
        }
    }
}

#[test]
fn r1_a_long_header_stays_as_it_is() {
    let sheet =
        |up: i32| ended_sheet(&[long_header(1, 3, 2), close(0, 1_000 + up), trade(2, 0, 801 + up, 9)]);
    assert_eq!(shift_sheet(&sheet(0), 3), Some(sheet(300)));
    assert_eq!(possible_steps(&sheet(0)), Some((-8, 999_989)));
}

#[test]
fn the_second_law_holds() {
    let mut changed_bytes = 0;
    let mut barred = 0;
    let mut named = [0; 4];
    for Pair { sheet, changed, by } in turned(4, 3_000) {
        named[place_of_byte(&sheet)] += 1;
        barred += usize::from(barred_instruments(day(&sheet).third).contains(&(by as u8)));
        assert_eq!(turn_sheet(&sheet, by as u8), Some(changed.clone()));
        assert_eq!(answers(&sheet), answers(&changed), "{sheet:?} {by}");
        let differing = sheet.iter().zip(&changed).filter(|(one, other)| one != other);
        changed_bytes += usize::from(differing.count() > 2);
    }
    assert!(changed_bytes > 2_000, "{changed_bytes}");
    assert!(barred > 100 && named.iter().all(|count| *count > 200), "{barred} {named:?}");
}
