//! The safe functions: what each hands back for the edges' tables, for the Nickel sheet of docs/SHEET.md, and for no bytes at all.

mod common;

use bliskoru::{answers, judge, list, list_into, read_field, write_field};
use bliskoru::{sheet_to_tape, sheet_to_tape_into, tape_to_sheet, tape_to_sheet_into};
use bliskoru::{to_new_header, to_new_header_into, to_old_header, to_old_header_into};
use bliskoru::{Answer, Field, Method, Reason, Refusal, TapeRefusal, BID, CONTRACTS, LONGEST_TAPE, OFFER};
use common::{
    file, filled, long_nickel_of, longer, moves, nickel_of, nickel_tape_of, pair_of, rows, tape_rows, Row,
};
use std::error::Error;
use std::thread;

fn reason(number: u8) -> Reason {
    Reason::from_number(number).expect("a number of a refusal")
}

/// The field of a row of `fields`.
fn field_of(row: &Row) -> Field {
    let v = &row.numbers[2..];
    match row.numbers[1] {
        1 => Field::Header { metal: v[0] as u8, marks: v[1] as u16 },
        2 => Field::PreviousClose { instrument: v[0] as u8, cents: v[1] as i32 },
        3 => {
            Field::Trade { time: v[0] as u32, instrument: v[1] as u8, cents: v[2] as i32, lots: v[3] as u16 }
        }
        4 => Field::Quote {
            time: v[0] as u32,
            instrument: v[1] as u8,
            sides: v[2] as u8,
            bid: v[3] as i32,
            offer: v[4] as i32,
        },
        6 => Field::LongHeader { metal: v[0] as u8, marks: v[1] as u16, third: v[2] as u8 },
        _ => Field::End { count: v[0] as u32 },
    }
}

/// The answer of three numbers of a row of `answers`.
fn answer_of(row: &[i128]) -> Answer {
    let (cents, lots) = (row[1] as u32, row[2] as u64);
    match row[0] {
        1 => Answer::Priced { method: Method::Vwap, cents, lots },
        2 => Answer::Priced { method: Method::Twap, cents, lots },
        number => Answer::Refused { reason: reason(number as u8), lots },
    }
}

#[test]
fn fields_are_read_and_written() {
    for row in rows("fields", 110) {
        let (field, size) = (field_of(&row), row.bytes.len());
        let wanted = if row.number() == 0 { Ok(()) } else { Err(reason(row.number())) };
        assert_eq!(read_field(&row.bytes, 0), wanted.map(|()| (field, size)), "{}", row.text);
        let mut buffer = filled(size);
        assert_eq!(write_field(&mut buffer, 2, &field), wanted.map(|()| size + 2), "{}", row.text);
        let mut behind = filled(size);
        if wanted.is_ok() {
            behind[2..size + 2].copy_from_slice(&row.bytes);
        }
        assert!(buffer == behind, "{}", row.text);
        let full = if row.number() == 0 { Reason::DoesNotFit } else { reason(row.number()) };
        assert_eq!(write_field(&mut buffer[..size - 1], 0, &field), Err(full), "{}", row.text);
        assert_eq!(write_field(&mut [], usize::MAX, &field), Err(full), "{}", row.text);
    }
}

#[test]
fn what_is_no_field_is_refused() {
    for row in rows("heads", 50) {
        let wanted = Err(reason(row.number()));
        assert_eq!(read_field(&row.bytes, row.numbers[1] as usize), wanted, "{}", row.text);
    }
}

#[test]
fn refused_sheets_have_their_reason_and_byte() {
    for row in rows("sheets", 130) {
        let refusal = Refusal { reason: reason(row.number()), byte: row.numbers[1] as usize };
        assert_eq!(judge(&row.bytes), Err(refusal), "{}", row.text);
        assert_eq!(answers(&row.bytes), Err(refusal), "{}", row.text);
        assert_eq!(sheet_to_tape(&row.bytes), Err(refusal), "{}", row.text);
        assert_eq!(to_new_header(&row.bytes), Err(refusal), "{}", row.text);
        assert_eq!(to_old_header(&row.bytes), Err(refusal), "{}", row.text);
        assert_eq!(list(&row.bytes), format!("refused {} {}\n", row.number(), refusal.byte), "{}", row.text);
    }
}

#[test]
fn accepted_sheets_have_their_answers() {
    for row in rows("answers", 50) {
        let wanted = std::array::from_fn(|k| answer_of(&row.numbers[3 * k..]));
        assert_eq!(judge(&row.bytes), Ok(()), "{}", row.text);
        assert_eq!(answers(&row.bytes), Ok(wanted), "{}", row.text);
        let tape = sheet_to_tape(&row.bytes).expect("a text");
        assert_eq!(tape_to_sheet(&tape).as_ref(), Ok(&row.bytes), "{}", row.text);
    }
}

#[test]
fn tapes_have_their_sheets_or_their_reason_and_line() {
    for row in tape_rows() {
        let wanted = match row.number {
            0 => Ok(row.sheet.clone()),
            number => Err(TapeRefusal { reason: reason(number), line: row.line }),
        };
        assert_eq!(tape_to_sheet(&row.tape), wanted, "{}", row.text);
        if row.number == 0 {
            assert_eq!(sheet_to_tape(&row.sheet).as_ref(), Ok(&row.tape), "{}", row.text);
        }
    }
}

#[test]
fn a_tape_goes_into_lent_room_whole_or_not_at_all() {
    let (tape, sheet) = (b"METAL,Lead,1\n", [1, 0, 3, 5, 0, 1, 5, 0, 4, 0, 0, 0, 1]);
    let mut room = [7; 15];
    assert_eq!(tape_to_sheet_into(tape, &mut room), Ok(13));
    assert_eq!((&room[..13], &room[13..]), (&sheet[..], &[7, 7][..]));
    assert_eq!(sheet_to_tape_into(&sheet, &mut room), Ok(13));
    assert_eq!(&room, b"METAL,Lead,1\n\x07\x07");
    let mut room = [7; 12];
    let full = Reason::DoesNotFit;
    assert_eq!(tape_to_sheet_into(tape, &mut room), Err(TapeRefusal { reason: full, line: 0 }));
    assert_eq!(sheet_to_tape_into(&sheet, &mut room), Err(Refusal { reason: full, byte: 0 }));
    assert_eq!(room, [7; 12]);
}

#[test]
fn the_longest_tapes_have_room() {
    let (tape, sheet) = (nickel_tape_of(74_884, 11), nickel_of(74_884, 11));
    assert!(tape_to_sheet(&tape).as_ref() == Ok(&sheet) && sheet_to_tape(&sheet).as_ref() == Ok(&tape));
    let widest =
        format!("METAL,Aluminium,2047,2\n{}", "86399999,Cash-M1,TRADE,-99999.99,10000\n".repeat(74_897));
    let sheet = tape_to_sheet(widest.as_bytes()).expect("a sheet");
    assert_eq!(sheet.len(), 1_048_572);
    assert!(sheet_to_tape(&sheet).is_ok_and(|tape| tape == widest.as_bytes() && tape.len() < LONGEST_TAPE));
    let quotes = format!("METAL,Zinc,0\n{}", "0,3M,QUOTE,-,-\n".repeat(1_000));
    assert_eq!(tape_to_sheet(quotes.as_bytes()).map(|sheet| sheet.len()), Ok(17_013));
    let long = TapeRefusal { reason: Reason::SheetTooLong, line: 0 };
    assert_eq!(tape_to_sheet(&nickel_tape_of(74_895, 2)), Err(long));
}

/// In the row's room, and in room of their own, in which a move that is refused for room is not.
#[test]
fn moves_have_their_sheets_or_their_reason_and_byte() {
    for row in moves() {
        let moved = if row.to_new { to_new_header } else { to_old_header };
        let moved_into = if row.to_new { to_new_header_into } else { to_old_header_into };
        let wanted = row.told.map_err(|(number, byte)| Refusal { reason: reason(number), byte });
        let mut room = vec![7; row.room];
        let mut behind = room.clone();
        if let Ok(sheet) = &wanted {
            behind[..sheet.len()].copy_from_slice(sheet);
        }
        let length = wanted.as_ref().map(Vec::len).map_err(|no| *no);
        assert_eq!(moved_into(&row.sheet, &mut room), length, "{}", row.text);
        assert!(room == behind, "{}", row.text);
        match wanted {
            Err(no) if no.reason == Reason::DoesNotFit => assert!(moved(&row.sheet).is_ok(), "{}", row.text),
            wanted => assert_eq!(moved(&row.sheet), wanted, "{}", row.text),
        }
    }
}

#[test]
fn moved_sheets_have_the_same_answers() {
    let form = Refusal { reason: Reason::HeaderForm, byte: 0 };
    for row in rows("answers", 50) {
        let Some(pair) = pair_of(&row.bytes) else {
            assert_eq!(to_new_header(&row.bytes), Err(form), "{}", row.text);
            assert_eq!(to_old_header(&row.bytes), Err(form), "{}", row.text);
            continue;
        };
        assert_eq!(to_new_header(&pair.old).as_ref(), Ok(&pair.new), "{}", row.text);
        assert_eq!(to_old_header(&pair.new).as_ref(), Ok(&pair.old), "{}", row.text);
        assert_eq!(answers(&pair.new), answers(&pair.old), "{}", row.text);
    }
}

#[test]
fn the_longest_sheets_are_moved_in_room_of_their_own() {
    let (old, new) = (nickel_of(74_890, 6), long_nickel_of(0, 74_890, 6));
    assert!(to_new_header(&old).as_ref() == Ok(&new) && to_old_header(&new).as_ref() == Ok(&old));
    let long = Refusal { reason: Reason::SheetTooLong, byte: 0 };
    assert_eq!(to_new_header(&nickel_of(74_884, 11)), Err(long));
    assert_eq!(to_old_header(&long_nickel_of(0, 74_884, 11)), Err(long));
}

#[test]
fn too_long_is_a_reason_too() {
    let sheet = nickel_of(74_884, 11);
    assert_eq!(judge(&sheet), Ok(()));
    let refusal = Refusal { reason: Reason::SheetTooLong, byte: 0 };
    assert_eq!(judge(&longer(&sheet)), Err(refusal));
    assert_eq!(answers(&longer(&sheet)), Err(refusal));
    assert_eq!(list(&sheet), "too long\n");
}

#[test]
fn the_nickel_sheet_is_written_judged_priced_and_listed() -> Result<(), Box<dyn Error>> {
    let trade = |time, instrument, cents, lots| Field::Trade { time, instrument, cents, lots };
    let fields = [
        Field::Header { metal: 1, marks: 0 },
        Field::PreviousClose { instrument: 7, cents: -120 },
        Field::PreviousClose { instrument: 11, cents: -250 },
        trade(58_200_000, 1, -500, 4),
        trade(58_260_000, 1, -497, 2),
        trade(58_320_000, 3, -300, 5),
        trade(58_350_000, 5, -410, 5),
        Field::quote(58_380_000, 7, Some(-110), None),
        trade(58_500_000, 0, 1_800_040, 3),
        trade(58_560_000, 0, 1_800_100, 3),
        Field::End { count: 10 },
    ];
    let mut sheet = [0; 130];
    let mut at = 0;
    for field in &fields {
        let start = at;
        at = write_field(&mut sheet, at, field)?;
        assert_eq!(read_field(&sheet, start)?, (*field, at));
    }
    assert_eq!(at, 130);
    assert_eq!(sheet.to_vec(), file("examples/nickel.sheet"));
    judge(&sheet)?;
    assert_eq!(list(&sheet).as_bytes(), file("examples/nickel.list"));
    let lines =
        CONTRACTS.iter().zip(answers(&sheet)?).map(|(contract, answer)| format!("{contract} {answer}\n"));
    assert_eq!(format!("Nickel\n{}", lines.collect::<String>()), list(&sheet));
    Ok(())
}

#[test]
fn a_long_header_names_the_contract_that_is_3m_and_bars_instruments() -> Result<(), Box<dyn Error>> {
    let fields = [
        Field::LongHeader { metal: 1, marks: 0, third: 1 },
        Field::PreviousClose { instrument: 3, cents: 10 },
        Field::Trade { time: 58_500_000, instrument: 0, cents: 1_800_040, lots: 6 },
        Field::End { count: 3 },
    ];
    let mut sheet = [0; 36];
    let at = fields.iter().try_fold(0, |at, field| write_field(&mut sheet, at, field))?;
    assert_eq!((at, read_field(&sheet, 0)?), (36, (fields[0], 7)));
    let vwap = Answer::Priced { method: Method::Vwap, cents: 1_800_000, lots: 6 };
    let [three_months, m3, m2, ..] = answers(&sheet)?;
    assert_eq!((three_months, m3), (vwap, vwap));
    assert_eq!(m2, Answer::Priced { method: Method::Twap, cents: 1_800_010, lots: 0 });
    assert_eq!(sheet_to_tape(&sheet)?, b"METAL,Nickel,0,1\nPREV,M2-M3,0.10\n58500000,3M,TRADE,18000.40,6\n");
    write_field(&mut sheet, 7, &Field::PreviousClose { instrument: 2, cents: 10 })?;
    assert_eq!(judge(&sheet), Err(Refusal { reason: Reason::Barred, byte: 7 }));
    Ok(())
}

#[test]
fn no_bytes_at_all_are_lent_without_a_null_pointer() {
    let missing = Refusal { reason: Reason::BytesMissing, byte: 0 };
    assert_eq!(judge(&[]), Err(missing));
    assert_eq!(answers(&[]), Err(missing));
    assert_eq!(list(&[]), "refused 2 0\n");
    assert_eq!(list_into(&[], &mut []), None);
    assert_eq!(sheet_to_tape(&[]), Err(missing));
    assert_eq!(sheet_to_tape_into(&[], &mut []), Err(missing));
    assert_eq!(to_new_header(&[]), Err(missing));
    assert_eq!(to_new_header_into(&[], &mut []), Err(missing));
    assert_eq!(to_old_header(&[]), Err(missing));
    assert_eq!(to_old_header_into(&[], &mut []), Err(missing));
    let no_line = TapeRefusal { reason: Reason::OutOfPlace, line: 1 };
    assert_eq!(tape_to_sheet(&[]), Err(no_line));
    assert_eq!(tape_to_sheet_into(&[], &mut []), Err(no_line));
    assert_eq!(read_field(&[], 0), Err(Reason::BytesMissing));
    assert_eq!(write_field(&mut [], 0, &Field::End { count: 0 }), Err(Reason::DoesNotFit));
}

#[test]
fn a_list_goes_into_lent_room_whole_or_not_at_all() {
    let mut room = [7; 14];
    assert_eq!(list_into(&[], &mut room), Some(12));
    assert_eq!(&room, b"refused 2 0\n\x07\x07");
    let mut room = [7; 11];
    assert_eq!(list_into(&[], &mut room), None);
    assert_eq!(room, [7; 11]);
}

#[test]
fn threads_may_ask_at_once_of_one_sheet() {
    let (sheet, wanted) = (file("examples/nickel.sheet"), file("examples/nickel.list"));
    thread::scope(|scope| {
        for _ in 0..8 {
            scope.spawn(|| (0..10).for_each(|_| assert_eq!(list(&sheet).as_bytes(), wanted)));
        }
    });
}

#[test]
fn reasons_are_the_sheets_numbers_and_have_words() {
    for number in 1..=19 {
        assert_eq!(reason(number).number(), number);
        assert!(reason(number).to_string().ends_with(&format!(" ({number})")));
    }
    assert_eq!((Reason::from_number(0), Reason::from_number(20)), (None, None));
    let refusal = judge(&[9, 0, 0]).expect_err("no tag");
    assert_eq!(refusal.to_string(), "refused at byte 0: the tag is not 1 to 6 (3)");
    assert_eq!(refusal.source().map(ToString::to_string), Some(Reason::Tag.to_string()));
}

#[test]
fn refusals_of_tapes_have_words() {
    let refusal = tape_to_sheet(b"METAL,Copper,0\nEND,1\n").expect_err("an end has no line");
    let words = "refused at line 2: the line is malformed, or names what there is not (17)";
    assert_eq!(refusal.to_string(), words);
    assert_eq!(refusal.source().map(ToString::to_string), Some(Reason::Line.to_string()));
    let refusal = tape_to_sheet_into(b"METAL,Copper,0\n", &mut []).expect_err("no room");
    assert!(refusal.to_string().starts_with("refused: there is no room "));
}

#[test]
fn a_quote_has_the_sides_that_it_is_given() {
    let sides = |bid, offer| match Field::quote(1, 2, bid, offer) {
        Field::Quote { sides, bid, offer, .. } => (sides, bid, offer),
        _ => (255, 0, 0),
    };
    assert_eq!(sides(None, None), (0, 0, 0));
    assert_eq!(sides(Some(-3), None), (BID, -3, 0));
    assert_eq!(sides(None, Some(4)), (OFFER, 0, 4));
    assert_eq!(sides(Some(0), Some(0)), (BID | OFFER, 0, 0));
}
