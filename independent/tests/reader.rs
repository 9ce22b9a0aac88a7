//! Labels A of docs/CASES.md: the reader of one field and the walker.

use independent::draft::{close, end, header, long_header, quote, sheet_of, trade};
use independent::field::{encode, field_body, Header};
use independent::{judge_sheet, read_field, Field, Walker};

fn read(field: Field) -> Result<(Field, usize), (u8, usize)> {
    read_field(&encode(&field), 0)
}

#[test]
fn a1_no_tag_is_looked_at_before_the_head_is_there() {
    assert_eq!(read_field(&[9], 0), Err((2, 0)));
    assert_eq!(read_field(&[9, 0], 0), Err((2, 0)));
    assert_eq!(read_field(&[9, 0, 0], 0), Err((3, 0)));
    assert_eq!(read_field(&[0, 0, 0, 9, 0], 3), Err((2, 3)));
}

#[test]
fn a2_a_wrong_length_stands_before_a_cut_body() {
    assert_eq!(read_field(&[3, 0, 12], 0), Err((4, 0)));
    assert_eq!(read_field(&[3, 0, 11], 0), Err((2, 0)));
    assert_eq!(read_field(&[3, 255, 255], 0), Err((4, 0)));
    assert_eq!(read_field(&[3, 11, 0], 0), Err((4, 0)));
}

#[test]
fn a3_places_at_and_past_the_end() {
    let sheet = encode(&end(0));
    assert_eq!(read_field(&sheet, 7), Err((2, 7)));
    assert_eq!(read_field(&sheet, 8), Err((2, 8)));
    assert_eq!(read_field(&sheet, 5), Err((2, 5)));
    for at in [usize::MAX, usize::MAX - 1, usize::MAX - 2, usize::MAX / 2] {
        assert_eq!(read_field(&sheet, at), Err((2, at)));
        assert_eq!(read_field(&[], at), Err((2, at)));
    }
}

#[test]
fn a4_a_slice_longer_than_a_sheet_is_read() {
    let mut long = vec![0; 2_000_000];
    long.extend(encode(&close(3, -7)));
    assert_eq!(read_field(&long, 2_000_000), Ok((close(3, -7), 2_000_008)));
    assert_eq!(read_field(&long, 0), Err((3, 0)));
}

#[test]
fn a5_a_refused_field_hands_back_an_empty_part_and_the_place_asked_for() {
    let sheet = sheet_of(&[header(1, 0), trade(0, 12, 1, 1), end(2)]);
    assert_eq!(read_field(&sheet, 6), Err((7, 6)));
    assert_eq!(field_body(&sheet, 6), b"");
    assert_eq!(field_body(&sheet, 0), [1, 0, 0]);
    assert_eq!(field_body(&sheet, 20), [0, 0, 0, 2]);
    assert_eq!(field_body(&sheet, 27), b"");
    assert_eq!(field_body(&sheet, usize::MAX), b"");
}

#[test]
fn a7_any_end_count_is_read() {
    for count in [0, 1, 257, u32::MAX] {
        assert_eq!(read(end(count)), Ok((end(count), 7)));
    }
}

#[test]
fn a8_the_order_in_a_trade_goes_by_number() {
    assert_eq!(read(trade(86_400_000, 12, 0, 0)), Err((7, 0)));
    assert_eq!(read(trade(86_400_000, 0, 0, 0)), Err((8, 0)));
    assert_eq!(read(trade(86_399_999, 0, 0, 0)), Err((9, 0)));
    assert_eq!(read(trade(86_399_999, 0, 1, 0)), Err((10, 0)));
    assert_eq!(read(trade(86_399_999, 0, 1, 1)), Ok((trade(86_399_999, 0, 1, 1), 14)));
}

#[test]
fn a9_an_instrument_above_11_has_no_price_range() {
    assert_eq!(read(close(12, i32::MIN)), Err((7, 0)));
    assert_eq!(read(close(255, 1)), Err((7, 0)));
}

#[test]
fn a10_a11_the_order_in_a_quote() {
    assert_eq!(read(quote(0, 0, 4, 100_000_000, 0)), Err((11, 0)));
    assert_eq!(read(quote(0, 0, 7, 0, 0)), Err((11, 0)));
    assert_eq!(read(quote(0, 0, 1, 0, 5)), Err((11, 0)));
    assert_eq!(read(quote(0, 0, 2, 5, 0)), Err((11, 0)));
    assert_eq!(read(quote(0, 0, 3, 100_000_000, 5)), Err((9, 0)));
    assert_eq!(read(quote(0, 0, 3, 5, 0)), Err((9, 0)));
    assert_eq!(read(quote(0, 0, 3, 6, 5)), Err((11, 0)));
    assert_eq!(read(quote(0, 0, 3, 5, 5)), Ok((quote(0, 0, 3, 5, 5), 17)));
    assert_eq!(read(quote(86_400_000, 12, 4, 0, 0)), Err((7, 0)));
    assert_eq!(read(quote(86_400_000, 11, 4, 0, 0)), Err((8, 0)));
}

#[test]
fn b20_an_absent_side_is_never_out_of_range() {
    for field in [quote(0, 0, 0, 0, 0), quote(0, 0, 1, 7, 0), quote(0, 0, 2, 0, 7)] {
        assert_eq!(read(field), Ok((field, 17)));
    }
}

#[test]
fn headers_and_ranges_of_the_reader() {
    assert_eq!(read(header(0, 0)), Err((6, 0)));
    assert_eq!(read(header(6, 0)), Err((6, 0)));
    assert_eq!(read(header(5, 0x0800)), Err((6, 0)));
    assert_eq!(read(header(5, 0x07FF)), Ok((header(5, 0x07FF), 6)));
    assert_eq!(read(close(0, 99_999_999)), Ok((close(0, 99_999_999), 8)));
    assert_eq!(read(close(0, 100_000_000)), Err((9, 0)));
    assert_eq!(read(close(11, -9_999_999)), Ok((close(11, -9_999_999), 8)));
    assert_eq!(read(close(11, -10_000_000)), Err((9, 0)));
    assert_eq!(read(trade(0, 11, 0, 10_000)), Ok((trade(0, 11, 0, 10_000), 14)));
    assert_eq!(read(trade(0, 11, 0, 10_001)), Err((10, 0)));
}

/// The reader knows no order of fields and no falling times.
#[test]
fn the_reader_gives_no_5_and_no_12() {
    let sheet = sheet_of(&[end(9), trade(5, 1, 0, 1), trade(4, 1, 0, 1), header(1, 0)]);
    for at in [0, 7, 21, 35] {
        assert!(read_field(&sheet, at).is_ok());
    }
}

#[test]
fn a12_the_walker_stays_at_a_refusal_and_walks_on_behind_an_end() {
    let mut sheet = sheet_of(&[header(1, 0), end(1), close(3, 5)]);
    let mut walker = Walker::new(&sheet, 0);
    assert_eq!(walker.step(), Ok(header(1, 0)));
    assert_eq!(walker.step(), Ok(end(1)));
    assert_eq!(walker.step(), Ok(close(3, 5)));
    assert_eq!((walker.step(), walker.place()), (Err((2, 21)), 21));
    assert_eq!((walker.step(), walker.place()), (Err((2, 21)), 21));
    sheet[6] = 9;
    let mut walker = Walker::new(&sheet, 6);
    assert_eq!((walker.step(), walker.place()), (Err((3, 6)), 6));
    assert_eq!((walker.step(), walker.place()), (Err((3, 6)), 6));
}

#[test]
fn a13_tag_7_is_3() {
    for tag in [0, 7, 8, 255] {
        assert_eq!(read_field(&[tag, 0, 4, 1, 0, 0, 0], 0), Err((3, 0)));
    }
}

#[test]
fn i7_a_header_says_which_tag_it_has() {
    let values = |third: Option<u8>| Field::Header(Header { metal: 1, marks: 258, third });
    assert_eq!(encode(&values(None)), [1, 0, 3, 1, 1, 2]);
    assert_eq!(read_field(&[1, 0, 3, 1, 1, 2], 0), Ok((values(None), 6)));
    for third in 0..=2 {
        let bytes = [6, 0, 4, 1, 1, 2, third];
        assert_eq!(encode(&values(Some(third))), bytes);
        assert_eq!(read_field(&bytes, 0), Ok((values(Some(third)), 7)));
        assert_eq!(field_body(&bytes, 0), [1, 1, 2, third]);
    }
    assert_eq!(read_field(&[6, 0, 3, 1, 0, 0, 0], 0), Err((4, 0)));
    assert_eq!(read_field(&[1, 0, 4, 1, 0, 0, 0], 0), Err((4, 0)));
    assert_eq!(read_field(&[6, 0, 4, 1, 0, 0], 0), Err((2, 0)));
}

#[test]
fn i6_metal_marks_and_byte_of_a_long_header() {
    for third in 3..=255 {
        assert_eq!(read(long_header(1, 0, third)), Err((6, 0)));
    }
    assert_eq!(read(long_header(0, 0, 3)), Err((6, 0)));
    assert_eq!(read(long_header(6, 0, 0)), Err((6, 0)));
    assert_eq!(read(long_header(5, 0x0800, 2)), Err((6, 0)));
    assert_eq!(read(long_header(5, 0x07FF, 2)), Ok((long_header(5, 0x07FF, 2), 7)));
}

/// The reader and the walker look at one field: 18 is for the whole sheet.
#[test]
fn i4_the_reader_of_one_field_bars_nothing() {
    let fields = [long_header(1, 0, 1), close(6, 0), trade(0, 1, 0, 1), quote(0, 9, 0, 0, 0), end(4)];
    let sheet = sheet_of(&fields);
    let mut walker = Walker::new(&sheet, 0);
    for field in fields {
        assert_eq!(walker.step(), Ok(field));
    }
    assert_eq!(judge_sheet(&sheet), Err((18, 7)));
}
