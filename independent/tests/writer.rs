//! Labels E of docs/CASES.md: the writer of one field.

use independent::draft::{close, end, header, long_header, quote, trade};
use independent::field::encode;
use independent::generator::values::any_field;
use independent::random::Random;
use independent::{read_field, write_field, Field};

/// Writes into a buffer of 40 bytes, all 0xEE, and hands back the buffer too.
fn write(field: Field, at: usize) -> (Result<usize, (u8, usize)>, Vec<u8>) {
    let mut buffer = vec![0xEE; 40];
    let result = write_field(&field, &mut buffer, at);
    (result, buffer)
}

fn assert_refused(field: Field, at: usize, number: u8) {
    let (result, buffer) = write(field, at);
    assert_eq!(result, Err((number, at)), "{field:?}");
    assert_eq!(buffer, vec![0xEE; 40], "{field:?}");
}

#[test]
fn a_field_is_written_and_nothing_else_is_changed() {
    let (result, buffer) = write(trade(258, 1, -2, 772), 5);
    assert_eq!(result, Ok(19));
    assert_eq!(buffer[..5], [0xEE; 5]);
    assert_eq!(buffer[5..19], [3, 0, 11, 0, 0, 1, 2, 1, 255, 255, 255, 254, 3, 4]);
    assert_eq!(buffer[19..], [0xEE; 21]);
}

#[test]
fn every_kind_of_field_reads_back() {
    let fields = [
        header(5, 0x07FF),
        long_header(5, 0x07FF, 0),
        long_header(1, 0, 2),
        close(0, 99_999_999),
        trade(86_399_999, 11, -9_999_999, 10_000),
        quote(1, 0, 3, 1, 2),
        quote(1, 7, 2, 0, -5),
        end(u32::MAX),
    ];
    for field in fields {
        let (result, buffer) = write(field, 3);
        let next = 3 + encode(&field).len();
        assert_eq!(result, Ok(next));
        assert_eq!(read_field(&buffer, 3), Ok((field, next)));
    }
}

#[test]
fn e1_the_order_of_the_writers_numbers() {
    for at in [0, 39, 40, 41, usize::MAX] {
        assert_refused(header(6, 0), at, 6);
        assert_refused(header(1, 0x0800), at, 6);
        assert_refused(long_header(1, 0, 3), at, 6);
        assert_refused(long_header(9, 0, 0), at, 6);
        assert_refused(close(12, 0), at, 7);
        assert_refused(trade(86_400_000, 12, 0, 0), at, 7);
        assert_refused(trade(86_400_000, 0, 0, 0), at, 8);
        assert_refused(trade(0, 0, 0, 0), at, 9);
        assert_refused(trade(0, 0, 1, 0), at, 10);
        assert_refused(quote(0, 0, 4, 100_000_000, 0), at, 11);
        assert_refused(quote(0, 0, 1, 0, 5), at, 11);
        assert_refused(quote(0, 0, 3, 100_000_000, 5), at, 9);
        assert_refused(quote(0, 0, 3, 6, 5), at, 11);
    }
}

#[test]
fn e2_places_and_room() {
    assert_eq!(write(end(1), 33).0, Ok(40));
    for at in [34, 39, 40, 41, usize::MAX - 6, usize::MAX] {
        assert_refused(end(1), at, 16);
    }
    let mut none: [u8; 0] = [];
    assert_eq!(write_field(&end(1), &mut none, 0), Err((16, 0)));
    assert_eq!(write_field(&header(0, 0), &mut none, 0), Err((6, 0)));
}

#[test]
fn e3_an_absent_side_that_is_not_zero_is_11() {
    assert_refused(quote(0, 1, 1, 5, 1), 0, 11);
    assert_refused(quote(0, 1, 2, 1, 5), 0, 11);
    assert_refused(quote(0, 1, 0, 0, -1), 0, 11);
}

#[test]
fn e4_the_place_is_not_bound_by_the_sheets_limit() {
    let mut buffer = vec![0; 1_048_590];
    assert_eq!(write_field(&end(3), &mut buffer, 1_048_580), Ok(1_048_587));
}

#[test]
fn e5_any_count_is_written() {
    assert_eq!(write(end(u32::MAX), 0).0, Ok(7));
    assert_eq!(write(end(0), 0).0, Ok(7));
}

#[test]
fn i7_a_long_header_has_seven_bytes() {
    let (result, buffer) = write(long_header(4, 0x0203, 1), 33);
    assert_eq!(result, Ok(40));
    assert_eq!(buffer[33..], [6, 0, 4, 4, 2, 3, 1]);
    assert_refused(long_header(4, 0x0203, 1), 34, 16);
    assert_eq!(write(header(4, 0x0203), 34).0, Ok(40));
}

/// What is written reads back; what is refused would be refused by the reader
/// with the same number, and changes no byte.
#[test]
fn random_fields_are_written_as_they_are_read() {
    let mut numbers = [0; 17];
    for item in 0..20_000 {
        let field = any_field(&mut Random::for_item(2, item));
        let (result, buffer) = write(field, 7);
        let read = read_field(&encode(&field), 0);
        match result {
            Ok(next) => assert_eq!(read_field(&buffer, 7), Ok((field, next))),
            Err((number, at)) => {
                assert_eq!((at, read), (7, Err((number, 0))));
                assert_eq!(buffer, vec![0xEE; 40]);
                numbers[usize::from(number)] += 1;
            }
        }
    }
    assert!(numbers[6..=11].iter().all(|count| *count > 100), "{numbers:?}");
}
