//! What must be printed of single fields at places that no whole sheet asks
//! for: read, written, and walked over. The Nickel sheet is handed in.

use crate::draft::{end, header, long_header, quote, sheet_of, trade};
use crate::field::{field_body, read_field, write_field, Field, Refusal, Walker};

/// The text, each group of cases under a line with its label.
pub fn field_cases(nickel: &[u8]) -> String {
    let mut text = String::new();
    text.push_str(&reads());
    text.push_str(&far());
    text.push_str(&writes());
    text.push_str(&nickel_walks(nickel));
    text.push_str(&other_walks());
    text.push_str(&long_headers());
    text
}

/// A line with a label, then these lines.
fn under(label: &str, lines: &[String]) -> String {
    let mut text = format!("# {label}\n");
    for line in lines {
        text.push_str(line);
        text.push('\n');
    }
    text
}

/// `field` and the place behind it, or `refused`, number and place.
fn told(answer: Result<usize, Refusal>) -> String {
    match answer {
        Ok(next) => format!("field {next}"),
        Err((number, place)) => format!("refused {number} {place}"),
    }
}

/// The reader's answer, and the length of the body.
fn read(sheet: &[u8], at: usize) -> String {
    let answer = read_field(sheet, at).map(|(_, next)| next);
    format!("{} {}", told(answer), field_body(sheet, at).len())
}

/// The writer's answer in a buffer of eight sevens, and its bytes afterwards.
fn written(at: usize, field: &Field) -> String {
    let mut buffer = [7; 8];
    let answer = write_field(field, &mut buffer, at);
    let bytes: String = buffer.iter().map(|byte| format!(" {byte}")).collect();
    format!("{}:{bytes}", told(answer))
}

/// So many steps of a walker: its place, then what the reader says there.
fn walked(sheet: &[u8], from: usize, steps: usize) -> Vec<String> {
    let mut walker = Walker::new(sheet, from);
    let step = |_| {
        let place = walker.place();
        let answer = walker.step().map(|_| ());
        let shown = told(answer.map(|()| walker.place()));
        format!("{place}: {shown} {}", field_body(sheet, place).len())
    };
    (0..steps).map(step).collect()
}

/// A Nickel header, and one with metal 9.
fn good_header() -> Vec<u8> {
    sheet_of(&[header(1, 0)])
}

fn bad_header() -> Vec<u8> {
    sheet_of(&[header(9, 0)])
}

fn reads() -> String {
    let good = good_header();
    let past = [read(&good, 6), read(&good, 7), read(&good, usize::MAX)];
    let refused = [read(&good, 0), read(&bad_header(), 0)];
    let count = [read(&sheet_of(&[end(u32::MAX)]), 0)];
    [
        under("A3 at the sheet's length, behind it, and at the last place of all", &past),
        under("A5 a whole field that is refused has no body, and keeps its place", &refused),
        under("A7 an end's count is any number", &count),
    ]
    .concat()
}

/// A field behind the greatest length of a sheet.
fn far() -> String {
    let place = 1_048_577;
    let mut buffer = vec![0; place + 6];
    let answer = told(write_field(&header(5, 0), &mut buffer, place));
    under("A4, E4 a field from byte 1,048,577 on is written, and read", &[answer, read(&buffer, place)])
}

fn writes() -> String {
    let marked = header(1, 0x0203);
    let ends = [written(2, &marked), written(3, &marked)];
    let past = [written(8, &marked), written(9, &marked), written(usize::MAX, &marked)];
    let bad = [written(usize::MAX, &header(9, 0))];
    let absent = [written(0, &quote(0, 1, 1, 5, 6))];
    let count = [written(0, &end(u32::MAX))];
    [
        under("E2 a field that ends at the buffer's end fits, and one place on it does not", &ends),
        under("E2 at the buffer's length, behind it, and at the last place of all", &past),
        under("E1 a bad value where there is no room: its own number", &bad),
        under("E3 an absent side that is not zero is not made zero", &absent),
        under("E5 an end's count is any number", &count),
    ]
    .concat()
}

/// The Nickel sheet whole, cut in a body (100 bytes) and in a head (97), and
/// from places behind its start.
fn nickel_walks(nickel: &[u8]) -> String {
    let cut = |length: usize| nickel.get(..length).unwrap_or(nickel);
    let torn = [walked(cut(100), 78, 3), walked(cut(97), 95, 2)].concat();
    let kept = [walked(nickel, 109, 2), walked(nickel, 1, 2)].concat();
    [
        under("F-8 the eleven fields of the Nickel sheet, then its end", &walked(nickel, 0, 13)),
        under("A12 torn in a body and in a head: it stays, and sees the same again", &torn),
        under("F-8 from a place that a host kept; from a place inside a field", &kept),
    ]
    .concat()
}

fn other_walks() -> String {
    let end_first = sheet_of(&[end(0), header(1, 0)]);
    let past = [walked(&end_first, 14, 2), walked(&end_first, usize::MAX, 2)].concat();
    let no_tag = [7, 0, 3, 1, 0, 0];
    let refused = [walked(&bad_header(), 0, 2), walked(&no_tag, 0, 2)].concat();
    [
        under(
            "A12 it walks on behind an end field, and at the sheet's end it stays",
            &walked(&end_first, 0, 4),
        ),
        under("A12 past the end, and at the last place of all", &past),
        under("A12 a whole field that is refused, and a tag that is none", &refused),
    ]
    .concat()
}

/// The long header, which has its own tag and length; and a trade on an
/// instrument that it bars, which is read by itself.
fn long_headers() -> String {
    let [good, bad] = [1, 3].map(|third| long_header(1, 0, third));
    let marked = long_header(1, 0x0203, 2);
    let ends = [written(1, &marked), written(2, &marked)];
    let barred = sheet_of(&[good, trade(0, 1, 0, 1), end(2)]);
    [
        under("I7 a long header is read", &[read(&sheet_of(&[good]), 0)]),
        under("I6 a byte of 3 is refused, read and written", &[read(&sheet_of(&[bad]), 0), written(0, &bad)]),
        under("I7 a long header at the buffer's end, and one place on", &ends),
        under("I4 a trade on an instrument that its header bars is read by itself", &walked(&barred, 0, 4)),
    ]
    .concat()
}
