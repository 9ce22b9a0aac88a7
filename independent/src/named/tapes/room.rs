//! Texts of the longest sheets and of longer ones, and the room of the buffer.
//! A header has 6 bytes, or 7 with a third value, a close 8, a trade 14, a quote
//! 17 and an end 7.

use super::super::with_byte;
use super::{case, NamedTape, COPPER, ROOM};
use crate::draft::{close, ended_sheet, header, quote, trade};
use crate::field::{Field, Refusal};
use crate::tables::SHEET_LIMIT;

/// Every line is judged before the room is asked for.
pub(super) fn cases() -> Vec<NamedTape> {
    let text = |last: &str| format!("{COPPER}PREV,3M,1.00\n{last}");
    let in_room = |name: &str, text: &str, room: usize, refusal: Refusal| {
        case(name, text.as_bytes(), room, Err(refusal))
    };
    vec![
        in_room("H2 the empty text and no room", "", 0, (5, 1)),
        in_room("H8 a METAL line and no room", COPPER, 0, (16, 0)),
        in_room("H8 a METAL line in 12 bytes", COPPER, 12, (16, 0)),
        case("H8 a METAL line in 13 bytes", COPPER.as_bytes(), 13, Ok(ended_sheet(&[header(4, 0)]))),
        in_room("H8 a malformed last line and no room", &text("x\n"), 0, (17, 3)),
        in_room("H8 a last line without its line feed and no room", &text("5"), 0, (17, 3)),
        in_room("H8 a second METAL line last and no room", &text(COPPER), 0, (5, 3)),
        in_room("H8 lots out of range last and no room", &text("5,M3-3M,TRADE,0.00,0\n"), 0, (10, 3)),
        in_room("H8 a malformed last line and room for those before", &text("x\n"), 14, (17, 3)),
        in_room("H8 good lines, room for all but the end", &text(""), 14, (16, 0)),
        in_room("H8 good lines, room for all but a byte", &text(""), 20, (16, 0)),
        in_room("H8 a malformed first line and no room", "x\n", 0, (17, 1)),
        case("H8 good lines in 21 bytes", text("").as_bytes(), 21, Ok(two_fields())),
        case("H8 good lines in more", text("").as_bytes(), ROOM, Ok(two_fields())),
    ]
}

fn two_fields() -> Vec<u8> {
    ended_sheet(&[header(4, 0), close(0, 100)])
}

/// A text and its sheet: Copper, closes of 0 from M3-3M on, trades of M2-M3 at
/// time 7, and quotes with neither side at time 8.
struct Long {
    text: String,
    sheet: Vec<u8>,
}

fn long(closes: usize, trades: usize, quotes: usize) -> Long {
    let names = ["M3-3M", "M2-3M", "M2-M3", "M2-M4", "M3-M4", "3M-M4"];
    let mut text = COPPER.to_string();
    let mut fields: Vec<Field> = vec![header(4, 0)];
    for (name, number) in names.into_iter().zip(1..).take(closes) {
        text.push_str(&format!("PREV,{name},0.00\n"));
        fields.push(close(number, 0));
    }
    text.push_str(&"7,M2-M3,TRADE,-1.00,5\n".repeat(trades));
    fields.extend(vec![trade(7, 3, -100, 5); trades]);
    text.push_str(&"8,M2-M3,QUOTE,-,-\n".repeat(quotes));
    fields.extend(vec![quote(8, 3, 0, 0, 0); quotes]);
    Long { text, sheet: ended_sheet(&fields) }
}

/// 13 and 2 x 8 and 74,895 x 14 and 17 bytes: 1,048,576.
fn at_the_limit() -> Long {
    long(2, 74_895, 1)
}

/// 13 and 6 x 8 and 74,894 x 14 bytes: 1,048,577, in 74,901 lines.
fn behind_the_limit() -> Long {
    long(6, 74_894, 0)
}

/// The same with a third value 0.
fn with_third(Long { text, sheet }: Long) -> Long {
    Long { text: text.replacen(COPPER, "METAL,Copper,0,0\n", 1), sheet: with_byte(&sheet, 0) }
}

/// 14 and 4 x 8 and 74,895 x 14 bytes: 1,048,576.
fn third_at_the_limit() -> Long {
    with_third(long(4, 74_895, 0))
}

pub(super) fn large_tapes() -> Vec<NamedTape> {
    let mut cases = limit_tapes();
    cases.extend(behind_the_limit_tapes());
    let Long { text, sheet } = third_at_the_limit();
    let longer = with_third(at_the_limit()).text;
    cases.push(case("H8 three values and the longest sheet", text.as_bytes(), 1_048_576, Ok(sheet)));
    cases.push(case(
        "H8 three values and a byte behind the limit",
        longer.as_bytes(),
        usize::MAX,
        Err((1, 0)),
    ));
    cases
}

fn limit_tapes() -> Vec<NamedTape> {
    let Long { text, sheet } = at_the_limit();
    let text = text.as_bytes();
    let shorter = long(0, 74_897, 0);
    vec![
        case("H8 74,897 trades", shorter.text.as_bytes(), SHEET_LIMIT, Ok(shorter.sheet)),
        case("H8 74,898 trades", long(0, 74_898, 0).text.as_bytes(), usize::MAX, Err((1, 0))),
        case("H8 a text of the longest sheet, a byte of room short", text, 1_048_575, Err((16, 0))),
        case("H8 a text of the longest sheet, no room", text, 0, Err((16, 0))),
        case("H8 a text of the longest sheet", text, 1_048_576, Ok(sheet)),
    ]
}

/// A bad line comes before 1 wherever it stands, and 1 before 16.
fn behind_the_limit_tapes() -> Vec<NamedTape> {
    let good = behind_the_limit().text;
    let with = |last: &str| format!("{good}{last}").into_bytes();
    let mut early = good.clone();
    early.replace_range(9..10, "x");
    vec![
        case("H8 a byte behind the limit", good.as_bytes(), usize::MAX, Err((1, 0))),
        case("H8 a byte behind the limit, room for the limit", good.as_bytes(), 1_048_576, Err((1, 0))),
        case("H8 a byte behind the limit and no room", good.as_bytes(), 0, Err((1, 0))),
        case("H8 behind the limit, then a malformed line", &with("x\n"), usize::MAX, Err((17, 74_902))),
        case("H8 behind the limit, then no line feed", &with("8,3M,QUOTE,-,-"), 0, Err((17, 74_902))),
        case("H8 behind the limit, then a METAL line", &with(COPPER), 0, Err((5, 74_902))),
        case("H8 behind the limit, then a falling time", &with("6,3M,QUOTE,-,-\n"), 0, Err((8, 74_902))),
        case("H8 behind the limit, then 3M at 0", &with("8,3M,TRADE,0.00,1\n"), 0, Err((9, 74_902))),
        case("H8 behind the limit, then no lots", &with("8,3M,TRADE,1.00,0\n"), 0, Err((10, 74_902))),
        case(
            "H8 behind the limit, then a crossed quote",
            &with("8,3M,QUOTE,2.00,1.00\n"),
            0,
            Err((11, 74_902)),
        ),
        case("H8 behind the limit, and a malformed first line", early.as_bytes(), 0, Err((17, 1))),
    ]
}

pub(super) fn large_untapes() -> Vec<NamedTape> {
    let Long { text, sheet } = at_the_limit();
    let needed = text.len();
    let longer = behind_the_limit().sheet;
    let third = third_at_the_limit();
    let third_longer = with_third(at_the_limit()).sheet;
    vec![
        case("H12 the longest sheet of a long header", &third.sheet, third.text.len(), Ok(third.text.into())),
        case("H12 a long header, a byte behind the limit", &third_longer, usize::MAX, Err((1, 0))),
        case("H12 the longest sheet in a byte less than its text", &sheet, needed - 1, Err((16, 0))),
        case("H12 the longest sheet in no room", &sheet, 0, Err((16, 0))),
        case("H12 the longest sheet", &sheet, needed, Ok(text.into_bytes())),
        case("H12 a sheet behind the limit", &longer, usize::MAX, Err((1, 0))),
        case("H12 a sheet behind the limit and no room", &longer, 0, Err((1, 0))),
        case("H12 1,048,577 bytes that are no sheet", &vec![0xFF; SHEET_LIMIT + 1], 0, Err((1, 0))),
    ]
}
