//! Torn sheets: whatever header they have and wherever they are to be moved, they
//! are refused with their own number at their own byte.

use super::{behind, case, wanted, NamedMove, NICKEL_NEW, ROOM};
use crate::draft::{close, end, header, long_header, quote, sheet_of, trade};
use crate::named::nickel_sheet;

pub(super) fn cases() -> Vec<NamedMove> {
    let mut cases = no_header();
    cases.extend(torn_headers());
    cases.extend(behind_every_header());
    cases.extend(barred());
    cases.extend(cut_nickel_sheets());
    cases
}

/// A sheet refused with this number at this byte, wherever it is moved and whether
/// or not there is room.
fn own(name: &str, sheet: &[u8], number: u8, byte: usize) -> Vec<NamedMove> {
    let told = |to_new: bool, room: usize| {
        let name = format!("J4 {name} {}, room {room}", wanted(to_new));
        case(&name, sheet, to_new, room, Err((number, byte)))
    };
    vec![told(true, ROOM), told(false, ROOM), told(true, 0), told(false, 0)]
}

/// Bytes in which no header is met.
fn no_header() -> Vec<NamedMove> {
    let rows: [(&str, &[u8], u8); 8] = [
        ("the empty sheet", &[], 2),
        ("one byte, tag 6", &[6], 2),
        ("two bytes, tag 1", &[1, 0], 2),
        ("one byte, no tag", &[9], 2),
        ("tag 0", &[0, 0, 3, 4, 0, 0, 5, 0, 4, 0, 0, 0, 1], 3),
        ("tag 7", &[7, 0, 4, 4, 0, 0, 0, 5, 0, 4, 0, 0, 0, 1], 3),
        ("an end alone", &[5, 0, 4, 0, 0, 0, 0], 5),
        ("a text", b"METAL,Copper,0\n", 3),
    ];
    let mut cases: Vec<NamedMove> =
        rows.into_iter().flat_map(|(name, bytes, number)| own(name, bytes, number, 0)).collect();
    let first = sheet_of(&[trade(0, 3, 0, 1), header(4, 0), end(2)]);
    cases.extend(own("a trade before the header", &first, 5, 0));
    cases
}

/// Headers of either form that are refused themselves, each with an end behind it
/// where it is whole.
fn torn_headers() -> Vec<NamedMove> {
    let rows: [(&str, &[u8], u8); 6] = [
        ("the old header cut", &[1, 0, 3, 4, 0], 2),
        ("the new header cut", &[6, 0, 4, 4, 0, 0], 2),
        ("the head of the new header alone", &[6, 0, 4], 2),
        ("tag 1 as long as tag 6", &[1, 0, 4, 4, 0, 0, 0, 5, 0, 4, 0, 0, 0, 1], 4),
        ("tag 6 as long as tag 1", &[6, 0, 3, 4, 0, 0, 5, 0, 4, 0, 0, 0, 1], 4),
        ("tag 6, length 5", &[6, 0, 5, 4, 0, 0, 0, 0, 5, 0, 4, 0, 0, 0, 1], 4),
    ];
    let mut cases: Vec<NamedMove> =
        rows.into_iter().flat_map(|(name, bytes, number)| own(name, bytes, number, 0)).collect();
    let wrong = [
        ("the old header of metal 0", header(0, 0)),
        ("the old header of metal 6", header(6, 0)),
        ("the old header with mark bit 11", header(4, 0x0800)),
        ("the new header of metal 6", long_header(6, 0, 0)),
        ("the new header with mark bit 15", long_header(4, 0x8000, 0)),
        ("the new header of byte 3", long_header(4, 0, 3)),
        ("the new header of byte 255", long_header(4, 0, 255)),
    ];
    cases.extend(wrong.into_iter().flat_map(|(name, header)| own(name, &behind(header, &[]), 6, 0)));
    cases
}

/// What stands behind a header: bytes, the number that they earn, and how many bytes
/// behind the header. No third value bars instruments 0, 3, 7, 8 and 11.
fn torn() -> Vec<(&'static str, Vec<u8>, u8, usize)> {
    let sold = trade(5, 3, -1, 1);
    vec![
        ("no end", vec![], 2, 0),
        ("an end without its last byte", vec![5, 0, 4, 0, 0, 0], 2, 0),
        ("two bytes of an end", vec![5, 0], 2, 0),
        ("a cut trade", sheet_of(&[sold])[..10].to_vec(), 2, 0),
        ("no end behind a trade", sheet_of(&[sold]), 2, 14),
        ("tag 0", vec![0, 0, 0], 3, 0),
        ("tag 7", vec![7, 0, 4, 0, 0, 0, 1], 3, 0),
        ("tag 255 behind a trade", [sheet_of(&[sold]), vec![255; 3]].concat(), 3, 14),
        ("an end of length 3", vec![5, 0, 3, 0, 0, 1], 4, 0),
        ("a trade of length 14", vec![3, 0, 14, 0, 0, 0, 0, 3, 0, 0, 0, 0, 0, 1], 4, 0),
        ("the old header", sheet_of(&[header(4, 0), end(2)]), 5, 0),
        ("the new header", sheet_of(&[long_header(4, 0, 0), end(2)]), 5, 0),
        ("a close behind a trade", sheet_of(&[sold, close(7, 0), end(3)]), 5, 14),
        ("a close twice", sheet_of(&[close(7, 0), close(7, 0), end(3)]), 5, 8),
        ("a byte behind the end", [sheet_of(&[end(1)]), vec![0]].concat(), 5, 7),
        ("a second sheet", sheet_of(&[end(1), header(4, 0), end(1)]), 5, 7),
        ("instrument 12", sheet_of(&[close(12, 0), end(2)]), 7, 0),
        ("a time above the last", sheet_of(&[trade(86_400_000, 3, 0, 1), end(2)]), 8, 0),
        ("a falling time", sheet_of(&[sold, trade(4, 3, 0, 1), end(3)]), 8, 14),
        ("3M at 0", sheet_of(&[close(0, 0), end(2)]), 9, 0),
        ("a spread below its least", sheet_of(&[trade(5, 8, -10_000_000, 1), end(2)]), 9, 0),
        ("no lots", sheet_of(&[trade(5, 11, 0, 0), end(2)]), 10, 0),
        ("an offer that is absent and not zero", sheet_of(&[quote(5, 3, 1, 0, 1), end(2)]), 11, 0),
        ("a bid above its offer", sheet_of(&[sold, quote(5, 3, 3, 1, 0), end(3)]), 11, 14),
        ("count 0", sheet_of(&[end(0)]), 12, 0),
        ("count 2", sheet_of(&[end(2)]), 12, 0),
        ("a count that leaves out the header", sheet_of(&[sold, end(1)]), 12, 14),
        ("a wrong count and a byte behind it", [sheet_of(&[end(7)]), vec![0]].concat(), 12, 0),
    ]
}

/// Each of these behind the old header, and behind the new one with every byte.
fn behind_every_header() -> Vec<NamedMove> {
    let headers: [(&str, &[u8]); 4] = [
        ("the old header", &[1, 0, 3, 4, 0, 0]),
        ("byte 0", &[6, 0, 4, 4, 0, 0, 0]),
        ("byte 1", &[6, 0, 4, 4, 0, 0, 1]),
        ("byte 2", &[6, 0, 4, 4, 0, 0, 2]),
    ];
    let mut cases = Vec::new();
    for (what, bytes, number, at) in torn() {
        for (opened, header) in headers {
            let sheet = [header, &bytes].concat();
            cases.extend(own(&format!("{what} behind {opened}"), &sheet, number, header.len() + at));
        }
    }
    cases
}

/// 18 comes with the third values 1 and 2, which are in the wanted form or name a
/// contract: it is told before 19.
fn barred() -> Vec<NamedMove> {
    let mut cases = Vec::new();
    for (third, spreads) in [(1, [1, 2, 6, 9]), (2, [4, 5, 6, 10])] {
        for spread in spreads {
            let kinds = [
                ("close", close(spread, 0)),
                ("trade", trade(5, spread, 0, 1)),
                ("quote", quote(5, spread, 0, 0, 0)),
            ];
            for (kind, field) in kinds {
                let sheet = behind(long_header(4, 0, third), &[field]);
                cases.extend(own(&format!("byte {third}: a {kind} of spread {spread}"), &sheet, 18, 7));
            }
        }
        let late = behind(long_header(4, 0, third), &[close(3, 0), trade(5, 0, 1, 1), trade(5, 6, 0, 1)]);
        cases.extend(own(&format!("byte {third}: a trade of spread 6 at the end"), &late, 18, 29));
    }
    cases
}

/// The bytes at which the Nickel sheet's eleven fields start.
const NICKEL_STARTS: [usize; 11] = [0, 6, 14, 22, 36, 50, 64, 78, 95, 109, 123];

/// The Nickel sheet cut at the start of each field, and a byte behind it, in both
/// forms: 2 there. Behind the new header each start is a byte later.
fn cut_nickel_sheets() -> Vec<NamedMove> {
    let mut cases = Vec::new();
    for start in NICKEL_STARTS.into_iter().skip(1) {
        for length in [start, start + 1] {
            let old = &nickel_sheet()[..length];
            let new = &NICKEL_NEW[..length + 1];
            cases.extend(own(&format!("the Nickel sheet cut to {length} bytes"), old, 2, start));
            cases.extend(own(
                &format!("the Nickel sheet of byte 0 cut to {} bytes", length + 1),
                new,
                2,
                start + 1,
            ));
        }
    }
    cases
}
