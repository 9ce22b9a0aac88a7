//! Accepted sheets of an exact number of bytes.

use crate::draft::ended_sheet;
use crate::generator::scene::{any_third, Scene};
use crate::random::Random;
use crate::tables::allowed_instruments;

/// Bytes of a short and of a long header with an end field, and of the other
/// fields.
const SHORT_FRAME: usize = 6 + 7;
const LONG_FRAME: usize = 7 + 7;
const CLOSE: usize = 8;
const TRADE: usize = 14;
const QUOTE: usize = 17;

/// How many closes, trades and quotes fill so many bytes behind a header with
/// this byte, with the fewest closes from `closes` on and the fewest quotes; or
/// none.
fn filling(bytes: usize, third: Option<u8>, closes: usize) -> Option<(usize, usize, usize)> {
    let body = bytes.checked_sub(if third.is_some() { LONG_FRAME } else { SHORT_FRAME })?;
    let most = allowed_instruments(third).len();
    let closes = closes.min(most);
    for closes in (closes..=most).chain(0..closes) {
        for quotes in 0..TRADE {
            let rest = body.checked_sub(closes * CLOSE + quotes * QUOTE);
            if let Some(rest) = rest.filter(|rest| rest % TRADE == 0) {
                return Some((closes, rest / TRADE, quotes));
            }
        }
    }
    None
}

/// A random accepted sheet of so many bytes, or none where no fields fill them.
/// Above 1,048,576 bytes it is a sheet refused with 1 and nothing else wrong.
/// Its header is long as often as any, or where only that fills the bytes.
pub fn sized_sheet(random: &mut Random, bytes: usize) -> Option<Vec<u8>> {
    let thirds = [any_third(random), None, Some(0)];
    let closes = random.index(13);
    let filled = |third| Some((third, filling(bytes, third, closes)?));
    let (third, (closes, mut trades, mut quotes)) = thirds.into_iter().find_map(filled)?;
    let exchanged = random.index(trades / QUOTE + 1);
    trades -= exchanged * QUOTE;
    quotes += exchanged * TRADE;
    let mut scene = Scene::empty_with(random, third);
    scene.add_closes(closes);
    scene.add_kind(true, trades);
    scene.add_kind(false, quotes);
    Some(ended_sheet(&scene.fields()))
}
