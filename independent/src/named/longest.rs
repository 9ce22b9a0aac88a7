//! The longest sheets: 1,048,576 bytes of trades of 10,000 lots at the ends of
//! the price range, with one contract's average on a half of its step and just
//! below it. Each has a header (6 bytes), 2 previous closes (8 each), 74,895
//! trades (14 each), a quote (17) and an end (7), or a long header (7), 4 closes,
//! 74,895 trades and an end. Every sum of lots times price is above 2^56, which is
//! 72,057,594,037,927,936.

use super::{case, copper, copper_until, lines, NamedCase, ANCHOR, COPPER, SPREAD};
use crate::draft::{close, ended_sheet, header, long_header, quote, trade};
use crate::field::Field;

pub(super) fn cases() -> Vec<NamedCase> {
    let mut cases = outright_in_copper();
    cases.extend(outright_in_nickel());
    cases.extend(m3());
    cases.extend(m4());
    cases.extend(m3_named());
    cases
}

const TRADES: usize = 74_895;
const LOTS: u16 = 10_000;

/// Two closes at 0, these trades, and an empty quote on M2-3M at this time.
fn sheet_of_trades(metal: u8, closed: [u8; 2], trades: &[Field], last: u32) -> Vec<u8> {
    let mut fields = vec![header(metal, 0)];
    fields.extend(closed.map(|spread| close(spread, 0)));
    fields.extend(trades);
    fields.push(quote(last, 2, 0, 0, 0));
    ended_sheet(&fields)
}

/// 74,894 trades of 3M at 99,999,999 and the last at this price.
fn trades_of_3m(anchor: u32, last: i32) -> Vec<Field> {
    let mut trades = vec![trade(anchor, 0, 99_999_999, LOTS); TRADES - 1];
    trades.push(trade(anchor + 299_999, 0, last, LOTS));
    trades
}

/// These trades, with M3-3M and M2-M3 closed at 0.
fn outright(metal: u8, anchor: u32, last: i32) -> Vec<u8> {
    sheet_of_trades(metal, [1, 3], &trades_of_3m(anchor, last), anchor + 299_999)
}

/// At 99,999,925 the average is on the half of 50: the last trade lacks
/// 74,895 times 74, which is 5,542,230. The sum is 748,950,000 lots times
/// 99,999,925, so 74,894,943,828,750,000; one cent less takes 10,000 from it.
fn outright_in_copper() -> Vec<NamedCase> {
    let list = |price: &str| {
        let rest = format!("TWAP {price} 0");
        copper_until(&[&format!("VWAP {price} 748950000"), &rest, &rest, "refused 13 0"])
    };
    let sheet = |last: i32| outright(COPPER, ANCHOR, last);
    vec![
        case("C14 the longest sheet, 3M on the half of 50", sheet(94_457_769), &list("99999950")),
        case("C14 the longest sheet, 3M just below it", sheet(94_457_768), &list("99999900")),
    ]
}

/// At 99,999,850 the average is on the half of 100: the last trade lacks
/// 74,895 times 149, which is 11,159,355. The sum is 74,894,887,657,500,000.
fn outright_in_nickel() -> Vec<NamedCase> {
    let list = |price: &str| {
        let first = format!("VWAP {price} 748950000");
        let rest = format!("TWAP {price} 0");
        let late = "refused 15 0";
        lines("Nickel", [&first, &rest, &rest, "refused 13 0", late, late])
    };
    let sheet = |last: i32| outright(1, 58_500_000, last);
    vec![
        case("C14 the longest sheet, 3M on the half of 100", sheet(88_840_644), &list("99999900")),
        case("C14 the longest sheet, 3M just below 100's half", sheet(88_840_643), &list("99999800")),
    ]
}

/// 37,447 trades of a spread at one price, 37,446 at another and one at a
/// third, then a trade of 3M at 99,999,950.
fn halves(closed: [u8; 2], spread: u8, prices: [i32; 3]) -> Vec<u8> {
    let [first, second, last] = prices;
    let mut trades = vec![trade(SPREAD, spread, first, LOTS); 37_447];
    trades.extend(vec![trade(SPREAD + 1, spread, second, LOTS); 37_446]);
    trades.push(trade(SPREAD + 299_999, spread, last, LOTS));
    trades.push(trade(ANCHOR, 0, 99_999_950, LOTS));
    sheet_of_trades(COPPER, closed, &trades, ANCHOR)
}

/// Half at 9,999,999 and half at -9,999,902 are 48.5 on the average, so M3 is
/// 99,999,998.5, and its sum 748,940,000 lots times that:
/// 74,893,998,876,590,000. M2-M3 and M3-M4 are closed at 0.
fn m3() -> Vec<NamedCase> {
    let list = |price: &str| {
        let rest = format!("TWAP {price} 0");
        let m3 = format!("VWAP {price} 748940000");
        copper_until(&["VWAP 99999950 10000", &m3, &rest, &rest, "refused 13 0"])
    };
    let sheet = |last: i32| halves([3, 5], 1, [9_999_999, -9_999_902, last]);
    vec![
        case("C14 the longest sheet, M3 on half a cent", sheet(-9_999_902), &list("99999999")),
        case("C14 the longest sheet, M3 just below it", sheet(-9_999_903), &list("99999998")),
    ]
}

/// The same for M4, which is 3M less 3M-M4. M3-3M and M2-M3 are closed at 0.
fn m4() -> Vec<NamedCase> {
    let list = |price: &str| {
        let leg = "TWAP 99999950 0";
        let m4 = format!("VWAP {price} 748940000");
        copper_until(&["VWAP 99999950 10000", leg, leg, &m4, "refused 13 0"])
    };
    let sheet = |last: i32| halves([1, 3], 6, [-9_999_999, 9_999_902, last]);
    vec![
        case("C13 the longest sheet, M4 on half a cent", sheet(9_999_902), &list("99999999")),
        case("C13 the longest sheet, M4 just below it", sheet(9_999_903), &list("99999998")),
    ]
}

/// 3M on the half of 50 as above, and M3 with it, all of its lots too; M2-M3,
/// M3-M4, M1-M2 and Cash-M1 are closed at 0.
fn m3_named() -> Vec<NamedCase> {
    let list = |price: &str| {
        let taken = format!("VWAP {price} 748950000");
        let rest = format!("TWAP {price} 0");
        copper([&taken, &taken, &rest, &rest, &rest, &rest])
    };
    let sheet = |last: i32| {
        let mut fields = vec![long_header(COPPER, 0, 1)];
        fields.extend([3, 5, 7, 11].map(|spread| close(spread, 0)));
        fields.extend(trades_of_3m(ANCHOR, last));
        ended_sheet(&fields)
    };
    vec![
        case("I9 the longest sheet, M3 on the half of 50 with 3M", sheet(94_457_769), &list("99999950")),
        case("I9 the longest sheet, M3 just below it with 3M", sheet(94_457_768), &list("99999900")),
    ]
}
