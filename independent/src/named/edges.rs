//! The windows' edges for every metal, the steps, and the ends of the range of
//! closes.

use super::{case, copper, copper_until, flat, flat_of, lines, Metal, NamedCase};
use super::{ANCHOR, COPPER, METALS, SPREAD};
use crate::draft::{close, ended_sheet, header, trade};
use crate::field::Field;

pub(super) fn cases() -> Vec<NamedCase> {
    let mut cases = windows();
    cases.extend(nickel_spread_edges());
    cases.extend(steps());
    cases.extend(outright_ends());
    cases.extend(spread_ends());
    cases.extend(near_one_cent());
    cases.extend(closes_of_zero());
    cases.extend(ends_of_m4());
    cases
}

/// Trades just outside and just inside both windows: 3M is 5 lots at 900,000
/// and 5 at 900,100, so 900,050 (Nickel's half goes up to 900,100); M3 is that
/// and 5 lots at 10, 5 at 20, so 15 above.
fn windows() -> Vec<NamedCase> {
    let made = |(metal, name, spread, anchor, outright): Metal| {
        let records = [
            trade(spread - 1, 1, 1_000, 9),
            trade(spread, 1, 10, 5),
            trade(spread + 299_999, 1, 20, 5),
            trade(anchor - 1, 0, 1_000_000, 9),
            trade(spread + 300_000, 1, 5_000, 9),
            trade(anchor, 0, 900_000, 5),
            trade(anchor + 299_999, 0, 900_100, 5),
            trade(anchor + 300_000, 0, 1_000_000, 9),
        ];
        let first = format!("VWAP {outright} 10");
        let second = format!("VWAP {} 10", outright + 15);
        let rest = format!("TWAP {} 0", outright + 15);
        let list = lines(name, [&first, &second, &rest, &rest, &rest, &rest]);
        let title = format!("the edges of {name}'s windows");
        case(&title, flat_of(metal, 0, &records), &list)
    };
    METALS.into_iter().map(made).collect()
}

/// P11 and P12: a Nickel spread trade at the last millisecond and behind it.
fn nickel_spread_edges() -> Vec<NamedCase> {
    let at = |time: u32| flat_of(1, 0, &[trade(time, 1, 10, 5)]);
    let with = |m3: &str, rest: &str| lines("Nickel", ["TWAP 900000 0", m3, rest, rest, rest, rest]);
    let counts = with("VWAP 900010 5", "TWAP 900010 0");
    let is_out = with("TWAP 900000 0", "TWAP 900000 0");
    let before = with("TWAP 900010 0", "TWAP 900010 0");
    vec![
        case("P11 a Nickel spread trade at 58,499,999", at(58_499_999), &counts),
        case("P12 a Nickel spread trade at 58,500,000", at(58_500_000), &is_out),
        case("a Nickel spread trade at 58,200,000", at(58_200_000), &counts),
        case("C10 a Nickel spread trade at 58,199,999", at(58_199_999), &before),
    ]
}

/// A sheet with one 3M trade of 5 lots at the anchor start and nothing else.
fn one_outright(metal: u8, time: u32, price: i32) -> Vec<u8> {
    ended_sheet(&[header(metal, 0), trade(time, 0, price, 5)])
}

/// A list whose 3M is this and whose M3 has no reference.
fn only_3m(metal: &str, outright: &str) -> String {
    let late = "refused 15 0";
    lines(metal, [outright, "refused 13 0", late, late, late, late])
}

fn steps() -> Vec<NamedCase> {
    let nickel = |price: i32| one_outright(1, 58_500_000, price);
    let copper = |price: i32| one_outright(COPPER, ANCHOR, price);
    let in_nickel = |price: &str| only_3m("Nickel", &format!("VWAP {price} 5"));
    let in_copper = |price: &str| only_3m("Copper", &format!("VWAP {price} 5"));
    vec![
        case("P6 920,125 at step 50", copper(920_125), &in_copper("920150")),
        case("P7 920,124 at step 50", copper(920_124), &in_copper("920100")),
        case("P8 1,800,049 at step 100", nickel(1_800_049), &in_nickel("1800000")),
        case("1,800,050 at step 100", nickel(1_800_050), &in_nickel("1800100")),
        case("920,174 at step 50", copper(920_174), &in_copper("920150")),
        case("920,150 at step 50", copper(920_150), &in_copper("920150")),
    ]
}

/// C16: 3M at the ends of the range.
fn outright_ends() -> Vec<NamedCase> {
    let nickel = |price: i32| one_outright(1, 58_500_000, price);
    let copper = |price: i32| one_outright(COPPER, ANCHOR, price);
    let refused = copper_until(&["refused 14 5"]);
    let in_copper = |price: &str| only_3m("Copper", &format!("VWAP {price} 5"));
    let in_nickel = |price: &str| only_3m("Nickel", &format!("VWAP {price} 5"));
    let late = "refused 15 0";
    let nickel_refused = lines("Nickel", ["refused 14 5", late, late, late, late, late]);
    let closed = ended_sheet(&[header(COPPER, 0), close(0, 1)]);
    vec![
        case("C16 Copper 3M at 1 cent", copper(1), &refused),
        case("C16 Copper 3M at 1 cent by TWAP", closed, &copper_until(&["refused 14 0"])),
        case("C16 Copper 3M at 24", copper(24), &refused),
        case("C16 Copper 3M at 25", copper(25), &in_copper("50")),
        case("C16 Nickel 3M at 49", nickel(49), &nickel_refused),
        case("C16 Nickel 3M at 50", nickel(50), &in_nickel("100")),
        case("C16 Copper 3M at 99,999,974", copper(99_999_974), &in_copper("99999950")),
        case("C16 Copper 3M at 99,999,975", copper(99_999_975), &refused),
        case("C16 Copper 3M at 99,999,999", copper(99_999_999), &refused),
        case("C16 Nickel 3M at 99,999,949", nickel(99_999_949), &in_nickel("99999900")),
        case("C16 Nickel 3M at 99,999,950", nickel(99_999_950), &nickel_refused),
    ]
}

/// A Copper sheet with 3M at this price, and M3-3M trades in the window.
fn spread_on(outright: i32, trades: &[(i32, u16)]) -> Vec<u8> {
    let mut fields = vec![header(COPPER, 0)];
    let spread = |row: &(i32, u16)| trade(SPREAD, 1, row.0, row.1);
    fields.extend(trades.iter().map(spread));
    fields.push(trade(ANCHOR, 0, outright, 5));
    ended_sheet(&fields)
}

fn spread_list(outright: &str, m3: &str) -> String {
    copper_until(&[outright, m3, "refused 13 0"])
}

/// 14 for M3 at both ends; what follows is not reached.
fn spread_ends() -> Vec<NamedCase> {
    let high = "VWAP 99999950 5";
    let low = "VWAP 50 5";
    let stopped = |first: &str, lots: &str| copper_until(&[first, &format!("refused 14 {lots}")]);
    let lots_of_all = flat_with_m2_out_of_range();
    let m2_stop = copper_until(&["TWAP 900000 0", "TWAP 900000 0", "refused 14 7"]);
    vec![
        case("M3 at 99,999,999", spread_on(99_999_950, &[(49, 5)]), &spread_list(high, "VWAP 99999999 5")),
        case("M3 at 100,000,000", spread_on(99_999_950, &[(50, 5)]), &stopped(high, "5")),
        case("M3 at 1", spread_on(50, &[(-49, 5)]), &spread_list(low, "VWAP 1 5")),
        case("M3 at 0", spread_on(50, &[(-50, 5)]), &stopped(low, "5")),
        case("C14 M3 at -1", spread_on(50, &[(-51, 5)]), &stopped(low, "5")),
        case("C4 the lots of 14 over two spreads", lots_of_all, &m2_stop),
    ]
}

/// M2 far below 1 with 3 lots on one spread and 4 on the other.
fn flat_with_m2_out_of_range() -> Vec<u8> {
    let deep = -9_999_999;
    let records: [Field; 3] = [trade(SPREAD, 2, deep, 3), trade(SPREAD, 3, deep, 4), trade(SPREAD, 7, 0, 50)];
    flat(&records)
}

/// C14: halves near 0 go up as well, so that -0.5 rounds to 0 and 0.5 to 1.
fn near_one_cent() -> Vec<NamedCase> {
    let low = "VWAP 50 5";
    let at_half = spread_on(50, &[(-49, 5), (-50, 5)]);
    let below_half = spread_on(50, &[(-49, 5), (-50, 6)]);
    let minus_half = spread_on(50, &[(-50, 5), (-51, 5)]);
    let stopped = |lots: &str| copper_until(&[low, &format!("refused 14 {lots}")]);
    vec![
        case("C14 M3 at half a cent", at_half, &spread_list(low, "VWAP 1 10")),
        case("C14 M3 at 5/11 of a cent", below_half, &stopped("11")),
        case("C14 M3 at minus half a cent", minus_half, &stopped("10")),
    ]
}

/// 14 for M2, M4, M1 and Cash at exactly 0, and the price of 1 cent: five lots
/// of one spread on a leg at 900,000.
fn closes_of_zero() -> Vec<NamedCase> {
    const FLAT: &str = "TWAP 900000 0";
    let at = |spread: u8, price: i32| flat(&[trade(SPREAD, spread, price, 5)]);
    let stopped = "refused 14 5";
    let cent = "VWAP 1 5";
    let on_cent = "TWAP 1 0";
    let m2 = copper_until(&[FLAT, FLAT, stopped]);
    let m4 = copper_until(&[FLAT, FLAT, FLAT, stopped]);
    let m1 = copper_until(&[FLAT, FLAT, FLAT, FLAT, stopped]);
    let cash = copper_until(&[FLAT, FLAT, FLAT, FLAT, FLAT, stopped]);
    vec![
        case("M2 at 0", at(3, -900_000), &m2),
        case("M2 at 0 by the other spread", at(2, -900_000), &m2),
        case("M2 at 1", at(3, -899_999), &copper([FLAT, FLAT, cent, FLAT, on_cent, on_cent])),
        case("M4 at 0", at(5, 900_000), &m4),
        case("M4 at 0 by the third spread", at(6, 900_000), &m4),
        case("M4 at 1", at(5, 899_999), &copper([FLAT, FLAT, FLAT, cent, FLAT, FLAT])),
        case("M1 at 0", at(7, -900_000), &m1),
        case("M1 at 1", at(7, -899_999), &copper([FLAT, FLAT, FLAT, FLAT, cent, on_cent])),
        case("Cash at 0", at(11, -900_000), &cash),
        case("Cash at 1", at(11, -899_999), &copper([FLAT, FLAT, FLAT, FLAT, FLAT, cent])),
    ]
}

/// M4 at both ends by TWAP: M3-M4 closed at this on 3M, M3 and M2 at that.
fn ends_of_m4() -> Vec<NamedCase> {
    let sheet = |outright: i32, spread: i32| {
        let closes = [close(0, outright), close(1, 0), close(3, 0), close(5, spread)];
        let mut fields = vec![header(COPPER, 0)];
        fields.extend(closes);
        ended_sheet(&fields)
    };
    let high = "TWAP 99999950 0";
    let low = "TWAP 50 0";
    let stopped = |leg: &str| copper_until(&[leg, leg, leg, "refused 14 0"]);
    let priced = |leg: &str, m4: &str| copper_until(&[leg, leg, leg, m4, "refused 13 0"]);
    vec![
        case("M4 at 100,000,000", sheet(99_999_950, -50), &stopped(high)),
        case("M4 at 99,999,999", sheet(99_999_950, -49), &priced(high, "TWAP 99999999 0")),
        case("M4 at 0 by TWAP", sheet(50, 50), &stopped(low)),
        case("M4 at 1 by TWAP", sheet(50, 49), &priced(low, "TWAP 1 0")),
    ]
}
