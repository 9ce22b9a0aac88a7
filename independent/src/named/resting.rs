//! G1, G2: what rests in the book at the window's start, mostly on the flat
//! Copper sheet. A bid of 300,000 for a millisecond is 1 cent.

use super::pricing::{all_at, m3, m3_list, FLAT, HALF};
use super::{case, copper, copper_until, flat, flat_of, flat_without, lines, nothing};
use super::{Metal, NamedCase, ANCHOR, COPPER, METALS, SPREAD};
use crate::draft::{close, ended_sheet, header, quote, trade};
use crate::field::{Field, BID, OFFER};

pub(super) fn cases() -> Vec<NamedCase> {
    let mut cases = one_resting();
    cases.extend(latest_before());
    cases.extend(at_the_start());
    cases.extend(first_millisecond());
    cases.extend(changed_inside());
    cases.extend(overtaken());
    cases.extend(traded_before());
    cases.extend(too_late());
    cases.extend(other_spreads());
    cases.extend(reversed());
    cases.extend(outright());
    cases.extend(outright_changes());
    cases.extend(outright_milliseconds());
    cases.extend(every_metal());
    cases.extend(no_reference());
    cases.extend(no_reference_of_m2());
    cases.extend(no_reference_of_3m());
    cases
}

/// 12:00:00.
const NOON: u32 = 43_200_000;

/// M3-3M quoted with a bid alone, an offer alone, or neither.
fn bid(time: u32, price: i32) -> Field {
    quote(time, 1, BID, price, 0)
}

fn offer(time: u32, price: i32) -> Field {
    quote(time, 1, OFFER, 0, price)
}

fn empty(time: u32) -> Field {
    quote(time, 1, 0, 0, 0)
}

/// One quote of M3-3M since noon, the reference being 0.
fn one_resting() -> Vec<NamedCase> {
    let both = |low: i32, high: i32| quote(NOON, 1, BID | OFFER, low, high);
    vec![
        m3("G1 a bid since noon", &[bid(NOON, 300_000)], "1200000", 0),
        m3("G1 a bid since noon below the reference", &[bid(NOON, -10)], "900000", 0),
        m3("G1 a bid since noon at the reference", &[bid(NOON, 0)], "900000", 0),
        m3("G1 an offer since noon", &[offer(NOON, -10)], "899990", 0),
        m3("G1 an offer since noon above the reference", &[offer(NOON, 10)], "900000", 0),
        m3("G1 both sides since noon, around the reference", &[both(-10, 10)], "900000", 0),
        m3("G1 both sides since noon, above it", &[both(10, 20)], "900010", 0),
        m3("G1 both sides since noon, below it", &[both(-20, -10)], "899990", 0),
        m3("G1 an empty quote since noon", &[empty(NOON)], "900000", 0),
    ]
}

/// Of several earlier quotes the latest alone counts, whichever sides it has.
fn latest_before() -> Vec<NamedCase> {
    let last = SPREAD - 1;
    let made = |name: &str, earlier: Field, later: Field, price: &str| m3(name, &[earlier, later], price, 0);
    let first = bid(0, 40);
    let both_below = quote(0, 1, BID | OFFER, -20, -10);
    let and_again = [first, empty(NOON), bid(last, 10)];
    vec![
        made("G1 a lower bid behind a higher one", first, bid(last, 10), "900010"),
        made("G1 a higher bid behind a lower one", first, bid(last, 70), "900070"),
        made("G1 two bids of one millisecond", bid(NOON, 40), bid(NOON, 10), "900010"),
        made("G1 a bid, and both sides gone at noon", first, empty(NOON), "900000"),
        made("G1 a bid, and both sides gone at start - 1", first, empty(last), "900000"),
        made("G1 a bid and both sides gone at once", bid(NOON, 40), empty(NOON), "900000"),
        made("G1 an offer alone takes the bid away", first, offer(NOON, 90), "900000"),
        made("G1 a bid alone takes the offer away", both_below, bid(NOON, -30), "900000"),
        made("G1 an offer below in the place of a bid above", first, offer(last, -5), "899995"),
        m3("G1 a bid, no side, and a bid again", &and_again, "900010", 0),
    ]
}

/// A quote at the start replaces what rests before the first millisecond
/// counts: the bid of 300,000 would show as 1 cent.
fn at_the_start() -> Vec<NamedCase> {
    let rests = bid(SPREAD - 1, 300_000);
    let made = |name: &str, quote: Field, price: &str| m3(name, &[rests, quote], price, 0);
    let two = [rests, bid(SPREAD, 90), bid(SPREAD, 20)];
    let and_traded = [rests, trade(SPREAD, 1, 7, 1), empty(SPREAD)];
    vec![
        made("G1 a lower bid at the start", bid(SPREAD, 3), "900003"),
        made("G1 a higher bid at the start", bid(SPREAD, 600_000), "1500000"),
        made("G1 both sides gone at the start", empty(SPREAD), "900000"),
        made("G1 an offer alone at the start", offer(SPREAD, 50), "900000"),
        made("G1 an offer below at the start", offer(SPREAD, -5), "899995"),
        m3("G1 two bids at the start", &two, "900020", 0),
        m3("G1 traded and both sides gone at the start", &and_traded, "900007", 1),
    ]
}

/// What rests counts for the first millisecond alone where it goes at start +
/// 1: 300,000 make 1 cent, 150,000 half a cent, which goes up.
fn first_millisecond() -> Vec<NamedCase> {
    let made = |name: &str, rests: Field| m3(name, &[rests, empty(SPREAD + 1)], "900001", 0);
    let none = |name: &str, rests: Field| m3(name, &[rests, empty(SPREAD + 1)], "900000", 0);
    let below = [offer(0, -150_001), empty(SPREAD + 1)];
    vec![
        made("G1 300,000 for the first millisecond", bid(0, 300_000)),
        made("G1 150,000 for the first millisecond", bid(0, 150_000)),
        none("G1 149,999 for the first millisecond", bid(0, 149_999)),
        none("G1 -150,000 for the first millisecond", offer(0, -150_000)),
        m3("G1 -150,001 for the first millisecond", &below, "899999", 0),
    ]
}

/// A bid of 10 rests; what half of the window without it does.
fn changed_inside() -> Vec<NamedCase> {
    let made = |name: &str, quote: Field, price: &str| m3(name, &[bid(0, 10), quote], price, 0);
    vec![
        made("G1 a resting bid replaced in mid window", bid(HALF, 6), "900008"),
        made("G1 a resting bid restated in mid window", bid(HALF, 10), "900010"),
        made("G1 a resting bid gone in mid window", empty(HALF), "900005"),
        made("G1 a resting bid, an offer above in mid window", offer(HALF, 90), "900005"),
        made("G1 a resting bid, an offer below in mid window", offer(HALF, -4), "900003"),
    ]
}

/// A side rests and does not change; a trade of 1 lot in mid window moves the
/// reference from 0 past it, towards it or away from it.
fn overtaken() -> Vec<NamedCase> {
    let made = |name: &str, rests: Field, traded: i32, price: &str| {
        m3(name, &[rests, trade(HALF, 1, traded, 1)], price, 1)
    };
    vec![
        made("G1 a resting bid, the reference falls below it", bid(0, -20), -40, "899990"),
        made("G1 a resting bid, the reference falls to it", bid(0, -20), -20, "899990"),
        made("G1 a resting bid, the reference rises above it", bid(0, 10), 30, "900020"),
        made("G1 a resting offer, the reference rises above it", offer(0, 20), 40, "900010"),
        made("G1 a resting offer, the reference falls below it", offer(0, -10), -30, "899980"),
    ]
}

/// A trade before the window leaves the book, whichever of the two is first;
/// five lots inside the window leave no say to the book.
fn traded_before() -> Vec<NamedCase> {
    let below = trade(NOON, 1, 4, 900);
    let above = trade(NOON, 1, 30, 900);
    let four = [bid(0, 10), trade(SPREAD, 1, 4, 4)];
    let five = flat(&[bid(0, 300_000), trade(SPREAD, 1, 10, 5)]);
    vec![
        m3("G1 a trade below the resting bid", &[bid(0, 10), below], "900010", 0),
        m3("G1 a trade above the resting bid", &[bid(0, 10), above], "900030", 0),
        m3("G1 a trade, then a bid above it", &[below, bid(NOON, 10)], "900010", 0),
        m3("G1 a resting bid and four lots", &four, "900010", 4),
        case("G1 a resting bid and five lots", five, &m3_list("VWAP 900010 5", "900010")),
    ]
}

/// Nothing at start + 300,000 or later changes what rests.
fn too_late() -> Vec<NamedCase> {
    let behind = SPREAD + 300_000;
    vec![
        m3("G1 a bid at start + 300,000", &[bid(behind, 300_000)], "900000", 0),
        m3("G1 a resting bid, another at start + 300,000", &[bid(0, 10), bid(behind, 300_000)], "900010", 0),
        m3("G1 a resting bid gone at start + 300,000", &[bid(0, 10), empty(behind)], "900010", 0),
        m3(
            "G1 a resting bid gone at the last millisecond",
            &[bid(0, 300_000), empty(behind - 1)],
            "1199999",
            0,
        ),
    ]
}

/// Each TWAP spread has its own book; a bid of 10 rests in one, or in all.
fn other_spreads() -> Vec<NamedCase> {
    let on = |spread: u8, price: i32| quote(0, spread, BID, price, 0);
    let above = "TWAP 900010 0";
    let all = [on(0, 900_100), on(1, 10), on(3, 20), on(5, 30), on(7, 40), on(11, 50)];
    let stairs = ["900100", "900110", "900130", "900080", "900170", "900220"];
    let stairs = stairs.map(|price| format!("TWAP {price} 0"));
    let m2 = copper([FLAT, FLAT, above, FLAT, above, above]);
    let m4 = copper([FLAT, FLAT, FLAT, "TWAP 899990 0", FLAT, FLAT]);
    vec![
        m3("G1 a resting bid of M2-3M, which no TWAP takes", &[on(2, 300_000)], "900000", 0),
        m3("G1 no side of M2-M3 leaves M3-3M's bid", &[bid(0, 10), quote(1, 3, 0, 0, 0)], "900010", 0),
        case("G1 a resting bid of M2-M3", flat(&[on(3, 10)]), &m2),
        case("G1 a resting bid of M3-M4", flat(&[on(5, 10)]), &m4),
        case(
            "G1 a resting bid of M1-M2",
            flat(&[on(7, 10)]),
            &copper([FLAT, FLAT, FLAT, FLAT, above, above]),
        ),
        case(
            "G1 a resting bid of Cash-M1",
            flat(&[on(11, 10)]),
            &copper([FLAT, FLAT, FLAT, FLAT, FLAT, above]),
        ),
        case("G1 a resting bid in every book", flat(&all), &copper(stairs.each_ref().map(String::as_str))),
    ]
}

/// A marked spread is quoted reversed, what rests too.
fn reversed() -> Vec<NamedCase> {
    let m3_marked = |record: Field| flat_of(COPPER, 0x0001, &[record]);
    let m4_marked = flat_of(COPPER, 0x0010, &[quote(0, 5, BID, 10, 0)]);
    let m4 = copper([FLAT, FLAT, FLAT, "TWAP 900010 0", FLAT, FLAT]);
    let m3_at = |price: &str| m3_list(&format!("TWAP {price} 0"), price);
    vec![
        case("G1 a resting bid of a marked M3-3M", m3_marked(bid(0, 10)), &m3_at("899990")),
        case("G1 a resting offer of a marked M3-3M", m3_marked(offer(0, -10)), &m3_at("900010")),
        case("G1 a resting bid of a marked M3-M4", m4_marked, &m4),
    ]
}

/// 3M quoted with a bid alone.
fn bid_3m(time: u32, price: i32) -> Field {
    quote(time, 0, BID, price, 0)
}

/// 3M quoted with neither side.
fn empty_3m(time: u32) -> Field {
    quote(time, 0, 0, 0, 0)
}

/// 3M has the anchor window: what is quoted before the spread window and in it
/// rests. The other spreads at 0 follow 3M.
fn outright() -> Vec<NamedCase> {
    let made =
        |name: &str, time: u32, price: &str| case(name, flat(&[bid_3m(time, 900_100)]), &all_at(price));
    let offered = flat(&[quote(SPREAD, 0, OFFER, 0, 899_900)]);
    vec![
        made("G1 3M: a bid since time 0", 0, "900100"),
        made("G1 3M: a bid at the spread start - 1", SPREAD - 1, "900100"),
        made("G1 3M: a bid at the spread start", SPREAD, "900100"),
        made("G1 3M: a bid in mid spread window", HALF, "900100"),
        made("G1 3M: a bid at the anchor start - 1", ANCHOR - 1, "900100"),
        made("G1 3M: a bid at the anchor start + 300,000", ANCHOR + 300_000, "900000"),
        case("G1 3M: an offer in the spread window", offered, &all_at("899900")),
    ]
}

/// What later records do to 3M's resting bid; half of the anchor window is at
/// 900,000 and half at the bid of 899,900 once a trade is below it.
fn outright_changes() -> Vec<NamedCase> {
    let half = ANCHOR + 150_000;
    let made = |name: &str, later: Field, price: &str| {
        case(name, flat(&[bid_3m(SPREAD, 900_100), later]), &all_at(price))
    };
    let low = flat(&[bid_3m(SPREAD, 899_900), trade(half, 0, 899_800, 1)]);
    let rest = "TWAP 899950 0";
    vec![
        made("G1 3M: another bid at the anchor start - 1", bid_3m(ANCHOR - 1, 900_200), "900200"),
        made("G1 3M: no side at the anchor start - 1", empty_3m(ANCHOR - 1), "900000"),
        made("G1 3M: no side at the anchor start", empty_3m(ANCHOR), "900000"),
        made("G1 3M: no side in mid anchor window", empty_3m(half), "900050"),
        made("G1 3M: no side behind the anchor window", empty_3m(ANCHOR + 300_000), "900100"),
        case(
            "G1 3M: the reference falls below the resting bid",
            low,
            &copper(["TWAP 899950 1", rest, rest, rest, rest, rest]),
        ),
    ]
}

/// 7,500,000 above 900,000 for a millisecond are 25 cents, half of the step.
fn outright_milliseconds() -> Vec<NamedCase> {
    let made = |name: &str, rests: i32, later: Field, price: &str| {
        case(name, flat(&[bid_3m(ANCHOR - 1, rests), later]), &all_at(price))
    };
    vec![
        made("G1 3M: half a step for the first millisecond", 8_400_000, empty_3m(ANCHOR + 1), "900050"),
        made("G1 3M: less for the first millisecond", 8_399_999, empty_3m(ANCHOR + 1), "900000"),
        made("G1 3M: replaced at the anchor start", 8_400_000, bid_3m(ANCHOR, 900_000), "900000"),
    ]
}

/// What rests is there for the first millisecond alone. 3M: 15,000,000 above
/// 900,000 are 50 cents, on the half of Nickel's 100. M3: 300,000 and 299,999
/// times 10, over 300,000, are 10.99997 on top, so 11.
fn every_metal() -> Vec<NamedCase> {
    let made = |(metal, name, spread, anchor, outright): Metal| {
        let records = [
            bid(spread - 1, 300_000),
            bid(spread + 1, 10),
            bid_3m(anchor - 1, 15_900_000),
            empty_3m(anchor + 1),
        ];
        let first = format!("TWAP {outright} 0");
        let rest = format!("TWAP {} 0", outright + 11);
        let list = lines(name, [&first, &rest, &rest, &rest, &rest, &rest]);
        case(&format!("G1 bids that rest into {name}'s windows"), flat_of(metal, 0, &records), &list)
    };
    METALS.into_iter().map(made).collect()
}

/// G2: M3 without a previous close. A resting bid is no reference; with a trade
/// at the start or before there is one, and the bid counts.
fn no_reference() -> Vec<NamedCase> {
    let made = |name: &str, records: &[Field], list: &str| case(name, flat_without(1, records), list);
    let refused = |lots: u32| copper_until(&[FLAT, &format!("refused 13 {lots}")]);
    let priced = |lots: u32| m3_list(&format!("TWAP 900130 {lots}"), "900130");
    let both = quote(0, 1, BID | OFFER, 90, 110);
    let late = [bid(0, 130), trade(SPREAD + 1, 1, 100, 4)];
    let at_start = [bid(0, 130), trade(SPREAD, 1, 100, 4)];
    let five = [bid(0, 300_000), trade(SPREAD + 1, 1, 100, 5)];
    vec![
        made("G2 no close, a resting bid", &[bid(0, 130)], &refused(0)),
        made("G2 no close, a resting bid at start - 1", &[bid(SPREAD - 1, 130)], &refused(0)),
        made("G2 no close, a resting offer", &[offer(0, 130)], &refused(0)),
        made("G2 no close, both sides resting", &[both], &refused(0)),
        made("G2 a resting bid and a trade at start + 1", &late, &refused(4)),
        made("G2 a resting bid and a trade at the start", &at_start, &priced(4)),
        made("G2 a resting bid and a trade before it", &[trade(0, 1, 100, 9), bid(1, 130)], &priced(0)),
        made("G2 a resting bid and five lots", &five, &m3_list("VWAP 900100 5", "900100")),
    ]
}

/// G2: M2 has a close and trades on M2-3M alone, and a bid rests on M2-M3.
fn no_reference_of_m2() -> Vec<NamedCase> {
    let fields = [
        header(COPPER, 0),
        close(0, 900_000),
        close(1, 0),
        close(2, 0),
        quote(0, 3, BID, 10, 0),
        trade(SPREAD, 2, 60, 4),
    ];
    let list = copper_until(&[FLAT, FLAT, "refused 13 4"]);
    vec![case("G2 M2: a resting bid on its spread without a close", ended_sheet(&fields), &list)]
}

/// G2: 3M without a previous close.
fn no_reference_of_3m() -> Vec<NamedCase> {
    let made = |name: &str, records: &[Field], list: &str| case(name, flat_without(0, records), list);
    let late = [bid_3m(SPREAD, 900_100), trade(ANCHOR + 1, 0, 900_000, 4)];
    let traded = [trade(SPREAD, 0, 900_000, 9), bid_3m(HALF, 900_100)];
    vec![
        made("G2 3M: a bid since time 0", &[bid_3m(0, 900_100)], &nothing()),
        made("G2 3M: a bid in the spread window", &[bid_3m(SPREAD, 900_100)], &nothing()),
        made("G2 3M: a bid at the anchor start - 1", &[bid_3m(ANCHOR - 1, 900_100)], &nothing()),
        made("G2 3M: a trade at the anchor start + 1", &late, &copper_until(&["refused 13 4"])),
        made("G2 3M: traded and bid in the spread window", &traded, &all_at("900100")),
    ]
}
