//! VWAP, TWAP and the refusals of contracts, mostly on the flat Copper sheet
//! on which every contract is 900,000 by TWAP with 0 lots.

use super::{case, copper, copper_until, flat, flat_of, flat_without, nothing};
use super::{NamedCase, ANCHOR, COPPER, SPREAD};
use crate::draft::{close, ended_sheet, header, quote, trade};
use crate::field::Field;

pub(super) const HALF: u32 = SPREAD + 150_000;
pub(super) const FLAT: &str = "TWAP 900000 0";

pub(super) fn cases() -> Vec<NamedCase> {
    let mut cases = references();
    cases.extend(references_of_m2());
    cases.extend(references_of_3m());
    cases.extend(not_reached());
    cases.extend(minimum_volume());
    cases.extend(volume_over_spreads());
    cases.extend(books());
    cases.extend(book_edges());
    cases.extend(book_changes());
    cases.extend(one_millisecond());
    cases.extend(last_trades());
    cases.extend(last_trades_of_3m());
    cases.extend(roundings());
    cases.extend(outright_twap());
    cases.extend(slips());
    cases.extend(without_effect());
    cases
}

/// The flat list with this M3, all later ones following it.
pub(super) fn m3_list(answer: &str, price: &str) -> String {
    let rest = format!("TWAP {price} 0");
    copper([FLAT, answer, &rest, &rest, &rest, &rest])
}

/// The list with all six by TWAP at this price with 0 lots.
pub(super) fn all_at(price: &str) -> String {
    let answer = format!("TWAP {price} 0");
    copper([answer.as_str(); 6])
}

/// The flat Copper sheet with these records, and M3 by TWAP at this price with
/// this many lots.
pub(super) fn m3(name: &str, records: &[Field], price: &str, lots: u32) -> NamedCase {
    let answer = format!("TWAP {price} {lots}");
    case(name, flat(records), &m3_list(&answer, price))
}

/// C1, C2: M3 without a previous close.
fn references() -> Vec<NamedCase> {
    let made = |name: &str, record: Field, list: &str| case(name, flat_without(1, &[record]), list);
    let refused = |lots: u32| copper_until(&[FLAT, &format!("refused 13 {lots}")]);
    let priced = |lots: u32| m3_list(&format!("TWAP 900100 {lots}"), "900100");
    let by_vwap = m3_list("VWAP 900100 5", "900100");
    vec![
        made("C1 no close, a trade at the start", trade(SPREAD, 1, 100, 4), &priced(4)),
        made("C2 no close, a trade at start + 1", trade(SPREAD + 1, 1, 100, 4), &refused(4)),
        made("C2 no close, 5 lots at start + 1", trade(SPREAD + 1, 1, 100, 5), &by_vwap),
        made("C1 no close, a trade at start - 1", trade(SPREAD - 1, 1, 100, 4), &priced(0)),
        made("C1 no close, a trade at time 0", trade(0, 1, 100, 10_000), &priced(0)),
        made("C1 no close, a bid at the start", quote(SPREAD, 1, 1, 100, 0), &refused(0)),
        made("C1 no close, a trade behind the window", trade(ANCHOR, 1, 100, 9), &refused(0)),
        made("C1 no close, a trade of another spread", trade(SPREAD, 2, 100, 9), &refused(0)),
    ]
}

/// C1, C4: M2 has two VWAP instruments and takes its TWAP from 3 alone.
fn references_of_m2() -> Vec<NamedCase> {
    let with_close_on_2 = |records: &[Field]| {
        let mut fields = vec![header(COPPER, 0), close(0, 900_000), close(1, 0), close(2, 0)];
        fields.extend([close(5, 0), close(7, 0), close(11, 0)]);
        fields.extend(records);
        ended_sheet(&fields)
    };
    let on_2 = [trade(0, 2, 50, 9), trade(SPREAD, 2, 60, 4)];
    let on_both = [trade(SPREAD, 3, 30, 1), trade(SPREAD, 2, 60, 3)];
    let refused = copper_until(&[FLAT, FLAT, "refused 13 4"]);
    let priced = copper([FLAT, FLAT, "TWAP 900030 4", FLAT, "TWAP 900030 0", "TWAP 900030 0"]);
    let lots_of_2 = copper([FLAT, FLAT, "TWAP 900000 4", FLAT, FLAT, FLAT]);
    vec![
        case("C1 M2: close and trades on 2 only", with_close_on_2(&on_2), &refused),
        case("C1 M2: a trade on 3 at the start", with_close_on_2(&on_both), &priced),
        case("C4 M2: four lots on 2, TWAP from 3", flat(&on_2), &lots_of_2),
    ]
}

/// C1: 3M looks at the anchor window.
fn references_of_3m() -> Vec<NamedCase> {
    let made =
        |name: &str, time: u32, list: &str| case(name, flat_without(0, &[trade(time, 0, 900_000, 4)]), list);
    let rest = |first: &str| copper([first, FLAT, FLAT, FLAT, FLAT, FLAT]);
    vec![
        made("C1 3M: a trade at the anchor start", ANCHOR, &rest("TWAP 900000 4")),
        made("C1 3M: a trade at the anchor start - 1", ANCHOR - 1, &rest(FLAT)),
        made("C1 3M: a trade at the spread start", SPREAD, &rest(FLAT)),
        made("C2 3M: a trade at the anchor start + 1", ANCHOR + 1, &copper_until(&["refused 13 4"])),
        made("C1 3M: a trade behind the window", ANCHOR + 300_000, &nothing()),
    ]
}

/// C3: whatever follows a refused contract is 15 with 0 lots.
fn not_reached() -> Vec<NamedCase> {
    let volumes: Vec<Field> = (1..12).map(|spread| trade(SPREAD, spread, 0, 50)).collect();
    let m4_refused = copper_until(&[FLAT, FLAT, FLAT, "refused 13 0"]);
    let m1_refused = copper_until(&[FLAT, FLAT, FLAT, FLAT, "refused 13 0"]);
    let cash_refused = copper_until(&[FLAT, FLAT, FLAT, FLAT, FLAT, "refused 13 0"]);
    let on_cash = trade(SPREAD, 11, 5, 9);
    vec![
        case("C3 3M refused, all others traded", flat_without(0, &volumes), &nothing()),
        case("C3 M4 refused, Cash traded", flat_without(5, &[on_cash]), &m4_refused),
        case("C3 M1 refused, Cash traded", flat_without(7, &[on_cash]), &m1_refused),
        case("C3 Cash refused", flat_without(11, &[]), &cash_refused),
    ]
}

/// P9 and P10: 5 lots are a VWAP, 4 a TWAP, here of half a window at 10.
fn minimum_volume() -> Vec<NamedCase> {
    let lots = |lots: u16| flat(&[trade(HALF, 1, 10, lots)]);
    let two = [trade(SPREAD, 1, 10, 2), trade(HALF, 1, 20, 3)];
    let anchor = ANCHOR + 150_000;
    let outright = |lots: u16| flat(&[trade(anchor, 0, 900_100, lots)]);
    let whole = |first: &str, price: &str| {
        let rest = format!("TWAP {price} 0");
        copper([first, &rest, &rest, &rest, &rest, &rest])
    };
    vec![
        case("P9 five lots", lots(5), &m3_list("VWAP 900010 5", "900010")),
        case("P10 four lots", lots(4), &m3_list("TWAP 900005 4", "900005")),
        case("P9 two lots and three", flat(&two), &m3_list("VWAP 900016 5", "900016")),
        case("P9 five lots of 3M", outright(5), &whole("VWAP 900100 5", "900100")),
        case("P10 four lots of 3M", outright(4), &whole("TWAP 900050 4", "900050")),
    ]
}

/// C17: the lots of all of a contract's spreads count together.
fn volume_over_spreads() -> Vec<NamedCase> {
    let at = |spread: u8, price: i32, lots: u16| trade(SPREAD, spread, price, lots);
    let m2 = [at(2, 10, 1), at(3, 20, 4)];
    let m4 = [at(4, 10, 1), at(5, 20, 1), at(6, 30, 3)];
    let m1 = [at(7, 10, 1), at(8, 20, 1), at(9, 30, 1), at(10, 40, 2)];
    let short = [at(7, 10, 1), at(8, 20, 1), at(9, 30, 1), at(10, 40, 1)];
    let m4_short = [at(4, 10, 1), at(5, 20, 1), at(6, 30, 2)];
    let m2_list = copper([FLAT, FLAT, "VWAP 900018 5", FLAT, "TWAP 900018 0", "TWAP 900018 0"]);
    let m4_list = |answer: &str| copper([FLAT, FLAT, FLAT, answer, FLAT, FLAT]);
    let m1_list = |answer: &str, cash: &str| copper([FLAT, FLAT, FLAT, FLAT, answer, cash]);
    vec![
        case("C17 M2: 1 and 4 lots", flat(&m2), &m2_list),
        case("C17 M4: 1, 1 and 3 lots", flat(&m4), &m4_list("VWAP 899976 5")),
        case("C17 M4: 1, 1 and 2 lots", flat(&m4_short), &m4_list("TWAP 899980 4")),
        case("C17 M1: 1, 1, 1 and 2 lots", flat(&m1), &m1_list("VWAP 900028 5", "TWAP 900028 0")),
        case("C17 M1: 1, 1, 1 and 1 lot", flat(&short), &m1_list("TWAP 900010 4", "TWAP 900010 0")),
    ]
}

/// C5, C6: one quote through the whole window, the reference being 0.
fn books() -> Vec<NamedCase> {
    let made = |name: &str, sides: u8, bid: i32, offer: i32, price: &str| {
        m3(name, &[quote(SPREAD, 1, sides, bid, offer)], price, 0)
    };
    vec![
        made("a bid above the reference", 1, 10, 0, "900010"),
        made("a bid one above the reference", 1, 1, 0, "900001"),
        made("a bid below the reference", 1, -10, 0, "900000"),
        made("C6 a bid equal to the reference", 1, 0, 0, "900000"),
        made("an offer below the reference", 2, 0, -10, "899990"),
        made("an offer one below the reference", 2, 0, -1, "899999"),
        made("an offer above the reference", 2, 0, 10, "900000"),
        made("both around the reference", 3, -10, 10, "900000"),
        made("C5 both above the reference", 3, 10, 20, "900010"),
        made("C5 both below the reference", 3, -20, -10, "899990"),
        made("C5 bid and offer equal, above", 3, 10, 10, "900010"),
        made("no sides", 0, 0, 0, "900000"),
    ]
}

/// C9: which quotes fill the book; a bid of 300,000 for a millisecond is 1 cent.
fn book_edges() -> Vec<NamedCase> {
    let bid_at = |name: &str, time: u32, price: &str| m3(name, &[quote(time, 1, 1, 300_000, 0)], price, 0);
    let replaced = [quote(SPREAD - 1, 1, 1, 40, 0), quote(SPREAD, 1, 1, 10, 0)];
    vec![
        bid_at("C9 a bid at the start", SPREAD, "1200000"),
        bid_at("C9 a bid at start - 1", SPREAD - 1, "1200000"),
        bid_at("C9 a bid at time 0", 0, "1200000"),
        bid_at("C9 a bid at start + 1", SPREAD + 1, "1199999"),
        bid_at("C9 a bid at the last millisecond", SPREAD + 299_999, "900001"),
        bid_at("C9 a bid behind the window", SPREAD + 300_000, "900000"),
        m3("C9 a bid at start - 1 and one at start", &replaced, "900010", 0),
    ]
}

/// C7, C8: what a later record does to the book.
fn book_changes() -> Vec<NamedCase> {
    let bid = quote(SPREAD, 1, 1, 10, 0);
    let both = quote(SPREAD, 1, 3, 10, 90);
    let offer_alone = quote(HALF, 1, 2, 0, 90);
    let empty = quote(HALF, 1, 0, 0, 0);
    let same_moment = [trade(SPREAD, 1, 100, 1), quote(SPREAD, 1, 1, 50, 0), trade(SPREAD, 1, 40, 1)];
    let two_quotes = [quote(HALF, 1, 1, 99, 0), quote(HALF, 1, 1, 20, 0)];
    let emptied_at_once = [quote(HALF, 1, 1, 99, 0), empty];
    let filled_again = [empty, quote(HALF, 1, 1, 20, 0)];
    let trade_above = [bid, trade(HALF, 1, 30, 1)];
    let of_another = [bid, quote(HALF, 3, 0, 0, 0)];
    vec![
        m3("C8 an offer alone removes the bid", &[both, offer_alone], "900005", 0),
        m3("C8 sides 0 empties the book", &[bid, empty], "900005", 0),
        m3("C8 a later bid replaces", &[bid, quote(HALF, 1, 1, 6, 0)], "900008", 0),
        m3("C7 trade, quote, trade in a millisecond", &same_moment, "900050", 2),
        m3("C7 two quotes in a millisecond", &two_quotes, "900010", 0),
        m3("C7 quote and empty quote at once", &emptied_at_once, "900000", 0),
        m3("C7 empty quote and quote at once", &filled_again, "900010", 0),
        m3("C7 a trade leaves the book", &trade_above, "900020", 1),
        m3("C8 another spread's quote", &of_another, "900010", 0),
    ]
}

/// A bid for the last millisecond alone: 150,000 makes half a cent.
fn one_millisecond() -> Vec<NamedCase> {
    let last = SPREAD + 299_999;
    let bid = |bid: i32| [quote(last, 1, 1, bid, 0)];
    let offer = |offer: i32| [quote(last, 1, 2, 0, offer)];
    vec![
        m3("150,000 for a millisecond", &bid(150_000), "900001", 0),
        m3("149,999 for a millisecond", &bid(149_999), "900000", 0),
        m3("-150,000 for a millisecond", &offer(-150_000), "900000", 0),
        m3("-150,001 for a millisecond", &offer(-150_001), "899999", 0),
    ]
}

/// C7, C10: which trade is the reference.
fn last_trades() -> Vec<NamedCase> {
    let before = trade(SPREAD - 1, 1, 10, 900);
    let inside = trade(HALF, 1, 10, 4);
    let behind = trade(ANCHOR, 1, 10, 900);
    let two = [trade(5, 1, 70, 1), trade(5, 1, 10, 1)];
    let at_once = [trade(HALF, 1, 70, 1), trade(HALF, 1, 10, 1)];
    let last = trade(SPREAD + 299_999, 1, 300_000, 4);
    vec![
        m3("C10 a trade before the window", &[before], "900010", 0),
        m3("C10 four lots inside the window", &[inside], "900005", 4),
        m3("C10 a trade behind the window", &[behind], "900000", 0),
        m3("C10 a trade of another spread", &[trade(5, 2, 10, 1)], "900000", 0),
        m3("C7 two trades of one millisecond before", &two, "900010", 0),
        m3("C7 two trades of one millisecond inside", &at_once, "900005", 2),
        m3("C10 a trade at the last millisecond", &[last], "900001", 4),
        m3("a later trade of 3M only", &[trade(ANCHOR + 300_000, 0, 5, 9)], "900000", 0),
    ]
}

/// C9, C10: 3M's last trade and its book may come from the spread window.
fn last_trades_of_3m() -> Vec<NamedCase> {
    let early = trade(SPREAD, 0, 900_100, 9);
    let resting = quote(ANCHOR - 1, 0, 1, 900_100, 0);
    let quoted = quote(ANCHOR, 0, 1, 900_100, 0);
    vec![
        case("C10 3M traded in the spread window", flat(&[early]), &all_at("900100")),
        case("C9 3M quoted before the anchor window", flat(&[resting]), &all_at("900100")),
        case("C9 3M quoted at the anchor start", flat(&[quoted]), &all_at("900100")),
    ]
}

/// C13: the half cent is rounded in the contract, not in the spread.
fn roundings() -> Vec<NamedCase> {
    let half_bid = |spread: u8| quote(HALF, spread, 1, 1, 0);
    let m4 = |answer: &str| copper([FLAT, FLAT, FLAT, answer, FLAT, FLAT]);
    let marked = flat_of(COPPER, 0x0010, &[half_bid(5)]);
    let marked_m3 = flat_of(COPPER, 0x0001, &[half_bid(1)]);
    let vwap = [trade(SPREAD, 5, 0, 5), trade(SPREAD, 5, 1, 5)];
    let vwap_below = [trade(SPREAD, 5, 0, 5), trade(SPREAD, 5, 1, 6)];
    let up = [trade(SPREAD, 1, 0, 5), trade(SPREAD, 1, 1, 5)];
    let down = [trade(SPREAD, 1, 0, 5), trade(SPREAD, 1, -1, 5)];
    vec![
        case("C13 M4 less half a cent by TWAP", flat(&[half_bid(5)]), &m4(FLAT)),
        case("C13 M4 plus half a cent by TWAP", marked, &m4("TWAP 900001 0")),
        case("C13 M4 less half a cent by VWAP", flat(&vwap), &m4("VWAP 900000 10")),
        case("C13 M4 less 6/11 of a cent", flat(&vwap_below), &m4("VWAP 899999 11")),
        m3("M3 plus half a cent by TWAP", &[half_bid(1)], "900001", 0),
        case("M3 less half a cent by TWAP", marked_m3, &m3_list(FLAT, "900000")),
        case("M3 plus half a cent by VWAP", flat(&up), &m3_list("VWAP 900001 10", "900001")),
        case("M3 less half a cent by VWAP", flat(&down), &m3_list("VWAP 900000 10", "900000")),
    ]
}

/// 3M by TWAP on and beside the half step of 25 cents.
fn outright_twap() -> Vec<NamedCase> {
    let bid_at = |time: u32| flat(&[quote(time, 0, 1, 900_050, 0)]);
    let offer_at = |time: u32| flat(&[quote(time, 0, 2, 0, 899_950)]);
    let half = ANCHOR + 150_000;
    vec![
        case("3M on the half step", bid_at(half), &all_at("900050")),
        case("3M one millisecond below the half", bid_at(half + 1), &all_at("900000")),
        case("3M on the half step below", offer_at(half), &all_at("900000")),
        case("3M one millisecond further below", offer_at(half - 1), &all_at("899950")),
    ]
}

/// Slips that look right: one case that tells each apart.
fn slips() -> Vec<NamedCase> {
    let at = |spread: u8, price: i32, lots: u16| trade(SPREAD, spread, price, lots);
    let averages = [at(2, 0, 2), at(2, 1, 2), at(3, 0, 1)];
    let carried = [at(1, 0, 3), at(1, 1, 2), at(3, 0, 3), at(3, 1, 2)];
    let both = copper([FLAT, "VWAP 900000 5", "VWAP 900000 5", FLAT, FLAT, FLAT]);
    let m2 = copper([FLAT, FLAT, "VWAP 900000 5", FLAT, FLAT, FLAT]);
    let stepped = [at(1, 1, 5), trade(ANCHOR, 0, 900_020, 5)];
    let rest = "TWAP 900001 0";
    let on_step = copper(["VWAP 900000 5", "VWAP 900001 5", rest, rest, rest, rest]);
    let m4 = copper([FLAT, FLAT, FLAT, "VWAP 899990 5", FLAT, FLAT]);
    let zero_bid = [trade(0, 1, -10, 1), quote(SPREAD, 1, 1, 0, 0)];
    let zero_offer = [trade(0, 1, 10, 1), quote(SPREAD, 1, 2, 0, 0)];
    let short = [quote(SPREAD, 1, 1, 60, 0), quote(SPREAD + 100, 1, 0, 0, 0)];
    vec![
        case("slip: each spread's average rounded", flat(&averages), &m2),
        case("slip: an unrounded close carried on", flat(&carried), &both),
        case("C15 the rounded 3M is carried on", flat(&stepped), &on_step),
        case("slip: 3M-M4 added", flat(&[at(6, 10, 5)]), &m4),
        m3("slip: changes averaged", &short, "900000", 0),
        m3("slip: a zero bid is missing", &zero_bid, "900000", 0),
        m3("slip: a zero offer is missing", &zero_offer, "900000", 0),
    ]
}

/// B19: closes and quotes of instruments no TWAP uses, and out-of-window trades.
fn without_effect() -> Vec<NamedCase> {
    let mut fields = vec![header(COPPER, 0x03AA)];
    for (instrument, price) in (0..12).zip([900_000, 0, 77, 0, 77, 0, 77, 0, 77, 77, 77, 0]) {
        fields.push(close(instrument, price));
    }
    for spread in [2, 4, 6, 8, 9, 10] {
        fields.push(quote(SPREAD, spread, 3, 55, 66));
        fields.push(trade(ANCHOR, spread, 99, 500));
    }
    fields.sort_by_key(|field| match field {
        Field::Trade(trade) => trade.time,
        Field::Quote(quote) => quote.time,
        _ => 0,
    });
    let name = "B19 closes and quotes no TWAP uses";
    vec![case(name, ended_sheet(&fields), &copper([FLAT; 6]))]
}
